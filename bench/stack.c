// Measures the stack that each entry point of the proved library uses: stack CORPUS..
//
// Each function runs on a stack of its own that was filled with one octet before; what is changed below the caller after all runs was
// used. The runs are on every string of the corpora, and on each cut short and with octets changed, so that refusals are reached too.
#define _XOPEN_SOURCE 700
#include <stdio.h>
#include <stdlib.h>
#include <string.h>
#include <ucontext.h>

#include "corpus.h"
#include "library.h"

enum { STACK = 1 << 17, PAINT = 0xA5, CHANGES = 64, SHORT = 400 };

static uint8_t stack[STACK] __attribute__((aligned(64)));
static ucontext_t here, there;

static ctext_unit units[CTEXT_MOST_UNITS];
static uint8_t work[WORK_ROOM], out[CTEXT_R5_MOST_OCTETS], form[CTEXT_MOST_FORM], text[CTEXT_R5_MOST_OCTETS];
static size_t length, count, form_length;

static void run_nothing(void) {}
static void run_check(void) { ctext_check(text, length); }
static void run_read(void) { ctext_read(text, length, units, CTEXT_MOST_UNITS); }
static void run_archive_check(void) { ctext_archive_check(text, length); }
static void run_archive_read(void) { ctext_archive_read(text, length, units, CTEXT_MOST_UNITS); }
static void run_write(void) { ctext_write(units, count, text, length, work, sizeof work, out, sizeof out); }
static void run_r5_write(void) { ctext_r5_write(units, count, text, length, out, sizeof out); }
static void run_run(void) { ctext_run(text, length, 3); }

// With a 00 behind the string, and without.
static void run_r5_read(void)
{
    text[length] = 0;
    ctext_r5_read(text, length + 1, units, CTEXT_MOST_UNITS);
    ctext_r5_read(text, length, units, CTEXT_MOST_UNITS);
}

static void run_next(void)
{
    static ctext_step step;
    step = (ctext_step){.reader = {.gr = CTEXT_SET_ISO8859_1_RIGHT}};
    do step = ctext_next(text, length, step.reader);
    while (step.given);
}

static void run_next_run(void)
{
    static ctext_run_step step;
    step = ctext_next_run(text, length, ctext_open_runs());
    while (step.run.answer.number == CTEXT_ACCEPTED) step = ctext_next_run(text, length, step.reader);
}

static void run_next_runs(void)
{
    static ctext_runs_step step;
    static uint64_t list[3];
    step.reader = ctext_open_runs();
    do step = ctext_next_runs(text, length, step.reader, list, 3);
    while (step.answer.count > 0);
}

static void run_resource_write(void) { form_length = ctext_resource_write(text, length, form, sizeof form).count; }

// The string's form, and the string itself as one.
static void run_resource_read(void)
{
    ctext_resource_read(form, form_length, out, sizeof out);
    ctext_resource_read(text, length, out, sizeof out);
}

struct function {
    const char *name;
    void (*run)(void);
    size_t most;
};

enum {
    NOTHING, CHECK, READ, WRITE, RUN, NEXT, NEXT_RUN, NEXT_RUNS, ARCHIVE_CHECK, ARCHIVE_READ, R5_READ, R5_WRITE, RESOURCE_WRITE, RESOURCE_READ, FUNCTIONS
};

static struct function functions[FUNCTIONS] = {
    [NOTHING] = {"nothing", run_nothing, 0},
    [CHECK] = {"ctext_check", run_check, 0},
    [READ] = {"ctext_read", run_read, 0},
    [WRITE] = {"ctext_write", run_write, 0},
    [RUN] = {"ctext_run", run_run, 0},
    [NEXT] = {"ctext_next", run_next, 0},
    [NEXT_RUN] = {"ctext_next_run", run_next_run, 0},
    [NEXT_RUNS] = {"ctext_next_runs", run_next_runs, 0},
    [ARCHIVE_CHECK] = {"ctext_archive_check", run_archive_check, 0},
    [ARCHIVE_READ] = {"ctext_archive_read", run_archive_read, 0},
    [R5_READ] = {"ctext_r5_read", run_r5_read, 0},
    [R5_WRITE] = {"ctext_r5_write", run_r5_write, 0},
    [RESOURCE_WRITE] = {"ctext_resource_write", run_resource_write, 0},
    [RESOURCE_READ] = {"ctext_resource_read", run_resource_read, 0},
};

// The octets of the stack that a function changes.
static size_t used(void (*run)(void))
{
    memset(stack, PAINT, STACK);
    getcontext(&there);
    there.uc_stack.ss_sp = stack;
    there.uc_stack.ss_size = STACK;
    there.uc_link = &here;
    makecontext(&there, run, 0);
    swapcontext(&here, &there);
    size_t i = 0;
    while (i < STACK && stack[i] == PAINT) i++;
    return STACK - i;
}

static void measure_one(struct function *f)
{
    size_t n = f->run ? used(f->run) : 0;
    if (n > f->most) f->most = n;
}

static void measure(void)
{
    for (int k = 0; k < FUNCTIONS; k++) {
        if ((k == WRITE || k == R5_WRITE) && functions[k].run) count = ctext_read(text, length, units, CTEXT_MOST_UNITS).count;
        measure_one(&functions[k]);
    }
}

// A list with one field changed.
static void measure_bad_list(void)
{
    if (!functions[WRITE].run) return;
    count = ctext_read(text, length, units, CTEXT_MOST_UNITS).count;
    if (!count) return;
    ctext_unit *u = &units[(size_t)rand() % count];
    switch (rand() % 4) {
    case 0: u->kind = (uint8_t)(rand() % 9); break;
    case 1: u->set = (uint8_t)(rand() % 16); break;
    case 2: u->code = (uint16_t)rand(); break;
    default: u->length = (uint32_t)rand() % 20000; break;
    }
    measure_one(&functions[WRITE]);
    measure_one(&functions[R5_WRITE]);
}

static void measure_changed(struct note n)
{
    static const uint8_t special[] = {0x1B, 0x9B, 0x5D, 0x31, 0x24, 0x28, 0x2D, 0x25, 0x2F, 0x30, 0x80, 0x02, 0x42, 0x20, 0x7F, 0xA0, 0x5C, 0x00};
    size_t most = n.length < SHORT ? n.length : SHORT;
    if (!most) return;
    for (int i = 0; i < CHANGES; i++) {
        memcpy(text, n.octets, most);
        length = rand() % 4 ? most : (size_t)rand() % most;
        for (int k = rand() % 3; k > 0; k--) text[(size_t)rand() % most] = rand() % 2 ? special[(size_t)rand() % sizeof special] : (uint8_t)rand();
        measure();
        measure_bad_list();
    }
}

int main(int n, char **words)
{
    srand(1);
    if (!ctext_check) functions[CHECK].run = NULL;
    if (!ctext_read) functions[READ].run = NULL;
    if (!ctext_read || !ctext_write) functions[WRITE].run = NULL;
    if (!ctext_run) functions[RUN].run = NULL;
    if (!ctext_next) functions[NEXT].run = NULL;
    if (!ctext_open_runs || !ctext_next_run) functions[NEXT_RUN].run = NULL;
    if (!ctext_open_runs || !ctext_next_runs) functions[NEXT_RUNS].run = NULL;
    if (!ctext_archive_check) functions[ARCHIVE_CHECK].run = NULL;
    if (!ctext_archive_read) functions[ARCHIVE_READ].run = NULL;
    if (!ctext_r5_read) functions[R5_READ].run = NULL;
    if (!ctext_read || !ctext_r5_write) functions[R5_WRITE].run = NULL;
    if (!ctext_resource_write) functions[RESOURCE_WRITE].run = NULL;
    if (!ctext_resource_read) functions[RESOURCE_READ].run = NULL;
    for (int i = 1; i < n; i++) {
        struct corpus c = corpus_load(words[i]);
        for (size_t k = 0; k < c.count && k < 40; k++) {
            length = c.notes[k].length;
            memcpy(text, c.notes[k].octets, length);
            measure();
            measure_changed(c.notes[k]);
        }
    }
    for (int k = CHECK; k < FUNCTIONS; k++)
        if (functions[k].run) printf("%s\t%zu\n", functions[k].name, functions[k].most - functions[NOTHING].most);
    return 0;
}
