// Measures ctext_resource_write and ctext_resource_read beside the plain loops.
//
//   forms table CORPUS..              for each corpus and each function: the median time of a string, and the ratio to the plain loop
//   forms ladder FUNCTION CORPUS ..   for each length of the strings of the corpus: the time that the function takes for one
//
// The strings of a corpus are written, and their forms are read. As in bench.c, a repetition goes through all corpora, each function is measured
// directly after its plain loop, and a ratio is the median of the ratios within a repetition.
#include <stdbool.h>
#include <stdio.h>
#include <stdlib.h>
#include <string.h>

#include "corpus.h"
#include "library.h"
#include "plain_form.h"
#include "times.h"

static uint8_t form[CTEXT_MOST_FORM], plain[CTEXT_MOST_OCTETS];

// A corpus, and the form of each of its strings.
struct written {
    struct corpus corpus;
    struct note *forms;
    size_t octets; // of all forms
};

static struct written strings;

// ---- the functions, each on string number i of the corpus

typedef ctext_answer converter(const uint8_t *s, size_t n, uint8_t *out, size_t o);

static size_t written(converter *write, size_t i) { return write(strings.corpus.notes[i].octets, strings.corpus.notes[i].length, form, sizeof form).count; }
static size_t read_back(converter *read, size_t i) { return read(strings.forms[i].octets, strings.forms[i].length, plain, sizeof plain).count; }

static size_t run_plain_write(size_t i) { return written(plain_write, i); }
static size_t run_write(size_t i) { return written(ctext_resource_write, i); }
static size_t run_plain_read(size_t i) { return read_back(plain_read, i); }
static size_t run_read(size_t i) { return read_back(ctext_resource_read, i); }

enum { FUNCTIONS = 4 };

// Each function stands after its plain loop.
static const struct function functions[FUNCTIONS] = {
    {"plain_write", run_plain_write, 0},
    {"resource_write", run_write, 0},
    {"plain_read", run_plain_read, 0},
    {"resource_read", run_read, 0},
};

// ---- what has to hold before anything is measured

static bool same_answer(ctext_answer a, ctext_answer b) { return a.number == b.number && a.place == b.place && a.count == b.count; }

// Both converters give the same answer and octets, also with one octet of room too few.
static bool agree(converter *own, converter *base, struct note n, uint8_t *out, size_t room)
{
    static uint8_t other[CTEXT_MOST_FORM];
    ctext_answer a = own(n.octets, n.length, out, room), b = base(n.octets, n.length, other, room);
    if (!same_answer(a, b) || a.number != CTEXT_ACCEPTED || memcmp(out, other, a.count)) return false;
    return !a.count || same_answer(own(n.octets, n.length, out, a.count - 1), base(n.octets, n.length, other, a.count - 1));
}

static void prepare(const char *path, size_t i)
{
    struct note n = strings.corpus.notes[i], *f = &strings.forms[i];
    require(agree(ctext_resource_write, plain_write, n, form, sizeof form), "it is written otherwise than by the plain loop", path, i);
    f->length = plain_write(n.octets, n.length, form, sizeof form).count;
    uint8_t *octets = malloc(f->length + 1);
    if (!octets) abort();
    memcpy(octets, form, f->length);
    f->octets = octets;
    strings.octets += f->length;
    require(agree(ctext_resource_read, plain_read, *f, plain, sizeof plain), "it is read otherwise than by the plain loop", path, i);
    require(!memcmp(plain, n.octets, n.length), "what is read is not what was written", path, i);
}

static void load(const char *path)
{
    strings = (struct written){.corpus = corpus_load(path)};
    strings.forms = malloc(strings.corpus.count * sizeof *strings.forms);
    if (!strings.forms) abort();
    for (size_t i = 0; i < strings.corpus.count; i++) prepare(path, i);
}

// ---- the table

struct measured {
    const char *path;
    struct written strings;
    struct function functions[FUNCTIONS];
    double own[FUNCTIONS][REPETITIONS], by_plain[FUNCTIONS][REPETITIONS];
};

static void make_ready(void *kept, const char *path)
{
    struct measured *m = kept;
    load(path);
    m->path = path;
    m->strings = strings;
    memcpy(m->functions, functions, sizeof functions);
    for (int k = 0; k < FUNCTIONS; k++) choose_turns(&m->functions[k], 0, strings.corpus.count);
}

static void repeat(void *kept, int r)
{
    struct measured *m = kept;
    strings = m->strings;
    for (int k = 0; k < FUNCTIONS; k++) {
        double base = slice(&m->functions[k - k % 2], 0, strings.corpus.count);
        m->own[k][r] = slice(&m->functions[k], 0, strings.corpus.count);
        m->by_plain[k][r] = m->own[k][r] / base;
    }
}

static void print(void *kept)
{
    struct measured *m = kept;
    const struct corpus *c = &m->strings.corpus;
    for (int k = 0; k < FUNCTIONS; k++)
        printf("%s\t%s\t%zu\t%zu\t%zu\t%.1f\t%.3f\n", m->path, m->functions[k].name, c->count, c->octets, m->strings.octets,
               median(m->own[k], REPETITIONS) / (double)c->count, median(m->by_plain[k], REPETITIONS));
}

static const struct table table = {sizeof(struct measured), make_ready, repeat, print};

// ---- the ladder

static double form_length(size_t i) { return (double)strings.forms[i].length; }

static void ladder(const char *name, const char *path)
{
    load(path);
    for (int k = 0; k < FUNCTIONS; k++)
        if (!strcmp(functions[k].name, name)) climb(functions[k], &strings.corpus, form_length, path);
}

int main(int count, char **words)
{
    bool wants_table = count > 2 && !strcmp(words[1], "table"), wants_ladder = count > 2 && !strcmp(words[1], "ladder");
    if (!wants_table && !wants_ladder) {
        fprintf(stderr, "usage: forms table CORPUS.. | forms ladder FUNCTION CORPUS ..\n");
        return 2;
    }
    if (!ctext_resource_write || !ctext_resource_read) return 0;
    if (wants_table) fill_table(&table, (size_t)count - 2, words + 2);
    else
        for (int i = 3; i < count; i += 2) ladder(words[i - 1], words[i]);
    return 0;
}
