// Compiled for each archive of a program anew, with that archive's header (library.h): nothing else knows the layout of its structs.
#include "calls.h"
#include "library.h"

_Static_assert(CTEXT_MOST_UNITS * sizeof(ctext_unit) <= sizeof lent_list, "the list has room for all records of the header");
_Static_assert(CTEXT_WORK_ROOM(CTEXT_MOST_UNITS) <= sizeof work && CTEXT_MOST_OCTETS <= sizeof out, "the work room and the output do");

static ctext_unit *const units = (void *)lent_list;

static int own; // which archive this is

static size_t run_check(size_t i)
{
    ctext_answer a = ctext_check(corpus.notes[i].octets, corpus.notes[i].length);
    return told(a.count, a.number);
}

static size_t run_read(size_t i)
{
    ctext_answer a = ctext_read(corpus.notes[i].octets, corpus.notes[i].length, units, CTEXT_MOST_UNITS);
    return told(a.count, a.number);
}

static size_t run_write(size_t i)
{
    struct note n = corpus.notes[i];
    struct list kept = prepared[i].lists[own];
    ctext_answer a = ctext_write(kept.units, kept.count, n.octets, n.length, work, sizeof work, out, sizeof out);
    return told(a.count, a.number);
}

// The last run, by its number: all that `ctext_run` does at most.
static size_t run_run(size_t i)
{
    size_t last = prepared[i].runs ? prepared[i].runs - 1 : 0;
    return ctext_run(corpus.notes[i].octets, corpus.notes[i].length, last).end;
}

// All units, one by one, up to the end or the refusal.
static size_t run_next(size_t i)
{
    struct note n = corpus.notes[i];
    ctext_step step = ctext_next(n.octets, n.length, (ctext_reader){.gr = CTEXT_SET_ISO8859_1_RIGHT});
    while (step.given) step = ctext_next(n.octets, n.length, step.reader);
    return told(step.reader.count, step.answer.number);
}

// All runs, one after the other.
static size_t run_next_run(size_t i)
{
    struct note n = corpus.notes[i];
    size_t runs = 0;
    ctext_run_step step = ctext_next_run(n.octets, n.length, ctext_open_runs());
    for (; step.run.answer.number == CTEXT_ACCEPTED; runs++) step = ctext_next_run(n.octets, n.length, step.reader);
    return runs;
}

// All runs, by a list.
static size_t run_next_runs(size_t i)
{
    struct note n = corpus.notes[i];
    size_t runs = 0;
    ctext_runs_step step = {.reader = ctext_open_runs()};
    do {
        step = ctext_next_runs(n.octets, n.length, step.reader, runs_list, LISTED_RUNS);
        runs += step.answer.count;
    } while (step.answer.count > 0);
    return runs;
}

static size_t run_archive_check(size_t i)
{
    ctext_answer a = ctext_archive_check(corpus.notes[i].octets, corpus.notes[i].length);
    return told(a.count, a.number);
}

static size_t run_archive_read(size_t i)
{
    ctext_answer a = ctext_archive_read(corpus.notes[i].octets, corpus.notes[i].length, units, CTEXT_MOST_UNITS);
    return told(a.count, a.number);
}

static size_t run_r5_read(size_t i)
{
    ctext_answer a = ctext_r5_read(corpus.notes[i].octets, corpus.notes[i].length + 1, units, CTEXT_MOST_UNITS);
    return told(a.count, a.number);
}

static size_t run_r5_write(size_t i)
{
    struct note n = corpus.notes[i];
    struct list kept = prepared[i].lists[own];
    ctext_answer a = ctext_r5_write(kept.units, kept.count, n.octets, n.length, out, sizeof out);
    return told(a.count, a.number);
}

size_t library_calls(int archive, struct function functions[FUNCTIONS])
{
    own = archive;
    functions[CHECK] = (struct function){"check", run_check, 0};
    functions[READ] = (struct function){"read", run_read, 0};
    functions[WRITE] = (struct function){"write", run_write, 0};
    functions[RUN] = (struct function){"run", run_run, 0};
    functions[NEXT] = (struct function){"next", run_next, 0};
    functions[NEXT_RUN] = (struct function){"next_run", run_next_run, 0};
    functions[NEXT_RUNS] = (struct function){"next_runs", run_next_runs, 0};
    functions[ARCHIVE_CHECK] = (struct function){"archive_check", run_archive_check, 0};
    functions[ARCHIVE_READ] = (struct function){"archive_read", run_archive_read, 0};
    functions[R5_READ] = (struct function){"r5_read", run_r5_read, 0};
    functions[R5_WRITE] = (struct function){"r5_write", run_r5_write, 0};
    if (!ctext_check) functions[CHECK].run = NULL;
    if (!ctext_check || !ctext_read) functions[READ].run = NULL;
    if (!functions[READ].run || !ctext_write) functions[WRITE].run = NULL;
    if (!functions[READ].run || !ctext_run) functions[RUN].run = NULL;
    if (!functions[READ].run || !ctext_next) functions[NEXT].run = NULL;
    if (!functions[RUN].run || !ctext_open_runs || !ctext_next_run) functions[NEXT_RUN].run = NULL;
    if (!functions[RUN].run || !ctext_open_runs || !ctext_next_runs) functions[NEXT_RUNS].run = NULL;
    if (!ctext_archive_check) functions[ARCHIVE_CHECK].run = NULL;
    if (!ctext_archive_check || !ctext_archive_read) functions[ARCHIVE_READ].run = NULL;
    if (!functions[READ].run || !ctext_r5_read) functions[R5_READ].run = NULL;
    if (!functions[READ].run || !ctext_r5_write) functions[R5_WRITE].run = NULL;
    return sizeof(ctext_unit);
}
