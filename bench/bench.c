// Measures the proved library beside the yardstick.
//
//   bench table CORPUS..              for each corpus and each function: the median time of a string, and the ratios to the yardstick
//   bench ladder FUNCTION CORPUS ..   for each length of the strings of the corpus: the time that the function takes for one
//
// Each repetition goes through all corpora and measures every function in turn, and each function directly after the yardstick: a ratio is
// the median of the ratios within a repetition, so that what slows the whole machine down cancels out.
#include <stdbool.h>
#include <stdio.h>
#include <stdlib.h>
#include <string.h>

#include "calls.h"
#include "library.h"
#include "libx11.h"
#include "yardstick.h"

#ifdef WITH_LIMIT
#include "limit.h"
#endif

static ctext_unit *const units = (void *)lent_list;
static ctext_reader *ends; // of each string the reader that has handed out the last unit

// ---- the functions beside those of calls.c, each on string number i of the corpus in hand

static size_t run_yardstick(size_t i) { return yardstick(corpus.notes[i].octets, corpus.notes[i].length).place; }

#ifdef WITH_LIMIT
static size_t run_limit(size_t i) { return limit_table(corpus.notes[i].octets, corpus.notes[i].length).place; }
#endif

// A name of so many octets, which each unit of a list has: as many units as the string has octets, over a limit that is looked at after them.
enum { SHARED_NAME = 255 };

static size_t run_write_shared(size_t i)
{
    static ctext_unit shared[CTEXT_MOST_UNITS];
    static uint8_t name[SHARED_NAME + 1];
    if (!name[0]) {
        memset(name, 'a', SHARED_NAME);
        name[SHARED_NAME] = 2;
        for (size_t k = 0; k < CTEXT_MOST_UNITS; k++) shared[k] = (ctext_unit){.kind = CTEXT_KIND_SEGMENT, .code = 0x31, .length = sizeof name};
    }
    return ctext_write(shared, corpus.notes[i].length, name, sizeof name, work, sizeof work, out, sizeof out).place;
}

// One call more, at the end.
static size_t run_next_at_end(size_t i) { return ctext_next(corpus.notes[i].octets, corpus.notes[i].length, ends[i]).answer.place; }

static size_t run_x11_read(size_t i) { return x11_read(corpus.notes[i].octets, corpus.notes[i].length); }

static size_t run_x11_write(size_t i) { return x11_write(prepared[i].utf8); }

static struct function functions[FUNCTIONS] = {
    [YARDSTICK] = {"yardstick", run_yardstick, 0},
    [LIMIT] = {"limit_table", NULL, 0},
    [X11_READ] = {"libX11 read", run_x11_read, 0},
    [X11_WRITE] = {"libX11 write", run_x11_write, 0},
};

// What a ladder alone has.
static struct function others[] = {{"next at the end", run_next_at_end, 0}, {"write of one name", run_write_shared, 0}};

// ---- what has to hold before anything is measured

// All but where the octets stand, which may be another place in what was written.
static bool same_unit(const ctext_unit *a, const ctext_unit *b)
{
    return a->kind == b->kind && a->set == b->set && a->code == b->code && a->direction == b->direction && a->depth == b->depth;
}

static const ctext_unit *unit_kept(size_t i, size_t k) { return (const ctext_unit *)prepared[i].lists[AFTER].units + k; }

static size_t count_kept(size_t i) { return prepared[i].lists[AFTER].count; }

static bool same_answer(ctext_answer a, ctext_answer b) { return a.number == b.number && a.place == b.place && a.count == b.count; }

static void prepare_read(const char *path, size_t i)
{
    struct note n = corpus.notes[i];
    ctext_answer a = ctext_read(n.octets, n.length, units, CTEXT_MOST_UNITS);
    require(a.number == 0 && a.count == ctext_check(n.octets, n.length).count, "read gives another answer than check", path, i);
    keep_units(i, AFTER, a.count, sizeof *units);
}

// The list is emptied before, so that what `read` left there is not taken for what the archive reader reads.
static void prepare_archive(const char *path, size_t i)
{
    struct note n = corpus.notes[i];
    size_t size = count_kept(i) * sizeof *units;
    ctext_answer first = ctext_check(n.octets, n.length);
    memset(units, 0, size);
    require(same_answer(ctext_archive_check(n.octets, n.length), first), "archive_check gives another answer than check", path, i);
    require(same_answer(ctext_archive_read(n.octets, n.length, units, CTEXT_MOST_UNITS), first), "archive_read gives another answer", path, i);
    require(!memcmp(units, unit_kept(i, 0), size), "archive_read gives other units than read", path, i);
}

// How many runs the units of a string make: stretches of characters and spaces that follow each other on one side.
static size_t runs_of(struct note n, const ctext_unit *kept, size_t count)
{
    size_t runs = 0, end = 0;
    int side = -1;
    for (size_t k = 0; k < count; k++) {
        bool text = kept[k].kind <= CTEXT_KIND_SPACE;
        int own = text ? n.octets[kept[k].start] / 128 : -1;
        runs += text && (own != side || kept[k].start != end);
        side = own;
        end = kept[k].start + kept[k].length;
    }
    return runs;
}

static void prepare_runs(const char *path, size_t i)
{
    struct note n = corpus.notes[i];
    size_t runs = prepared[i].runs = runs_of(n, unit_kept(i, 0), count_kept(i));
    require(ctext_run(n.octets, n.length, runs).answer.number == CTEXT_BAD_UNIT, "it has more runs", path, i);
    require(!runs || ctext_run(n.octets, n.length, runs - 1).answer.number == 0, "it has fewer runs", path, i);
    require(!functions[NEXT_RUN].run || functions[NEXT_RUN].run(i) == runs, "next_run gives another number of runs", path, i);
    require(!functions[NEXT_RUNS].run || functions[NEXT_RUNS].run(i) == runs, "next_runs gives another number of runs", path, i);
}

static void prepare_next(const char *path, size_t i)
{
    struct note n = corpus.notes[i];
    ctext_step step = ctext_next(n.octets, n.length, (ctext_reader){.gr = CTEXT_SET_ISO8859_1_RIGHT});
    for (size_t k = 0; step.given; k++) {
        require(k < count_kept(i) && same_unit(&step.unit, unit_kept(i, k)), "next gives another unit", path, i);
        step = ctext_next(n.octets, n.length, step.reader);
    }
    require(step.answer.number == 0 && step.answer.count == count_kept(i), "next gives another answer", path, i);
    ends[i] = step.reader;
}

static void prepare_write(const char *path, size_t i)
{
    size_t written = functions[WRITE].run(i);
    require(!tells_refusal(written) && written <= corpus.notes[i].length, "write refuses, or is longer than what was read", path, i);
    ctext_answer r = ctext_read(out, written, units, CTEXT_MOST_UNITS);
    bool same = r.number == 0 && r.count == count_kept(i);
    for (size_t k = 0; same && k < r.count; k++) same = same_unit(&units[k], unit_kept(i, k));
    require(same, "what was written reads as other units", path, i);
}

// Whether X11R5 has all units of the string.
static bool in_x11r5(size_t i)
{
    size_t k = 0;
    while (k < count_kept(i) && unit_kept(i, k)->kind < CTEXT_KIND_LEFT_TO_RIGHT) k++;
    return k == count_kept(i);
}

static void prepare_r5_read(const char *path, size_t i)
{
    struct note n = corpus.notes[i];
    size_t size = count_kept(i) * sizeof *units;
    memset(units, 0, size);
    ctext_answer a = ctext_r5_read(n.octets, n.length + 1, units, CTEXT_MOST_UNITS);
    require(a.number == (in_x11r5(i) ? CTEXT_ACCEPTED : CTEXT_NOT_IN_X11R5), "r5_read gives another number", path, i);
    if (a.number != CTEXT_ACCEPTED) return;
    require(a.place == n.length && a.count == count_kept(i), "r5_read gives another answer", path, i);
    require(!memcmp(units, unit_kept(i, 0), size), "r5_read gives other units than read", path, i);
}

// It may be too long.
static void prepare_r5_write(const char *path, size_t i)
{
    size_t written = functions[R5_WRITE].run(i);
    if (written == told(0, CTEXT_TOO_LONG) || (written == told(0, CTEXT_NOT_IN_X11R5) && !in_x11r5(i))) return;
    require(!tells_refusal(written) && written && !out[written - 1], "r5_write gives another answer", path, i);
    ctext_answer r = ctext_read(out, written - 1, units, CTEXT_MOST_UNITS);
    bool same = r.number == 0 && r.count == count_kept(i);
    for (size_t k = 0; same && k < r.count; k++) same = same_unit(&units[k], unit_kept(i, k));
    require(same, "what r5_write wrote reads as other units", path, i);
}

static void load(const char *path, bool with_x11)
{
    take(path);
    ends = realloc(ends, (corpus.count + 1) * sizeof *ends);
    if (!ends) abort();
    for (size_t i = 0; i < corpus.count; i++) {
        struct note n = corpus.notes[i];
        struct verdict v = yardstick(n.octets, n.length);
        require(v.number == 0 && v.place == n.length, "the yardstick refuses it", path, i);
        if (ctext_check) {
            ctext_answer a = ctext_check(n.octets, n.length);
            require(a.number == 0 && a.place == n.length, "check refuses it", path, i);
        }
        if (functions[READ].run) prepare_read(path, i);
        if (functions[READ].run && functions[ARCHIVE_READ].run) prepare_archive(path, i);
        if (functions[WRITE].run) prepare_write(path, i);
        if (functions[RUN].run) prepare_runs(path, i);
        if (functions[NEXT].run) prepare_next(path, i);
        if (functions[R5_READ].run) prepare_r5_read(path, i);
        if (functions[R5_WRITE].run) prepare_r5_write(path, i);
        if (with_x11) prepared[i].utf8 = x11_text(n.octets, n.length);
    }
}

// A corpus that libX11 does not convert whole, as one of extended segments, is not measured with it.
static bool x11_takes_all(void)
{
    for (size_t i = 0; i < corpus.count; i++)
        if (!prepared[i].utf8 || !x11_write(prepared[i].utf8)) return false;
    return true;
}

// ---- the table

struct times {
    double own[REPETITIONS], by_yardstick[REPETITIONS], by_limit[REPETITIONS], by_check[REPETITIONS];
};

// A corpus with what is prepared of it, which functions take it and how often, and their times.
struct measured {
    const char *path;
    struct corpus corpus;
    struct prepared *prepared;
    struct function functions[FUNCTIONS];
    struct times times[FUNCTIONS];
};

static void turn_to(const struct measured *m)
{
    corpus = m->corpus;
    prepared = m->prepared;
    memcpy(functions, m->functions, sizeof functions);
}

static void make_ready(void *kept, const char *path)
{
    struct measured *m = kept;
    load(path, true);
    functions[X11_READ].run = x11_is_there() && x11_takes_all() ? run_x11_read : NULL;
    functions[X11_WRITE].run = functions[X11_READ].run ? run_x11_write : NULL;
    for (int k = 0; k < FUNCTIONS; k++)
        if (functions[k].run) choose_turns(&functions[k], 0, corpus.count);
    m->path = path;
    m->corpus = corpus;
    m->prepared = prepared;
    memcpy(m->functions, functions, sizeof functions);
    for (int k = R5_READ; k <= R5_WRITE; k++)
        if (!takes_all(&functions[k])) m->functions[k].run = NULL;
}

static void repeat(void *kept, int r)
{
    struct measured *m = kept;
    turn_to(m);
    for (int k = 0; k < FUNCTIONS; k++) {
        if (!functions[k].run) continue;
        double base = slice(&functions[YARDSTICK], 0, corpus.count);
        double limit = functions[LIMIT].run ? slice(&functions[LIMIT], 0, corpus.count) : 0;
        double check = k >= READ && functions[CHECK].run ? slice(&functions[CHECK], 0, corpus.count) : 0;
        double own = slice(&functions[k], 0, corpus.count);
        m->times[k].own[r] = own;
        m->times[k].by_yardstick[r] = own / base;
        m->times[k].by_limit[r] = limit > 0 ? own / limit : 0;
        m->times[k].by_check[r] = check > 0 ? own / check : 0;
    }
}

static void print(void *kept)
{
    struct measured *m = kept;
    turn_to(m);
    size_t count = 0;
    for (size_t i = 0; i < corpus.count; i++) count += count_kept(i);
    for (int k = 0; k < FUNCTIONS; k++)
        if (functions[k].run)
            printf("%s\t%s\t%zu\t%zu\t%zu\t%.1f\t%.3f\t%.3f\t%.3f\n", m->path, functions[k].name, corpus.count, corpus.octets, count,
                   median(m->times[k].own, REPETITIONS) / (double)corpus.count, median(m->times[k].by_yardstick, REPETITIONS),
                   median(m->times[k].by_limit, REPETITIONS), median(m->times[k].by_check, REPETITIONS));
}

static const struct table table = {sizeof(struct measured), make_ready, repeat, print};

// ---- the ladder

static double units_of(size_t i) { return (double)count_kept(i); }

static struct function named(const char *name)
{
    for (int k = CHECK; k < X11_READ; k++)
        if (!strcmp(functions[k].name, name)) return functions[k];
    for (size_t k = 0; k < sizeof others / sizeof *others; k++)
        if (!strcmp(others[k].name, name)) return others[k];
    fprintf(stderr, "bench: there is no function %s\n", name);
    exit(2);
}

static void ladder(const char *name, const char *path)
{
    struct function f = named(name);
    if (!f.run) return;
    load(path, false);
    corpus.count = taken(&f); // of the strings for `r5_write` the longest may be too long
    if (corpus.count) climb(f, &corpus, units_of, path);
}

int main(int count, char **words)
{
    bool wants_table = count > 2 && !strcmp(words[1], "table"), wants_ladder = count > 2 && !strcmp(words[1], "ladder");
    if (!wants_table && !wants_ladder) {
        fprintf(stderr, "usage: bench table CORPUS.. | bench ladder FUNCTION CORPUS ..\n");
        return 2;
    }
#ifdef WITH_LIMIT
    functions[LIMIT].run = run_limit;
#endif
    library_calls(AFTER, functions);
    if (!functions[WRITE].run || !functions[NEXT].run) others[0].run = others[1].run = NULL;
    if (wants_table) x11_open();
    if (wants_table) fill_table(&table, (size_t)count - 2, words + 2);
    else
        for (int i = 3; i < count; i += 2) ladder(words[i - 1], words[i]);
    return 0;
}
