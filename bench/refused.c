// Measures the proved library beside the yardstick on strings that are refused.
//
//   refused table CORPUS..              for each corpus: the median time of a string, and the ratios to the yardstick
//   refused ladder FUNCTION CORPUS ..   for each length of the strings of the corpus: the time that the function takes for one
//
// As in bench.c, a repetition goes through all corpora, each function is measured directly after the yardstick, and a ratio is the median of the
// ratios within a repetition.
#include <stdio.h>
#include <stdlib.h>
#include <string.h>

#include "calls.h"
#include "library.h"
#include "yardstick.h"

static ctext_unit *const units = (void *)lent_list;

static size_t run_yardstick(size_t i) { return yardstick(corpus.notes[i].octets, corpus.notes[i].length).place; }

static struct function functions[FUNCTIONS] = {[YARDSTICK] = {"yardstick", run_yardstick, 0}};

// ---- what has to hold before anything is measured

static bool same_refusal(ctext_answer a, struct verdict v) { return a.number == v.number && a.place == v.place && a.count == 0; }

// All who read the string name the same number and place. The units before the refusal are counted.
static void prepare(const char *path, size_t i)
{
    struct note n = corpus.notes[i];
    struct verdict v = yardstick(n.octets, n.length);
    require(v.number != CTEXT_ACCEPTED, "the yardstick accepts it", path, i);
    require(same_refusal(ctext_check(n.octets, n.length), v), "check gives another answer than the yardstick", path, i);
    require(same_refusal(ctext_read(n.octets, n.length, units, CTEXT_MOST_UNITS), v), "read gives another answer than the yardstick", path, i);
    if (ctext_archive_check)
        require(same_refusal(ctext_archive_check(n.octets, n.length), v), "archive_check gives another answer than the yardstick", path, i);
    if (ctext_archive_read) {
        ctext_answer a = ctext_archive_read(n.octets, n.length, units, CTEXT_MOST_UNITS);
        require(same_refusal(a, v), "archive_read gives another answer than the yardstick", path, i);
    }
    ctext_step step = ctext_next(n.octets, n.length, (ctext_reader){.gr = CTEXT_SET_ISO8859_1_RIGHT});
    while (step.given) step = ctext_next(n.octets, n.length, step.reader);
    require(same_refusal(step.answer, v), "next gives another answer than the yardstick", path, i);
    prepared[i].lists[AFTER].count = step.reader.count;
}

static void load(const char *path)
{
    take(path);
    for (size_t i = 0; i < corpus.count; i++) prepare(path, i);
}

// ---- the table

static const int shown[] = {YARDSTICK, CHECK, NEXT, ARCHIVE_CHECK}; // the yardstick is the first
enum { SHOWN = sizeof shown / sizeof *shown };

struct measured {
    const char *path;
    struct corpus corpus;
    struct prepared *prepared;
    struct function functions[SHOWN];
    double own[SHOWN][REPETITIONS], by_yardstick[SHOWN][REPETITIONS];
};

static void make_ready(void *kept, const char *path)
{
    struct measured *m = kept;
    load(path);
    m->path = path;
    m->corpus = corpus;
    m->prepared = prepared;
    for (int k = 0; k < SHOWN; k++) {
        m->functions[k] = functions[shown[k]];
        if (m->functions[k].run) choose_turns(&m->functions[k], 0, corpus.count);
    }
}

static void repeat(void *kept, int r)
{
    struct measured *m = kept;
    corpus = m->corpus;
    for (int k = 0; k < SHOWN; k++) {
        if (!m->functions[k].run) continue;
        double base = slice(&m->functions[0], 0, corpus.count);
        m->own[k][r] = slice(&m->functions[k], 0, corpus.count);
        m->by_yardstick[k][r] = m->own[k][r] / base;
    }
}

static void print(void *kept)
{
    struct measured *m = kept;
    size_t count = 0;
    for (size_t i = 0; i < m->corpus.count; i++) count += m->prepared[i].lists[AFTER].count;
    for (int k = 0; k < SHOWN; k++)
        if (m->functions[k].run)
            printf("%s\t%s\t%zu\t%zu\t%zu\t%.1f\t%.3f\n", m->path, m->functions[k].name, m->corpus.count, m->corpus.octets, count,
                   median(m->own[k], REPETITIONS) / (double)m->corpus.count, median(m->by_yardstick[k], REPETITIONS));
}

static const struct table table = {sizeof(struct measured), make_ready, repeat, print};

// ---- the ladder

static double units_of(size_t i) { return (double)prepared[i].lists[AFTER].count; }

// Those that stop at the refusal. Of a refused string there is no list to be written, and no run.
static struct function named(const char *name)
{
    static const int stopping[] = {CHECK, READ, NEXT, ARCHIVE_CHECK, ARCHIVE_READ};
    for (size_t k = 0; k < sizeof stopping / sizeof *stopping; k++)
        if (!strcmp(functions[stopping[k]].name, name)) return functions[stopping[k]];
    fprintf(stderr, "refused: there is no function %s\n", name);
    exit(2);
}

static void ladder(const char *name, const char *path)
{
    struct function f = named(name);
    if (!f.run) return;
    load(path);
    climb(f, &corpus, units_of, path);
}

int main(int count, char **words)
{
    bool wants_table = count > 2 && !strcmp(words[1], "table"), wants_ladder = count > 2 && !strcmp(words[1], "ladder");
    if (!wants_table && !wants_ladder) {
        fprintf(stderr, "usage: refused table CORPUS.. | refused ladder FUNCTION CORPUS ..\n");
        return 2;
    }
    library_calls(AFTER, functions);
    if (!functions[NEXT].run) return 0;
    if (wants_table) fill_table(&table, (size_t)count - 2, words + 2);
    else
        for (int i = 3; i < count; i += 2) ladder(words[i - 1], words[i]);
    return 0;
}
