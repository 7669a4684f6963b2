// Measures functions of the library two and two: the archive reader's beside the first reader's, X11R5's reader and writer beside the first ones, and
// each beside itself in the landing before.
//
//   pairs accepted CORPUS..   all pairs, on strings that are accepted
//   pairs refused CORPUS..    on strings that are refused, of which there is no list to be written, and no run
//   pairs archive CORPUS..    the archive reader beside the first reader alone, on strings of either kind
//   pairs r5 CORPUS..         X11R5's reader and writer beside the first ones alone, on strings that are accepted
//
// X11R5's are measured on corpora that have no marks and no segments, and its writer where no string comes to be too long.
//
// For each corpus a line: its path, and of each pair the name and the ratio of the times, as `archive_check to check`, which are both of the archive
// that is measured; `before` in a name is the archive of the landing before, which CTEXT_BEFORE names to bench/run, and which need not be there.
// Each archive stands in an object with calls of its own (calls.c), compiled with its own header, that shows nothing else: the records of a unit may
// differ, and each archive writes the units that it has read itself. The strings, and the memory that is lent to the calls, are the same for all. In
// each repetition the two run directly after each other, and the first of them in turn; a ratio is the median of the ratios within a repetition.
#include <stdio.h>
#include <string.h>

#include "calls.h"

// calls.c under two names, one for each archive
size_t after_calls(int archive, struct function functions[FUNCTIONS]);
size_t before_calls(int archive, struct function functions[FUNCTIONS]);
#pragma weak before_calls

static struct function calls[ARCHIVES][FUNCTIONS]; // none of the landing before where there is none
static size_t records[ARCHIVES];                   // octets of a unit's record

// A function of the archive that is measured, to one of some archive.
static const struct compared {
    int own, archive, other;
} compared[] = {
    {CHECK, BEFORE, CHECK},
    {READ, BEFORE, READ},
    {WRITE, BEFORE, WRITE},
    {NEXT, BEFORE, NEXT},
    {NEXT_RUNS, BEFORE, NEXT_RUNS},
    {ARCHIVE_CHECK, BEFORE, ARCHIVE_CHECK},
    {ARCHIVE_READ, BEFORE, ARCHIVE_READ},
    {ARCHIVE_CHECK, AFTER, CHECK},
    {ARCHIVE_READ, AFTER, READ},
    {ARCHIVE_CHECK, BEFORE, CHECK},
    {ARCHIVE_READ, BEFORE, READ},
    {R5_READ, AFTER, READ},
    {R5_WRITE, AFTER, WRITE},
    {R5_READ, BEFORE, R5_READ},
    {R5_WRITE, BEFORE, R5_WRITE},
};
enum { COMPARED = sizeof compared / sizeof *compared };

static enum { ACCEPTED, REFUSED, ARCHIVE, R5, MODES } mode;

static bool is_r5(const struct compared *c) { return c->own == R5_READ || c->own == R5_WRITE; }

static bool is_wanted(const struct compared *c)
{
    if (mode == R5) return is_r5(c) && c->archive == AFTER;
    if (mode == ARCHIVE) return !is_r5(c) && c->own != c->other;
    return mode == ACCEPTED || (!is_r5(c) && c->own != WRITE && c->own != NEXT_RUNS);
}

// ---- one pair on one corpus

enum { OWN, OTHER, BOTH };

struct pair {
    char name[64];
    struct function by[BOTH];
    double ratios[REPETITIONS];
};

static bool is_measured(const struct pair *p) { return p->by[OWN].run && p->by[OTHER].run; }

// Whether both answer the same; X11R5's writer writes other octets than the first.
static bool alike(const struct compared *c, size_t own, size_t other)
{
    return c->own == R5_WRITE && c->other == WRITE ? !tells_refusal(own) && !tells_refusal(other) : own == other;
}

// What the two answer differently is no comparison.
static bool agree(const struct compared *c, const struct pair *p, const char *path)
{
    for (size_t i = 0; i < corpus.count; i++)
        if (!alike(c, p->by[OWN].run(i), p->by[OTHER].run(i))) {
            fprintf(stderr, "pairs: %s, string %zu: the answers differ, and %s is not measured\n", path, i, p->name);
            return false;
        }
    return true;
}

static struct pair pair_up(const struct compared *c, const char *path)
{
    struct pair p = {.by = {calls[AFTER][c->own], calls[c->archive][c->other]}};
    if (!is_measured(&p)) return p;
    snprintf(p.name, sizeof p.name, "%s to %s%s", p.by[OWN].name, p.by[OTHER].name, c->archive == BEFORE ? " before" : "");
    if ((is_r5(c) && !takes_all(&p.by[OWN])) || !agree(c, &p, path)) p.by[OWN].run = NULL;
    if (!is_measured(&p)) return p;
    choose_turns(&p.by[OWN], 0, corpus.count);
    p.by[OTHER].turns = p.by[OWN].turns;
    return p;
}

// Both run before they are measured, which brings what their calls need into the caches; the units that are written are each one's own.
static double ratio(const struct pair *p, int first)
{
    int second = !first;
    double times[BOTH];
    slice(&p->by[first], 0, corpus.count);
    slice(&p->by[second], 0, corpus.count);
    times[first] = slice(&p->by[first], 0, corpus.count);
    times[second] = slice(&p->by[second], 0, corpus.count);
    return times[OWN] / times[OTHER];
}

// ---- the table

struct measured {
    const char *path;
    struct corpus corpus;
    struct prepared *prepared;
    struct pair pairs[COMPARED];
};

// The units that the archive reads, to be written; none of a string that it refuses.
static void keep_lists(int archive)
{
    for (size_t i = 0; calls[archive][READ].run && i < corpus.count; i++) {
        size_t answer = calls[archive][READ].run(i);
        keep_units(i, archive, tells_refusal(answer) ? 0 : answer, records[archive]);
    }
}

static void make_ready(void *kept, const char *path)
{
    struct measured *m = kept;
    take(path);
    for (int archive = 0; (mode == ACCEPTED || mode == R5) && archive < ARCHIVES; archive++) keep_lists(archive);
    for (int k = 0; k < COMPARED; k++)
        if (is_wanted(&compared[k])) m->pairs[k] = pair_up(&compared[k], path);
    m->path = path;
    m->corpus = corpus;
    m->prepared = prepared;
}

static void repeat(void *kept, int r)
{
    struct measured *m = kept;
    corpus = m->corpus;
    prepared = m->prepared;
    for (int k = 0; k < COMPARED; k++)
        if (is_measured(&m->pairs[k])) m->pairs[k].ratios[r] = ratio(&m->pairs[k], r % BOTH);
}

static void print(void *kept)
{
    struct measured *m = kept;
    printf("%s", m->path);
    for (int k = 0; k < COMPARED; k++)
        if (is_measured(&m->pairs[k])) printf("\t%s\t%.3f", m->pairs[k].name, median(m->pairs[k].ratios, REPETITIONS));
    printf("\n");
}

static const struct table table = {sizeof(struct measured), make_ready, repeat, print};

int main(int count, char **words)
{
    static const char *const named[MODES] = {"accepted", "refused", "archive", "r5"};
    while (count > 2 && mode < MODES && strcmp(words[1], named[mode])) mode++;
    if (count < 3 || mode == MODES) {
        fprintf(stderr, "usage: pairs accepted CORPUS.. | pairs refused CORPUS.. | pairs archive CORPUS.. | pairs r5 CORPUS..\n");
        return 2;
    }
    records[AFTER] = after_calls(AFTER, calls[AFTER]);
    if (before_calls) records[BEFORE] = before_calls(BEFORE, calls[BEFORE]);
    fill_table(&table, (size_t)count - 2, words + 2);
    return 0;
}
