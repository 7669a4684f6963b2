#define _POSIX_C_SOURCE 200809L
#include "times.h"

#include <stdio.h>
#include <stdlib.h>
#include <time.h>

enum { LADDER_REPETITIONS = 31 };
static const double SLICE = 2e6; // nanoseconds that a function runs for, at least, before another has its turn

void require(bool holds, const char *what, const char *path, size_t i)
{
    if (holds) return;
    fprintf(stderr, "bench: %s, string %zu: %s\n", path, i, what);
    exit(1);
}

static double now(void)
{
    struct timespec t;
    clock_gettime(CLOCK_THREAD_CPUTIME_ID, &t);
    return 1e9 * (double)t.tv_sec + (double)t.tv_nsec;
}

static volatile size_t kept;

double slice(const struct function *f, size_t first, size_t last)
{
    size_t sum = 0;
    double begun = now();
    for (size_t t = 0; t < f->turns; t++)
        for (size_t i = first; i < last; i++) sum += f->run(i);
    double time = now() - begun;
    kept += sum;
    return time / (double)f->turns;
}

void choose_turns(struct function *f, size_t first, size_t last)
{
    for (f->turns = 1;; f->turns *= 2) {
        double time = slice(f, first, last) * (double)f->turns;
        if (time >= SLICE / 2) return;
    }
}

static int by_size(const void *a, const void *b)
{
    double x = *(const double *)a, y = *(const double *)b;
    return (x > y) - (x < y);
}

double median(double *values, size_t count)
{
    qsort(values, count, sizeof *values, by_size);
    return count % 2 ? values[count / 2] : (values[count / 2 - 1] + values[count / 2]) / 2;
}

// ---- the table

void fill_table(const struct table *t, size_t count, char **paths)
{
    char *all = calloc(count, t->size);
    if (!all) abort();
    for (size_t i = 0; i < count; i++) t->make_ready(all + i * t->size, paths[i]);
    for (int r = 0; r < REPETITIONS; r++)
        for (size_t i = 0; i < count; i++) t->repeat(all + i * t->size, r);
    for (size_t i = 0; i < count; i++) t->print(all + i * t->size);
    free(all);
}

// ---- the ladder

// Strings of one length, which stand together in the corpus, are a step of the ladder.
struct step {
    size_t first, last, turns;
    double units, values[LADDER_REPETITIONS];
};

static size_t steps_of_corpus(const struct corpus *c, double (*units_of)(size_t), struct step *steps)
{
    size_t count = 0;
    for (size_t i = 0; i < c->count; i++) {
        if (i == 0 || c->notes[i].length != c->notes[i - 1].length) steps[count++] = (struct step){.first = i};
        steps[count - 1].last = i + 1;
        steps[count - 1].units += units_of(i);
    }
    return count;
}

void climb(struct function f, const struct corpus *c, double (*units_of)(size_t), const char *path)
{
    struct step *steps = malloc(c->count * sizeof *steps);
    if (!steps) abort();
    size_t count = steps_of_corpus(c, units_of, steps);
    for (size_t i = 0; i < count; i++) {
        choose_turns(&f, steps[i].first, steps[i].last);
        steps[i].turns = f.turns;
    }
    for (int r = 0; r < LADDER_REPETITIONS; r++)
        for (size_t i = 0; i < count; i++) {
            f.turns = steps[i].turns;
            steps[i].values[r] = slice(&f, steps[i].first, steps[i].last);
        }
    for (size_t i = 0; i < count; i++) {
        double strings = (double)(steps[i].last - steps[i].first);
        printf("%s\t%s\t%zu\t%.0f\t%.1f\n", path, f.name, c->notes[steps[i].first].length, steps[i].units / strings,
               median(steps[i].values, LADDER_REPETITIONS) / strings);
    }
    free(steps);
    fflush(stdout);
}
