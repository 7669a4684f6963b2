// How the benchmark takes times, which are of the thread's processor clock, and what it asks before.
#ifndef TIMES_H
#define TIMES_H

#include <stdbool.h>

#include "corpus.h"

// Ends the program where something does not hold of string number i of the corpus.
void require(bool holds, const char *what, const char *path, size_t i);

// A function that is measured, on string number i of a corpus.
struct function {
    const char *name;
    size_t (*run)(size_t i);
    size_t turns; // how often the strings are gone through in a slice
};

// The time that the strings from `first` to before `last` take, on average over the turns.
double slice(const struct function *f, size_t first, size_t last);

// So many turns that a slice is not too short to be measured.
void choose_turns(struct function *f, size_t first, size_t last);

// Sorts the values.
double median(double *values, size_t count);

enum { REPETITIONS = 41 };

// A table: of each corpus something is kept, which is made ready, measured in each repetition, and printed.
struct table {
    size_t size;
    void (*make_ready)(void *kept, const char *path);
    void (*repeat)(void *kept, int r);
    void (*print)(void *kept);
};

// Each repetition goes through all corpora, so that the repetitions of one are spread over the whole time: other work on the machine
// makes it slower for seconds, and not all functions by as much.
void fill_table(const struct table *t, size_t count, char **paths);

// Prints for each length of the strings of the corpus, which stand together: the path, the function, the length, the units and the time of a string.
void climb(struct function f, const struct corpus *c, double (*units_of)(size_t i), const char *path);

#endif
