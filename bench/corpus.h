// A corpus in memory: a row of strings, each with a 00 behind it.
#ifndef CORPUS_H
#define CORPUS_H

#include <stddef.h>
#include <stdint.h>

struct note {
    const uint8_t *octets;
    size_t length;
};

struct corpus {
    struct note *notes;
    size_t count, octets;
};

// Ends the program where the file is not a corpus.
struct corpus corpus_load(const char *path);

#endif
