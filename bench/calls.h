// What is measured of an archive of the library: calls of its functions, each on string number i of the corpus in hand.
#ifndef CALLS_H
#define CALLS_H

#include "hand.h"
#include "times.h"

// All that is measured, in this order. The library's are those from CHECK to R5_WRITE.
enum {
    YARDSTICK, LIMIT, CHECK, READ, WRITE, RUN, NEXT, NEXT_RUN, NEXT_RUNS, ARCHIVE_CHECK, ARCHIVE_READ, R5_READ, R5_WRITE, X11_READ, X11_WRITE, FUNCTIONS
};

// Fills in the library's, of the archive that this is; one is null where the library lacks what it needs. `write` and `r5_write` take the units that
// are kept of that archive, and `r5_read` the 00 behind a string too. Gives the octets of a unit's record.
size_t library_calls(int archive, struct function functions[FUNCTIONS]);

// What two archives must answer alike: a count, and above it the number of a refusal, which is 0 where there is none. The place is left out, since
// that of a refusal became another with version 3.
static inline size_t told(size_t count, uint8_t number) { return count | (size_t)number << 32; }

static inline bool tells_refusal(size_t answer) { return answer >> 32 != 0; }

// How many strings of the corpus in hand stand before the first that the function refuses, as `r5_read` does where there are marks or segments.
static inline size_t taken(const struct function *f)
{
    size_t i = 0;
    while (i < corpus.count && !tells_refusal(f->run(i))) i++;
    return i;
}

static inline bool takes_all(const struct function *f) { return f->run && taken(f) == corpus.count; }

#endif
