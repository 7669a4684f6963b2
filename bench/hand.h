// The corpus in hand, what is prepared of it, and what is lent to every call: one list of units, one work room, one output and one list of runs.
// Nothing here is of the library's header: of two archives in a program each has its own, and their records of a unit may differ.
#ifndef HAND_H
#define HAND_H

#include "corpus.h"

// The archives that a program may have: the one that is measured, and that of the landing before.
enum { AFTER, BEFORE, ARCHIVES };

// The units of a string, in records of an archive's header.
struct list {
    void *units;
    size_t count;
};

// What is prepared for each string before the times are taken: its units as each archive reads them, how many runs it has, and its text in UTF-8.
struct prepared {
    struct list lists[ARCHIVES];
    size_t runs;
    char *utf8;
};

extern struct corpus corpus;
extern struct prepared *prepared;

// What is lent, the same memory to all archives: each takes the lent list for records of its own header. calls.c does not compile with a header that
// needs more room.
enum { MOST = 65535, LIST_ROOM = 16 * MOST, WORK_LENT = 72 * (MOST + 1), LISTED_RUNS = 64 };

extern uint8_t lent_list[LIST_ROOM], work[WORK_LENT], out[MOST + 1]; // the output has room for the 00 of an X11R5 string too
extern uint64_t runs_list[LISTED_RUNS];

// Loads a corpus, of which nothing is prepared yet.
void take(const char *path);

// The lent list's first units, so many records of so many octets, are those of string number i as the archive reads it.
void keep_units(size_t i, int archive, size_t count, size_t record);

#endif
