#include "hand.h"

#include <stdlib.h>
#include <string.h>

struct corpus corpus;
struct prepared *prepared;

_Alignas(64) uint8_t lent_list[LIST_ROOM];
uint8_t work[WORK_LENT], out[MOST + 1];
uint64_t runs_list[LISTED_RUNS];

void take(const char *path)
{
    corpus = corpus_load(path);
    prepared = calloc(corpus.count, sizeof *prepared);
    if (!prepared) abort();
}

void keep_units(size_t i, int archive, size_t count, size_t record)
{
    struct list *kept = &prepared[i].lists[archive];
    kept->count = count;
    kept->units = malloc((count + 1) * record);
    if (!kept->units) abort();
    memcpy(kept->units, lent_list, count * record);
}
