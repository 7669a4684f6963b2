// Reads a corpus: each string is its length in four octets, lowest first, and then its octets.
#include "corpus.h"

#include <stdio.h>
#include <stdlib.h>

static uint8_t *whole_file(const char *path, size_t *size)
{
    FILE *f = fopen(path, "rb");
    if (!f || fseek(f, 0, SEEK_END)) {
        perror(path);
        exit(1);
    }
    *size = (size_t)ftell(f);
    rewind(f);
    uint8_t *octets = malloc(*size + 1);
    if (!octets || fread(octets, 1, *size, f) != *size) {
        perror(path);
        exit(1);
    }
    fclose(f);
    return octets;
}

struct corpus corpus_load(const char *path)
{
    size_t size, room = 0;
    uint8_t *p = whole_file(path, &size), *end = p + size;
    struct corpus c = {NULL, 0, 0};
    *end = 0;
    while (p < end) {
        size_t n = end - p < 4 ? size : p[0] | (size_t)p[1] << 8 | (size_t)p[2] << 16 | (size_t)p[3] << 24;
        *p = 0; // behind the string before
        if ((size_t)(end - p) < n + 4) {
            fprintf(stderr, "%s: no corpus\n", path);
            exit(1);
        }
        if (c.count == room) {
            room = room ? 2 * room : 64;
            c.notes = realloc(c.notes, room * sizeof *c.notes);
            if (!c.notes) abort();
        }
        c.notes[c.count++] = (struct note){p + 4, n};
        c.octets += n;
        p += 4 + n;
    }
    return c;
}
