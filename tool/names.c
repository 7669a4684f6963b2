/* names.c: the names of files on standard input, each ended by a newline or by an
   octet 00; the end of the input ends the last one too. */

#include <stdio.h>
#include <string.h>
#include <unistd.h>

#include "tool.h"

void names_open(names *l, char end)
{
    l->end = end;
    l->index = 0;
    stream_open(&l->stream, STDIN_FILENO);
}

static int fault(const char *what)
{
    complain("standard input", what);
    return FOUND_FAULT;
}

static int fault_of_name(const names *l, const char *what)
{
    char words[96];
    snprintf(words, sizeof words, "name %zu %s", l->index, what);
    return fault(words);
}

/* The end of a list that cannot be read on, or is none. */
static int last(names *l, int found)
{
    stream_end(&l->stream);
    return found;
}

/* Reads until the next name is held, of so many octets; whether something ends it
   but the end of the input or of the buffer. */
static int hold_name(names *l, size_t *length)
{
    stream *s = &l->stream;
    const uint8_t *end;
    do
        end = (const uint8_t *)memchr(s->octets, l->end, s->count);
    while (end == NULL && stream_hold(s, s->count + 1));
    *length = end == NULL ? s->count : (size_t)(end - s->octets);
    return end != NULL;
}

/* The name that is held, and what ends it, if anything. */
static int take_name(names *l, size_t length, int ended, const char **name)
{
    stream *s = &l->stream;
    s->octets[length] = '\0';
    *name = (const char *)s->octets;
    stream_take(s, length + (ended ? 1 : 0));
    if (length == 0)
        return fault_of_name(l, "is empty");
    if (strcmp(*name, "-") == 0)
        *name = "./-"; /* a file: standard input has the names */
    return FOUND_ONE;
}

int names_next(names *l, const char **name)
{
    stream *s = &l->stream;
    size_t length;
    int ended = hold_name(l, &length);
    if (!ended && length == 0 && s->why == 0)
        return FOUND_END;
    l->index++;
    if (!ended && s->why != 0)
        return last(l, fault(strerror(s->why)));
    if (!ended && length == STREAM_MOST)
        return last(l, fault_of_name(l, "has no end within 262,144 octets"));
    if (memchr(s->octets, '\0', length) != NULL)
        return last(l, fault_of_name(l, "has an octet 00; with --null that ends a name"));
    return take_name(l, length, ended, name);
}
