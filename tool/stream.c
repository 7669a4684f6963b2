/* stream.c: an input of any length through a buffer of fixed size. */

#include <errno.h>
#include <string.h>
#include <unistd.h>

#include "tool.h"

/* One octet more than is read, so that a 00 can be put behind the last of them. */
static uint8_t held[STREAM_MOST + 1];

void stream_open(stream *s, int file)
{
    s->file = file;
    s->octets = held;
    s->count = 0;
    s->taken = 0;
    s->why = 0;
    s->ended = 0;
}

void stream_end(stream *s)
{
    s->count = 0;
    s->why = 0;
    s->ended = 1;
}

/* One read, of as much as there is room for. */
static void read_more(stream *s)
{
    ssize_t got = read(s->file, held + s->count, STREAM_MOST - s->count);
    if (got > 0)
        s->count += (size_t)got;
    else if (got == 0 || errno != EINTR) {
        s->ended = 1;
        s->why = got == 0 ? 0 : errno;
    }
}

int stream_hold(stream *s, size_t count)
{
    if (s->count >= count)
        return 1;
    if (count > STREAM_MOST)
        return 0;
    memmove(held, s->octets, s->count);
    s->octets = held;
    while (s->count < count && !s->ended)
        read_more(s);
    return s->count >= count;
}

void stream_take(stream *s, size_t count)
{
    s->octets += count;
    s->count -= count;
    s->taken += count;
}

int stream_pass(stream *s, uint64_t count)
{
    while (count > 0) {
        size_t part = count < STREAM_MOST ? (size_t)count : STREAM_MOST;
        if (!stream_hold(s, part))
            return 0;
        stream_take(s, part);
        count -= part;
    }
    return 1;
}
