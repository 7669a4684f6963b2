/* frames.c: the notes of a framed file, each after its length in four octets, most
   significant first. */

#include <stdio.h>
#include <string.h>

#include "tool.h"

#define HEAD 4 /* octets of a length */

/* What the library is lent for a note that is too long, of which it looks at no
   octet. */
static uint8_t too_long[CTEXT_MOST_OCTETS + 1];

int frames_open(frames *f, const char *file)
{
    int opened = input_open(file);
    f->file = file;
    f->index = 0;
    stream_open(&f->stream, opened);
    return opened >= 0;
}

void frames_close(frames *f)
{
    input_close(f->file, f->stream.file);
}

/* Why the frame that begins at start is not whole; nothing is read after it. */
static int fault(frames *f, uint64_t start, uint64_t length)
{
    stream *s = &f->stream;
    unsigned long long there = s->taken + s->count - start;
    char why[96], words[160];
    if (s->why != 0)
        snprintf(why, sizeof why, "%s", strerror(s->why));
    else if (there < HEAD)
        snprintf(why, sizeof why, "the file ends inside the length");
    else
        snprintf(why, sizeof why, "the file ends after %llu of the note's %llu octets", there - HEAD,
                 (unsigned long long)length);
    snprintf(words, sizeof words, "note %zu, frame at octet %llu: %s", f->index, (unsigned long long)start, why);
    complain(input_name(f->file), words);
    stream_end(s);
    return FOUND_FAULT;
}

/* The frame whose length is held; whether it is whole. */
static int take_frame(stream *s, uint64_t length, note *n)
{
    if (length > CTEXT_MOST_OCTETS) {
        n->octets = too_long;
        n->length = sizeof too_long;
        return stream_pass(s, HEAD + length);
    }
    if (!stream_hold(s, HEAD + (size_t)length))
        return 0;
    n->octets = s->octets + HEAD;
    n->length = (size_t)length;
    stream_take(s, HEAD + n->length);
    return 1;
}

int frames_next(frames *f, note *n)
{
    stream *s = &f->stream;
    uint64_t start = s->taken, length;
    if (!stream_hold(s, HEAD))
        return s->count == 0 && s->why == 0 ? FOUND_END : fault(f, start, 0);
    length = (uint64_t)s->octets[0] << 24 | (uint64_t)s->octets[1] << 16 | (uint64_t)s->octets[2] << 8 | s->octets[3];
    n->name = NULL;
    if (!take_frame(s, length, n))
        return fault(f, start, length);
    f->index++;
    return FOUND_ONE;
}
