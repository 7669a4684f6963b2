/* input.c: a note from a file or standard input. */

#include <errno.h>
#include <fcntl.h>
#include <string.h>
#include <unistd.h>

#include "tool.h"

/* One octet more than a verb takes at most, so that a longer input is seen to be. */
static uint8_t input[CTEXT_MOST_FORM + 1];

/* Where octets that are dropped are read to, and how many at a time. */
static uint8_t *const behind = input + CTEXT_R5_MOST_OCTETS;
#define PART 65536

/* Reads to the end, or as many octets as there is room for; whether nothing failed. */
static int read_all(int file, uint8_t *octets, size_t room, size_t *length)
{
    *length = 0;
    while (*length < room) {
        ssize_t got = read(file, octets + *length, room - *length);
        if (got == 0)
            return 1;
        if (got > 0)
            *length += (size_t)got;
        else if (errno != EINTR)
            return 0;
    }
    return 1;
}

static int read_note(int file, size_t most, note *n)
{
    return read_all(file, input, most + 1, &n->length);
}

/* Reads the next octets behind those that are held, and drops them up to a 00, which
   is held. Whether nothing failed, and whether there may be more to drop. */
static int drop_part(int file, note *n, int *more)
{
    const uint8_t *end;
    size_t count;
    if (!read_all(file, behind, PART, &count))
        return 0;
    end = (const uint8_t *)memchr(behind, 0, count);
    n->dropped += end == NULL ? count : (size_t)(end - behind);
    if (end != NULL)
        input[n->length++] = 0;
    *more = end == NULL && count == PART;
    return 1;
}

static int read_ended(int file, size_t most, note *n)
{
    int good = read_note(file, most, n);
    int more = good && n->length > most && memchr(input, 0, n->length) == NULL;
    n->dropped = 0;
    while (good && more)
        good = drop_part(file, n, &more);
    return good;
}

static int is_standard(const char *file)
{
    return strcmp(file, "-") == 0;
}

const char *input_name(const char *file)
{
    return is_standard(file) ? "standard input" : file;
}

int input_open(const char *file)
{
    int opened = is_standard(file) ? STDIN_FILENO : open(file, O_RDONLY | O_CLOEXEC);
    if (opened < 0)
        complain(file, strerror(errno));
    return opened;
}

/* By the name: where standard input is closed, a file may have its number. */
void input_close(const char *file, int opened)
{
    if (!is_standard(file))
        close(opened);
}

/* read_note or read_ended: whether nothing failed. */
typedef int filling(int file, size_t most, note *n);

static int take(const char *file, filling *fill, size_t most, note *n)
{
    int opened = input_open(file), good;
    n->name = input_name(file);
    n->octets = input;
    if (opened < 0)
        return 0;
    good = fill(opened, most, n);
    if (!good)
        complain(n->name, strerror(errno));
    input_close(file, opened);
    return good;
}

int input_note(const char *file, size_t most, note *n)
{
    return take(file, read_note, most, n);
}

int input_ended(const char *file, note *n)
{
    return take(file, read_ended, CTEXT_MOST_OCTETS, n);
}
