/* archive.c: many notes read again, as a job of each night does: a line for each
   that is refused, and a count. */

#include <string.h>
#include <unistd.h>

#include "tool.h"

/* What became of the notes so far. */
typedef struct tally {
    size_t accepted;
    size_t refused;
    size_t unread;
} tally;

/* The line of a refused note is written before the next note is read. One of a
   framed file has no name, but a number. */
static void print_refused(const note *n, size_t index, ctext_answer a)
{
    if (n->name == NULL)
        out_format("note %zu", index);
    else
        out_text(shown_name(n->name));
    out_text(": ");
    out_refusal(a);
    out_flush();
}

/* A note, or none where it could not be read. */
static void count_note(tally *t, const note *n)
{
    size_t index = t->accepted + t->refused + t->unread;
    ctext_answer a;
    if (n == NULL)
        t->unread++;
    else if ((a = ctext_archive_check(n->octets, n->length)).number == CTEXT_ACCEPTED)
        t->accepted++;
    else {
        t->refused++;
        print_refused(n, index, a);
    }
    progress(index + 1, t->refused);
}

static void count_file(tally *t, const char *file)
{
    note n;
    count_note(t, input_note(file, CTEXT_MOST_OCTETS, &n) ? &n : NULL);
}

static void count_files(tally *t, char *const *files, int count)
{
    int i;
    for (i = 0; i < count; i++)
        count_file(t, files[i]);
}

/* The files whose names stand on standard input. */
static void count_named(tally *t, char end)
{
    names l;
    const char *name;
    int found;
    names_open(&l, end);
    while ((found = names_next(&l, &name)) != FOUND_END)
        if (found == FOUND_ONE)
            count_file(t, name);
        else
            count_note(t, NULL);
}

static void count_framed(tally *t, const char *file)
{
    frames f;
    note n;
    int found;
    if (!frames_open(&f, file)) {
        count_note(t, NULL);
        return;
    }
    while ((found = frames_next(&f, &n)) != FOUND_END)
        count_note(t, found == FOUND_ONE ? &n : NULL);
    frames_close(&f);
}

static int print_count(const tally *t)
{
    progress_clear(STDERR_FILENO);
    out_format("notes %zu, accepted %zu, refused %zu, unread %zu\n", t->accepted + t->refused + t->unread, t->accepted,
               t->refused, t->unread);
    if (t->unread > 0)
        return STATUS_FAILED;
    return t->refused > 0 ? STATUS_REFUSED : STATUS_ACCEPTED;
}

int archive(const char *option, char *const *files, int count)
{
    int null = option != NULL && strcmp(option, "--null") == 0;
    int framed = option != NULL && !null;
    tally t = { 0, 0, 0 };
    if (null && count > 0)
        return wrong_use(files[0], "--null takes no file");
    if (framed && count > 1)
        return wrong_use(files[1], "--framed takes one file");
    progress_begin();
    if (framed)
        count_framed(&t, count == 0 ? "-" : files[0]);
    else if (count == 0)
        count_named(&t, null ? '\0' : '\n');
    else
        count_files(&t, files, count);
    return print_count(&t);
}
