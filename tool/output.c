/* output.c: standard output through a buffer, and complaints to standard error.
   A failed write is told at once and ends the command. */

#include <errno.h>
#include <stdarg.h>
#include <stdio.h>
#include <stdlib.h>
#include <string.h>
#include <unistd.h>

#include "tool.h"

static uint8_t held[65536];
static size_t count;

static void fail(int why)
{
    count = 0;
    complain("standard output", strerror(why));
    exit(STATUS_FAILED);
}

void out_flush(void)
{
    size_t done = 0;
    if (count > 0)
        progress_clear(STDOUT_FILENO);
    while (done < count) {
        ssize_t written = write(STDOUT_FILENO, held + done, count - done);
        if (written > 0)
            done += (size_t)written;
        else if (written == 0 || errno != EINTR)
            fail(written == 0 ? EIO : errno);
    }
    count = 0;
}

void out_close(void)
{
    out_flush();
    if (close(STDOUT_FILENO) != 0)
        fail(errno);
}

void out_octets(const void *octets, size_t n)
{
    const uint8_t *from = (const uint8_t *)octets;
    while (n > 0) {
        size_t part = n < sizeof held - count ? n : sizeof held - count;
        memcpy(held + count, from, part);
        count += part;
        from += part;
        n -= part;
        if (count == sizeof held)
            out_flush();
    }
}

void out_text(const char *text)
{
    out_octets(text, strlen(text));
}

/* For short lines: words and numbers. */
void out_format(const char *format, ...)
{
    char line[256];
    va_list values;
    va_start(values, format);
    vsnprintf(line, sizeof line, format, values);
    va_end(values);
    out_text(line);
}

void out_hexadecimal(const uint8_t *octets, size_t n)
{
    static const char digits[] = "0123456789ABCDEF";
    char shown[3] = { ' ', '0', '0' };
    size_t i;
    for (i = 0; i < n; i++) {
        shown[1] = digits[octets[i] >> 4];
        shown[2] = digits[octets[i] & 15];
        out_octets(shown, sizeof shown);
    }
}

const char *shown_name(const char *name)
{
    static char shown[1024];
    size_t i;
    for (i = 0; name[i] != '\0' && i < sizeof shown - 1; i++)
        shown[i] = (unsigned char)name[i] < 0x20 || name[i] == 0x7F ? '?' : name[i];
    shown[i] = '\0';
    return shown;
}

void out_name(const note *n, const char *after)
{
    if (!n->several)
        return;
    out_text(shown_name(n->name));
    out_text(after);
}

void out_refusal(ctext_answer a)
{
    out_format("refused %d at %zu: %s\n", a.number, a.place, ctext_r5_refusal_text(a.number));
}

int out_made(const note *n, ctext_answer a, const uint8_t *octets)
{
    if (a.number != CTEXT_ACCEPTED)
        return complain_refusal(n, a);
    out_name(n, ": ");
    if (n->several)
        out_format("octets %zu\n", a.count);
    out_octets(octets, a.count);
    if (n->several)
        out_text("\n");
    return STATUS_ACCEPTED;
}

void complain(const char *name, const char *what)
{
    out_flush();
    progress_clear(STDERR_FILENO);
    fprintf(stderr, "ctext: %s: %s\n", shown_name(name), what);
}

int complain_refusal(const note *n, ctext_answer a)
{
    char words[128];
    snprintf(words, sizeof words, "refused %d at %zu: %s", a.number, a.place,
             ctext_r5_refusal_text(a.number));
    complain(n->name, words);
    return STATUS_REFUSED;
}
