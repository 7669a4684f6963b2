/* dump.c: the octets of a note around a place, in hexadecimal and as ASCII. */

#include <stdlib.h>
#include <unistd.h>

#include "tool.h"

#define LINE 16 /* octets in a line */

/* What stands before a cell: the place is within brackets, and `>' is before the
   start of its element. */
static const char *mark_before(size_t i, size_t element, size_t place)
{
    if (i == place)
        return "[";
    if (i == element)
        return ">";
    return i == place + 1 && i % LINE != 0 ? "]" : " ";
}

/* The cells of a line; a place at the end of the note has a cell of its own. */
static void print_cells(const note *n, size_t start, size_t element, size_t place)
{
    int coloured = isatty(STDOUT_FILENO) && getenv("NO_COLOR") == NULL;
    size_t i;
    for (i = start; i < start + LINE; i++) {
        int marked = i == place;
        out_text(mark_before(i, element, place));
        out_text(marked && coloured ? "\033[1;31m" : "");
        if (i < n->length)
            out_format("%02X", n->octets[i]);
        else
            out_text(marked ? "--" : "  ");
        out_text(marked && coloured ? "\033[0m" : "");
    }
    out_text(start + LINE == place + 1 ? "]" : " ");
}

static void print_line(const note *n, size_t start, size_t element, size_t place)
{
    char shown[LINE + 1];
    size_t i;
    for (i = 0; i < LINE && start + i < n->length; i++) {
        uint8_t octet = n->octets[start + i];
        shown[i] = octet < 0x20 || octet > 0x7E ? '.' : (char)octet;
    }
    shown[i] = '\0';
    out_format("%5zu ", start);
    print_cells(n, start, element, place);
    out_format(" %s\n", shown);
}

/* Shown are the line that has the element's start, the one that has the place, and
   those before and after it. */
static int is_shown(size_t line, size_t element, size_t place)
{
    return line == element / LINE || (line + 1 >= place / LINE && line <= place / LINE + 1);
}

void out_dump(const note *n, size_t element, size_t place)
{
    size_t end = place < n->length ? n->length : place + 1;
    size_t line;
    int left_out = 0;
    for (line = 0; line * LINE < end; line++) {
        int shown = is_shown(line, element, place);
        if (shown)
            print_line(n, line * LINE, element, place);
        else if (!left_out)
            out_text("   ..\n");
        left_out = !shown;
    }
}
