/* console.c: an X client that shows the notes in a property of a window.

   cc -std=c99 -o console console.c $(pkg-config --cflags --libs ctext x11)
   ./console WINDOW [PROPERTY]

   WINDOW is a number, as xwininfo shows it, or root; PROPERTY is WM_NAME if not
   given. Its type must be COMPOUND_TEXT. A property may hold several strings,
   with 00 between them: each is read by itself, and its units and runs are
   listed, or the refusal is told in words. Exit status: 0 all accepted, 1 some
   refused, 2 nothing to read. */

#include <X11/Xlib.h>
#include <stdio.h>
#include <stdlib.h>
#include <string.h>

#include "ctext.h"

#define MOST 1048576 /* octets of a property that this client takes */

/* ---- One string ---------------------------------------------------------- */

static void print_octets(const uint8_t *octets, size_t n)
{
    size_t i;
    for (i = 0; i < n; i++)
        printf(" %02X", octets[i]);
    printf("\n");
}

/* The direction in force after a unit is told where one is open. */
static void print_unit(const uint8_t *s, size_t n, ctext_unit unit)
{
    ctext_segment parts = ctext_segment_parts(s, n, unit);
    printf("  unit at %lu: %s", (unsigned long)unit.start, ctext_kind_text(unit.kind));
    if (unit.kind == CTEXT_KIND_CHARACTER)
        printf(", %s, code %X", ctext_set_text(unit.set), (unsigned)unit.code);
    if (unit.kind == CTEXT_KIND_SEGMENT)
        printf(" of %.*s, octets of its text %lu", (int)parts.name_length,
               (const char *)s + parts.name_start, (unsigned long)parts.text_length);
    if (unit.depth > 0)
        printf(", then %s at depth %d", ctext_direction_text(unit.direction), unit.depth);
    printf("\n");
}

/* A reader hands out the units one by one; no list is needed. */
static void list_units(const uint8_t *s, size_t n)
{
    ctext_step step;
    for (step = ctext_next(s, n, ctext_open()); step.given; step = ctext_next(s, n, step.reader))
        print_unit(s, n, step.unit);
}

/* A run is what a client draws at once: text in one set, for one font. */
static void list_runs(const uint8_t *s, size_t n)
{
    ctext_run_step step = ctext_next_run(s, n, ctext_open_runs());
    for (; step.run.answer.number == CTEXT_ACCEPTED; step = ctext_next_run(s, n, step.reader)) {
        ctext_run_bounds run = step.run;
        printf("  run at %lu: %s, font %s, %s:", (unsigned long)run.start, ctext_set_text(run.set),
               ctext_set_charset(run.set), ctext_direction_text(run.direction));
        print_octets(ctext_run_octets(s, run), run.end - run.start);
    }
}

/* Whether the string was accepted. Nothing of a refused one is shown. */
static int show_string(const uint8_t *s, size_t n)
{
    ctext_answer a = ctext_check(s, n);
    if (a.number != CTEXT_ACCEPTED) {
        printf("refused %d at %lu: %s\n", a.number, (unsigned long)a.place,
               ctext_refusal_text(a.number));
        return 0;
    }
    printf("accepted: octets %lu, units %lu\n", (unsigned long)n, (unsigned long)a.count);
    list_units(s, n);
    list_runs(s, n);
    return 1;
}

/* ---- A property ----------------------------------------------------------- */

/* The octets of the extended segment that stands at s, or 0 where there is none
   of a good shape. 1B 25 begins nothing else, and a reader at the start of a
   string has no mark before it, by which the segment could be refused. */
static size_t segment_length(const uint8_t *s, size_t n)
{
    ctext_step step;
    if (n < 2 || s[0] != 0x1B || s[1] != 0x25)
        return 0;
    step = ctext_next(s, n < CTEXT_MOST_OCTETS ? n : CTEXT_MOST_OCTETS, ctext_open());
    return step.given ? step.reader.place : 0;
}

/* Where the first string of the n octets at s ends: at the first 00 that is not
   in an extended segment, or with the property. Each segment is read by itself,
   so that it is passed whole also in a string that is refused, before it or for
   its length. */
static size_t string_end(const uint8_t *s, size_t n)
{
    size_t end = 0, length;
    while (end < n && s[end] != 0) {
        length = segment_length(s + end, n - end);
        end += length > 0 ? length : 1;
    }
    return end;
}

/* Whether all its strings were accepted. */
static int show_strings(const uint8_t *s, size_t n)
{
    size_t start = 0, end, k;
    int good = 1;
    for (k = 1; start <= n; k++) {
        end = start + string_end(s + start, n - start);
        printf("string %lu: ", (unsigned long)k);
        good &= show_string(s + start, end - start);
        start = end + 1;
    }
    return good;
}

/* The type of a property in words; it is freed with XFree. */
static char *type_name(Display *display, Atom type)
{
    return type == None ? NULL : XGetAtomName(display, type);
}

/* The property in one request, so that no other client changes it in between. */
static int show_property(Display *display, Window window, const char *name)
{
    Atom wanted = XInternAtom(display, "COMPOUND_TEXT", False), type = None;
    Atom property = XInternAtom(display, name, False);
    int format = 0, status = 2;
    unsigned long items = 0, after = 0;
    unsigned char *data = NULL;
    char *found;
    XGetWindowProperty(display, window, property, 0, MOST / 4, False, wanted, &type, &format, &items,
                       &after, &data);
    found = type_name(display, type);
    if (found == NULL)
        printf("the window has no property %s\n", name);
    else if (type != wanted || format != 8)
        printf("%s is of type %s, not COMPOUND_TEXT\n", name, found);
    else if (after > 0)
        printf("%s has more than %d octets\n", name, MOST);
    else
        status = show_strings(data, items) ? 0 : 1;
    if (found != NULL)
        XFree(found);
    if (data != NULL)
        XFree(data);
    return status;
}

int main(int argc, char **argv)
{
    Display *display;
    Window window;
    int status;
    if (argc < 2 || argc > 3) {
        fprintf(stderr, "usage: console WINDOW [PROPERTY]\n");
        return 2;
    }
    display = XOpenDisplay(NULL);
    if (display == NULL) {
        fprintf(stderr, "console: no X server\n");
        return 2;
    }
    window = strcmp(argv[1], "root") == 0 ? DefaultRootWindow(display) : strtoul(argv[1], NULL, 0);
    status = show_property(display, window, argc == 3 ? argv[2] : "WM_NAME");
    XCloseDisplay(display);
    return status;
}
