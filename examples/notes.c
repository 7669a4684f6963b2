/* notes.c: reads notes in Compound Text, lists their units and runs, rewrites
   them in their shortest form, steps a reader over them, shows refusals, and puts
   a note into the string of an X11R5 console and the form of resource files, and
   back.

   cc -std=c99 -I include -o notes examples/notes.c -L crates/ctext/out -lctext */

#include <inttypes.h>
#include <stdio.h>
#include <stdlib.h>

#include "ctext.h"

static const char *const KINDS[] = {
    "character", "space", "tab", "newline",
    "left-to-right", "right-to-left", "revert", "segment"
};

static const char *const DIRECTIONS[] = { "none", "left-to-right", "right-to-left" };

static void print_octets(const uint8_t *octets, size_t n)
{
    size_t i;
    for (i = 0; i < n; i++)
        printf(" %02X", octets[i]);
    printf("\n");
}

static void print_answer(const char *what, ctext_answer a)
{
    printf("  %s: ", what);
    if (a.number == CTEXT_ACCEPTED)
        printf("accepted, place %zu, count %zu\n", a.place, a.count);
    else if (a.number == CTEXT_NO_ROOM)
        printf("refused %d at %zu, %zu needed: %s\n", a.number, a.place, a.count,
               ctext_r5_refusal_text(a.number));
    else
        printf("refused %d at %zu: %s\n", a.number, a.place, ctext_r5_refusal_text(a.number));
}

/* The direction in force after a unit is told where one is open. */
static void print_unit(size_t index, ctext_unit unit)
{
    printf("  unit %zu: %s", index, KINDS[unit.kind]);
    if (unit.kind == CTEXT_KIND_CHARACTER)
        printf(", set %d", unit.set);
    if (unit.kind == CTEXT_KIND_CHARACTER || unit.kind == CTEXT_KIND_SEGMENT)
        printf(", code %X", (unsigned)unit.code);
    printf(", octets %" PRIu32 " to %" PRIu32, unit.start, unit.start + unit.length);
    if (unit.depth > 0)
        printf(", then %s at depth %d", DIRECTIONS[unit.direction], unit.depth);
    printf("\n");
}

static void print_run(const uint8_t *note, size_t index, uint64_t run)
{
    printf("  run %zu: set %d, width %d, direction %s:", index, ctext_run_set(run),
           ctext_run_width(run), DIRECTIONS[ctext_run_direction(run)]);
    print_octets(note + ctext_run_start(run), ctext_run_end(run) - ctext_run_start(run));
}

/* The runs, as many at a time as the list has room for, until none is left. */
static void print_runs(const uint8_t *note, size_t n)
{
    uint64_t runs[2];
    ctext_runs_step step;
    size_t shown = 0, i;
    step.reader = ctext_open_runs();
    do {
        step = ctext_next_runs(note, n, step.reader, runs, 2);
        for (i = 0; i < step.answer.count; i++)
            print_run(note, shown++, runs[i]);
    } while (step.answer.count > 0);
}

/* The shortest form of the note, which is never longer than the note. */
static void print_shortest(const uint8_t *note, size_t n, const ctext_unit *units, size_t count)
{
    size_t room = CTEXT_WORK_ROOM(count);
    uint8_t *work = (uint8_t *)malloc(room);
    uint8_t *out = (uint8_t *)malloc(n + 1);
    if (work != NULL && out != NULL) {
        ctext_answer a = ctext_write(units, count, note, n, work, room, out, n);
        print_answer("write", a);
        printf("  shortest:");
        print_octets(out, a.count);
    }
    free(out);
    free(work);
}

/* The list is asked for twice: first how long it is, then the list itself. */
static void print_note(const uint8_t *note, size_t n)
{
    ctext_answer a = ctext_read(note, n, NULL, 0);
    size_t count = a.number == CTEXT_NO_ROOM ? a.count : 0;
    ctext_unit *units = (ctext_unit *)malloc((count + 1) * sizeof *units);
    size_t i;
    if (units == NULL)
        return;
    a = ctext_read(note, n, units, count);
    print_answer("read", a);
    if (a.number == CTEXT_ACCEPTED) {
        for (i = 0; i < a.count; i++)
            print_unit(i, units[i]);
        print_runs(note, n);
        print_shortest(note, n, units, count);
    }
    free(units);
}

/* A reader hands out the units one by one, also those of a refused note that
   stand before the offending element. Its end is told by given alone: beside a
   unit the answer is all 0, which would be taken for accepted. After a refusal the
   reader stands where the offending element starts, and the answer has the octet. */
static void print_steps(const uint8_t *note, size_t n)
{
    ctext_step step = ctext_next(note, n, ctext_open());
    size_t given = 0;
    while (step.given) {
        given++;
        step = ctext_next(note, n, step.reader);
    }
    printf("  steps: units given %zu, then", given);
    if (step.answer.number == CTEXT_ACCEPTED)
        printf(" the end\n");
    else
        printf(" refused %d at %zu, in the element from %zu on\n", step.answer.number, step.answer.place,
               step.reader.place);
}

static void show(const char *name, const uint8_t *note, size_t n)
{
    printf("%s:", name);
    print_octets(note, n);
    print_answer("check", ctext_check(note, n));
    print_note(note, n);
    print_steps(note, n);
}

/* A list made by hand, and what the writer answers where it does not fit. It does
   not look at direction and depth. */
static void show_lists(void)
{
    ctext_unit units[3] = {
        { CTEXT_KIND_CHARACTER, CTEXT_SET_JISX0208, 0x3021, 0, 0, 0, 0 },
        { CTEXT_KIND_SPACE, 0, 0, 0, 0, CTEXT_DIRECTION_RIGHT_TO_LEFT, 99 },
        { CTEXT_KIND_CHARACTER, CTEXT_SET_JISX0201_LEFT, 0x5C, 0, 0, 0, 0 }
    };
    uint8_t work[CTEXT_WORK_ROOM(3)];
    uint8_t out[16];
    ctext_answer a;
    printf("a list of three units:\n");
    print_answer("no work room", ctext_write(units, 3, NULL, 0, work, sizeof work - 1, out, 16));
    print_answer("no output", ctext_write(units, 3, NULL, 0, work, sizeof work, NULL, 0));
    a = ctext_write(units, 3, NULL, 0, work, sizeof work, out, sizeof out);
    print_answer("write", a);
    printf("  shortest:");
    print_octets(out, a.count);
    units[2].code = 0xDC; /* the top bit is no part of a code */
    print_answer("bad code", ctext_write(units, 3, NULL, 0, work, sizeof work, out, sizeof out));
    units[1].kind = CTEXT_KIND_REVERT;
    print_answer("no direction", ctext_write(units, 3, NULL, 0, work, sizeof work, out, sizeof out));
}

/* Readers made by hand: in the middle of a note, within a direction, and past its
   end. */
static void show_readers(void)
{
    static const uint8_t note[] = { 0x30, 0x21, 0x09 };
    ctext_reader reader = ctext_open();
    ctext_step step;
    printf("readers made by hand:");
    print_octets(note, sizeof note);
    reader.gl = CTEXT_SET_JISX0208;
    step = ctext_next(note, sizeof note, reader);
    print_unit(step.reader.count - 1, step.unit);
    printf("  the reader stands at %zu\n", step.reader.place);
    reader.levels = 1; /* right-to-left */
    reader.depth = 1;
    reader.marked = 1;
    print_unit(0, ctext_next(note, sizeof note, reader).unit);
    reader.place = sizeof note + 1;
    print_answer("past the end", ctext_next(note, sizeof note, reader).answer);
    reader = ctext_open();
    reader.gr = CTEXT_SET_ASCII;
    print_answer("ASCII in GR", ctext_next(note, sizeof note, reader).answer);
}

/* A note for an X11R5 console, whose strings end with 00, and out of that string
   again: it is read up to the 00, whatever stands behind it. */
static void show_r5(void)
{
    static const uint8_t note[] = { 0x1B, 0x24, 0x29, 0x42, 0xB0, 0xA1, 0x20, 0x41 };
    static const uint8_t marked[] = { 0x41, 0x9B, 0x32, 0x5D, 0x00 };
    ctext_unit units[3];
    uint8_t string[16] = { 0 };
    size_t count = ctext_read(note, sizeof note, units, 3).count, i;
    ctext_answer a = ctext_r5_write(units, count, note, sizeof note, string, sizeof string);
    printf("X11R5 console:");
    print_octets(note, sizeof note);
    print_answer("write", a);
    printf("  string:");
    print_octets(string, a.count);
    a = ctext_r5_read(string, sizeof string, units, 3);
    print_answer("read", a);
    for (i = 0; i < a.count; i++)
        print_unit(i, units[i]);
    print_answer("no 00", ctext_r5_read(string, a.place, units, 3));
    print_answer("mark", ctext_r5_read(marked, sizeof marked, units, 3));
    units[1].kind = CTEXT_KIND_REVERT;
    print_answer("mark in a list", ctext_r5_write(units, 3, NULL, 0, string, sizeof string));
}

/* The form of a note for a resource file, the note out of that form again, and a
   line of a file that was read with its newline. */
static void show_resource(void)
{
    static const uint8_t note[] = { 'u', 'p', ' ', '\\', 0x0A, 0x00, 0xE9 };
    static const uint8_t line[] = { 'u', 'p', 0x0A };
    uint8_t form[4 * sizeof note], plain[sizeof form];
    ctext_answer a;
    printf("resource form:");
    print_octets(note, sizeof note);
    a = ctext_resource_write(note, sizeof note, form, sizeof form);
    print_answer("write", a);
    printf("  form:");
    print_octets(form, a.count);
    a = ctext_resource_read(form, a.count, plain, sizeof plain);
    print_answer("read", a);
    printf("  note:");
    print_octets(plain, a.count);
    print_answer("newline", ctext_resource_read(line, sizeof line, plain, sizeof plain));
}

#define SHOW(name, note) show(name, note, sizeof note)

int main(void)
{
    static const uint8_t latin[] = { 0x48, 0x09, 0xE9 };
    static const uint8_t japanese[] = { 0x1B, 0x24, 0x28, 0x42, 0x30, 0x21, 0x1B, 0x28, 0x42, 0x41 };
    static const uint8_t korean[] = { 0x1B, 0x24, 0x29, 0x43, 0xC0, 0xB1, 0xC3, 0xCA };
    static const uint8_t leap[] = {
        0x6C, 0x65, 0x61, 0x70, 0x20, 0x73, 0x65, 0x63, 0x6F, 0x6E, 0x64, 0x20,
        0x65, 0x6E, 0x74, 0x65, 0x72, 0x65, 0x64
    };
    static const uint8_t hebrew[] = {
        0x9B, 0x32, 0x5D, 0x1B, 0x2D, 0x48, 0xF9, 0xEC, 0x20, 0x9B, 0x31, 0x5D, 0x41, 0x9B, 0x5D, 0xE9, 0x0A
    };
    static const uint8_t segment[] = { 0x1B, 0x25, 0x2F, 0x31, 0x80, 0x84, 0x61, 0x62, 0x02, 0xFF };
    static const uint8_t cut[] = { 0x1B, 0x28 };
    static const uint8_t old_form[] = { 0x41, 0x1B, 0x24, 0x42, 0x30, 0x21 };
    static const uint8_t space[] = { 0x1B, 0x24, 0x28, 0x42, 0x20 };
    static const uint8_t late_mark[] = { 0x41, 0x9B, 0x31, 0x5D };
    static const uint8_t directed[] = { 0x9B, 0x32, 0x5D, 0x1B, 0x25, 0x2F, 0x31, 0x80, 0x84, 0x61, 0x62, 0x02, 0xFF };
    static const uint8_t outside[] = {
        0x9B, 0x32, 0x5D, 0x9B, 0x5D, 0x1B, 0x25, 0x2F, 0x31, 0x80, 0x84, 0x61, 0x62, 0x02, 0xFF
    };
    show("empty", NULL, 0);
    SHOW("Latin", latin);
    SHOW("Japanese", japanese);
    SHOW("Korean", korean);
    SHOW("after it, leap second entered", leap);
    SHOW("Hebrew", hebrew);
    SHOW("extended segment", segment);
    SHOW("cut", cut);
    SHOW("old form", old_form);
    SHOW("space under two octets", space);
    SHOW("mark after text", late_mark);
    SHOW("extended segment within a direction", directed);
    SHOW("extended segment outside all directions", outside);
    show_lists();
    show_readers();
    show_r5();
    show_resource();
    return 0;
}
