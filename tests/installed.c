/* installed.c: a program, C and C++, that knows the installed header alone: what
   tests/c does not call, or not from C++, the names for people, the table of sets,
   the archive reader, the directions of units, strings for X11R5, the parts of a
   segment, and the version. Says what is wrong; the exit status is 0 where nothing is. */

#include <ctext.h>
#include <stdio.h>
#include <string.h>

static int failures;

static void same(const char *what, const char *given, const char *wanted)
{
    if (given != NULL && strcmp(given, wanted) == 0)
        return;
    printf("installed: %s is '%s', not '%s'\n", what, given == NULL ? "null" : given, wanted);
    failures++;
}

static void parts_are(const char *what, ctext_segment given, unsigned name_start,
                      unsigned name_length, unsigned text_start, unsigned text_length)
{
    if (given.name_start == name_start && given.name_length == name_length
        && given.text_start == text_start && given.text_length == text_length)
        return;
    printf("installed: the parts of %s\n", what);
    failures++;
}

static void try_names(void)
{
    same("a kind", ctext_kind_text(CTEXT_KIND_CHARACTER), "character");
    same("the last kind", ctext_kind_text(CTEXT_KIND_SEGMENT), "extended segment");
    same("no kind", ctext_kind_text(8), "no kind");
    same("a set", ctext_set_text(CTEXT_SET_ISO8859_6_RIGHT), "ISO 8859-6 right");
    same("the last set", ctext_set_text(CTEXT_SET_KSC5601), "KS C5601");
    same("no set", ctext_set_text(15), "no set");
    same("a charset", ctext_set_charset(CTEXT_SET_ISO8859_7_RIGHT), "ISO8859-7");
    same("the charset of ASCII", ctext_set_charset(CTEXT_SET_ASCII), "ISO8859-1");
    same("the last charset", ctext_set_charset(CTEXT_SET_KSC5601), "KSC5601.1987-0");
    same("no charset", ctext_set_charset(255), "no set");
    same("a direction", ctext_direction_text(2), "right-to-left");
    same("none", ctext_direction_text(0), "no direction");
    same("not a direction", ctext_direction_text(3), "not a direction");
    same("a refusal", ctext_refusal_text(CTEXT_CUT), "end inside an element");
    same("the last refusal", ctext_refusal_text(CTEXT_BAD_FORM),
         "bad escape, raw newline or raw 00 in a resource form");
    same("no refusal", ctext_refusal_text(14), "no number of refusal");
    same("a refusal of X11R5", ctext_r5_refusal_text(CTEXT_NOT_ENDED), "no 00 ends the string for X11R5");
    same("the last refusal of X11R5", ctext_r5_refusal_text(CTEXT_NOT_IN_X11R5),
         "direction mark or extended segment, which X11R5 does not have");
    same("a refusal of both", ctext_r5_refusal_text(CTEXT_CUT), "end inside an element");
    same("no refusal of X11R5", ctext_r5_refusal_text(16), "no number of refusal");
    same("the version", ctext_version(), CTEXT_VERSION);
}

static void try_sets(void)
{
    ctext_row row = ctext_set_row(CTEXT_SET_JISX0201_RIGHT);
    if (row.form != CTEXT_FORM_94 || row.final_octet != 0x49 || row.gl != 0 || row.gr != 1
        || row.octets != 1) {
        printf("installed: the row of JIS X0201 right\n");
        failures++;
    }
    if (ctext_set_of(row.form, CTEXT_GR, row.final_octet) != CTEXT_SET_JISX0201_RIGHT) {
        printf("installed: the set that 1B 29 49 names\n");
        failures++;
    }
}

static void try_archive(void)
{
    static const uint8_t note[] = { 0x1B, 0x24, 0x28, 0x42, 0x30, 0x21 };
    ctext_unit unit;
    ctext_answer check = ctext_archive_check(note, sizeof note - 1);
    ctext_answer read = ctext_archive_read(note, sizeof note, &unit, 1);
    if (check.number != CTEXT_CUT || check.place != 5) {
        printf("installed: a cut note by the archive reader\n");
        failures++;
    }
    if (read.number != CTEXT_ACCEPTED || read.count != 1 || unit.set != CTEXT_SET_JISX0208 || unit.start != 4) {
        printf("installed: the note by the archive reader\n");
        failures++;
    }
}

static void directions_are(const char *what, const ctext_unit *units)
{
    static const unsigned directions[] = { 1, 2, 2, 1, 0 }, depths[] = { 1, 2, 2, 1, 0 };
    size_t i;
    for (i = 0; i < 5; i++) {
        if (units[i].direction == directions[i] && units[i].depth == depths[i])
            continue;
        printf("installed: the direction or the depth of unit %lu by %s\n", (unsigned long)i, what);
        failures++;
    }
}

/* By both lists and by steps; and the writer does not look at them. */
static void try_directions(void)
{
    static const uint8_t note[] = { 0x9B, 0x31, 0x5D, 0x9B, 0x32, 0x5D, 'A', 0x9B, 0x5D, 0x9B, 0x5D };
    static uint8_t work[CTEXT_WORK_ROOM(5)];
    uint8_t out[sizeof note];
    ctext_unit units[5];
    ctext_step step = ctext_next(note, sizeof note, ctext_open());
    size_t i;
    ctext_read(note, sizeof note, units, 5);
    directions_are("ctext_read", units);
    ctext_archive_read(note, sizeof note, units, 5);
    directions_are("ctext_archive_read", units);
    for (i = 0; i < 5; i++) {
        units[i] = step.unit;
        step = ctext_next(note, sizeof note, step.reader);
    }
    directions_are("ctext_next", units);
    for (i = 0; i < 5; i++)
        units[i].direction = units[i].depth = UINT16_MAX;
    if (ctext_write(units, 5, NULL, 0, work, sizeof work, out, sizeof out).count != sizeof note
        || memcmp(out, note, sizeof note) != 0) {
        printf("installed: the note written, whatever its directions\n");
        failures++;
    }
}

/* A character for X11R5 and back, with octets behind the 00. */
static void try_r5(void)
{
    static const uint8_t wanted[] = { 0x1B, 0x24, 0x28, 0x42, 0x30, 0x21, 0x00 };
    ctext_unit unit = { CTEXT_KIND_CHARACTER, CTEXT_SET_JISX0208, 0x3021, 0, 0, 0, 0 }, again;
    uint8_t out[sizeof wanted + 1] = { 0 };
    ctext_answer written = ctext_r5_write(&unit, 1, NULL, 0, out, sizeof wanted);
    ctext_answer read = ctext_r5_read(out, sizeof out, &again, 1);
    if (written.count != sizeof wanted || memcmp(out, wanted, sizeof wanted) != 0) {
        printf("installed: a character for X11R5\n");
        failures++;
    }
    if (read.number != CTEXT_ACCEPTED || read.place != sizeof wanted - 1 || again.set != unit.set || again.code != unit.code) {
        printf("installed: the character of an X11R5 string\n");
        failures++;
    }
}

static void try_parts(void)
{
    static const uint8_t note[] = { 'A', 0x1B, 0x25, 0x2F, 0x31, 0x80, 0x84, 'a', 'b', 0x02, 0xFF };
    ctext_unit units[2];
    ctext_answer a = ctext_read(note, sizeof note, units, 2);
    if (a.number != CTEXT_ACCEPTED || a.count != 2) {
        printf("installed: the note is not read\n");
        failures++;
        return;
    }
    parts_are("a segment", ctext_segment_parts(note, sizeof note, units[1]), 7, 2, 10, 1);
    parts_are("a character", ctext_segment_parts(note, sizeof note, units[0]), 0, 0, 0, 0);
    parts_are("a cut one", ctext_segment_parts(note, sizeof note - 1, units[1]), 0, 0, 0, 0);
    units[1].length = 3;
    parts_are("one without text", ctext_segment_parts(note, sizeof note, units[1]), 7, 2, 10, 0);
    units[1].length = 2;
    parts_are("one without 02", ctext_segment_parts(note, sizeof note, units[1]), 0, 0, 0, 0);
    units[1].start = UINT32_MAX;
    parts_are("one elsewhere", ctext_segment_parts(note, sizeof note, units[1]), 0, 0, 0, 0);
    parts_are("nothing", ctext_segment_parts(NULL, 0, units[0]), 0, 0, 0, 0);
}

int main(void)
{
    try_names();
    try_sets();
    try_archive();
    try_directions();
    try_r5();
    try_parts();
    return failures != 0;
}
