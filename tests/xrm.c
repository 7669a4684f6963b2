/* xrm.c: notes in resource files, read by Xrm, libX11's resource manager.

     xrm NOTES FILE LOCALE..

   NOTES is a corpus (bench/corpus.h) of notes, to which this test adds its own.
   Each note becomes a line of FILE, "noteN.text: " and its form by
   ctext_resource_write. XrmGetFileDatabase reads the file in each of the
   locales, and the value by XrmGetResource must be the note, octet by octet;
   so must what ctext_resource_read makes of the form.

   Two kinds of notes are told apart by what they hold, before they are read:
   - one that begins with a space or tab: Xrm takes the blanks after the colon
     for no part of the value. The value must be the note less these, and the
     whole note where a backslash stands before the form;
   - one with an octet 80-FF, in a locale with characters of several octets that
     is not UTF-8: Xrm takes the value apart into characters of the locale. How
     many values are other octets is counted. Where the file is read in the C
     locale, with a backslash before a leading blank, each must be the whole note.
   Anything else is a failure.

   Last, what XrmPutFileDatabase writes for a note of one octet: either our form,
   or another escape, which ctext_resource_read must refuse. */

#include <X11/Xlib.h>
#include <X11/Xresource.h>
#include <langinfo.h>
#include <limits.h>
#include <locale.h>
#include <stdio.h>
#include <stdlib.h>
#include <string.h>
#include <unistd.h>

#include "../bench/corpus.h"
#include "ctext.h"

/* The test gives up after so many seconds. */
#define PATIENCE 120

/* Random notes: so many short ones of special octets, and of any octets. */
#define SPECIAL 20000
#define ANY 2000

/* Notes in a file: Xrm finds one of few names faster. */
#define BATCH 1000

/* Failures that are shown. */
#define SHOWN 10

enum kind { PLAIN, BLANKS, CHARACTERS };

typedef struct counts {
    unsigned long notes[CHARACTERS + 1]; /* by their kind */
    unsigned long changed;               /* of the last kind, those with another value */
} counts;

typedef struct batch {
    const struct note *notes;
    size_t count;
    enum kind kinds[BATCH];
} batch;

static struct note *notes;
static size_t note_count;
static const char *file;
static unsigned failures;

static void fail(const char *what, const struct note *n)
{
    size_t i;
    if (failures++ >= SHOWN)
        return;
    printf("FAILED in %s: %s:", setlocale(LC_CTYPE, NULL), what);
    for (i = 0; i < n->length && i < 40; i++)
        printf(" %02X", n->octets[i]);
    printf("\n");
}

static void need(int holds, const char *what)
{
    if (holds)
        return;
    printf("tests/x11: FAILED: %s: %s\n", file, what);
    exit(2);
}

/* ---- The notes ---------------------------------------------------------- */

static void add(const uint8_t *octets, size_t n)
{
    uint8_t *own = (uint8_t *)malloc(n + 1);
    notes = (struct note *)realloc(notes, (note_count + 1) * sizeof *notes);
    need(notes != NULL && own != NULL, "no memory");
    memcpy(own, octets, n);
    notes[note_count].octets = own;
    notes[note_count++].length = n;
}

static void add_corpus(const char *path)
{
    struct corpus c = corpus_load(path);
    size_t i;
    need(c.count > 0, "no notes");
    for (i = 0; i < c.count; i++)
        add(c.notes[i].octets, c.notes[i].length);
}

/* Every string of one octet and of two. */
static void add_short(void)
{
    uint8_t two[2];
    unsigned i;
    for (i = 0; i < 0x10000; i++) {
        two[0] = (uint8_t)(i >> 8);
        two[1] = (uint8_t)i;
        add(two, 2);
        if (i < 0x100)
            add(&two[1], 1);
    }
}

static uint32_t below(uint32_t n)
{
    static uint64_t state = 1;
    state = state * 6364136223846793005u + 1442695040888963407u;
    return (uint32_t)(state >> 33) % n;
}

static void add_random(size_t most, const uint8_t *alphabet, size_t size)
{
    static uint8_t octets[CTEXT_MOST_OCTETS];
    size_t n = below((uint32_t)most + 1), i;
    for (i = 0; i < n; i++)
        octets[i] = alphabet != NULL ? alphabet[below((uint32_t)size)] : (uint8_t)below(256);
    add(octets, n);
}

/* The longest, of one octet each and of any. */
static void add_long(void)
{
    static const uint8_t repeated[] = { 0x00, 0x0A, 0x5C, 0x41, 0x1B, 0xE9 };
    static uint8_t octets[CTEXT_MOST_OCTETS];
    size_t i;
    for (i = 0; i < sizeof repeated; i++) {
        memset(octets, repeated[i], sizeof octets);
        add(octets, sizeof octets);
    }
    for (i = 0; i < sizeof octets; i++)
        octets[i] = (uint8_t)below(256);
    add(octets, sizeof octets);
}

static void make_notes(const char *path)
{
    /* What a form is made of and what means something in a file; 80 and up last. */
    static const uint8_t special[] = "\\\\\\\\nnn\n\n\n\0\0\0\0"
                                     "000001234567 \t\r\v\x1B!#:*.?\"A\x7F\x80\xA0\xC3\xE9\xFF";
    size_t i;
    add_corpus(path);
    add_short();
    for (i = 0; i < SPECIAL; i++)
        add_random(24, special, sizeof special - 1 - (i % 2 == 0 ? 5 : 0));
    for (i = 0; i < ANY; i++)
        add_random(600, NULL, 0);
    add_long();
}

/* ---- Files -------------------------------------------------------------- */

static int is_blank(uint8_t octet)
{
    return octet == ' ' || octet == '\t';
}

static size_t blanks_before(const struct note *n)
{
    size_t i = 0;
    while (i < n->length && is_blank(n->octets[i]))
        i++;
    return i;
}

static int has_high(const struct note *n)
{
    size_t i = 0;
    while (i < n->length && n->octets[i] < 0x80)
        i++;
    return i < n->length;
}

static enum kind kind_of(const struct note *n, int by_characters)
{
    if (by_characters && has_high(n))
        return CHARACTERS;
    return blanks_before(n) > 0 ? BLANKS : PLAIN;
}

/* The form of a note, in a room that is used again; it reads as the note. */
static const uint8_t *form_of(const struct note *n, size_t *length)
{
    static uint8_t form[CTEXT_MOST_FORM], plain[CTEXT_MOST_OCTETS];
    ctext_answer w = ctext_resource_write(n->octets, n->length, form, sizeof form);
    ctext_answer r = ctext_resource_read(form, w.count, plain, sizeof plain);
    if (w.number != CTEXT_ACCEPTED || w.place != n->length)
        fail("it is not written", n);
    else if (r.number != CTEXT_ACCEPTED || r.count != n->length
             || memcmp(plain, n->octets, n->length) != 0)
        fail("the form does not read as the note", n);
    *length = w.count;
    return form;
}

/* The notes of a kind in a file, as Xrm reads it; where blanks are to be kept,
   with a backslash before a leading one. */
static XrmDatabase database(const batch *b, enum kind kind, int keep)
{
    FILE *f = fopen(file, "wb");
    XrmDatabase db;
    size_t i, n;
    need(f != NULL, "cannot be written");
    for (i = 0; i < b->count; i++) {
        const uint8_t *form;
        if (b->kinds[i] != kind)
            continue;
        form = form_of(&b->notes[i], &n);
        fprintf(f, "note%lu.text: %s", (unsigned long)i,
                keep && blanks_before(&b->notes[i]) > 0 ? "\\" : "");
        need(fwrite(form, 1, n, f) == n && putc('\n', f) != EOF, "cannot be written");
    }
    need(fclose(f) == 0, "cannot be written");
    /* libX11 asks the C library's mbtowc, which remembers half a character. */
    (void)!mbtowc(NULL, NULL, 0);
    db = XrmGetFileDatabase(file);
    need(db != NULL, "Xrm does not read it");
    return db;
}

/* Whether the value of note i is the note less its first octets. Xrm counts the
   00 that it puts after a value. */
static int is_value(XrmDatabase db, size_t i, const struct note *n, size_t less)
{
    size_t length = n->length - less;
    char name[32], *type;
    XrmValue value;
    snprintf(name, sizeof name, "note%lu.text", (unsigned long)i);
    return XrmGetResource(db, name, name, &type, &value) && value.size == length + 1
        && memcmp(value.addr, n->octets + less, length) == 0 && value.addr[length] == '\0';
}

/* ---- Locales ------------------------------------------------------------ */

/* The forms as they are, in the locale that is set. */
static void read_forms(const batch *b, enum kind kind, counts *c)
{
    XrmDatabase db = database(b, kind, 0);
    size_t i;
    int right;
    for (i = 0; i < b->count; i++) {
        const struct note *n = &b->notes[i];
        size_t less = kind == BLANKS ? blanks_before(n) : 0;
        if (b->kinds[i] != kind)
            continue;
        right = is_value(db, i, n, less);
        if (right || kind == CHARACTERS)
            c->notes[kind]++;
        else
            fail(kind == BLANKS ? "not the note less its leading blanks" : "another value", n);
        c->changed += !right && kind == CHARACTERS;
    }
    XrmDestroyDatabase(db);
}

/* Whether Xrm takes a value apart into characters of more than one octet. In
   UTF-8 these hold none of ASCII, and what is no character stays as it is. */
static int in_locale(const char *locale)
{
    need(setlocale(LC_CTYPE, locale) != NULL && XSupportsLocale(), locale);
    return MB_CUR_MAX > 1 && strcmp(nl_langinfo(CODESET), "UTF-8") != 0;
}

/* What is to be done for the notes of a kind makes each of them whole: the
   backslash, and to read the file in this locale before that of the client. */
static void read_whole(const batch *b, enum kind kind, const char *file_locale, const char *locale)
{
    XrmDatabase db;
    size_t i;
    in_locale(file_locale);
    db = database(b, kind, 1);
    in_locale(locale);
    for (i = 0; i < b->count; i++)
        if (b->kinds[i] == kind && !is_value(db, i, &b->notes[i], 0))
            fail("not the whole note, with a backslash before it", &b->notes[i]);
    XrmDestroyDatabase(db);
}

static void try_batch(batch *b, const char *locale, counts *c)
{
    int by_characters = in_locale(locale);
    size_t i;
    for (i = 0; i < b->count; i++)
        b->kinds[i] = kind_of(&b->notes[i], by_characters);
    read_forms(b, PLAIN, c);
    read_forms(b, BLANKS, c);
    read_whole(b, BLANKS, locale, locale);
    if (!by_characters)
        return;
    read_forms(b, CHARACTERS, c);
    read_whole(b, CHARACTERS, "C", locale);
}

static void show(const char *locale, const counts *c)
{
    printf("%-16s %8lu %8lu %8lu %8lu\n", locale, c->notes[PLAIN], c->notes[BLANKS],
           c->notes[CHARACTERS], c->changed);
}

static void try_locale(const char *locale, counts *sum)
{
    static batch b;
    static const counts none;
    counts c = none;
    size_t at;
    int kind;
    for (at = 0; at < note_count; at += b.count) {
        b.notes = notes + at;
        b.count = note_count - at < BATCH ? note_count - at : BATCH;
        try_batch(&b, locale, &c);
    }
    show(locale, &c);
    for (kind = PLAIN; kind <= CHARACTERS; kind++)
        sum->notes[kind] += c.notes[kind];
    sum->changed += c.changed;
}

/* ---- What Xrm writes ---------------------------------------------------- */

/* The value in the file that XrmPutFileDatabase writes for a note of one octet. */
static size_t written_by_xrm(uint8_t octet, uint8_t form[64])
{
    static const char head[] = "note.text:\t";
    const size_t before = sizeof head - 1;
    char own[2] = { 0, 0 }, line[64];
    XrmDatabase db = NULL;
    XrmValue value;
    FILE *f;
    size_t n;
    own[0] = (char)octet;
    value.addr = own;
    value.size = 2;
    XrmPutResource(&db, "note.text", "String", &value);
    XrmPutFileDatabase(db, file);
    XrmDestroyDatabase(db);
    f = fopen(file, "rb");
    need(f != NULL, "cannot be read");
    n = fread(line, 1, sizeof line, f);
    fclose(f);
    need(n > before && n < sizeof line && memcmp(line, head, before) == 0 && line[n - 1] == '\n',
         "not a line of Xrm's");
    memcpy(form, line + before, n - before - 1);
    return n - before - 1;
}

/* How many of the 256 notes of one octet Xrm writes in our form. */
static unsigned own_forms(void)
{
    unsigned i, found = 0;
    for (i = 0; i < 0x100; i++) {
        uint8_t octet = (uint8_t)i, form[64], plain[64];
        struct note n = { NULL, 1 };
        size_t length = written_by_xrm(octet, form);
        ctext_answer a = ctext_resource_read(form, length, plain, sizeof plain);
        /* libX11 compares a char, which may be signed, with a space. */
        int ours = i == 0x00 || i == 0x0A || (i > 0x20 && i < 0x7F)
            || (i >= 0xA0 && CHAR_MIN == 0);
        n.octets = &octet;
        if (ours && a.number == CTEXT_ACCEPTED && a.count == 1 && plain[0] == octet)
            found++;
        else if (ours || a.number != CTEXT_BAD_FORM || a.place != 0)
            fail("XrmPutFileDatabase writes it otherwise", &n);
    }
    return found;
}

int main(int count, char **words)
{
    static counts sum;
    int i;
    if (count < 4)
        return 2;
    alarm(PATIENCE);
    file = words[2];
    XrmInitialize();
    make_notes(words[1]);
    printf("Notes in resource files, read by Xrm:\n");
    printf("%-16s %8s %8s %8s %8s\n", "locale", "same", "blanks", "80-FF", "changed");
    for (i = 3; i < count; i++)
        try_locale(words[i], &sum);
    printf("Of the 256 notes of one octet XrmPutFileDatabase writes %u in our form.\n",
           own_forms());
    printf("tests/x11: %lu notes in resource files, in %d locales: %lu the same octets, %lu less "
           "their leading blanks, %lu with 80-FF taken for characters (%lu of these changed), "
           "%u failures\n",
           (unsigned long)note_count, count - 3, sum.notes[PLAIN], sum.notes[BLANKS],
           sum.notes[CHARACTERS], sum.changed, failures);
    return failures != 0;
}
