/* x11.c: notes as COMPOUND_TEXT properties of a real X server.

     x11 NOTES

   One connection writes a note as a property, by Xlib's own converter. Another
   reads the property, reads its octets with ctext_check and ctext_read, rewrites
   them with ctext_write and sets the property again. The first then has Xlib
   convert it back, and the text must be the same.

   What a list of units says as text is also worked out here, by the C library's
   iconv from each unit's set and code. So a difference can be laid at the right
   door: where that text is right and Xlib's is not, libX11 has misread an
   accepted string. That is said and counted apart, and so is a string that
   libX11 writes and the rules refuse. Anything else is a failure.

   Each note that is accepted is then written by ctext_r5_write, as an X11R5 console
   has it, and put as a property with the 00 that ends it. Xlib must read the same
   text of that, and ctext_r5_read the same units.

   The octets of the notes, as sent and as rewritten, are left in NOTES, a corpus
   (bench/corpus.h). */

#include <X11/Xatom.h>
#include <X11/Xlib.h>
#include <X11/Xlocale.h>
#include <X11/Xutil.h>
#include <iconv.h>
#include <langinfo.h>
#include <stdio.h>
#include <stdlib.h>
#include <string.h>
#include <strings.h>
#include <unistd.h>

#include "ctext.h"

#define MOST 4096 /* octets of a note or a text in this test */

/* The test gives up after so many seconds. */
#define PATIENCE 120

static FILE *corpus;
static Display *writer, *console;
static Window window;
static Atom compound_text, property;

static unsigned notes, round_trips, refused, misread, failures;
static unsigned r5_notes, r5_same, r5_refused, r5_misread;

typedef struct string {
    uint8_t octets[MOST];
    size_t length;
} string;

typedef struct list {
    ctext_unit units[MOST];
    size_t count;
} list;

/* ---- Text of units ------------------------------------------------------ */

/* The names by which iconv knows the sets. */
static const char *const CHARSETS[] = {
    "ASCII", "EUC-JP", "ASCII", "ISO-8859-1", "ISO-8859-2", "ISO-8859-3",
    "ISO-8859-4", "ISO-8859-7", "ISO-8859-6", "ISO-8859-8", "ISO-8859-5",
    "ISO-8859-9", "EUC-CN", "EUC-JP", "EUC-KR"
};

/* Appends the octets, converted, to the text; whether that could be done. */
static int convert(const char *to, const char *from, const void *octets, size_t n, char *text)
{
    iconv_t cd = iconv_open(to, from);
    char *in = (char *)octets, *out = text + strlen(text);
    size_t room = MOST - 1 - strlen(text), done;
    if (cd == (iconv_t)-1)
        return 0;
    done = iconv(cd, &in, &n, &out, &room);
    iconv_close(cd);
    *out = '\0';
    return done != (size_t)-1 && n == 0;
}

static int append_character(ctext_unit unit, char *text)
{
    unsigned high = unit.code >> 8, low = unit.code & 0x7Fu;
    uint8_t octets[2];
    size_t n = 0;
    /* JIS X0201 left is ASCII but for two characters. */
    if (unit.set == CTEXT_SET_JISX0201_LEFT && (low == 0x5C || low == 0x7E))
        return strcat(text, low == 0x5C ? "¥" : "‾") != NULL;
    if (unit.set >= CTEXT_SET_GB2312)
        octets[n++] = (uint8_t)(high | 0x80);
    else if (unit.set == CTEXT_SET_JISX0201_RIGHT)
        octets[n++] = 0x8E;
    if (unit.set == CTEXT_SET_ASCII || unit.set == CTEXT_SET_JISX0201_LEFT)
        octets[n++] = (uint8_t)low;
    else
        octets[n++] = (uint8_t)(low | 0x80);
    return convert("UTF-8", CHARSETS[unit.set], octets, n, text);
}

/* The text of an extended segment whose name iconv knows; "big5-0" is BIG5. */
static int append_segment(ctext_unit unit, const uint8_t *segments, char *text)
{
    const uint8_t *octets = segments + unit.start;
    const uint8_t *end = (const uint8_t *)memchr(octets, 0x02, unit.length);
    char name[64];
    size_t n;
    if (end == NULL || (size_t)(end - octets) >= sizeof name)
        return 0;
    n = (size_t)(end - octets);
    memcpy(name, octets, n);
    name[n] = '\0';
    if (strncasecmp(name, "big5", 4) == 0)
        strcpy(name, "BIG5");
    return convert("UTF-8", name, end + 1, unit.length - n - 1, text);
}

/* The text of a list in UTF-8; direction marks have none. */
static int text_of(const list *l, const uint8_t *segments, char *text)
{
    size_t i;
    int good = 1;
    text[0] = '\0';
    for (i = 0; i < l->count && good; i++) {
        switch (l->units[i].kind) {
        case CTEXT_KIND_CHARACTER: good = append_character(l->units[i], text); break;
        case CTEXT_KIND_SPACE: strcat(text, " "); break;
        case CTEXT_KIND_TAB: strcat(text, "\t"); break;
        case CTEXT_KIND_NEWLINE: strcat(text, "\n"); break;
        case CTEXT_KIND_SEGMENT: good = append_segment(l->units[i], segments, text); break;
        default: break;
        }
    }
    return good;
}

/* ---- The server --------------------------------------------------------- */

static void set_property(Display *display, const string *s)
{
    XChangeProperty(display, window, property, compound_text, 8, PropModeReplace, s->octets,
                    (int)s->length);
    XSync(display, False);
}

/* The property's octets; whether it is there as COMPOUND_TEXT. */
static int get_property(Display *display, string *s)
{
    Atom type = None;
    int format = 0;
    unsigned long items = 0, after = 0;
    unsigned char *data = NULL;
    int status = XGetWindowProperty(display, window, property, 0, MOST / 4, False, AnyPropertyType,
                                    &type, &format, &items, &after, &data);
    int good = status == Success && type == compound_text && format == 8 && after == 0
        && items <= MOST;
    s->length = 0;
    if (good && items > 0) {
        memcpy(s->octets, data, items);
        s->length = items;
    }
    if (data != NULL)
        XFree(data);
    return good;
}

/* ---- Xlib's converter --------------------------------------------------- */

static int utf8_locale(void)
{
    return strcmp(nl_langinfo(CODESET), "UTF-8") == 0;
}

/* Xlib's writing of notes in UTF-8, each ended by 00 but the last. */
static int xlib_write(const char *const *texts, int count, string *s)
{
    static char local[4][MOST];
    char *words[4];
    XTextProperty written;
    int i, status;
    for (i = 0; i < count; i++) {
        local[i][0] = '\0';
        if (!convert(nl_langinfo(CODESET), "UTF-8", texts[i], strlen(texts[i]), local[i]))
            return 0;
        words[i] = local[i];
    }
    status = utf8_locale()
        ? Xutf8TextListToTextProperty(writer, words, count, XCompoundTextStyle, &written)
        : XmbTextListToTextProperty(writer, words, count, XCompoundTextStyle, &written);
    if (status != Success)
        return 0;
    s->length = written.nitems;
    memcpy(s->octets, written.value, written.nitems);
    XFree(written.value);
    return written.encoding == compound_text && written.format == 8;
}

/* What Xlib reads: the texts in UTF-8, one after the other, whether they are
   the ones that are wanted, and what it says it could not convert. */
typedef struct reading {
    char text[MOST];
    int same;
    int skipped;
} reading;

static void append(char *text, const char *more)
{
    strncat(text, more, MOST - 1 - strlen(text));
}

/* Compares one text of Xlib's list with the one that is wanted. */
static void take_text(const char *word, const char *wanted, reading *r)
{
    char text[MOST] = "";
    if (!convert("UTF-8", nl_langinfo(CODESET), word, strlen(word), text))
        append(text, "(no text)");
    if (wanted == NULL || strcmp(text, wanted) != 0)
        r->same = 0;
    append(r->text, text);
}

static void xlib_reads(const char *const *texts, int count, reading *r)
{
    XTextProperty held;
    char **words = NULL;
    int found = 0, i;
    r->text[0] = '\0';
    r->same = 0;
    if (!XGetTextProperty(writer, window, &held, property))
        return;
    r->skipped = utf8_locale() ? Xutf8TextPropertyToTextList(writer, &held, &words, &found)
                               : XmbTextPropertyToTextList(writer, &held, &words, &found);
    /* Of no octets Xlib makes a list of no texts. */
    r->same = r->skipped >= Success
        && (found == count || (found == 0 && count == 1 && texts[0][0] == '\0'));
    for (i = 0; r->skipped >= Success && i < found; i++) {
        append(r->text, i > 0 ? " | " : "");
        take_text(words[i], i < count ? texts[i] : NULL, r);
    }
    if (words != NULL)
        XFreeStringList(words);
    if (held.value != NULL)
        XFree(held.value);
}

/* ---- Our reading and writing -------------------------------------------- */

/* The note's units; its answer. */
static ctext_answer our_reading(const uint8_t *s, size_t n, list *l)
{
    ctext_answer a = ctext_read(s, n, l->units, MOST);
    ctext_answer check = ctext_check(s, n);
    l->count = a.count;
    if (a.number != check.number || a.place != check.place || a.count != check.count)
        a.number = 255;
    return a;
}

/* Appends the shortest form to the output; whether it was written. */
static int our_writing(const list *l, const uint8_t *segments, size_t m, string *out)
{
    static uint8_t work[CTEXT_WORK_ROOM(MOST)];
    ctext_answer a = ctext_write(l->units, l->count, segments, m, work, sizeof work,
                                 out->octets + out->length, MOST - out->length);
    out->length += a.count;
    return a.number == CTEXT_ACCEPTED && a.place == l->count;
}

/* Whether after each unit the same direction is in force, and as many are open. */
static int same_directions(const list *a, const list *b)
{
    size_t i;
    for (i = 0; i < a->count && i < b->count; i++)
        if (a->units[i].direction != b->units[i].direction || a->units[i].depth != b->units[i].depth)
            return 0;
    return a->count == b->count;
}

/* ---- Verdicts ----------------------------------------------------------- */

typedef struct outcome {
    size_t octets, units, shortest;
    char verdict[64];
} outcome;

static void show_octets(const char *what, const string *s)
{
    size_t i;
    printf("    %s:", what);
    for (i = 0; i < s->length; i++)
        printf(" %02X", s->octets[i]);
    printf("\n");
}

static void show_misreading(const char *what, const string *s, const reading *r)
{
    if (r->same)
        return;
    show_octets(what, s);
    printf("    libX11 reads that as: %s\n", r->text);
}

static void report(const char *locale, const char *name, const outcome *o)
{
    printf("%-16s %6zu %6zu %8zu  %-24s %s\n", locale, o->octets, o->units, o->shortest,
           o->verdict, name);
}

static int fails(outcome *o, const char *why)
{
    snprintf(o->verdict, sizeof o->verdict, "FAILED: %s", why);
    failures++;
    return -1;
}

/* One note, its octets appended to the output in their shortest form. The text
   of both must be this one, and the directions the same. 0, the number of the
   refusal, or -1. */
static int rewrite_note(const uint8_t *s, size_t n, const char *text, string *out, outcome *o)
{
    static list l, written;
    char ours[MOST];
    size_t begins = out->length;
    ctext_answer a = our_reading(s, n, &l);
    if (a.number != CTEXT_ACCEPTED) {
        snprintf(o->verdict, sizeof o->verdict, "refused %d at %zu", a.number, a.place);
        return a.number;
    }
    o->units += l.count;
    if (!text_of(&l, s, ours) || strcmp(ours, text) != 0)
        return fails(o, "our reading is another text");
    if (!our_writing(&l, s, n, out))
        return fails(o, "it is not written");
    if (out->length - begins > n)
        return fails(o, "the shortest form is longer");
    a = our_reading(out->octets + begins, out->length - begins, &written);
    if (a.number != CTEXT_ACCEPTED || !text_of(&written, out->octets + begins, ours)
        || strcmp(ours, text) != 0)
        return fails(o, "our writing is another text");
    if (!same_directions(&l, &written))
        return fails(o, "our writing has other directions");
    return 0;
}

/* The notes of a property; a list of several is parted by 00. */
static int rewrite(const string *s, const char *const *texts, int count, string *out, outcome *o)
{
    size_t start = 0;
    int i;
    out->length = 0;
    for (i = 0; i < count; i++) {
        const uint8_t *left = s->octets + start;
        const uint8_t *stop = (const uint8_t *)memchr(left, 0, s->length - start);
        size_t n = i + 1 < count && stop != NULL ? (size_t)(stop - left) : s->length - start;
        int refusal = rewrite_note(left, n, texts[i], out, o);
        if (refusal != 0)
            return refusal;
        if (i + 1 < count)
            out->octets[out->length++] = 0;
        start += n + (i + 1 < count);
        if (start > s->length)
            return fails(o, "there is no next note");
    }
    o->shortest = out->length;
    return 0;
}

/* A string of the corpus: its length in four octets, lowest first, and its octets. */
static void keep(const string *s)
{
    int shift;
    for (shift = 0; shift < 32; shift += 8)
        putc((int)(s->length >> shift & 0xFF), corpus);
    fwrite(s->octets, 1, s->length, corpus);
}

/* The property is set again, and Xlib must read the same texts. */
static void read_back(const char *const *texts, int count, const string *out, reading *r,
                      const reading *before, outcome *o)
{
    keep(out);
    set_property(console, out);
    xlib_reads(texts, count, r);
    if (!r->same) {
        misread++;
        snprintf(o->verdict, sizeof o->verdict, "misread by libX11");
    } else if (!before->same) {
        misread++;
        snprintf(o->verdict, sizeof o->verdict, "first misread by libX11");
    } else {
        round_trips++;
        if (r->skipped > 0)
            snprintf(o->verdict, sizeof o->verdict, "same text, %d skipped", r->skipped);
        else
            snprintf(o->verdict, sizeof o->verdict, "same text");
    }
}

/* The writer sets the property; the console reads it, rewrites it and sets it
   again; the writer has Xlib read it. */
static void round_trip(const char *locale, const char *name, const char *const *texts, int count,
                       const string *sent, int expected)
{
    static string got, out;
    static reading before, after;
    outcome o;
    int refusal;
    memset(&o, 0, sizeof o);
    notes++;
    o.octets = sent->length;
    keep(sent);
    set_property(writer, sent);
    xlib_reads(texts, count, &before);
    if (!get_property(console, &got) || got.length != sent->length
        || memcmp(got.octets, sent->octets, got.length) != 0)
        refusal = fails(&o, "the property is not what was set");
    else
        refusal = rewrite(&got, texts, count, &out, &o);
    if (refusal > 0 && refusal == expected)
        refused++;
    else if (refusal > 0)
        refusal = fails(&o, "refused");
    if (refusal == 0)
        read_back(texts, count, &out, &after, &before, &o);
    report(locale, name, &o);
    if (refusal != 0)
        show_octets("the octets", &got);
    if (refusal == 0)
        show_misreading("sent", sent, &before);
    if (refusal == 0)
        show_misreading("rewritten", &out, &after);
}

/* ---- X11R5 -------------------------------------------------------------- */

/* Whether both are the same units, wherever these stand. */
static int same_units(const list *a, const list *b)
{
    size_t i;
    for (i = 0; i < a->count && i < b->count; i++)
        if (a->units[i].kind != b->units[i].kind || a->units[i].set != b->units[i].set
            || a->units[i].code != b->units[i].code)
            return 0;
    return a->count == b->count;
}

/* Whether X11R5's reader answers so for the string, up to its 00; the units. */
static int r5_answers(const string *s, unsigned number, size_t place, list *l)
{
    ctext_answer a = ctext_r5_read(s->octets, s->length, l->units, MOST);
    l->count = a.count;
    return a.number == number && a.place == place;
}

/* The first unit that X11R5 does not have; their number where it has all. */
static size_t first_not_there(const list *l)
{
    size_t i = 0;
    while (i < l->count && l->units[i].kind < CTEXT_KIND_LEFT_TO_RIGHT)
        i++;
    return i;
}

/* A note with a mark or a segment is 15, by the writer at that unit, and with a 00
   behind it by the reader where that starts. */
static void r5_refuses(const string *s, const list *l, size_t index, outcome *o)
{
    static string ended, out;
    static list none;
    ctext_answer a = ctext_r5_write(l->units, l->count, s->octets, s->length, out.octets, MOST);
    size_t start = l->units[index].start - (l->units[index].kind == CTEXT_KIND_SEGMENT ? 6 : 0);
    ended = *s;
    ended.octets[ended.length++] = 0;
    if (a.number != CTEXT_NOT_IN_X11R5 || a.place != index)
        fails(o, "it is written for X11R5");
    else if (!r5_answers(&ended, CTEXT_NOT_IN_X11R5, start, &none))
        fails(o, "X11R5's reader takes it");
    else {
        snprintf(o->verdict, sizeof o->verdict, "not in X11R5, at %zu", start);
        r5_refused++;
    }
}

/* The note as X11R5 has it, with its 00, which both readers read as the same units. */
static int r5_writes(const string *s, const list *l, string *out, outcome *o)
{
    static list again;
    ctext_answer a = ctext_r5_write(l->units, l->count, s->octets, s->length, out->octets, MOST);
    out->length = o->shortest = a.count;
    if (a.number != CTEXT_ACCEPTED || a.place != l->count)
        return fails(o, "it is not written for X11R5");
    if (!r5_answers(out, CTEXT_ACCEPTED, out->length - 1, &again) || !same_units(l, &again))
        return fails(o, "X11R5's reader reads other units");
    if (our_reading(out->octets, out->length - 1, &again).number != CTEXT_ACCEPTED || !same_units(l, &again))
        return fails(o, "our reader reads other units");
    return 0;
}

/* The property is set with the 00, and Xlib must read the same text; of what stands
   behind a 00, here nothing, it makes one more. */
static void r5_read_back(const char *text, const string *out, reading *r, outcome *o)
{
    const char *texts[2] = { "", "" };
    texts[0] = text;
    set_property(console, out);
    xlib_reads(texts, 2, r);
    snprintf(o->verdict, sizeof o->verdict, "%s", r->same ? "same text" : "misread by libX11");
    r5_same += r->same != 0;
    r5_misread += r->same == 0;
}

/* A note as it was sent, which is left out where it is refused. */
static void r5_trip(const char *locale, const char *name, const char *text, const string *s)
{
    static list l;
    static string out;
    static reading r;
    outcome o;
    memset(&o, 0, sizeof o);
    if (our_reading(s->octets, s->length, &l).number != CTEXT_ACCEPTED)
        return;
    r.same = 1;
    r5_notes++;
    o.octets = s->length;
    o.units = l.count;
    if (first_not_there(&l) < l.count)
        r5_refuses(s, &l, first_not_there(&l), &o);
    else if (r5_writes(s, &l, &out, &o) == 0)
        r5_read_back(text, &out, &r, &o);
    report(locale, name, &o);
    show_misreading("written", &out, &r);
}

/* ---- The notes ---------------------------------------------------------- */

/* expected is the refusal where libX11 writes what the rules refuse. */
typedef struct note {
    const char *locale;
    const char *text;
    int expected;
} note;

static const note NOTES[] = {
    { "en_US.UTF-8", "leap second entered", 0 },
    { "en_US.UTF-8", "", 0 },
    { "en_US.UTF-8", "one\ttwo\nthree  spaces", 0 },
    { "en_US.UTF-8", "Zürich, 31 décembre: déjà vu", 0 },
    { "en_US.UTF-8", "Łódź, 31 grudnia: sekunda przestępna", 0 },
    { "en_US.UTF-8", "İstanbul ğşı", 0 },
    { "en_US.UTF-8", "Αθήνα, εμβόλιμο δευτερόλεπτο", 0 },
    { "en_US.UTF-8", "високосная секунда", 0 },
    { "en_US.UTF-8", "うるう秒 が 挿入 されました", 0 },
    { "en_US.UTF-8", "윤초가 삽입 되었습니다", 0 },
    { "en_US.UTF-8", "闰秒 已插入", 0 },
    { "en_US.UTF-8", "윤초 うるう秒 闰秒 é Ω я leap second", 0 },
    { "de_DE.ISO8859-1", "Schaltsekunde eingefügt: 23:59:60", 0 },
    { "fr_FR.ISO8859-1", "seconde intercalaire insérée", 0 },
    { "pl_PL.ISO8859-2", "Łódź, 31 grudnia: sekunda przestępna", 0 },
    { "el_GR.ISO8859-7", "Αθήνα, εμβόλιμο δευτερόλεπτο", 0 },
    { "ru_RU.ISO8859-5", "високосная секунда", 0 },
    { "he_IL.ISO8859-8", "שנייה מעוברת", 0 },
    { "tr_TR.ISO8859-9", "artık saniye, İstanbul ğşı", 0 },
    { "ja_JP.UTF-8", "うるう秒 が 挿入 されました", 0 },
    { "ja_JP.UTF-8", "閏秒: 23時59分60秒 (leap second)", 0 },
    { "ja_JP.UTF-8", "ｳﾙｳﾋﾞｮｳ うるう秒", 0 },
    { "ja_JP.UTF-8", "秒\t秒\n秒é秒", 0 },
    { "ja_JP.eucJP", "うるう秒 が 挿入 されました", 0 },
    { "ja_JP.eucJP", "閏秒: 23時59分60秒 (leap second)", 0 },
    { "ja_JP.eucJP", "ｳﾙｳﾋﾞｮｳ うるう秒", 0 },
    { "ko_KR.UTF-8", "윤초가 삽입 되었습니다", 0 },
    { "ko_KR.UTF-8", "윤초(閏秒) 23:59:60 leap second", 0 },
    { "ko_KR.UTF-8", "윤초", 0 },
    { "ko_KR.eucKR", "윤초가 삽입 되었습니다", 0 },
    { "ko_KR.eucKR", "윤초(閏秒) 23:59:60 leap second", 0 },
    { "ko_KR.eucKR", "윤초", 0 },
    { "zh_CN.gb2312", "闰秒 已插入 leap second", 0 },
    { "ru_RU.KOI8-R", "високосная секунда", 0 },
    { "zh_TW.big5", "閏秒 leap second", 0 },
    /* libX11 writes what the standard does not have, or wrongly */
    { "en_US.UTF-8", "€ 5", CTEXT_NOT_APPROVED },
    { "en_US.UTF-8", "ثانية كبيسة", CTEXT_UNKNOWN },
    { "ja_JP.UTF-8", "丂 (JIS X0212)", CTEXT_UNKNOWN },
    { "ja_JP.eucJP", "丂 (JIS X0212)", CTEXT_UNUSED },
    { "ko_KR.UTF-8", "€ 5", CTEXT_UNKNOWN }
};

/* Accepted strings that libX11 would not write itself. */
typedef struct by_hand {
    const char *locale;
    const char *octets;
    const char *text;
} by_hand;

static const by_hand STRINGS[] = {
    { "en_US.UTF-8", "\x1B\x28\x42\x41", "A" },
    { "en_US.UTF-8", "\x1B\x24\x29\x43\xC0\xB1\xC3\xCA leap", "윤초 leap" },
    { "en_US.UTF-8", "\x1B\x24\x28\x43\x1B\x24\x29\x43\x40\x31\xC3\xCA", "윤초" },
    { "en_US.UTF-8", "\x1B\x24\x28\x43\x40\x31\x0A\x43\x4A", "윤\n초" },
    { "en_US.UTF-8", "\x1B\x24\x28\x43\x40\x31\x0A\x1B\x28\x42" "A", "윤\nA" },
    { "en_US.UTF-8", "\x1B\x24\x29\x43\xC0\xB1\x0A\xC3\xCA" "A", "윤\n초A" },
    { "en_US.UTF-8", "\x1B\x24\x28\x42\x30\x21\xE9", "亜é" },
    { "en_US.UTF-8", "\x41\x1B\x24\x28\x42\x30\x21\xE9\x1B\x28\x42\x41", "A亜éA" },
    { "en_US.UTF-8", "\x1B\x24\x28\x42\x30\x21\xE9\x30\x21\x1B\x28\x4A\x20\x5C", "亜é亜 ¥" },
    { "en_US.UTF-8", "\x1B\x2D\x42\xA3\x1B\x2D\x41\xF3", "Łó" },
    { "en_US.UTF-8", "\xA0x", "\xC2\xA0x" },
    { "en_US.UTF-8", "\x9B\x31\x5D" "A" "\x9B\x5D", "A" },
    { "en_US.UTF-8", "\x9B\x32\x5D\x1B\x2D\x48\xF9\xEC\x9B\x5D", "של" },
    { "en_US.UTF-8", "\x9B\x31\x5D" "A\x9B\x32\x5D\x1B\x2D\x48\xF9\xEC\x9B\x5D" "B\x9B\x5D",
      "AשלB" },
    { "en_US.UTF-8", "\x1B\x25\x2F\x31\x80\x89koi8-r\x02\xD3\xC5", "се" },
    { "ko_KR.eucKR", "\x1B\x24\x29\x43\xC0\xB1\xC3\xCA leap", "윤초 leap" },
    { "ko_KR.eucKR", "\x1B\x24\x28\x43\x40\x31\x0A\x43\x4A", "윤\n초" },
    { "ja_JP.eucJP", "\x1B\x24\x29\x42\xB0\xA1 A", "亜 A" },
    { "ja_JP.eucJP", "\x1B\x24\x28\x42\x30\x21\x1B\x29\x49\xB1", "亜ｱ" }
};

/* The locale for a row; whether it is there and Xlib knows it. */
static int in_locale(const char *locale)
{
    if (setlocale(LC_ALL, locale) != NULL && XSupportsLocale())
        return 1;
    printf("%-16s FAILED: no such locale\n", locale);
    failures++;
    return 0;
}

/* The text on one line. */
static void show_text(const char *text, char *shown)
{
    if (text[0] == '\0')
        text = "(empty)";
    for (; *text != '\0'; text++)
        *shown++ = *text == '\n' || *text == '\t' ? ' ' : *text;
    *shown = '\0';
}

/* A note by itself, or as an X11R5 console has it. */
enum way { BY_ITSELF, FOR_X11R5 };

static void try_sent(enum way way, const char *locale, const char *text, const string *sent, int expected)
{
    char shown[MOST];
    show_text(text, shown);
    if (way == BY_ITSELF)
        round_trip(locale, shown, &text, 1, sent, expected);
    else
        r5_trip(locale, shown, text, sent);
}

static void try_note(enum way way, const note *n)
{
    static string sent;
    if (!in_locale(n->locale))
        return;
    if (!xlib_write(&n->text, 1, &sent)) {
        printf("%-16s FAILED: Xlib does not write %s\n", n->locale, n->text);
        failures++;
        return;
    }
    try_sent(way, n->locale, n->text, &sent, n->expected);
}

static void try_by_hand(enum way way, const by_hand *b)
{
    static string sent;
    sent.length = strlen(b->octets);
    memcpy(sent.octets, b->octets, sent.length);
    if (in_locale(b->locale))
        try_sent(way, b->locale, b->text, &sent, 0);
}

static void try_notes(enum way way)
{
    size_t i;
    printf("%-16s %6s %6s %8s  %-24s %s\n", "locale", "octets", "units", way == BY_ITSELF ? "shortest" : "with 00",
           "verdict", "note");
    for (i = 0; i < sizeof NOTES / sizeof NOTES[0]; i++)
        try_note(way, &NOTES[i]);
    printf("Strings made by hand:\n");
    for (i = 0; i < sizeof STRINGS / sizeof STRINGS[0]; i++)
        try_by_hand(way, &STRINGS[i]);
}

/* ---- The story that began it -------------------------------------------- */

/* What a reader that carries the Korean set over makes of the second note. */
static void carried_over(const char *text)
{
    const uint8_t *s = (const uint8_t *)text;
    size_t n = strlen(text), given = 0;
    ctext_reader reader = ctext_open();
    ctext_step step;
    reader.gl = CTEXT_SET_KSC5601;
    for (step = ctext_next(s, n, reader); step.given; step = ctext_next(s, n, step.reader))
        given++;
    printf("    (a reader with KS C5601 carried over into GL: %zu characters, then refused %d at "
           "%zu)\n",
           given, step.answer.number, step.answer.place);
    if (given != 2 || step.answer.number != CTEXT_UNUSED || step.answer.place != 4) {
        printf("    FAILED: 2 characters, then refused 3 at 4, is expected\n");
        failures++;
    }
}

/* A Korean note is read first, then "leap second entered": one after the other,
   and both in one property. As libX11 writes the Korean note and as we do, it
   ends with KS C5601 in GL. */
static void story(const char *locale)
{
    static const char *const both[] = { "윤초", "leap second entered" };
    static string sent;
    int i;
    if (!in_locale(locale))
        return;
    for (i = 0; i < 3; i++) {
        int count = i < 2 ? 1 : 2;
        const char *const *texts = i < 2 ? &both[i] : both;
        if (!xlib_write(texts, count, &sent)) {
            printf("%-16s FAILED: Xlib does not write %s\n", locale, texts[0]);
            failures++;
            continue;
        }
        round_trip(locale, i < 2 ? both[i] : "both in one property", texts, count, &sent, 0);
    }
    carried_over(both[1]);
}

static int connect_both(void)
{
    writer = XOpenDisplay(NULL);
    console = XOpenDisplay(NULL);
    if (writer == NULL || console == NULL)
        return 0;
    window = XCreateSimpleWindow(writer, DefaultRootWindow(writer), 0, 0, 10, 10, 0, 0, 0);
    compound_text = XInternAtom(writer, "COMPOUND_TEXT", False);
    property = XInternAtom(writer, "CTEXT_NOTE", False);
    XSync(writer, False);
    return 1;
}

int main(int count, char **words)
{
    alarm(PATIENCE);
    corpus = count == 2 ? fopen(words[1], "wb") : NULL;
    if (corpus == NULL || !connect_both()) {
        printf("tests/x11: no X server, or no file for the notes\n");
        return 2;
    }
    printf("X server: %s, release %d\n", ServerVendor(writer), VendorRelease(writer));
    try_notes(BY_ITSELF);
    printf("A Korean note, then \"leap second entered\":\n");
    story("ko_KR.UTF-8");
    story("ko_KR.eucKR");
    printf("The accepted notes as X11R5 has them, each in a property with its 00:\n");
    try_notes(FOR_X11R5);
    XDestroyWindow(writer, window);
    XCloseDisplay(console);
    XCloseDisplay(writer);
    if (ferror(corpus) || fclose(corpus) != 0)
        failures++;
    printf("tests/x11: %u notes, %u round trips, %u refused as libX11 wrote them, "
           "%u misread by libX11, %u failures\n",
           notes, round_trips, refused, misread, failures);
    printf("tests/x11: %u notes for X11R5, %u the same text to libX11, %u not in X11R5, %u misread by libX11\n",
           r5_notes, r5_same, r5_refused, r5_misread);
    return failures != 0;
}
