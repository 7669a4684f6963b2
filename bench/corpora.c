// Writes the corpora that bench/run measures with: corpora SEED FOLDER
//
// A corpus is a row of strings, each as its length in four octets, lowest first, and then its octets. Those of refused strings hold no other,
// those for resource files any octets, and all strings of the others are accepted. The same seed gives the same corpora. The ladder is a corpus
// for each kind of string, of lengths in sixteen equal steps up to the longest that is not too long; each length has as many strings as make some
// 262,140 octets, so that a processor learns the branches of short strings no better than those of long ones.
#include <stdbool.h>
#include <stdint.h>
#include <stdio.h>
#include <stdlib.h>
#include <string.h>

enum { LONGEST = 65535, LONGEST_SEGMENT = 16383, NOTES = 4000, STEPS = 16, TIMES = 4 };

// ---- random numbers, by splitmix64

static uint64_t seed;

static uint32_t below(uint32_t n)
{
    seed += 0x9E3779B97F4A7C15u;
    uint64_t z = seed;
    z = (z ^ (z >> 30)) * 0xBF58476D1CE4E5B9u;
    z = (z ^ (z >> 27)) * 0x94D049BB133111EBu;
    return (uint32_t)((z ^ (z >> 31)) >> 32) % n;
}

static int between(int lowest, int highest) { return lowest + (int)below((uint32_t)(highest - lowest + 1)); }

// ---- a string as it grows, with the sets in force

struct string {
    size_t length;
    uint8_t octets[LONGEST + 512];
    const char *left, *right; // the designation that is in force
};

static void begin(struct string *s)
{
    s->length = 0;
    s->left = "\x1B(B";
    s->right = "\x1B-A";
}

static void put(struct string *s, int octet) { s->octets[s->length++] = (uint8_t)octet; }

static void put_all(struct string *s, const char *octets)
{
    while (*octets) put(s, (uint8_t)*octets++);
}

static bool is_left(const char *designation) { return strchr(designation, '(') != NULL; }

static void need(struct string *s, const char *designation)
{
    const char **side = is_left(designation) ? &s->left : &s->right;
    if (!strcmp(*side, designation)) return;
    *side = designation;
    put_all(s, designation);
}

// A character of two octets: a kanji or kana of JIS X0208, or a hangul of KS C5601. All of these codes are assigned.
static void two_octets(struct string *s, const char *designation)
{
    need(s, designation);
    int top = is_left(designation) ? 0 : 0x80, row, cell;
    if (strchr(designation, 'C')) row = between(0x30, 0x48), cell = between(0x21, 0x7E);
    else if (below(3) == 0) row = between(0x24, 0x25), cell = between(0x21, 0x73);
    else row = between(0x30, 0x4E), cell = between(0x21, 0x7E);
    put(s, row + top);
    put(s, cell + top);
}

// ---- notes

static const char *const ascii_words[] = {"valve", "pump",  "level", "at",    "the",   "north", "gate",     "checked", "twice",
                                          "by",    "night", "shift", "and",   "again", "after", "pressure", "fell",    "to",
                                          "3.5",   "bar",   "see",   "sheet", "12",    "of",    "log"};
static const char *const latin_words[] = {"pr\xE9" "vu",     "gr\xF6\xDF" "er", "ma\xF1" "ana", "d\xE9" "bit",  "\xE0 vide",
                                          "K\xFC" "hlung",   "c\xF4t\xE9",      "\xE5pen",      "h\xF8yre",     "fa\xE7on"};

#define ANY(words) (words)[below(sizeof(words) / sizeof *(words))]

static void latin(struct string *s, const char *const word)
{
    need(s, "\x1B(B");
    for (const char *c = word; *c; c++)
        if (*c & 0x80) {
            need(s, "\x1B-A");
            break;
        }
    put_all(s, word);
    put(s, ' ');
}

static void asian(struct string *s, const char *designation)
{
    for (int n = between(2, 7); n > 0; n--) two_octets(s, designation);
    if (below(2) == 0) {
        need(s, "\x1B(B");
        put(s, ' ');
    }
}

// A note of words, as libX11 writes them: kanji in GL with ASCII designated again after them, Latin-1 in GR, and hangul in GL, or in GR
// as under a Korean locale.
static void note(struct string *s, size_t about)
{
    const char *hangul = below(4) == 0 ? "\x1B$)C" : "\x1B$(C";
    uint32_t latins = 1 + below(8);
    while (s->length < about)
        switch (below(9)) {
        case 0: case 1: asian(s, "\x1B$(B"); break;
        case 2: asian(s, hangul); break;
        default:
            if (below(8) < latins) latin(s, below(4) ? ANY(ascii_words) : ANY(latin_words));
            else asian(s, below(2) ? "\x1B$(B" : hangul);
        }
}

static void notes(struct string *s, size_t length)
{
    while (s->length + 256 < length) note(s, s->length + 100);
    need(s, "\x1B(B");
    while (s->length < length) put(s, between(0x61, 0x7A));
}

// ---- strings of one kind, each of exactly the length asked for

static void ascii(struct string *s, size_t length)
{
    while (s->length < length) put(s, below(6) ? between(0x21, 0x7E) : ' ');
}

static void kanji(struct string *s, size_t length)
{
    need(s, "\x1B$(B");
    while (s->length + 2 <= length) two_octets(s, "\x1B$(B");
    while (s->length < length) put(s, 0x0A);
}

static void tabs(struct string *s, size_t length)
{
    while (s->length < length) put(s, 0x09);
}

static void newlines(struct string *s, size_t length)
{
    while (s->length < length) put(s, 0x0A);
}

static void fields(struct string *s, size_t length)
{
    while (s->length < length) put(s, below(4) ? between(0x21, 0x7E) : below(4) ? 0x09 : 0x0A);
}

static void latin_right(struct string *s, size_t length)
{
    while (s->length < length) put(s, between(0xA0, 0xFF));
}

static void katakana(struct string *s, size_t length)
{
    need(s, "\x1B)I");
    while (s->length < length) put(s, between(0xA1, 0xDF));
}

static void character(struct string *s, const char *designation)
{
    int top = is_left(designation) ? 0 : 0x80;
    put(s, between(0x30, 0x5F) + top);
    if (strchr(designation, '$')) put(s, between(0x21, 0x7E) + top);
}

// A designation, and one to three characters of its set.
static void designations(struct string *s, size_t length)
{
    static const char *const some[] = {"\x1B(B", "\x1B(J", "\x1B)I", "\x1B-A", "\x1B-B", "\x1B-F", "\x1B-L", "\x1B$(A", "\x1B$(B", "\x1B$(C", "\x1B$)C"};
    while (s->length + 16 < length) {
        const char *d = ANY(some);
        put_all(s, d);
        for (int n = between(1, 3); n > 0; n--) character(s, d);
    }
    while (s->length < length) put(s, 0x0A);
}

// Designations of all eighteen kinds, each as often as any other.
static const char *const every_designation[] = {"\x1B(B",  "\x1B(J",  "\x1B)I",  "\x1B-A",  "\x1B-B",  "\x1B-C",  "\x1B-D",  "\x1B-F",  "\x1B-G",
                                                "\x1B-H",  "\x1B-L",  "\x1B-M",  "\x1B$(A", "\x1B$(B", "\x1B$(C", "\x1B$)A", "\x1B$)B", "\x1B$)C"};

// Each with one character of its set.
static void sets(struct string *s, size_t length)
{
    while (s->length + 6 <= length) {
        const char *d = ANY(every_designation);
        put_all(s, d);
        character(s, d);
    }
    while (s->length < length) put(s, 0x0A);
}

static void sets_alone(struct string *s, size_t length)
{
    while (s->length + 4 <= length) put_all(s, ANY(every_designation));
    while (s->length < length) put(s, 0x0A);
}

// Directions, begun and reverted around a few characters.
static void directions(struct string *s, size_t length)
{
    int depth = 0;
    while (s->length + 8 < length) {
        if (depth == 0 || (depth < 16 && below(2))) {
            put_all(s, below(2) ? "\x9B" "1]" : "\x9B" "2]");
            depth++;
        } else {
            put_all(s, "\x9B]");
            depth--;
        }
        for (int n = depth ? between(0, 3) : 0; n > 0; n--) put(s, between(0x61, 0x7A));
    }
    while (s->length < length) put(s, 0x0A);
}

// An extended segment of a short name and a text of so many octets, of which a character has as many as the width says; 0 is any number.
static void segment(struct string *s, int width, int octets)
{
    int n = 6 + octets;
    put_all(s, "\x1B%/");
    put(s, 0x30 + width);
    put(s, 0x80 + n / 128);
    put(s, 0x80 + n % 128);
    put_all(s, "koi8r\x02");
    for (; octets > 0; octets--) put(s, between(0, 255));
}

// Extended segments with texts of up to 40 octets, and a few characters between them.
static void segments(struct string *s, size_t length)
{
    while (s->length + 64 < length) {
        int width = between(0, 4);
        segment(s, width, width < 2 ? between(0, 40) : between(0, 10) * width);
        for (int n = between(0, 3); n > 0; n--) put(s, between(0x61, 0x7A));
    }
    while (s->length < length) put(s, 0x0A);
}

// Directions, begun and reverted around characters and extended segments. A third of the segments has no text, nor has any outside of them.
static void directed_segments(struct string *s, size_t length)
{
    int depth = 0;
    while (s->length + 64 < length) {
        if (depth == 0 || (depth < 16 && below(2))) {
            put_all(s, below(2) ? "\x9B" "1]" : "\x9B" "2]");
            depth++;
        } else {
            put_all(s, "\x9B]");
            depth--;
        }
        for (int n = depth ? between(0, 3) : 0; n > 0; n--) put(s, between(0x61, 0x7A));
        int width = between(0, 4);
        segment(s, width, depth == 0 || below(3) == 0 ? 0 : width < 2 ? between(1, 40) : between(1, 10) * width);
    }
    while (s->length < length) put(s, 0x0A);
}

// ---- strings that are hostile to one function

static void repeated(struct string *s, size_t length, const char *octets)
{
    size_t n = strlen(octets);
    while (s->length + n <= length) put_all(s, octets);
    while (s->length < length) put(s, 0x0A);
}

// A run for each octet, and for each unit another set than for the one before: run, write.
static void alternating(struct string *s, size_t length) { repeated(s, length, "A\xE9"); }

// A run for each unit, of one octet and of two: run, write.
static void kanji_ascii(struct string *s, size_t length)
{
    need(s, "\x1B$)B");
    repeated(s, length, "\xB0\xA1" "A");
}

// Designations after the last unit: next at the end.
static void trailing(struct string *s, size_t length)
{
    while (s->length < length % 3) put(s, 0x09);
    while (s->length < length) put_all(s, "\x1B(B");
}

// Direction marks alone, the smallest elements that are no text: check, read, next.
static void marks(struct string *s, size_t length) { repeated(s, length, "\x9B" "2]\x9B]"); }

// The start of an extended segment that says it has n octets, and so many octets of a name, of which none is the 02.
static void segment_start(struct string *s, size_t n, size_t octets)
{
    put_all(s, "\x1B%/1");
    put(s, 0x80 + (int)(n / 128));
    put(s, 0x80 + (int)(n % 128));
    for (; octets > 0; octets--) put(s, 'a');
}

// Extended segments that are all name, which is read octet by octet: check, read, next.
static void names(struct string *s, size_t length)
{
    while (s->length + 8 <= length) {
        size_t left = length - s->length - 6, n = left < LONGEST_SEGMENT ? left : LONGEST_SEGMENT;
        segment_start(s, n, n - 1);
        put(s, 0x02);
    }
    while (s->length < length) put(s, 0x0A);
}

// ---- strings that are refused

// The first boundary of a note's elements, which are designations and characters, that is at a place or after it.
static size_t boundary(const struct string *s, size_t place)
{
    bool pairs[2] = {false, false}; // whether a set of two octets is designated to GL, and to GR
    size_t at = 0;
    while (at < place) {
        const uint8_t *octets = s->octets + at;
        bool pair = octets[0] == 0x1B && octets[1] == '$';
        if (octets[0] == 0x1B) pairs[octets[1 + pair] != '('] = pair;
        at += octets[0] == 0x1B ? 3 + pair : 1 + pairs[octets[0] / 128];
    }
    return at;
}

static void insert(struct string *s, size_t at, const char *octets)
{
    size_t n = strlen(octets);
    memmove(s->octets + at + n, s->octets + at, s->length - at);
    memcpy(s->octets + at, octets, n);
    s->length += n;
}

// What is refused wherever it stands, by its number; some begin with the designation that makes an octet unused. Those of 7 are the cases of
// ctext.h: M, L, an octet of the name before the 02 and without one, the 02 of an empty name, no octets, no 02, and texts of half a character.
static const char *const unused[] = {"\x7F", "\x0F", "\x80", "\x9C", "\x1B)I\xA0", "\x1B$(B ", "\x1B$(B0\x7F", "\x1B$)C\xB0" "A"};
static const char *const unknown[] = {"\x1B*B", "\x1B$B", "\x1B(0", "\x1B($B", "\x1B(! 0", "\x1B%G", "\x1B%/5", "\x9B" "3", "\x9B" "1;"};
static const char *const not_approved[] = {"\x1B(A", "\x1B)J", "\x1B-b", "\x1B$(D", "\x1B$)G", "\x1B(!A", "\x1B-# B"};
static const char *const version[] = {"\x1B# 0", "\x1B#!1"};
static const char *const bad_segment[] = {"\x1B%/1\x7F\x83" "ab\x02", "\x1B%/1\x80\x7F" "ab\x02",      "\x1B%/1\x80\x85" "a*b\x02.", "\x1B%/1\x80\x83" "a?b",
                                          "\x1B%/1\x80\x82\x02.",      "\x1B%/1\x80\x80",               "\x1B%/1\x80\x85koi8r",
                                          "\x1B%/2\x80\x87koi8r\x02.", "\x1B%/3\x80\x88koi8r\x02..", "\x1B%/4\x80\x89koi8r\x02..."};
// What is refused with 2 at a string's end, and what is refused so where fewer than 16,383 octets follow it.
static const char *const cut[] = {"\x1B", "\x1B(", "\x1B(!", "\x1B$)", "\x1B$(B0", "\x1B%", "\x1B%/1\x80", "\x1B%/1\x80\x86koi8r", "\x9B", "\x9B" "2"};
static const char *const cut_by_far = "\x1B%/1\xFF\xFF";

// A note with one of these put between its elements or at its end, each of the numbers 2 to 7 as often as any other. What followed is still there.
static void refused_note(struct string *s, size_t longest)
{
    note(s, (size_t)between(44, (int)longest));
    size_t at = boundary(s, below((uint32_t)s->length + 1));
    switch (between(2, 7)) {
    case 2:
        if (below(2)) insert(s, at, cut_by_far);
        else put_all(s, ANY(cut));
        break;
    case 3: insert(s, at, ANY(unused)); break;
    case 4: insert(s, at, ANY(unknown)); break;
    case 5: insert(s, at, ANY(not_approved)); break;
    case 6: insert(s, at, ANY(version)); break;
    default: insert(s, at, ANY(bad_segment));
    }
}

// One designation with intermediate octets up to its final octet, the last: 5 there.
static void intermediates(struct string *s, size_t length)
{
    put_all(s, "\x1B(!");
    while (s->length + 1 < length) put(s, between(0x20, 0x2F));
    put(s, between(0x40, 0x7E));
}

// Extended segments that are all name, and one of the greatest length, or as long as the string lets it be, without the 02: 7 at its last octet.
static void endless_name(struct string *s, size_t length)
{
    size_t n = length < 6 + LONGEST_SEGMENT ? length - 6 : LONGEST_SEGMENT;
    names(s, length - 6 - n);
    segment_start(s, n, n);
}

// The same, but the last segment lacks its last octet: 2 at the length.
static void cut_segment(struct string *s, size_t length)
{
    names(s, length - 6 - (LONGEST_SEGMENT - 1));
    segment_start(s, LONGEST_SEGMENT, LONGEST_SEGMENT - 1);
}

// Plain text, and an octet that is not used as the last: 3 there.
static void late(struct string *s, size_t length)
{
    ascii(s, length - 1);
    put(s, 0x7F);
}

// ---- strings for resource files: of octets that stay as they are, of octets that are escaped, and of both

static void plain(struct string *s, size_t length)
{
    while (s->length < length) {
        int octet = below(6) ? between(0x21, 0x7E) : ' ';
        put(s, octet == '\\' ? '/' : octet);
    }
}

static void backslashes(struct string *s, size_t length)
{
    while (s->length < length) put(s, '\\');
}

static void zeros(struct string *s, size_t length)
{
    while (s->length < length) put(s, 0);
}

static int escaped(void) { return "\\\n"[below(3)]; } // its last is the 00

static void escapes(struct string *s, size_t length)
{
    while (s->length < length) put(s, escaped());
}

static void half(struct string *s, size_t length)
{
    while (s->length < length) put(s, below(2) ? between(0x61, 0x7A) : escaped());
}

// ---- files

static struct string text;
static const char *folder;

static FILE *create(const char *name)
{
    char path[4096];
    snprintf(path, sizeof path, "%s/%s.corpus", folder, name);
    FILE *f = fopen(path, "wb");
    if (!f) {
        perror(path);
        exit(1);
    }
    return f;
}

static void store(FILE *f)
{
    uint32_t n = (uint32_t)text.length;
    uint8_t head[4] = {(uint8_t)n, (uint8_t)(n >> 8), (uint8_t)(n >> 16), (uint8_t)(n >> 24)};
    if (fwrite(head, 1, 4, f) != 4 || fwrite(text.octets, 1, n, f) != n) {
        perror("corpora");
        exit(1);
    }
}

static void close_file(FILE *f)
{
    if (fclose(f)) {
        perror("corpora");
        exit(1);
    }
}

typedef void fill(struct string *, size_t length);

static void strings(const char *name, int count, size_t length, fill *with)
{
    FILE *f = create(name);
    for (int i = 0; i < count; i++) {
        begin(&text);
        with(&text, length);
        store(f);
    }
    close_file(f);
}

static void ladder(const char *kind, fill *with)
{
    char name[64];
    snprintf(name, sizeof name, "ladder-%s", kind);
    FILE *f = create(name);
    for (size_t i = 1; i <= STEPS; i++)
        for (size_t k = 0; k < (TIMES * STEPS + i / 2) / i; k++) {
            begin(&text);
            with(&text, LONGEST * i / STEPS);
            store(f);
        }
    close_file(f);
}

static void all_notes(const char *name, bool with_backslashes)
{
    FILE *f = create(name);
    for (int i = 0; i < NOTES; i++) {
        begin(&text);
        note(&text, (size_t)between(44, 212));
        for (size_t k = 0; !with_backslashes && k < text.length; k++)
            if (text.octets[k] == '\\') text.octets[k] = '/';
        store(f);
    }
    close_file(f);
}

static void resource_files(void)
{
    all_notes("plain-notes", false);
    strings("plain", 1, LONGEST, plain);
    strings("backslashes", 1, LONGEST, backslashes);
    strings("zeros", 1, LONGEST, zeros);
    strings("escapes", 1, LONGEST, escapes);
    strings("half", 1, LONGEST, half);
    ladder("plain", plain);
    ladder("escapes", escapes);
    ladder("zeros", zeros);
}

static void refused_strings(void)
{
    strings("refused", NOTES, 212, refused_note);
    strings("intermediates", 1, LONGEST, intermediates);
    strings("endless-name", 1, LONGEST, endless_name);
    strings("cut-segment", 1, LONGEST, cut_segment);
    strings("late", 1, LONGEST, late);
    ladder("intermediates", intermediates);
    ladder("endless-name", endless_name);
}

static void accepted_strings(void)
{
    all_notes("notes", true);
    strings("ascii", 1, LONGEST, ascii);
    strings("kanji", 1, LONGEST, kanji);
    strings("kanji-1000", 32, 4 + 2 * 1000, kanji);
    strings("designations", 1, LONGEST, designations);
    strings("tabs", 1, LONGEST, tabs);
    strings("newlines", 1, LONGEST, newlines);
    strings("fields", 1, LONGEST, fields);
    strings("latin", 1, LONGEST, latin_right);
    strings("katakana", 1, LONGEST, katakana);
    strings("directions", 1, LONGEST, directions);
    strings("segments", 1, LONGEST, segments);
    strings("alternating", 1, LONGEST, alternating);
    strings("kanji-ascii", 1, LONGEST, kanji_ascii);
    strings("trailing", 1, LONGEST, trailing);
    strings("marks", 1, LONGEST, marks);
    strings("names", 1, LONGEST, names);
}

static void accepted_ladders(void)
{
    ladder("notes", notes);
    ladder("ascii", ascii);
    ladder("kanji", kanji);
    ladder("designations", designations);
    ladder("directions", directions);
    ladder("segments", segments);
    ladder("alternating", alternating);
    ladder("kanji-ascii", kanji_ascii);
    ladder("trailing", trailing);
    ladder("marks", marks);
    ladder("names", names);
}

int main(int count, char **words)
{
    if (count != 3) {
        fprintf(stderr, "usage: corpora SEED FOLDER\n");
        return 2;
    }
    seed = strtoull(words[1], NULL, 0);
    folder = words[2];
    accepted_strings();
    accepted_ladders();
    resource_files();
    // after all others, which stay what they were for the same seed
    strings("directed-segments", 1, LONGEST, directed_segments);
    ladder("directed-segments", directed_segments);
    strings("sets", 1, LONGEST, sets);
    strings("sets-alone", 1, LONGEST, sets_alone);
    refused_strings();
    return 0;
}
