// A validator of compound text in C, by tables. It answers number and place alone, and is near what C can do octet by octet.
#include "yardstick.h"

#include <stdbool.h>

enum { ACCEPTED, TOO_LONG, CUT, UNUSED, UNKNOWN, NOT_APPROVED, VERSION, BAD_SEGMENT, DIRECTION, TOO_DEEP };
enum { LONGEST = 65535, DEEPEST = 16 };

// What an octet begins. That of a unit of one octet is 0, so that four octets are such units where their classes or to 0.
enum class { UNIT, BLANK, PAIR_IN_LEFT, PAIR_IN_RIGHT, ESCAPE, CSI, NOTHING };

// The five designations, in the order of `approved`: to GL 94 and 94 by 94, to GR 94, 96 and 94 by 94.
enum designation { LEFT_94, LEFT_PAIRS, RIGHT_94, RIGHT_96, RIGHT_PAIRS };

// The class of each octet, by what was designated last to GL and to GR.
static uint8_t classes[2][3][256];
// Whether a final octet names a set, by the designation.
static bool approved[5][128];

static enum class class_in_left(int left, int octet)
{
    if (octet == 0x20) return left == LEFT_94 ? UNIT : NOTHING;
    if (octet < 0x21 || octet > 0x7E) return NOTHING;
    return left == LEFT_94 ? UNIT : PAIR_IN_LEFT;
}

static enum class class_in_right(int right, int octet)
{
    if (octet < 0xA0) return NOTHING;
    if (right == RIGHT_96) return UNIT;
    if (octet == 0xA0 || octet == 0xFF) return NOTHING;
    return right == RIGHT_94 ? UNIT : PAIR_IN_RIGHT;
}

static enum class class_of(int left, int right, int octet)
{
    switch (octet) {
    case 0x09: case 0x0A: return BLANK;
    case 0x1B: return ESCAPE;
    case 0x9B: return CSI;
    default: return octet < 0x80 ? class_in_left(left, octet) : class_in_right(right, octet);
    }
}

static void __attribute__((constructor)) fill_tables(void)
{
    static const char *const finals[5] = {"BJ", "ABC", "I", "ABCDFGHLM", "ABC"};
    for (int left = LEFT_94; left <= LEFT_PAIRS; left++)
        for (int right = RIGHT_94; right <= RIGHT_PAIRS; right++)
            for (int octet = 0; octet < 256; octet++)
                classes[left][right - RIGHT_94][octet] = (uint8_t)class_of(left, right, octet);
    for (int d = 0; d < 5; d++)
        for (const char *f = finals[d]; *f; f++) approved[d][(int)*f] = true;
}

// In the functions below, *at is where an escape goes on, and then its end, or the place of its refusal.
#define STOP(number, place) return *at = (place), (number)

// The octets after an escape's first two or three, up to its final octet: the number of the refusal, or 0.
static inline int final_octet(const uint8_t **at, const uint8_t *end, enum designation d)
{
    const uint8_t *p = *at, *first = p;
    for (;; p++) {
        if (p == end) STOP(CUT, end);
        if (*p < 0x20 || *p > 0x2F) break;
        if (p == first && (*p < 0x21 || *p > 0x23)) STOP(UNKNOWN, p);
    }
    if (*p < 0x40 || *p > 0x7E) STOP(UNKNOWN, p);
    if (p != first || !approved[d][*p]) STOP(NOT_APPROVED, p);
    STOP(ACCEPTED, p + 1);
}

// The octets of an extended segment after L, up to the last, which is L itself where there are none: a name, 02 and a text of so many octets
// a character. How many octets the text has goes to *text.
static int segment_octets(const uint8_t **at, const uint8_t *last, unsigned width, unsigned *text)
{
    const uint8_t *p = *at;
    for (; p <= last && *p != 2; p++)
        if (*p < 0x21 || (*p > 0x7E && *p < 0xA1) || *p == 0x2A || *p == 0x3F) STOP(BAD_SEGMENT, p);
    if (p > last) STOP(BAD_SEGMENT, last);
    if (p == *at) STOP(BAD_SEGMENT, p);
    *text = (unsigned)(last - p);
    if (*text % width) STOP(BAD_SEGMENT, last);
    STOP(ACCEPTED, last + 1);
}

// An extended segment, from its third octet on.
static int segment(const uint8_t **at, const uint8_t *end, unsigned *text)
{
    const uint8_t *p = *at;
    if (p == end) STOP(CUT, end);
    if (*p != 0x2F) STOP(UNKNOWN, p);
    if (++p == end) STOP(CUT, end);
    unsigned d = *p - 0x30u;
    if (d > 4) STOP(UNKNOWN, p);
    if (++p == end) STOP(CUT, end);
    unsigned m = *p;
    if (m < 0x80) STOP(BAD_SEGMENT, p);
    if (++p == end) STOP(CUT, end);
    unsigned l = *p;
    if (l < 0x80) STOP(BAD_SEGMENT, p);
    size_t n = (m - 128) * 128 + (l - 128);
    if ((size_t)(end - p) <= n) STOP(CUT, end);
    *at = p + 1;
    return segment_octets(at, p + n, d < 2 ? 1 : d, text);
}

static inline bool within(uint8_t octet, uint8_t lowest) { return (uint8_t)(octet - lowest) < 94; }

#define REFUSE(number, place) return (struct verdict){(uint32_t)(number), (uint32_t)((place) - octets)}

// Characters of two octets, on the side whose lowest octet is given: written out for each, so that it compares with constants.
#define PAIRS(lowest)                                                                   \
    if (end - p < 2) REFUSE(CUT, end);                                                  \
    if (!within(p[1], lowest)) REFUSE(UNUSED, p + 1);                                   \
    if (marked && !depth) REFUSE(DIRECTION, start);                                     \
    texted = true;                                                                      \
    p += 2;                                                                             \
    while (end - p >= 2 && within(p[0], lowest) && within(p[1], lowest)) p += 2;        \
    break

struct verdict yardstick(const uint8_t *octets, size_t length)
{
    const uint8_t *p = octets, *start = octets, *end = octets + length;
    if (length > LONGEST) REFUSE(TOO_LONG, start);
    int left = LEFT_94, right = RIGHT_96, depth = 0, number;
    bool marked = false, texted = false;
    unsigned text;
    const uint8_t *class = classes[left][right - RIGHT_94];
    while (p < end) {
        start = p;
        switch (class[*p]) {
        case UNIT:
            if (marked && !depth) REFUSE(DIRECTION, start);
            texted = true;
            for (p++; p + 4 <= end; p += 4) {
                uint32_t any = class[p[0]] | class[p[1]] | class[p[2]] | class[p[3]];
                if (any) break;
            }
            while (p < end && class[*p] == UNIT) p++;
            break;
        case BLANK:
            p++;
            break;
        case PAIR_IN_LEFT: PAIRS(0x21);
        case PAIR_IN_RIGHT: PAIRS(0xA1);
        case ESCAPE: {
            enum designation d;
            if (++p == end) REFUSE(CUT, end);
            switch (*p++) {
            case 0x28: d = LEFT_94; break;
            case 0x29: d = RIGHT_94; break;
            case 0x2D: d = RIGHT_96; break;
            case 0x24:
                if (p == end) REFUSE(CUT, end);
                if (*p != 0x28 && *p != 0x29) REFUSE(UNKNOWN, p);
                d = *p++ == 0x28 ? LEFT_PAIRS : RIGHT_PAIRS;
                break;
            case 0x25:
                if ((number = segment(&p, end, &text))) REFUSE(number, p);
                if (text && marked && !depth) REFUSE(DIRECTION, start);
                if (text) texted = true;
                continue;
            case 0x23: REFUSE(VERSION, start + 1);
            default: REFUSE(UNKNOWN, start + 1);
            }
            if ((number = final_octet(&p, end, d))) REFUSE(number, p);
            if (d <= LEFT_PAIRS) left = d;
            else right = d;
            class = classes[left][right - RIGHT_94];
            break;
        }
        case CSI:
            if (++p == end) REFUSE(CUT, end);
            if (*p == 0x5D) {
                if (!depth) REFUSE(DIRECTION, start);
                depth--;
                p++;
                break;
            }
            if (*p != 0x31 && *p != 0x32) REFUSE(UNKNOWN, p);
            if (++p == end) REFUSE(CUT, end);
            if (*p != 0x5D) REFUSE(UNKNOWN, p);
            if (!marked && texted) REFUSE(DIRECTION, start);
            if (depth == DEEPEST) REFUSE(TOO_DEEP, start);
            p++;
            depth++;
            marked = true;
            break;
        default: REFUSE(UNUSED, start);
        }
    }
    return (struct verdict){ACCEPTED, (uint32_t)length};
}
