/* reason.c: why a note is refused, in words: what is wrong with the octet at the
   place, by the number of the refusal. Nothing is said that does not follow from
   the answer, the sets that the reader has at the element's start, and the octets
   from there up to the place, or its first three. */

#include <string.h>

#include "tool.h"

#define LATE_MARK "text, or an extended segment with text, stands before the first direction mark"
#define OUTSIDE "stands outside all directions, after a mark;\n9B 31 5D or 9B 32 5D begins one"

/* What is known about the refused element, by the refusal and how the element
   begins: how the direction rule is broken, and what other programs write that the
   rules refuse. The first that fits is told; text has no beginning of its own. */
static const struct {
    unsigned number;
    const char *octets;
    size_t length;
    const char *hint;
} HINTS[] = {
    { CTEXT_UNKNOWN, "\x1B\x25\x47", 3,
      "1B 25 47 begins UTF-8, which libX11 writes for characters of no standard set" },
    { CTEXT_NOT_APPROVED, "\x1B\x2D\x62", 3,
      "1B 2D 62 is ISO 8859-15, which libX11 writes for the euro sign" },
    { CTEXT_UNKNOWN, "\x1B\x24\x40", 3, "1B 24 40 is a form of ISO-2022-JP; here it is 1B 24 28 42" },
    { CTEXT_UNKNOWN, "\x1B\x24\x42", 3, "1B 24 42 is a form of ISO-2022-JP; here it is 1B 24 28 42" },
    { CTEXT_UNUSED, "\x00", 1,
      "a property may hold several notes with 00 between them: each is one of its own" },
    { CTEXT_UNUSED, "\x20", 1, "before a space 1B 28 42 puts ASCII into GL" },
    { CTEXT_BAD_DIRECTION, "\x9B\x31", 2, LATE_MARK },
    { CTEXT_BAD_DIRECTION, "\x9B\x32", 2, LATE_MARK },
    { CTEXT_BAD_DIRECTION, "\x9B\x5D", 2, "no direction is open that 9B 5D could revert" },
    { CTEXT_BAD_DIRECTION, "\x1B\x25\x2F", 3, "an extended segment with text " OUTSIDE },
    { CTEXT_BAD_DIRECTION, "", 0, "text " OUTSIDE }
};

static void say_hint(const refusal *r)
{
    const uint8_t *element = r->note->octets + r->reader.place;
    size_t left = r->note->length - r->reader.place, i;
    for (i = 0; i < sizeof HINTS / sizeof HINTS[0]; i++) {
        if (HINTS[i].number != r->answer.number || HINTS[i].length > left
            || memcmp(element, HINTS[i].octets, HINTS[i].length) != 0)
            continue;
        out_format("%s\n", HINTS[i].hint);
        return;
    }
}

static int is_control(uint8_t octet)
{
    return (octet & 0x7F) < 0x20;
}

/* The octet stands alone, or is to be the second of a character whose first octet
   says the side. */
static void say_unused(const refusal *r)
{
    uint8_t octet = r->note->octets[r->answer.place], first = r->note->octets[r->reader.place];
    const char *side = first < 0x80 ? "GL" : "GR";
    const char *set = ctext_set_text(first < 0x80 ? r->reader.gl : r->reader.gr);
    if (r->answer.place != r->reader.place)
        out_format("%02X is no second octet of a character of %s in %s; %s are\n", octet, set, side,
                   first < 0x80 ? "21-7E" : "A1-FE");
    else if (is_control(octet))
        out_format("%02X is a control octet that is not used; 09, 0A, 1B and 9B are\n", octet);
    else
        out_format("%02X is not used in %s, where %s stands\n", octet, side, set);
}

void say_reason(const refusal *r)
{
    switch (r->answer.number) {
    case CTEXT_CUT: say_cut(r); break;
    case CTEXT_UNUSED: say_unused(r); break;
    case CTEXT_UNKNOWN: say_unknown(r); break;
    case CTEXT_NOT_APPROVED: say_not_approved(r); break;
    case CTEXT_VERSION_SEQUENCE:
        out_text("1B 23 begins a version sequence, which is refused whatever follows\n");
        break;
    case CTEXT_BAD_SEGMENT: say_segment(r); break;
    case CTEXT_TOO_DEEP:
        out_format("directions open %d, and this mark would open one more\n", CTEXT_MOST_OPEN);
        break;
    default: break; /* the direction rule, of which the hints speak */
    }
    say_hint(r);
}
