/* sequence.c: what is wrong with an escape sequence or a direction mark, and what
   the end of a note cuts. */

#include <string.h>

#include "tool.h"

#define SHOWN 6 /* octets of an element that a line shows */

/* The five forms of a designation: what stands before its final octet. */
typedef struct lead {
    const char *octets;
    uint8_t form;
    uint8_t side;
    const char *names; /* what the final octet is to name */
} lead;

static const lead LEADS[] = {
    { "\x1B\x28", CTEXT_FORM_94, CTEXT_GL, "set of 94 that may stand in GL" },
    { "\x1B\x29", CTEXT_FORM_94, CTEXT_GR, "set of 94 that may stand in GR" },
    { "\x1B\x2D", CTEXT_FORM_96, CTEXT_GR, "set of 96 that may stand in GR" },
    { "\x1B\x24\x28", CTEXT_FORM_94X94, CTEXT_GL, "set of 94 by 94 that may stand in GL" },
    { "\x1B\x24\x29", CTEXT_FORM_94X94, CTEXT_GR, "set of 94 by 94 that may stand in GR" }
};

/* What may follow the octets with which another sequence, or a designation before
   its form is known, begins. */
static const struct {
    const char *before;
    const char *next;
} FOLLOWING[] = {
    { "\x1B", "24, 25, 28, 29 or 2D" },
    { "\x1B\x24", "28 or 29" },
    { "\x1B\x25", "2F" },
    { "\x1B\x25\x2F", "30, 31, 32, 33 or 34" },
    { "\x9B", "31, 32 or 5D" },
    { "\x9B\x31", "5D" },
    { "\x9B\x32", "5D" }
};

/* An element by its first octets; the first that fits. */
static const struct {
    const char *octets;
    const char *name;
} ELEMENTS[] = {
    { "\x1B\x24", "a designation" },
    { "\x1B\x25", "an extended segment" },
    { "\x1B\x28", "a designation" },
    { "\x1B\x29", "a designation" },
    { "\x1B\x2D", "a designation" },
    { "\x1B", "an escape sequence" },
    { "\x9B", "a direction mark" },
    { "", "a character of two octets" }
};

/* How many octets of the element stand before the place. */
static size_t count_before(const refusal *r)
{
    return r->answer.place - r->reader.place;
}

/* The octets of the element before the place, or the first of them. */
static void print_before(const refusal *r)
{
    size_t count = count_before(r);
    out_hexadecimal(r->note->octets + r->reader.place, count < SHOWN ? count : SHOWN);
    out_text(count > SHOWN ? " .." : "");
}

/* Whether these octets stand at the element's start, before the place. */
static int begins(const refusal *r, const char *octets)
{
    size_t length = strlen(octets);
    return length <= count_before(r)
        && memcmp(r->note->octets + r->reader.place, octets, length) == 0;
}

static const lead *lead_of(const refusal *r)
{
    size_t i;
    for (i = 0; i < sizeof LEADS / sizeof LEADS[0]; i++)
        if (begins(r, LEADS[i].octets))
            return &LEADS[i];
    return NULL;
}

static void print_approved(const lead *l)
{
    uint8_t octet;
    out_text("final octets approved after");
    out_hexadecimal((const uint8_t *)l->octets, strlen(l->octets));
    out_text(":");
    for (octet = 0x40; octet <= 0x7E; octet++)
        if (ctext_set_of(l->form, l->side, octet) != CTEXT_NO_SET)
            out_hexadecimal(&octet, 1);
    out_text("\n");
}

static void print_following(const refusal *r)
{
    size_t i;
    for (i = 0; i < sizeof FOLLOWING / sizeof FOLLOWING[0]; i++)
        if (strlen(FOLLOWING[i].before) == count_before(r) && begins(r, FOLLOWING[i].before))
            out_format(", where %s may stand", FOLLOWING[i].next);
}

void say_unknown(const refusal *r)
{
    const lead *l = lead_of(r);
    out_format("%02X is unknown after", r->note->octets[r->answer.place]);
    print_before(r);
    print_following(r);
    out_text("\n");
    if (l != NULL)
        print_approved(l);
}

void say_not_approved(const refusal *r)
{
    const lead *l = lead_of(r);
    unsigned octet = r->note->octets[r->answer.place];
    if (l == NULL)
        return;
    if (count_before(r) == strlen(l->octets)) {
        out_format("%02X names no %s\n", octet, l->names);
    } else {
        out_format("%02X stands after", octet);
        print_before(r);
        out_text(", and no set is approved with intermediates\n");
    }
    print_approved(l);
}

void say_cut(const refusal *r)
{
    size_t i = 0;
    while (!begins(r, ELEMENTS[i].octets))
        i++;
    out_format("the note ends inside %s, after", ELEMENTS[i].name);
    print_before(r);
    out_text("\n");
    if (begins(r, "\x1B\x25"))
        say_segment_cut(r);
}
