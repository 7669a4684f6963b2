/* to_r5.c: a note for an X11R5 console, with the 00 that ends it there. */

#include "tool.h"

#define HEAD 6 /* octets of an extended segment before those of its unit */

/* What is known about a refusal, or null. */
static const char *hint(const note *n, ctext_answer a)
{
    if (a.number == CTEXT_NOT_ENDED)
        return "a string from an X11R5 console ends with 00; one without it is for ctext shorten";
    if (a.number != CTEXT_NOT_IN_X11R5)
        return NULL;
    return n->octets[a.place] == 0x9B ? "a direction mark stands there, and X11R5 has no directions"
                                      : "an extended segment starts there, and X11R5 has none";
}

int out_made_r5(const note *n, ctext_answer a, const uint8_t *octets)
{
    const char *more = hint(n, a);
    int status = out_made(n, a, octets);
    if (more != NULL)
        complain(n->name, more);
    return status;
}

/* The writer's place is that of the unit in the list; here it is where its element
   starts in the note. */
static size_t start_of(ctext_unit unit)
{
    return unit.start - (unit.kind == CTEXT_KIND_SEGMENT ? HEAD : 0);
}

int to_r5(const note *n)
{
    static ctext_unit list[CTEXT_MOST_UNITS];
    static uint8_t out[CTEXT_R5_MOST_OCTETS];
    ctext_answer a = ctext_read(n->octets, n->length, list, CTEXT_MOST_UNITS);
    if (a.number == CTEXT_ACCEPTED)
        a = ctext_r5_write(list, a.count, n->octets, n->length, out, sizeof out);
    if (a.number == CTEXT_NOT_IN_X11R5)
        a.place = start_of(list[a.place]);
    return out_made_r5(n, a, out);
}
