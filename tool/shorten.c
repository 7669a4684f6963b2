/* shorten.c: the shortest form of a note, up to the library's limits. */

#include "tool.h"

ctext_answer shortest_form(const note *n, reading *read, const uint8_t **octets)
{
    static ctext_unit list[CTEXT_MOST_UNITS];
    static uint8_t work[CTEXT_WORK_ROOM(CTEXT_MOST_UNITS)];
    static uint8_t out[CTEXT_MOST_OCTETS];
    ctext_answer a = read(n->octets, n->length, list, CTEXT_MOST_UNITS);
    *octets = out;
    if (a.number != CTEXT_ACCEPTED)
        return a;
    return ctext_write(list, a.count, n->octets, n->length, work, sizeof work, out, sizeof out);
}

int shorten(const note *n)
{
    const uint8_t *octets;
    ctext_answer a = shortest_form(n, ctext_read, &octets);
    return out_made(n, a, octets);
}
