/* from_r5.c: the shortest form of a string from an X11R5 console, which is what stands
   before its first 00. */

#include "tool.h"

int from_r5(const note *n)
{
    const uint8_t *octets;
    ctext_answer a = shortest_form(n, ctext_r5_read, &octets);
    if (a.number == CTEXT_NOT_ENDED)
        a.place += n->dropped;
    return out_made_r5(n, a, octets);
}
