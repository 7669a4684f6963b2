/* check.c: whether a note is accepted, in one line. */

#include "tool.h"

int check(const note *n)
{
    ctext_answer a = ctext_check(n->octets, n->length);
    out_name(n, ": ");
    if (a.number == CTEXT_ACCEPTED)
        out_format("accepted: octets %zu, units %zu\n", a.place, a.count);
    else
        out_refusal(a);
    return a.number == CTEXT_ACCEPTED ? STATUS_ACCEPTED : STATUS_REFUSED;
}
