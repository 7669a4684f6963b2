/* escape.c: the resource form of a note, which may be any octets. */

#include "tool.h"

int escape(const note *n)
{
    static uint8_t form[CTEXT_MOST_FORM];
    ctext_answer a = ctext_resource_write(n->octets, n->length, form, sizeof form);
    return out_made(n, a, form);
}
