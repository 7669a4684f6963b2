/* unescape.c: the octets that a resource form stands for. */

#include "tool.h"

/* What to do about the octet that is refused. */
static const char *hint(const note *n, size_t place)
{
    switch (n->octets[place]) {
    case '\n':
        return place + 1 == n->length ? "the newline at the end is no part of the form; tr -d '\\n' drops it"
                                      : "a form is one line, and a newline in it is \\n";
    case 0x00: return "an octet 00 is \\000 in a form";
    default: return "a backslash stands only in \\\\, \\n and \\000";
    }
}

int unescape(const note *n)
{
    static uint8_t plain[CTEXT_MOST_OCTETS];
    ctext_answer a = ctext_resource_read(n->octets, n->length, plain, sizeof plain);
    int status = out_made(n, a, plain);
    if (a.number == CTEXT_BAD_FORM)
        complain(n->name, hint(n, a.place));
    return status;
}
