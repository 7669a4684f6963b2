/* program.c: what the command does without a verb. Standard input's shortest
   form, nothing added, or `refused N at P' and a newline; up to 909 units. */

#include "tool.h"

int program(void)
{
    static uint8_t out[CTEXT_MOST_OCTETS];
    note n;
    ctext_printed printed;
    if (!input_note("-", CTEXT_MOST_OCTETS, &n))
        return STATUS_FAILED;
    printed = ctext_program(n.octets, n.length, out, sizeof out);
    out_octets(out, printed.length);
    return printed.answer.number == CTEXT_ACCEPTED ? STATUS_ACCEPTED : STATUS_REFUSED;
}
