/* units.c: the units of an accepted note, a line for each. */

#include <stdio.h>

#include "tool.h"

#define NAME_SHOWN 16 /* octets of an extended segment's name that a line shows */

/* The set of a character; of an extended segment the start of its name. */
static const char *set_shown(const note *n, ctext_unit unit, char *name)
{
    ctext_segment parts = ctext_segment_parts(n->octets, n->length, unit);
    uint32_t i;
    if (unit.kind == CTEXT_KIND_CHARACTER)
        return ctext_set_text(unit.set);
    for (i = 0; i < parts.name_length && i < NAME_SHOWN; i++) {
        uint8_t octet = n->octets[parts.name_start + i];
        name[i] = octet < 0x7F ? (char)octet : '?';
    }
    name[i] = '\0';
    return i == 0 ? "-" : name;
}

static const char *code_shown(ctext_unit unit, char *code)
{
    int coded = unit.kind == CTEXT_KIND_CHARACTER || unit.kind == CTEXT_KIND_SEGMENT;
    if (!coded)
        return "-";
    sprintf(code, "%02X", (unsigned)unit.code);
    return code;
}

/* Place, kind, set, code, direction in force and directions open after the unit,
   octets. */
static void print_unit(const note *n, ctext_unit unit)
{
    char name[NAME_SHOWN + 1], code[8];
    out_format("%5lu  %-16s  %-16s  %-4s  %-13s  %2d ", (unsigned long)unit.start,
               ctext_kind_text(unit.kind), set_shown(n, unit, name), code_shown(unit, code),
               ctext_direction_text(unit.direction), unit.depth);
    out_hexadecimal(n->octets + unit.start, unit.length);
    out_text("\n");
}

int units(const note *n)
{
    ctext_answer a = ctext_check(n->octets, n->length);
    ctext_step step;
    if (a.number != CTEXT_ACCEPTED)
        return complain_refusal(n, a);
    out_name(n, ":\n");
    for (step = ctext_next(n->octets, n->length, ctext_open()); step.given;
         step = ctext_next(n->octets, n->length, step.reader))
        print_unit(n, step.unit);
    return STATUS_ACCEPTED;
}
