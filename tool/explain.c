/* explain.c: why a note is refused, with the octets around the place; or what an
   accepted note holds. */

#include "tool.h"

/* ---- Accepted ----------------------------------------------------------- */

/* The sets that characters use, a binary digit for each, and the greatest depth. */
typedef struct summary {
    uint32_t sets;
    unsigned depth;
} summary;

static summary summary_of(const note *n)
{
    summary s = { 0, 0 };
    ctext_step step;
    for (step = ctext_next(n->octets, n->length, ctext_open()); step.given;
         step = ctext_next(n->octets, n->length, step.reader)) {
        if (step.unit.kind == CTEXT_KIND_CHARACTER)
            s.sets |= (uint32_t)1 << step.unit.set;
        if (step.unit.depth > s.depth)
            s.depth = step.unit.depth;
    }
    return s;
}

static void print_sets(uint32_t sets)
{
    const char *before = "sets used: ";
    unsigned set;
    for (set = 0; set <= CTEXT_SET_KSC5601; set++) {
        if ((sets >> set & 1) == 0)
            continue;
        out_format("%s%s", before, ctext_set_text(set));
        before = ", ";
    }
    out_text(sets == 0 ? "sets used: none\n" : "\n");
}

static int explain_accepted(const note *n, ctext_answer a)
{
    const uint8_t *octets;
    ctext_answer shortest = shortest_form(n, ctext_read, &octets);
    summary s = summary_of(n);
    out_format("accepted: octets %zu, units %zu\n", a.place, a.count);
    print_sets(s.sets);
    out_format("greatest depth of directions: %u\n", s.depth);
    out_format("shortest form: octets %zu, saved %zu\n", shortest.count, a.place - shortest.count);
    return STATUS_ACCEPTED;
}

/* ---- Refused ------------------------------------------------------------ */

/* The answer, and the reader where it gives no further unit: at the start of the
   element that is refused. */
static refusal refusal_of(const note *n)
{
    refusal r;
    ctext_step step = ctext_next(n->octets, n->length, ctext_open());
    while (step.given)
        step = ctext_next(n->octets, n->length, step.reader);
    r.note = n;
    r.answer = step.answer;
    r.reader = step.reader;
    return r;
}

static int explain_refused(const note *n, ctext_answer a)
{
    refusal r = refusal_of(n);
    out_refusal(a);
    if (a.number == CTEXT_TOO_LONG)
        return STATUS_REFUSED;
    out_format("octets %zu, element at %zu, units before it %zu\n", n->length, r.reader.place, r.reader.count);
    out_dump(n, r.reader.place, a.place);
    say_reason(&r);
    return STATUS_REFUSED;
}

int explain(const note *n)
{
    ctext_answer a = ctext_check(n->octets, n->length);
    out_name(n, ":\n");
    return a.number == CTEXT_ACCEPTED ? explain_accepted(n, a) : explain_refused(n, a);
}
