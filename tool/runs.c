/* runs.c: the runs of an accepted note, a line for each. */

#include "tool.h"

#define ROOM 64

/* Place, side, set, octets of a character, direction, octets. */
static void print_run(const note *n, uint64_t run)
{
    size_t start = ctext_run_start(run);
    const uint8_t *octets = n->octets + start;
    out_format("%5zu  %s  %-16s  %d  %-13s ", start, octets[0] < 0x80 ? "GL" : "GR",
               ctext_set_text(ctext_run_set(run)), ctext_run_width(run),
               ctext_direction_text(ctext_run_direction(run)));
    out_hexadecimal(octets, ctext_run_end(run) - start);
    out_text("\n");
}

/* The first call answers for the whole note. */
int runs(const note *n)
{
    uint64_t list[ROOM];
    ctext_runs_step step = ctext_next_runs(n->octets, n->length, ctext_open_runs(), list, ROOM);
    size_t i;
    if (step.answer.number != CTEXT_ACCEPTED)
        return complain_refusal(n, step.answer);
    out_name(n, ":\n");
    while (step.answer.count > 0) {
        for (i = 0; i < step.answer.count; i++)
            print_run(n, list[i]);
        step = ctext_next_runs(n->octets, n->length, step.reader, list, ROOM);
    }
    return STATUS_ACCEPTED;
}
