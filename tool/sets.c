/* sets.c: the fifteen sets, a line for each, as the library's table has them. */

#include <stdio.h>

#include "tool.h"

#define DESIGNATION 12 /* octets of the longest one as it is shown, and a 00 */

/* What stands before the final octet of a designation, by form and side. */
static const char *const LEADS[][2] = {
    [CTEXT_FORM_94] = { "1B 28", "1B 29" },
    [CTEXT_FORM_96] = { "", "1B 2D" }, /* in GL none may stand */
    [CTEXT_FORM_94X94] = { "1B 24 28", "1B 24 29" }
};

/* The designation that puts the set on the side, in hexadecimal. */
static const char *designation_shown(ctext_row row, unsigned side, char *designation)
{
    int may_stand = side == CTEXT_GL ? row.gl : row.gr;
    if (!may_stand)
        return "-";
    snprintf(designation, DESIGNATION, "%s %02X", LEADS[row.form][side], (unsigned)row.final_octet);
    return designation;
}

int sets(void)
{
    char gl[DESIGNATION], gr[DESIGNATION];
    uint8_t set;
    out_text("set  octets  to GL        to GR        name              font CharSet\n");
    for (set = 0; set < CTEXT_NO_SET; set++) {
        ctext_row row = ctext_set_row(set);
        out_format("%3d  %6d  %-11s  %-11s  %-16s  %s\n", set, row.octets,
                   designation_shown(row, CTEXT_GL, gl), designation_shown(row, CTEXT_GR, gr),
                   ctext_set_text(set), ctext_set_charset(set));
    }
    return STATUS_ACCEPTED;
}
