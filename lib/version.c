/* version.c: the one function of the installed libraries that is not proved,
   since a function of Rattle gives no C string. */

#include "ctext.h"

const char *ctext_version(void)
{
    return CTEXT_VERSION;
}
