// The form of a note in a resource file, written and read by plain loops in C: the base of the ratios of ctext_resource_write and
// ctext_resource_read, with the same answers.
#ifndef PLAIN_FORM_H
#define PLAIN_FORM_H

#include "../include/ctext.h"

ctext_answer plain_write(const uint8_t *s, size_t n, uint8_t *out, size_t o);
ctext_answer plain_read(const uint8_t *s, size_t n, uint8_t *out, size_t o);

#endif
