// The proved library's entry points, as the benchmark calls them, by this repository's header or the one that CTEXT_HEADER names, which is to be
// that of the archive. Each is weak: a function that the archive lacks is null, and is then not measured.
#ifndef LIBRARY_H
#define LIBRARY_H

#ifndef CTEXT_HEADER
#define CTEXT_HEADER "../include/ctext.h"
#endif
#include CTEXT_HEADER

// A header of 3.0 lacks these.
ctext_answer ctext_archive_check(const uint8_t *s, size_t n);
ctext_answer ctext_archive_read(const uint8_t *s, size_t n, ctext_unit *units, size_t room);

// A header of 4.0 lacks these.
ctext_answer ctext_r5_read(const uint8_t *s, size_t n, ctext_unit *units, size_t room);
ctext_answer ctext_r5_write(const ctext_unit *units, size_t count, const uint8_t *segments, size_t m, uint8_t *out, size_t o);

#pragma weak ctext_check
#pragma weak ctext_read
#pragma weak ctext_write
#pragma weak ctext_run
#pragma weak ctext_next
#pragma weak ctext_open_runs
#pragma weak ctext_next_run
#pragma weak ctext_next_runs
#pragma weak ctext_archive_check
#pragma weak ctext_archive_read
#pragma weak ctext_r5_read
#pragma weak ctext_r5_write
#pragma weak ctext_resource_write
#pragma weak ctext_resource_read

enum { WORK_ROOM = CTEXT_WORK_ROOM(CTEXT_MOST_UNITS) };

#endif
