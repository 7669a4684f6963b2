// libX11's reader and writer of compound text, where the benchmark is built with it and a display answers; otherwise nothing.
#ifndef LIBX11_H
#define LIBX11_H

#include <stdbool.h>
#include <stddef.h>
#include <stdint.h>

void x11_open(void);
bool x11_is_there(void);

// The text of a string in UTF-8, in memory that the caller frees; null where libX11 does not convert all of it.
char *x11_text(const uint8_t *octets, size_t length);

// The octets of the text that was read, or of the string that was written; 0 where libX11 does not convert all of it.
size_t x11_read(const uint8_t *octets, size_t length);
size_t x11_write(char *utf8);

#endif
