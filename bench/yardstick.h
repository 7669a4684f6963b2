// A validator of compound text in C, by tables: the base of the ratios that bench/run prints, and what tests/exhaustive compares the library
// with. It is made from the words of the rules (docs/RULES.md) and not from the library's code, and follows each later request by its words too.
#ifndef YARDSTICK_H
#define YARDSTICK_H

#include <stddef.h>
#include <stdint.h>

// The number of the refusal, 0 where the string is accepted, and its place. Units are not counted.
struct verdict {
    uint32_t number, place;
};

struct verdict yardstick(const uint8_t *octets, size_t length);

#endif
