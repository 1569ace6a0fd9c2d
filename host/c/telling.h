// Results and bytes as text.
#ifndef TELLING_H
#define TELLING_H

#include <stddef.h>
#include <stdint.h>
#include <stdio.h>

// A result by the name of its kind and its number, as "silent 11"; a write that is done has no number.
void tell_result(FILE *to, uint32_t result);

// Bytes in hex, single blanks between them.
void tell_bytes(FILE *to, const uint8_t *bytes, size_t count);

#endif
