// Numbers drawn by a seed: the same seed gives the same numbers on every machine.
#ifndef DRAW_H
#define DRAW_H

#include <stddef.h>
#include <stdint.h>

struct draw {
    uint64_t state;
};

// 0 to bound - 1; bound is at least 1.
uint32_t draw_below(struct draw *draw, uint32_t bound);

// From least to most, both included.
uint32_t draw_between(struct draw *draw, uint32_t least, uint32_t most);

void draw_bytes(struct draw *draw, uint8_t *bytes, size_t count);

#endif
