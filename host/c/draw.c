#include "draw.h"

// SplitMix64 (Steele, Lea, Flood 2014).
static uint64_t next(struct draw *draw)
{
    uint64_t z = draw->state += UINT64_C(0x9E3779B97F4A7C15);

    z = (z ^ z >> 30) * UINT64_C(0xBF58476D1CE4E5B9);
    z = (z ^ z >> 27) * UINT64_C(0x94D049BB133111EB);
    return z ^ z >> 31;
}

uint32_t draw_below(struct draw *draw, uint32_t bound)
{
    return (uint32_t)(next(draw) % bound);
}

uint32_t draw_between(struct draw *draw, uint32_t least, uint32_t most)
{
    return least + draw_below(draw, most - least + 1);
}

void draw_bytes(struct draw *draw, uint8_t *bytes, size_t count)
{
    for (size_t i = 0; i < count; i++)
        bytes[i] = (uint8_t)draw_below(draw, UINT8_MAX + 1);
}
