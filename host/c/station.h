// The station that the stand and the test of damage answer as.
#ifndef STATION_H
#define STATION_H

#include <stddef.h>
#include <stdint.h>

#include "montrakit.h"

#define STATION_OWN 20
#define STATION_WORDS 400

// Its areas, in words.
#define STATION_AREAS "0 to 99 read-write, 100 to 119 read-only, 120 to 199 in no area, 200 to 399 read-write"

struct station {
    uint8_t own;
    uint8_t counting;
    uint8_t state;
    uint16_t image[STATION_WORDS];
};

// Own address 20, MOD-Bus, ready; word w holds w.
void station_begin(struct station *station);

uint32_t station_answer(struct station *station, const uint8_t *frame, size_t frame_len, uint8_t reply[MONTRAKIT_LEAST_ROOM]);

#endif
