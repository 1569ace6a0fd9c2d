#include "station.h"

static const uint16_t AREAS[] = {
    0, 100, MONTRAKIT_READ_WRITE,
    100, 20, MONTRAKIT_READ_ONLY,
    200, 200, MONTRAKIT_READ_WRITE,
};

void station_begin(struct station *station)
{
    station->own = STATION_OWN;
    station->counting = MONTRAKIT_MOD_BUS;
    station->state = MONTRAKIT_READY;
    for (uint16_t w = 0; w < STATION_WORDS; w++)
        station->image[w] = w;
}

uint32_t station_answer(struct station *station, const uint8_t *frame, size_t frame_len, uint8_t reply[MONTRAKIT_LEAST_ROOM])
{
    return montrakit_respond(station->own, station->counting, station->state,
                             AREAS, sizeof AREAS / sizeof AREAS[0],
                             frame, frame_len,
                             station->image, STATION_WORDS,
                             reply, MONTRAKIT_LEAST_ROOM);
}
