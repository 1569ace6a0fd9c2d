// The example: a master and a station talk in one process. What the master builds is handed to the station, and what the station
// answers is read by the master; on a real line the two are at its ends.
#include <stdbool.h>
#include <stdint.h>
#include <stdio.h>
#include <string.h>

#include "montrakit.h"
#include "telling.h"

#define STATION 20
#define ANOTHER_STATION 21
#define IMAGE_WORDS 120
#define AREAS 2

static const uint16_t AREA_LIST[AREAS * MONTRAKIT_AREA_WORDS] = {
    0, 100, MONTRAKIT_READ_WRITE,
    100, 20, MONTRAKIT_READ_ONLY,
};

// One exchange, and what is to come of it. Where the station sends nothing, nothing is read, and `reading` is not looked at.
struct exchange {
    const char *what;
    uint8_t station;
    uint8_t function;
    uint16_t start;
    uint16_t value;
    const uint8_t *data;
    size_t data_len;
    bool is_damaged;
    uint32_t answer;
    uint32_t reading;
    const uint8_t *values;
};

static const uint8_t THREE_WORDS[] = {0x03, 0xE8, 0x01, 0xF4, 0xFF, 0xFF};
static const uint8_t BIT_8_OFF[] = {0x02, 0xE8, 0x01, 0xF4, 0xFF, 0xFF};
static const uint8_t FOUR_BITS[] = {0x05};
static const uint8_t WORD_WITH_BITS[] = {0xFF, 0xF5};
static const uint8_t TWO_WORDS[] = {0x00, 0x00, 0x00, 0x00};

#define REPLY(length) MONTRAKIT_RESULT(MONTRAKIT_REPLY, length)
#define SILENT(number) MONTRAKIT_RESULT(MONTRAKIT_SILENT, number)
#define EXCEPTION(code) MONTRAKIT_RESULT(MONTRAKIT_EXCEPTION, code)
#define VALUES(length) MONTRAKIT_RESULT(MONTRAKIT_VALUES, length)
#define WRITTEN MONTRAKIT_RESULT(MONTRAKIT_WRITTEN, 0)

static const struct exchange EXCHANGES[] = {
    {"write words 0 to 2", STATION, MONTRAKIT_WRITE_WORDS_10, 0, 3, THREE_WORDS, sizeof THREE_WORDS, false,
     REPLY(8), WRITTEN, NULL},
    {"read them back", STATION, MONTRAKIT_READ_WORDS_03, 0, 3, NULL, 0, false,
     REPLY(11), VALUES(sizeof THREE_WORDS), THREE_WORDS},
    {"turn bit 8 of word 0 off", STATION, MONTRAKIT_WRITE_BIT_05, 8, MONTRAKIT_BIT_OFF, NULL, 0, false,
     REPLY(8), WRITTEN, NULL},
    {"word 0 has changed by it", STATION, MONTRAKIT_READ_WORDS_04, 0, 3, NULL, 0, false,
     REPLY(11), VALUES(sizeof BIT_8_OFF), BIT_8_OFF},
    {"write four bits of word 2", STATION, MONTRAKIT_WRITE_BITS_0F, 2 * 16, 4, FOUR_BITS, sizeof FOUR_BITS, false,
     REPLY(8), WRITTEN, NULL},
    {"read these bits", STATION, MONTRAKIT_READ_BITS_01, 2 * 16, 4, NULL, 0, false,
     REPLY(6), VALUES(sizeof FOUR_BITS), FOUR_BITS},
    {"word 2 holds them lowest", STATION, MONTRAKIT_READ_WORDS_03, 2, 1, NULL, 0, false,
     REPLY(7), VALUES(sizeof WORD_WITH_BITS), WORD_WITH_BITS},
    {"write a read-only word", STATION, MONTRAKIT_WRITE_WORD_06, 100, 1, NULL, 0, false,
     EXCEPTION(MONTRAKIT_CODE_READ_ONLY), EXCEPTION(MONTRAKIT_CODE_READ_ONLY), NULL},
    {"read across both areas", STATION, MONTRAKIT_READ_WORDS_03, 99, 2, NULL, 0, false,
     REPLY(9), VALUES(sizeof TWO_WORDS), TWO_WORDS},
    {"read past the last area", STATION, MONTRAKIT_READ_BITS_02, 120 * 16, 1, NULL, 0, false,
     EXCEPTION(MONTRAKIT_CODE_ADDRESS), EXCEPTION(MONTRAKIT_CODE_ADDRESS), NULL},
    {"the line damages a frame", STATION, MONTRAKIT_WRITE_WORD_06, 0, 7, NULL, 0, true,
     SILENT(MONTRAKIT_SILENT_CHECK_WORD), 0, NULL},
    {"ask another station", ANOTHER_STATION, MONTRAKIT_WRITE_WORD_06, 0, 7, NULL, 0, false,
     SILENT(MONTRAKIT_SILENT_ANOTHER_STATION), 0, NULL},
    {"these two wrote nothing", STATION, MONTRAKIT_READ_WORDS_03, 0, 2, NULL, 0, false,
     REPLY(9), VALUES(4), BIT_8_OFF},
};

// What the line does to a frame: its first line bit is flipped.
static void damage(uint8_t *frame)
{
    frame[0] ^= 1;
}

// The master reads the reply.
static bool read_reply(const struct exchange *e, const uint8_t *reply, size_t reply_len)
{
    uint8_t out[MONTRAKIT_LEAST_ROOM];
    uint32_t reading = montrakit_read(e->station, e->function, e->start, e->value, reply, reply_len, out, sizeof out);

    printf(" -> ");
    tell_bytes(stdout, reply, reply_len);
    printf(": ");
    if (MONTRAKIT_KIND(reading) == MONTRAKIT_VALUES) {
        printf("values ");
        tell_bytes(stdout, out, MONTRAKIT_NUMBER(reading));
    } else {
        tell_result(stdout, reading);
    }
    if (reading != e->reading)
        return false;
    return e->values == NULL || memcmp(out, e->values, MONTRAKIT_NUMBER(reading)) == 0;
}

// The station answers the frame.
static bool answer(const struct exchange *e, const uint8_t *frame, size_t frame_len, uint16_t *image)
{
    uint8_t reply[MONTRAKIT_LEAST_ROOM];
    uint32_t result = montrakit_respond(STATION, MONTRAKIT_MOD_BUS, MONTRAKIT_READY,
                                        AREA_LIST, AREAS * MONTRAKIT_AREA_WORDS,
                                        frame, frame_len, image, IMAGE_WORDS, reply, sizeof reply);
    size_t sent = montrakit_to_send(result);

    tell_bytes(stdout, frame, frame_len);
    if (sent > 0)
        return read_reply(e, reply, sent) && result == e->answer;
    printf(": ");
    tell_result(stdout, result);
    return result == e->answer;
}

// The master builds a request, and it goes over the line to the station.
static bool talk(const struct exchange *e, uint16_t *image)
{
    uint8_t frame[MONTRAKIT_LEAST_ROOM];
    uint32_t built = montrakit_build(e->station, e->function, e->start, e->value, e->data, e->data_len, frame, sizeof frame);

    printf("%-27s", e->what);
    if (MONTRAKIT_KIND(built) != MONTRAKIT_BUILT) {
        tell_result(stdout, built);
        return false;
    }
    if (e->is_damaged)
        damage(frame);
    return answer(e, frame, MONTRAKIT_NUMBER(built), image);
}

int main(void)
{
    uint16_t image[IMAGE_WORDS] = {0};
    bool is_as_expected = true;

    for (size_t i = 0; i < sizeof EXCHANGES / sizeof EXCHANGES[0]; i++) {
        bool is_right = talk(&EXCHANGES[i], image);
        printf(is_right ? "\n" : "   NOT AS EXPECTED\n");
        is_as_expected = is_as_expected && is_right;
    }
    return is_as_expected ? 0 : 1;
}
