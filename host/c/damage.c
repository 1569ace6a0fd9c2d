// Frames to the station go over a line that flips bits, in the three kinds of damage that a check word always shows. Each must be met
// with silence 11, and image and reply buffer stay to the last byte. The line is a pair of pseudo terminals in this process, taken from
// by the same code as the stand's.
//
//   damage SEED COUNT
#define _XOPEN_SOURCE 700

#include <fcntl.h>
#include <stdbool.h>
#include <stdint.h>
#include <stdio.h>
#include <stdlib.h>
#include <string.h>
#include <unistd.h>

#include "draw.h"
#include "frames.h"
#include "line.h"
#include "station.h"
#include "telling.h"

#define MOST_LINE_BITS (MONTRAKIT_LONGEST_FRAME * BYTE_BITS)
#define BURST_BITS 16
#define FEW_FLIPS 8

// Starts are drawn a little past the image's end as well.
#define WORDS_BEYOND 8

#define QUIET_MICROSECONDS 200
#define PATIENCE_MICROSECONDS 1000000
#define DRAIN_MICROSECONDS 20000
#define MOST_TRIES 20

#define MOST_FAILURES_TOLD 10
#define BAD_USAGE 2

enum damage { TWO_FLIPS, ODD_FLIPS, BURST, DAMAGES };

static const char *const DAMAGE_NAMES[DAMAGES] = {
    "two flips anywhere", "an odd number of flips", "flips inside 16 neighbours"};

struct frame {
    uint8_t bytes[MONTRAKIT_LONGEST_FRAME];
    size_t length;
};

// Of one kind of damage: what the station answers to the undamaged frames, and what came of the damaged ones.
struct tally {
    long replies;
    long exceptions;
    long silences;
    long passed;
    long failed;
};

struct test {
    struct draw draw;
    struct station station;
    struct line sender;
    struct line receiver;
    struct tally tallies[DAMAGES];
    long sent_again;
    bool is_line_lost;
};

static uint8_t draw_function(struct draw *draw)
{
    static const uint8_t functions[] = {
        MONTRAKIT_READ_BITS_01, MONTRAKIT_READ_BITS_02, MONTRAKIT_READ_WORDS_03, MONTRAKIT_READ_WORDS_04,
        MONTRAKIT_WRITE_BIT_05, MONTRAKIT_WRITE_WORD_06, MONTRAKIT_WRITE_BITS_0F, MONTRAKIT_WRITE_WORDS_10};

    return functions[draw_below(draw, sizeof functions)];
}

static uint16_t draw_value(struct draw *draw, uint8_t function)
{
    if (function == MONTRAKIT_WRITE_BIT_05)
        return draw_below(draw, 2) == 0 ? MONTRAKIT_BIT_OFF : MONTRAKIT_BIT_ON;
    if (function == MONTRAKIT_WRITE_WORD_06)
        return (uint16_t)draw_below(draw, UINT16_MAX + 1);
    return (uint16_t)draw_between(draw, 1, is_of_bits(function) ? MONTRAKIT_MOST_BITS : MONTRAKIT_MOST_WORDS);
}

// A request of the master's half. It addresses words anywhere in the image, in the hole and past the end.
static bool draw_built(struct draw *draw, struct frame *frame)
{
    uint8_t data[MONTRAKIT_LEAST_ROOM];
    uint8_t function = draw_function(draw);
    uint32_t starts = (STATION_WORDS + WORDS_BEYOND) * (is_of_bits(function) ? WORD_BITS : 1);
    uint16_t start = (uint16_t)draw_below(draw, starts);
    uint16_t value = draw_value(draw, function);
    size_t data_len = data_length(function, value);

    draw_bytes(draw, data, data_len);
    uint32_t built = montrakit_build(STATION_OWN, function, start, value, data, data_len, frame->bytes, sizeof frame->bytes);
    frame->length = MONTRAKIT_NUMBER(built);
    return MONTRAKIT_KIND(built) == MONTRAKIT_BUILT;
}

// Any bytes with our address and a right check word, every other time with a function that the station has.
static bool draw_any(struct draw *draw, struct frame *frame)
{
    frame->length = draw_between(draw, MONTRAKIT_SHORTEST_FRAME, MONTRAKIT_LONGEST_FRAME);
    draw_bytes(draw, frame->bytes, frame->length);
    frame->bytes[0] = STATION_OWN;
    if (draw_below(draw, 2) == 0)
        frame->bytes[1] = draw_function(draw);
    put_check_word(frame->bytes, frame->length);
    return true;
}

// Line bits: bytes in order, the least significant bit of each first.
static void flip(struct frame *frame, uint32_t line_bit)
{
    frame->bytes[line_bit / BYTE_BITS] ^= (uint8_t)(1u << line_bit % BYTE_BITS);
}

// So many different line bits are flipped, anywhere.
static void flip_anywhere(struct draw *draw, struct frame *frame, uint32_t line_bits, uint32_t flips)
{
    uint16_t places[MOST_LINE_BITS];

    for (uint32_t i = 0; i < line_bits; i++)
        places[i] = (uint16_t)i;
    for (uint32_t i = 0; i < flips; i++) {
        uint32_t chosen = draw_between(draw, i, line_bits - 1);
        uint16_t place = places[chosen];
        places[chosen] = places[i];
        places[i] = place;
        flip(frame, place);
    }
}

static void flip_burst(struct draw *draw, struct frame *frame, uint32_t line_bits)
{
    uint32_t first = draw_between(draw, 0, line_bits - BURST_BITS);
    uint32_t flipped = draw_between(draw, 1, UINT16_MAX);

    for (uint32_t i = 0; i < BURST_BITS; i++) {
        if (flipped >> i & 1)
            flip(frame, first + i);
    }
}

static void damage_frame(struct draw *draw, enum damage damage, struct frame *frame)
{
    uint32_t line_bits = (uint32_t)frame->length * BYTE_BITS;
    uint32_t most_odd = draw_below(draw, 2) == 0 ? FEW_FLIPS : line_bits;

    switch (damage) {
    case TWO_FLIPS:
        flip_anywhere(draw, frame, line_bits, 2);
        break;
    case ODD_FLIPS:
        flip_anywhere(draw, frame, line_bits, draw_below(draw, most_odd / 2) * 2 + 1);
        break;
    default:
        flip_burst(draw, frame, line_bits);
    }
}

static void drain(const struct test *test)
{
    uint8_t lost[MONTRAKIT_LONGEST_FRAME];
    struct timespec long_quiet = line_microseconds(DRAIN_MICROSECONDS);
    struct line line = {test->receiver.fd, long_quiet, &long_quiet, -1};

    while (line_take(&line, lost, sizeof lost) > 0)
        ;
}

// The frame goes over the line. What the receiver took for a frame must be what was sent: a machine that is busy can make a pause amid
// a frame; then it is sent again.
static bool carry(struct test *test, const struct frame *sent, struct frame *taken)
{
    for (int tries = 0; tries < MOST_TRIES; tries++) {
        if (!line_send(&test->sender, sent->bytes, sent->length))
            return false;
        taken->length = line_take(&test->receiver, taken->bytes, sizeof taken->bytes);
        if (taken->length == sent->length && memcmp(taken->bytes, sent->bytes, sent->length) == 0)
            return true;
        test->sent_again++;
        drain(test);
    }
    return false;
}

static void count_control(struct tally *tally, uint32_t control)
{
    switch (MONTRAKIT_KIND(control)) {
    case MONTRAKIT_REPLY:
        tally->replies++;
        break;
    case MONTRAKIT_EXCEPTION:
        tally->exceptions++;
        break;
    default:
        tally->silences++;
    }
}

// The station takes the damaged frame from the line, is silent with 11, and changes nothing.
static bool is_met_with_silence(struct test *test, const struct frame *damaged, uint32_t *result)
{
    struct frame taken;
    struct station before = test->station;
    uint8_t reply[MONTRAKIT_LEAST_ROOM];
    uint8_t reply_before[MONTRAKIT_LEAST_ROOM];

    if (!carry(test, damaged, &taken)) {
        test->is_line_lost = true;
        return false;
    }
    draw_bytes(&test->draw, reply, sizeof reply);
    memcpy(reply_before, reply, sizeof reply);
    *result = station_answer(&test->station, taken.bytes, taken.length, reply);
    return *result == MONTRAKIT_RESULT(MONTRAKIT_SILENT, MONTRAKIT_SILENT_CHECK_WORD) &&
           memcmp(test->station.image, before.image, sizeof before.image) == 0 &&
           memcmp(reply, reply_before, sizeof reply) == 0;
}

static void tell_failure(const struct frame *damaged, uint32_t control, uint32_t result)
{
    printf("FAILED ");
    tell_bytes(stdout, damaged->bytes, damaged->length);
    printf(": undamaged ");
    tell_result(stdout, control);
    printf(", damaged ");
    tell_result(stdout, result);
    printf("\n");
}

// One frame: undamaged as a control, on a copy of the station, where anything but silence 11 is right; then damaged. The copy is the
// station of the next frame, so that the image changes from frame to frame.
static void try_frame(struct test *test, enum damage damage)
{
    struct tally *tally = &test->tallies[damage];
    struct station copy = test->station;
    struct frame frame;
    uint8_t reply[MONTRAKIT_LEAST_ROOM];
    uint32_t result = 0;

    bool is_drawn = draw_below(&test->draw, 2) == 0 ? draw_built(&test->draw, &frame) : draw_any(&test->draw, &frame);
    uint32_t control = station_answer(&copy, frame.bytes, frame.length, reply);
    bool is_controlled = control != MONTRAKIT_RESULT(MONTRAKIT_SILENT, MONTRAKIT_SILENT_CHECK_WORD);

    count_control(tally, control);
    damage_frame(&test->draw, damage, &frame);
    bool is_silent = is_met_with_silence(test, &frame, &result);
    test->station = copy;
    if (is_drawn && is_controlled && is_silent) {
        tally->passed++;
        return;
    }
    tally->failed++;
    if (tally->failed <= MOST_FAILURES_TOLD && !test->is_line_lost)
        tell_failure(&frame, control, result);
}

static bool open_line(struct test *test, const struct timespec *patience)
{
    int sender = posix_openpt(O_RDWR | O_NOCTTY);

    if (sender < 0 || grantpt(sender) != 0 || unlockpt(sender) != 0)
        return false;
    int receiver = open(ptsname(sender), O_RDWR | O_NOCTTY);
    if (receiver < 0 || !line_make_raw(receiver))
        return false;
    test->sender = (struct line){sender, line_microseconds(QUIET_MICROSECONDS), patience, -1};
    test->receiver = (struct line){receiver, line_microseconds(QUIET_MICROSECONDS), patience, -1};
    return true;
}

// The table, and the last line; whether all passed.
static bool tell(const struct test *test)
{
    long passed = 0;
    long failed = 0;

    printf("%-28s %30s %20s\n", "", "undamaged, the frames gave", "damaged, they");
    printf("%-28s %10s %10s %8s %10s %9s\n", "damage", "a reply", "exception", "silence", "passed", "failed");
    for (int damage = 0; damage < DAMAGES; damage++) {
        const struct tally *tally = &test->tallies[damage];
        printf("%-28s %10ld %10ld %8ld %10ld %9ld\n", DAMAGE_NAMES[damage], tally->replies, tally->exceptions, tally->silences,
               tally->passed, tally->failed);
        passed += tally->passed;
        failed += tally->failed;
    }
    printf("sent again, because the line made a pause amid the frame: %ld\n", test->sent_again);
    if (test->is_line_lost)
        printf("the line gave up: a frame did not come through in %d tries\n", MOST_TRIES);
    printf("%ld passed, %ld failed\n", passed, failed);
    return failed == 0;
}

int main(int argc, char **argv)
{
    static struct test test;
    const struct timespec patience = line_microseconds(PATIENCE_MICROSECONDS);

    long count = argc == 3 ? strtol(argv[2], NULL, 10) : 0;
    if (count <= 0) {
        fputs("damage SEED COUNT\n", stderr);
        return BAD_USAGE;
    }
    if (!open_line(&test, &patience)) {
        perror("pseudo terminal");
        return EXIT_FAILURE;
    }
    test.draw.state = strtoull(argv[1], NULL, 10);
    station_begin(&test.station);
    for (long i = 0; i < count && !test.is_line_lost; i++)
        try_frame(&test, (enum damage)(i % DAMAGES));
    return tell(&test) ? EXIT_SUCCESS : EXIT_FAILURE;
}
