// A master with libmodbus, for host/clients: makes one request and prints what came of it as a line, or makes many (soak).
//
//   clients_libmodbus DEVICE STATION MILLISECONDS 01|02|03|04 START QUANTITY    prints the values
//                                                 05|06 START VALUE             prints "written"
//                                                 0F|10 START VALUE...          prints "written"
//                                                 raw BYTE...                   (hex, without check word) prints "reply"
//                                                 soak SEED COUNT               prints what was counted
//
// An exception prints "exception" and its code, a time-out "silent".
#include <errno.h>
#include <modbus.h>
#include <stdbool.h>
#include <stdint.h>
#include <stdio.h>
#include <stdlib.h>
#include <string.h>

#include "draw.h"

#define SPEED 19200
#define PARITY 'N'
#define DATA_BITS 8
#define STOP_BITS 1
#define MILLISECONDS 1000
#define MICROSECONDS_EACH 1000
#define MOST_VALUES MODBUS_MAX_READ_BITS
#define FUNCTION_AT 1
#define CODE_AT 2
#define EXCEPTION_BIT 0x80
#define WORD_BITS 16
#define HEX 16

// What the soak reads and writes: a read-write area of the stand, and the most of a request.
#define SOAK_FIRST 200
#define SOAK_WORDS 200
#define SOAK_MOST_WORDS 80
#define SOAK_MOST_BITS 256

#define WORDS_BEFORE_WHAT 4
#define FEWEST_WORDS 3
#define MOST_RAW_BYTES (MODBUS_RTU_MAX_ADU_LENGTH - 2)
#define BAD_USAGE 2

// One request; bits stand one to an element, 0 or 1.
struct request {
    int function;
    int start;
    int count;
    uint16_t values[MOST_VALUES];
};

static bool is_of_bits(int function)
{
    return function == MODBUS_FC_READ_COILS || function == MODBUS_FC_READ_DISCRETE_INPUTS ||
           function == MODBUS_FC_WRITE_SINGLE_COIL || function == MODBUS_FC_WRITE_MULTIPLE_COILS;
}

static bool is_a_read(int function)
{
    return function <= MODBUS_FC_READ_INPUT_REGISTERS;
}

static int make_bit_request(modbus_t *master, struct request *r)
{
    uint8_t bits[MOST_VALUES];
    int made;

    for (int i = 0; i < r->count; i++)
        bits[i] = (uint8_t)r->values[i];
    switch (r->function) {
    case MODBUS_FC_READ_COILS:
        made = modbus_read_bits(master, r->start, r->count, bits);
        break;
    case MODBUS_FC_READ_DISCRETE_INPUTS:
        made = modbus_read_input_bits(master, r->start, r->count, bits);
        break;
    case MODBUS_FC_WRITE_SINGLE_COIL:
        made = modbus_write_bit(master, r->start, bits[0]);
        break;
    default:
        made = modbus_write_bits(master, r->start, r->count, bits);
    }
    for (int i = 0; i < r->count; i++)
        r->values[i] = bits[i];
    return made;
}

// -1 and errno where it fails.
static int make_request(modbus_t *master, struct request *r)
{
    if (is_of_bits(r->function))
        return make_bit_request(master, r);
    switch (r->function) {
    case MODBUS_FC_READ_HOLDING_REGISTERS:
        return modbus_read_registers(master, r->start, r->count, r->values);
    case MODBUS_FC_READ_INPUT_REGISTERS:
        return modbus_read_input_registers(master, r->start, r->count, r->values);
    case MODBUS_FC_WRITE_SINGLE_REGISTER:
        return modbus_write_register(master, r->start, r->values[0]);
    default:
        return modbus_write_registers(master, r->start, r->count, r->values);
    }
}

static void tell_failure(void)
{
    if (errno == ETIMEDOUT)
        puts("silent");
    else if (MODBUS_ENOBASE < errno && errno < MODBUS_ENOBASE + MODBUS_EXCEPTION_MAX)
        printf("exception %d\n", errno - MODBUS_ENOBASE);
    else
        printf("failed: %s\n", modbus_strerror(errno));
}

static void tell_request(modbus_t *master, struct request *r)
{
    if (make_request(master, r) < 0) {
        tell_failure();
        return;
    }
    if (!is_a_read(r->function)) {
        puts("written");
        return;
    }
    for (int i = 0; i < r->count; i++)
        printf(i == 0 ? "%d" : " %d", r->values[i]);
    puts("");
}

static void tell_raw(modbus_t *master, int count, char **words)
{
    uint8_t request[MODBUS_RTU_MAX_ADU_LENGTH];
    uint8_t reply[MODBUS_RTU_MAX_ADU_LENGTH];

    for (int i = 0; i < count; i++)
        request[i] = (uint8_t)strtol(words[i], NULL, HEX);
    if (modbus_send_raw_request(master, request, count) < 0 || modbus_receive_confirmation(master, reply) < 0)
        tell_failure();
    else if (reply[FUNCTION_AT] & EXCEPTION_BIT)
        printf("exception %d\n", reply[CODE_AT]);
    else
        puts("reply");
}

static void draw_request(struct draw *draw, struct request *r)
{
    static const int functions[] = {
        MODBUS_FC_READ_COILS, MODBUS_FC_READ_DISCRETE_INPUTS, MODBUS_FC_READ_HOLDING_REGISTERS, MODBUS_FC_READ_INPUT_REGISTERS,
        MODBUS_FC_WRITE_SINGLE_COIL, MODBUS_FC_WRITE_SINGLE_REGISTER,
        MODBUS_FC_WRITE_MULTIPLE_COILS, MODBUS_FC_WRITE_MULTIPLE_REGISTERS};

    r->function = functions[draw_below(draw, sizeof functions / sizeof functions[0])];
    bool writes_one = r->function == MODBUS_FC_WRITE_SINGLE_COIL || r->function == MODBUS_FC_WRITE_SINGLE_REGISTER;
    uint32_t width = is_of_bits(r->function) ? WORD_BITS : 1;
    uint32_t most = is_of_bits(r->function) ? SOAK_MOST_BITS : SOAK_MOST_WORDS;

    r->count = writes_one ? 1 : (int)draw_between(draw, 1, most);
    r->start = (int)draw_between(draw, SOAK_FIRST * width, (SOAK_FIRST + SOAK_WORDS) * width - (uint32_t)r->count);
    for (int i = 0; i < r->count; i++)
        r->values[i] = (uint16_t)draw_below(draw, is_of_bits(r->function) ? 2 : UINT16_MAX + 1);
}

// Where the image should hold value i of a request: a word, and the mask of what is meant in it.
static uint16_t *place(uint16_t *image, const struct request *r, int i, uint16_t *mask)
{
    int address = r->start + i;

    if (!is_of_bits(r->function)) {
        *mask = UINT16_MAX;
        return &image[address - SOAK_FIRST];
    }
    *mask = (uint16_t)(1u << address % WORD_BITS);
    return &image[address / WORD_BITS - SOAK_FIRST];
}

static void store(uint16_t *image, const struct request *r)
{
    for (int i = 0; i < r->count; i++) {
        uint16_t mask;
        uint16_t *word = place(image, r, i, &mask);
        uint16_t value = is_of_bits(r->function) ? (uint16_t)(r->values[i] ? mask : 0) : r->values[i];
        *word = (uint16_t)((*word & ~mask) | value);
    }
}

static bool holds(uint16_t *image, const struct request *r)
{
    for (int i = 0; i < r->count; i++) {
        uint16_t mask;
        uint16_t held = *place(image, r, i, &mask) & mask;
        if (is_of_bits(r->function) ? (held != 0) != (r->values[i] != 0) : held != r->values[i])
            return false;
    }
    return true;
}

// The area is written once, so that what it holds is known; then come drawn reads and writes.
static void soak(modbus_t *master, uint64_t seed, long count)
{
    uint16_t image[SOAK_WORDS] = {0};
    struct draw draw = {seed};
    struct request r;
    long lost = 0;
    long wrong = 0;

    for (int start = 0; start < SOAK_WORDS; start += SOAK_MOST_WORDS) {
        int left = SOAK_WORDS - start;
        lost += modbus_write_registers(master, SOAK_FIRST + start, left < SOAK_MOST_WORDS ? left : SOAK_MOST_WORDS, image) < 0;
    }
    for (long i = 0; i < count; i++) {
        draw_request(&draw, &r);
        if (make_request(master, &r) < 0)
            lost++;
        else if (!is_a_read(r.function))
            store(image, &r);
        else
            wrong += !holds(image, &r);
    }
    printf("%ld requests, %ld lost, %ld wrong\n", count, lost, wrong);
}

// The request that the words name; false if it has more values than there is room for.
static bool take_request(int count, char **words, struct request *r)
{
    r->function = (int)strtol(words[0], NULL, HEX);
    r->start = (int)strtol(words[1], NULL, 10);
    r->count = is_a_read(r->function) ? (int)strtol(words[2], NULL, 10) : count - 2;
    if (r->count > MOST_VALUES)
        return false;
    for (int i = 2; i < count; i++)
        r->values[i - 2] = (uint16_t)strtol(words[i], NULL, 10);
    return true;
}

// What the words ask for; false if they ask for too much.
static bool do_what(modbus_t *master, int count, char **words)
{
    struct request r = {0, 0, 0, {0}};

    if (strcmp(words[0], "soak") == 0) {
        soak(master, strtoull(words[1], NULL, 10), strtol(words[2], NULL, 10));
        return true;
    }
    if (strcmp(words[0], "raw") == 0) {
        if (count - 1 > MOST_RAW_BYTES)
            return false;
        tell_raw(master, count - 1, words + 1);
        return true;
    }
    if (!take_request(count, words, &r))
        return false;
    tell_request(master, &r);
    return true;
}

int main(int argc, char **argv)
{
    int count = argc - WORDS_BEFORE_WHAT;
    if (count < FEWEST_WORDS || count > MOST_VALUES)
        return BAD_USAGE;

    modbus_t *master = modbus_new_rtu(argv[1], SPEED, PARITY, DATA_BITS, STOP_BITS);
    uint32_t milliseconds = (uint32_t)strtoul(argv[3], NULL, 10);

    if (master == NULL || modbus_set_slave(master, atoi(argv[2])) != 0 || modbus_connect(master) != 0) {
        fprintf(stderr, "%s: %s\n", argv[1], modbus_strerror(errno));
        return EXIT_FAILURE;
    }
    modbus_set_response_timeout(master, milliseconds / MILLISECONDS, milliseconds % MILLISECONDS * MICROSECONDS_EACH);
    bool is_done = do_what(master, count, argv + WORDS_BEFORE_WHAT);
    modbus_close(master);
    modbus_free(master);
    return is_done ? EXIT_SUCCESS : BAD_USAGE;
}
