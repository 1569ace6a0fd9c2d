// How much stack a call needs: each is made on a stack of its own, which was painted before, and the deepest byte that has changed is
// looked for. What the measuring itself needs, a call of nothing shows. The return address and arguments on the stack are counted.
#define _XOPEN_SOURCE 700

#include <stdint.h>
#include <stdio.h>
#include <stdlib.h>
#include <string.h>
#include <ucontext.h>

#include "frames.h"
#include "montrakit.h"

#define STACK_BYTES 65536
#define OWN 20
#define ANOTHER 21
#define BIT_IN_A_WORD 5

// Functions that the station does not have, and the length of requests 01 to 06.
#define NO_FUNCTION 0x07
#define NO_FUNCTION_EITHER 0x83
#define REQUEST_LENGTH 8

#define IMAGE_WORDS MONTRAKIT_MOST_IMAGE_WORDS
#define AREA_COUNT (IMAGE_WORDS / MONTRAKIT_MOST_AREAS)

// The stack is painted twice, so that a byte which is written with the paint's own value shows the other time.
static const uint8_t PAINTS[] = {0x55, 0xAA};

// The arguments of a call of any of the four functions, and the lent memory.
struct call {
    uint8_t own;
    uint8_t counting;
    uint8_t state;
    uint8_t function;
    uint16_t start;
    uint16_t value;
    size_t data_len;
    size_t frame_len;
    size_t image_len;
    size_t areas_len;
    size_t reply_len;
    uint8_t data[MONTRAKIT_LEAST_ROOM];
    uint8_t frame[MONTRAKIT_LEAST_ROOM];
    uint8_t reply[MONTRAKIT_LEAST_ROOM];
    uint8_t out[MONTRAKIT_LEAST_ROOM];
    uint16_t areas[MONTRAKIT_MOST_AREAS * MONTRAKIT_AREA_WORDS];
    uint16_t image[IMAGE_WORDS];
    uint32_t result;
};

static void call_nothing(struct call *c)
{
    c->result = 0;
}

static void call_check_word(struct call *c)
{
    c->result = montrakit_check_word(c->frame, c->frame_len);
}

static void call_respond(struct call *c)
{
    c->result = montrakit_respond(c->own, c->counting, c->state, c->areas, c->areas_len, c->frame, c->frame_len,
                                  c->image, c->image_len, c->reply, c->reply_len);
}

static void call_build(struct call *c)
{
    c->result = montrakit_build(c->own, c->function, c->start, c->value, c->data, c->data_len, c->frame, sizeof c->frame);
}

static void call_read(struct call *c)
{
    c->result = montrakit_read(c->own, c->function, c->start, c->value, c->reply, c->reply_len, c->out, sizeof c->out);
}

// What is called, in the order of the table.
enum callee { NOTHING, CHECK_WORD, RESPOND, BUILD, READ, CALLEES };

static const struct {
    const char *name;
    void (*call)(struct call *);
} CALLED[CALLEES] = {
    {"nothing", call_nothing},
    {"montrakit_check_word", call_check_word},
    {"montrakit_respond", call_respond},
    {"montrakit_build", call_build},
    {"montrakit_read", call_read},
};

// What a new context is started with; it takes no pointers.
static struct {
    void (*call)(struct call *);
    struct call *with;
} started;

static void start(void)
{
    started.call(started.with);
}

static size_t deepest(const uint8_t *stack, uint8_t paint)
{
    size_t untouched = 0;

    while (untouched < STACK_BYTES && stack[untouched] == paint)
        untouched++;
    return STACK_BYTES - untouched;
}

// So many bytes of the stack were touched; 0 if no context can be made.
static size_t touched(void (*call)(struct call *), const struct call *with, uint8_t paint)
{
    static uint8_t stack[STACK_BYTES];
    static struct call copy;
    ucontext_t here;
    ucontext_t there;

    copy = *with;
    started.call = call;
    started.with = &copy;
    memset(stack, paint, sizeof stack);
    if (getcontext(&there) != 0)
        return 0;
    there.uc_stack.ss_sp = stack;
    there.uc_stack.ss_size = sizeof stack;
    there.uc_link = &here;
    makecontext(&there, start, 0);
    if (swapcontext(&here, &there) != 0)
        return 0;
    return deepest(stack, paint);
}

// The most that each function has needed so far, and over how many calls.
struct most {
    size_t bytes[CALLEES];
    long calls[CALLEES];
};

static void measure(struct most *most, enum callee callee, const struct call *with)
{
    most->calls[callee]++;
    for (size_t i = 0; i < sizeof PAINTS; i++) {
        size_t bytes = touched(CALLED[callee].call, with, PAINTS[i]);
        if (bytes > most->bytes[callee])
            most->bytes[callee] = bytes;
    }
}

// Station 20, ready, with as many areas as there may be, which touch and are read-write but for the last.
static void begin(struct call *c)
{
    memset(c, 0, sizeof *c);
    c->own = OWN;
    c->counting = MONTRAKIT_MOD_BUS;
    c->state = MONTRAKIT_READY;
    c->image_len = IMAGE_WORDS;
    c->areas_len = MONTRAKIT_MOST_AREAS * MONTRAKIT_AREA_WORDS;
    c->reply_len = sizeof c->reply;
    for (uint16_t i = 0; i < MONTRAKIT_MOST_AREAS; i++) {
        uint16_t *area = &c->areas[i * MONTRAKIT_AREA_WORDS];
        area[0] = (uint16_t)(i * AREA_COUNT);
        area[1] = AREA_COUNT;
        area[2] = i + 1u < MONTRAKIT_MOST_AREAS ? MONTRAKIT_READ_WRITE : MONTRAKIT_READ_ONLY;
    }
}

static void request(struct call *c, uint8_t function, uint16_t start_address, uint16_t value)
{
    c->function = function;
    c->start = start_address;
    c->value = value;
    c->data_len = data_length(function, value);
}

// A request is built, answered, and the answer read, also beside another request and damaged; each is measured, and the check word of
// the frame.
static void measure_exchange(struct most *most, struct call *c)
{
    measure(most, BUILD, c);
    call_build(c);
    c->frame_len = MONTRAKIT_NUMBER(c->result);
    measure(most, CHECK_WORD, c);
    measure(most, RESPOND, c);
    call_respond(c);
    c->reply_len = montrakit_to_send(c->result);
    measure(most, READ, c);
    request(c, MONTRAKIT_READ_WORDS_03, 0, MONTRAKIT_MOST_WORDS - 1);
    measure(most, READ, c);
    c->reply[0] ^= 1;
    measure(most, READ, c);
    c->reply_len = sizeof c->reply;
}

// All functions with the smallest and the largest quantity, at the first word, across areas, in the read-only one and past the last.
static void measure_exchanges(struct most *most, struct call *c)
{
    static const struct {
        uint8_t function;
        uint16_t values[2];
    } functions[] = {
        {MONTRAKIT_READ_BITS_01, {1, MONTRAKIT_MOST_BITS}},
        {MONTRAKIT_READ_BITS_02, {1, MONTRAKIT_MOST_BITS}},
        {MONTRAKIT_READ_WORDS_03, {1, MONTRAKIT_MOST_WORDS}},
        {MONTRAKIT_READ_WORDS_04, {1, MONTRAKIT_MOST_WORDS}},
        {MONTRAKIT_WRITE_BIT_05, {MONTRAKIT_BIT_OFF, MONTRAKIT_BIT_ON}},
        {MONTRAKIT_WRITE_WORD_06, {0, UINT16_MAX}},
        {MONTRAKIT_WRITE_BITS_0F, {1, MONTRAKIT_MOST_BITS}},
        {MONTRAKIT_WRITE_WORDS_10, {1, MONTRAKIT_MOST_WORDS}},
    };
    static const uint16_t words[] = {0, AREA_COUNT - 1, (MONTRAKIT_MOST_AREAS - 1) * AREA_COUNT, IMAGE_WORDS - 1};

    for (size_t f = 0; f < sizeof functions / sizeof functions[0]; f++) {
        for (size_t i = 0; i < 2 * sizeof words / sizeof words[0]; i++) {
            uint8_t function = functions[f].function;
            uint16_t word = words[i / 2];
            uint16_t address = is_of_bits(function) ? (uint16_t)(word * WORD_BITS + BIT_IN_A_WORD) : word;
            request(c, function, address, functions[f].values[i % 2]);
            measure_exchange(most, c);
        }
    }
}

// A frame of bytes that are all alike behind the function, with a right check word.
static void plain_frame(struct call *c, uint8_t station, uint8_t function, uint8_t byte, size_t length)
{
    memset(c->frame, byte, sizeof c->frame);
    c->frame[0] = station;
    c->frame[1] = function;
    c->frame_len = length;
    put_check_word(c->frame, length);
}

// Frames to us and to another station, right and damaged, of every length that matters.
static void measure_plain_frames(struct most *most, struct call *c, uint8_t function, uint8_t byte)
{
    static const size_t lengths[] = {MONTRAKIT_SHORTEST_FRAME, REQUEST_LENGTH, MONTRAKIT_LONGEST_FRAME};

    for (size_t n = 0; n < sizeof lengths / sizeof lengths[0]; n++) {
        plain_frame(c, ANOTHER, function, byte, lengths[n]);
        measure(most, RESPOND, c);
        plain_frame(c, OWN, function, byte, lengths[n]);
        measure(most, RESPOND, c);
        measure(most, CHECK_WORD, c);
        c->frame[1] ^= 1;
        measure(most, RESPOND, c);
    }
}

// Silences, exceptions and refusals of the station.
static void measure_refusals(struct most *most, struct call *c)
{
    static const uint8_t functions[] = {MONTRAKIT_READ_WORDS_03, MONTRAKIT_WRITE_BIT_05, MONTRAKIT_WRITE_WORDS_10, NO_FUNCTION, NO_FUNCTION_EITHER};

    for (size_t f = 0; f < sizeof functions; f++) {
        measure_plain_frames(most, c, functions[f], 0);
        measure_plain_frames(most, c, functions[f], UINT8_MAX);
    }
    c->frame_len = 0;
    measure(most, RESPOND, c);
    measure(most, CHECK_WORD, c);
    c->reply_len = 0;
    measure(most, RESPOND, c);
    measure(most, READ, c);
    c->areas_len--;
    measure(most, RESPOND, c);
    c->image_len = 0;
    measure(most, RESPOND, c);
    c->own = 0;
    measure(most, RESPOND, c);
    measure(most, BUILD, c);
    measure(most, READ, c);
}

// A station that is not ready, one at the keyboard, J-Bus, and what means nothing.
static void measure_settings(struct most *most, struct call *c)
{
    for (uint8_t counting = MONTRAKIT_MOD_BUS; counting <= MONTRAKIT_J_BUS + 1; counting++) {
        for (uint8_t state = MONTRAKIT_READY; state <= MONTRAKIT_AT_THE_KEYBOARD + 1; state++) {
            c->counting = counting;
            c->state = state;
            request(c, MONTRAKIT_READ_WORDS_03, 1, MONTRAKIT_MOST_WORDS);
            measure_exchange(most, c);
        }
    }
    c->function = NO_FUNCTION;
    measure(most, BUILD, c);
    measure(most, READ, c);
}

static void tell(const struct most *most)
{
    printf("%-22s %8s %14s\n", "function", "calls", "bytes at most");
    for (int callee = NOTHING + 1; callee < CALLEES; callee++)
        printf("%-22s %8ld %14zu\n", CALLED[callee].name, most->calls[callee], most->bytes[callee] - most->bytes[NOTHING]);
    printf("The measuring itself, taken off: %zu bytes.\n", most->bytes[NOTHING]);
}

int main(void)
{
    static struct call c;
    static struct most most;

    begin(&c);
    measure(&most, NOTHING, &c);
    if (most.bytes[NOTHING] == 0) {
        perror("a stack of its own");
        return EXIT_FAILURE;
    }
    measure_exchanges(&most, &c);
    begin(&c);
    measure_settings(&most, &c);
    begin(&c);
    measure_refusals(&most, &c);
    tell(&most);
    return EXIT_SUCCESS;
}
