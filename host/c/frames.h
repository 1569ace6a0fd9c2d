// What the tests have to know of frames in order to make some.
#ifndef FRAMES_H
#define FRAMES_H

#include <stdbool.h>
#include <stddef.h>
#include <stdint.h>

#define BYTE_BITS 8
#define WORD_BITS 16
#define WORD_BYTES 2

bool is_of_bits(uint8_t function);

// How many bytes of data montrakit_build is to be given.
size_t data_length(uint8_t function, uint16_t value);

// The last two bytes become the check word of the rest; a frame has at least two.
void put_check_word(uint8_t *frame, size_t frame_len);

#endif
