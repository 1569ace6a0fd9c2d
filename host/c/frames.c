#include "frames.h"

#include "montrakit.h"

bool is_of_bits(uint8_t function)
{
    return function == MONTRAKIT_READ_BITS_01 || function == MONTRAKIT_READ_BITS_02 || function == MONTRAKIT_WRITE_BIT_05 ||
           function == MONTRAKIT_WRITE_BITS_0F;
}

size_t data_length(uint8_t function, uint16_t value)
{
    if (function == MONTRAKIT_WRITE_BITS_0F)
        return (value + BYTE_BITS - 1u) / BYTE_BITS;
    if (function == MONTRAKIT_WRITE_WORDS_10)
        return (size_t)value * WORD_BYTES;
    return 0;
}

void put_check_word(uint8_t *frame, size_t frame_len)
{
    size_t body = frame_len - WORD_BYTES;
    uint16_t word = montrakit_check_word(frame, body);

    frame[body] = (uint8_t)(word & UINT8_MAX);
    frame[body + 1] = (uint8_t)(word >> BYTE_BITS);
}
