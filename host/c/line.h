// A serial line for tests: a frame is what arrives until the line is quiet. A real RTU line ends a frame after 3.5 characters, which a
// program above the operating system cannot keep; that timing belongs to the customer's driver.
#ifndef LINE_H
#define LINE_H

#include <stdbool.h>
#include <stddef.h>
#include <stdint.h>
#include <time.h>

struct line {
    int fd;
    // So long a quiet ends a frame.
    struct timespec quiet;
    // So long is waited for the first byte; NULL: for ever.
    const struct timespec *patience;
    // Where a byte to read says that no more is to be taken; -1: nowhere.
    int stop_fd;
};

struct timespec line_microseconds(long microseconds);

// Eight bits, as they are: no echo, no flow control, no character that means something. The speed stays.
bool line_make_raw(int fd);

// Takes a frame, and says how many of its bytes are in the buffer; those that find no room are lost. 0: nothing came in time, the
// line is hung up, or it was told to stop.
size_t line_take(const struct line *line, uint8_t *buffer, size_t room);

bool line_send(const struct line *line, const uint8_t *bytes, size_t count);

#endif
