#define _DEFAULT_SOURCE
#define _POSIX_C_SOURCE 200809L

#include "line.h"

#include <errno.h>
#include <sys/select.h>
#include <termios.h>
#include <unistd.h>

#define MICROSECONDS 1000000
#define NANOSECONDS_EACH 1000
#define LOST_AT_ONCE 256

struct timespec line_microseconds(long microseconds)
{
    struct timespec time = {microseconds / MICROSECONDS, microseconds % MICROSECONDS * NANOSECONDS_EACH};
    return time;
}

bool line_make_raw(int fd)
{
    struct termios mode;

    if (tcgetattr(fd, &mode) != 0)
        return false;
    cfmakeraw(&mode);
    mode.c_iflag &= ~(tcflag_t)(IXOFF | IXANY);
    mode.c_cflag &= ~(tcflag_t)CRTSCTS;
    mode.c_cflag |= CLOCAL | CREAD;
    mode.c_cc[VMIN] = 1;
    mode.c_cc[VTIME] = 0;
    return tcsetattr(fd, TCSANOW, &mode) == 0;
}

// What waiting for bytes came to.
enum arrival { BYTES, QUIET, END };

static enum arrival wait_for_bytes(const struct line *line, const struct timespec *within)
{
    int most = line->fd > line->stop_fd ? line->fd : line->stop_fd;
    fd_set readable;
    int ready;

    do {
        FD_ZERO(&readable);
        FD_SET(line->fd, &readable);
        if (line->stop_fd >= 0)
            FD_SET(line->stop_fd, &readable);
        ready = pselect(most + 1, &readable, NULL, NULL, within, NULL);
    } while (ready < 0 && errno == EINTR);

    if (ready == 0)
        return QUIET;
    if (ready < 0 || (line->stop_fd >= 0 && FD_ISSET(line->stop_fd, &readable)))
        return END;
    return BYTES;
}

size_t line_take(const struct line *line, uint8_t *buffer, size_t room)
{
    uint8_t lost[LOST_AT_ONCE];
    size_t taken = 0;
    enum arrival arrival = wait_for_bytes(line, line->patience);

    while (arrival == BYTES) {
        bool has_room = taken < room;
        ssize_t n = has_room ? read(line->fd, buffer + taken, room - taken) : read(line->fd, lost, sizeof lost);
        if (n <= 0)
            return 0;
        taken += has_room ? (size_t)n : 0;
        arrival = wait_for_bytes(line, &line->quiet);
    }
    return arrival == END ? 0 : taken;
}

bool line_send(const struct line *line, const uint8_t *bytes, size_t count)
{
    size_t sent = 0;

    while (sent < count) {
        ssize_t n = write(line->fd, bytes + sent, count - sent);
        if (n < 0 && errno != EINTR)
            return false;
        sent += n < 0 ? 0 : (size_t)n;
    }
    return true;
}
