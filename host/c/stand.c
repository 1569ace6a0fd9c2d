// A test stand: answers on a serial device or pseudo terminal with the linked library. Where a frame ends it tells by a pause of
// milliseconds (see line.h), so it serves for trying masters, not for a plant.
#define _POSIX_C_SOURCE 200809L

#include <fcntl.h>
#include <signal.h>
#include <stdbool.h>
#include <stdio.h>
#include <stdlib.h>
#include <string.h>
#include <unistd.h>

#include "line.h"
#include "station.h"
#include "telling.h"

// Twice the longest frame: what arrives beyond is lost, and the rest is still too long to be answered.
#define ROOM (2 * MONTRAKIT_LONGEST_FRAME)
#define QUIET_MILLISECONDS 5
#define MOST_QUIET_MILLISECONDS 1000
#define MICROSECONDS_EACH 1000

#define BAD_USAGE 2

#define TEXT_OF(number) #number
#define TEXT(number) TEXT_OF(number)

static const char HELP[] =
    "stand DEVICE [OPTION...]: a test station on a serial device or pseudo terminal\n"
    "\n"
    "  --own N               own address, 1 to 255 (default " TEXT(STATION_OWN) ")\n"
    "  --counting WORD       mod-bus (default) or j-bus\n"
    "  --state WORD          ready (default), not-ready or at-the-keyboard\n"
    "  --quiet N             so many milliseconds of quiet end a frame, 1 to " TEXT(MOST_QUIET_MILLISECONDS)
    " (default " TEXT(QUIET_MILLISECONDS) ")\n"
    "  --tell                print a line for each frame: its bytes, and what came of it\n"
    "  --help                print this\n"
    "\n"
    "Image: " TEXT(STATION_WORDS) " words, word w holds w at first. Words " STATION_AREAS ".\n"
    "The device is put into raw mode; its speed stays as it is (stty sets it). A real RTU line ends a frame after 3.5\n"
    "characters: that timing is for the driver of a real line, this stand waits for a pause of milliseconds.\n"
    "It ends with SIGTERM, SIGINT, or when the device hangs up.\n";

struct settings {
    const char *device;
    struct station station;
    long quiet_milliseconds;
    bool tells;
};

// A word on the command line and the number that it stands for.
struct word {
    const char *text;
    uint8_t number;
};

static const struct word COUNTINGS[] = {{"mod-bus", MONTRAKIT_MOD_BUS}, {"j-bus", MONTRAKIT_J_BUS}, {NULL, 0}};
static const struct word STATES[] = {
    {"ready", MONTRAKIT_READY}, {"not-ready", MONTRAKIT_NOT_READY}, {"at-the-keyboard", MONTRAKIT_AT_THE_KEYBOARD}, {NULL, 0}};

// A signal puts a byte in, and the line looks whether one is there: so none is missed, however busy the line.
static int stop_pipe[2];

static void stop(int signal)
{
    ssize_t put = write(stop_pipe[1], "", 1);
    (void)signal;
    (void)put;
}

static bool take_word(const struct word *words, const char *text, uint8_t *number)
{
    for (const struct word *word = words; word->text != NULL; word++) {
        if (strcmp(word->text, text) != 0)
            continue;
        *number = word->number;
        return true;
    }
    return false;
}

static bool take_number(const char *text, long most, long *number)
{
    char *end;

    *number = strtol(text, &end, 10);
    return end != text && *end == '\0' && 1 <= *number && *number <= most;
}

static bool take_option(const char *option, const char *value, struct settings *settings)
{
    long number;

    if (strcmp(option, "--counting") == 0)
        return take_word(COUNTINGS, value, &settings->station.counting);
    if (strcmp(option, "--state") == 0)
        return take_word(STATES, value, &settings->station.state);
    if (strcmp(option, "--quiet") == 0)
        return take_number(value, MOST_QUIET_MILLISECONDS, &settings->quiet_milliseconds);
    if (strcmp(option, "--own") != 0 || !take_number(value, UINT8_MAX, &number))
        return false;
    settings->station.own = (uint8_t)number;
    return true;
}

static bool take_settings(int argc, char **argv, struct settings *settings)
{
    settings->device = NULL;
    settings->quiet_milliseconds = QUIET_MILLISECONDS;
    settings->tells = false;
    station_begin(&settings->station);

    for (int i = 1; i < argc; i++) {
        if (strcmp(argv[i], "--tell") == 0) {
            settings->tells = true;
        } else if (strncmp(argv[i], "--", 2) != 0) {
            settings->device = argv[i];
        } else {
            if (i + 1 == argc || !take_option(argv[i], argv[i + 1], settings))
                return false;
            i++;
        }
    }
    return settings->device != NULL;
}

static bool listen_to_signals(void)
{
    struct sigaction action;

    if (pipe(stop_pipe) != 0)
        return false;
    memset(&action, 0, sizeof action);
    action.sa_handler = stop;
    return sigaction(SIGTERM, &action, NULL) == 0 && sigaction(SIGINT, &action, NULL) == 0;
}

static void tell(const uint8_t *frame, size_t frame_len, uint32_t result, const uint8_t *reply)
{
    tell_bytes(stdout, frame, frame_len);
    printf(": ");
    tell_result(stdout, result);
    if (montrakit_to_send(result) > 0) {
        printf(": ");
        tell_bytes(stdout, reply, montrakit_to_send(result));
    }
    printf("\n");
}

// Answers until it is stopped or the device hangs up; false if a reply cannot be sent.
static bool serve(const struct line *line, struct settings *settings)
{
    uint8_t frame[ROOM];
    uint8_t reply[MONTRAKIT_LEAST_ROOM];
    size_t taken;

    while ((taken = line_take(line, frame, sizeof frame)) > 0) {
        uint32_t result = station_answer(&settings->station, frame, taken, reply);
        if (settings->tells)
            tell(frame, taken, result, reply);
        if (!line_send(line, reply, montrakit_to_send(result)))
            return false;
    }
    return true;
}

static int stand(struct settings *settings)
{
    int fd = open(settings->device, O_RDWR | O_NOCTTY);

    if (fd < 0 || !line_make_raw(fd) || !listen_to_signals()) {
        perror(settings->device);
        return EXIT_FAILURE;
    }
    setvbuf(stdout, NULL, _IOLBF, 0);
    if (settings->tells)
        printf("station %d listens\n", settings->station.own);

    struct line line = {fd, line_microseconds(settings->quiet_milliseconds * MICROSECONDS_EACH), NULL, stop_pipe[0]};
    bool is_served = serve(&line, settings);
    if (!is_served)
        perror(settings->device);
    close(fd);
    return is_served ? EXIT_SUCCESS : EXIT_FAILURE;
}

int main(int argc, char **argv)
{
    struct settings settings;

    if (argc == 2 && strcmp(argv[1], "--help") == 0) {
        fputs(HELP, stdout);
        return EXIT_SUCCESS;
    }
    if (!take_settings(argc, argv, &settings)) {
        fputs(HELP, stderr);
        return BAD_USAGE;
    }
    return stand(&settings);
}
