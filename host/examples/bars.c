/* Plays a show with its script, a tick each 20 ms, and draws the first slots of universe 1 as a line of bars.

       bars [FILE [SPEED]]

   FILE is examples/fades.asc where it isn't given; with SPEED 10 the show goes by ten times as fast, with 0 as fast as it can. Lines
   `tick k` of the script are played by the clock, and all others are done at once. What is refused or bad is told. */
#define _POSIX_C_SOURCE 200809L
#include "cuedesk.h"

#include <ctype.h>
#include <stdio.h>
#include <stdlib.h>
#include <string.h>
#include <time.h>

enum { BARS = 16, TICK_NANOSECONDS = 20000000, MOST_TICKS = 100000000 };

static int fail(const char *what) {
    fprintf(stderr, "bars: %s\n", what);
    return EXIT_FAILURE;
}

/* The whole file and its length; NULL where it can't be read. */
static char *read_file(const char *path, size_t *length) {
    FILE *file = fopen(path, "rb");
    char *text = NULL;
    long size;
    if (file && fseek(file, 0, SEEK_END) == 0 && (size = ftell(file)) >= 0 && (text = malloc((size_t)size + 1)) != NULL) {
        rewind(file);
        *length = fread(text, 1, (size_t)size, file);
    }
    if (file)
        fclose(file);
    return text;
}

/* Whether the line ends the show: its first word is ENDDATA, in either case. */
static bool ends_show(const char *line, size_t length) {
    static const char WORD[] = "ENDDATA", SEPARATORS[] = " \t\r,;/<=>@";
    size_t at = 0, k;
    while (at < length && line[at] != '\0' && strchr(SEPARATORS, line[at]))
        at++;
    for (k = 0; WORD[k] != '\0'; k++, at++)
        if (at >= length || toupper((unsigned char)line[at]) != WORD[k])
            return false;
    return at == length || line[at] == '!' || (line[at] != '\0' && strchr(SEPARATORS, line[at]) != NULL);
}

/* The next line from `*at` on, without its end, and how long it is; NULL behind the last. */
static const char *next_line(const char **at, const char *end, size_t *length) {
    const char *line = *at, *stop;
    if (line == end)
        return NULL;
    stop = memchr(line, '\n', (size_t)(end - line));
    *at = stop ? stop + 1 : end;
    *length = (size_t)((stop ? stop : end) - line);
    while (*length > 0 && line[*length - 1] == '\r')
        --*length;
    return line;
}

/* The line of bars: a slot each, from dark to full. */
static void draw(cuedesk *desk) {
    static const char *const BLOCKS[] = { " ", "\xe2\x96\x81", "\xe2\x96\x82", "\xe2\x96\x83", "\xe2\x96\x84", "\xe2\x96\x85", "\xe2\x96\x86", "\xe2\x96\x87", "\xe2\x96\x88" };
    uint8_t slots[CUEDESK_SLOTS];
    cuedesk_playback playback;
    bool changed = false;
    int slot;
    if (cuedesk_changed(desk, 1, &changed) != CUEDESK_OK || !changed || cuedesk_state(desk, &playback) != CUEDESK_OK
        || cuedesk_frame(desk, 1, slots, sizeof slots) != CUEDESK_OK)
        return;
    printf("%6.2f s  cue %-8g |", playback.moment / 100.0, playback.position / 1000.0);
    for (slot = 0; slot < BARS; slot++)
        fputs(BLOCKS[(slots[slot] * 8 + 127) / 255], stdout);
    puts("|");
    fflush(stdout);
}

/* Lets ticks go by, each at its time. */
static void play(cuedesk *desk, uint32_t ticks, double speed) {
    double seconds = speed > 0 ? TICK_NANOSECONDS / 1e9 / speed : 0;
    struct timespec pause;
    uint32_t accepted = 1;
    pause.tv_sec = (time_t)seconds;
    pause.tv_nsec = (long)((seconds - (double)pause.tv_sec) * 1e9);
    while (ticks-- > 0 && accepted == 1) {
        cuedesk_tick(desk, 1, &accepted);
        draw(desk);
        if (speed > 0)
            nanosleep(&pause, NULL);
    }
}

/* How many ticks the line `tick` or `tick k` asks for; 0 where it is another line. */
static uint32_t ticks_in(const char *line, size_t length) {
    uint32_t ticks = 0;
    size_t at;
    if (length < 4 || memcmp(line, "tick", 4) != 0 || (length > 4 && line[4] != ' '))
        return 0;
    for (at = 5; at < length; at++) {
        if (!isdigit((unsigned char)line[at]) || ticks > MOST_TICKS / 10)
            return 0;
        ticks = ticks * 10 + (uint32_t)(line[at] - '0');
    }
    return length == 4 ? 1 : ticks <= MOST_TICKS ? ticks : 0;
}

/* Does one line of the script, and says so where it was refused or bad. */
static uint32_t do_line(cuedesk *desk, const char *line, size_t length, double speed) {
    char reply[4096];
    size_t reply_length;
    uint32_t ticks = ticks_in(line, length), status;
    if (ticks > 0) {
        play(desk, ticks, speed);
        return CUEDESK_OK;
    }
    status = cuedesk_command(desk, (const uint8_t *)line, length, (uint8_t *)reply, sizeof reply, &reply_length);
    if (status == CUEDESK_OK && ((reply_length > 8 && memcmp(reply, "refused ", 8) == 0) || (reply_length == 4 && memcmp(reply, "bad\n", 4) == 0)))
        printf("%.*s: %.*s", (int)length, line, (int)reply_length, reply);
    draw(desk);
    return status;
}

/* Opens the desk, or says why it can't be. */
static bool open_desk(cuedesk *desk, const char *text, size_t length) {
    static const char *const FAULTS[] = { "no fault", "NoIdent", "BadNumber", "OutOfRange", "NotInRecord", "LineTooLong", "ShortList", "NoEndData" };
    cuedesk_report report;
    uint32_t status = cuedesk_open(desk, (const uint8_t *)text, length, false, &report);
    if (status == CUEDESK_SHOW_REFUSED)
        fprintf(stderr, "bars: the show was refused: %s in line %u\n", FAULTS[report.fault], (unsigned)report.line);
    else if (status != CUEDESK_OK)
        fprintf(stderr, "bars: the show can't be opened: status %u\n", (unsigned)status);
    return status == CUEDESK_OK;
}

int main(int count, char **words) {
    const char *path = count > 1 ? words[1] : "examples/fades.asc";
    double speed = count > 2 ? atof(words[2]) : 1;
    size_t length = 0;
    char *text;
    const char *at, *line, *end;
    cuedesk desk = CUEDESK_CLOSED_DESK;
    uint32_t status = CUEDESK_OK;
    if (cuedesk_version() != CUEDESK_VERSION)
        return fail("the library is of another version");
    text = read_file(path, &length);
    if (!text)
        return fail("the file can't be read");
    if (!open_desk(&desk, text, length)) {
        free(text);
        return EXIT_FAILURE;
    }
    at = text;
    end = text + length;
    do
        line = next_line(&at, end, &length);
    while (line && !ends_show(line, length));
    while ((status == CUEDESK_OK || status == CUEDESK_MORE) && (line = next_line(&at, end, &length)) != NULL)
        status = do_line(&desk, line, length, speed);
    cuedesk_close(&desk);
    free(text);
    return status == CUEDESK_OK || status == CUEDESK_MORE || status == CUEDESK_QUIT ? EXIT_SUCCESS : fail("a line of the script can't be done");
}
