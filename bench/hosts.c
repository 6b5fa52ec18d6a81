/* What a call of the library costs: hosts SHOW. A line for each, with the median and the least of some rounds, in nanoseconds. */
#define _POSIX_C_SOURCE 200809L
#include "cuedesk.h"

#include <stdio.h>
#include <stdlib.h>
#include <string.h>
#include <time.h>

enum { ROUNDS = 15, ROOM = 1 << 16 };

static cuedesk desk = CUEDESK_CLOSED_DESK;
static uint8_t slots[CUEDESK_SLOTS], reply[ROOM], level;
static uint32_t accepted;
static size_t length;
static bool changed;
static cuedesk_playback playback;

static double now(void) {
    struct timespec t;
    clock_gettime(CLOCK_MONOTONIC, &t);
    return t.tv_sec * 1e9 + t.tv_nsec;
}

static int by_size(const void *a, const void *b) {
    double x = *(const double *)a, y = *(const double *)b;
    return (x > y) - (x < y);
}

static void told(const char *name, double *rounds, int count) {
    qsort(rounds, (size_t)count, sizeof *rounds, by_size);
    printf("%s\t%.1f\t%.1f\n", name, rounds[count / 2], rounds[0]);
}

static void line(const char *text) {
    uint32_t status = cuedesk_command(&desk, (const uint8_t *)text, strlen(text), reply, sizeof reply, &length);
    if (status != CUEDESK_OK && status != CUEDESK_MORE) {
        fprintf(stderr, "hosts: %s: status %u\n", text, (unsigned)status);
        exit(EXIT_FAILURE);
    }
}

static void frame(void) { cuedesk_frame(&desk, 1, slots, sizeof slots); }
static void has_changed(void) { cuedesk_changed(&desk, 1, &changed); }
static void state(void) { cuedesk_state(&desk, &playback); }
static void level_of(void) { cuedesk_level(&desk, 1, &level); }
static void tracked(void) { cuedesk_tracked(&desk, 1000, 1, &level); }
static void tick(void) { cuedesk_tick(&desk, 1, &accepted); }
static void tick_line(void) { line("tick 1"); }
static void frame_line(void) { line("frame 1"); }
static void bad_line(void) { line("bogus"); }
static void master_line(void) { line("master at 50"); }

static void edit_line(void) {
    static int turn;
    line(turn++ & 1 ? "set 1 chan 1 at 50" : "set 1 chan 1 at 60");
}

static void measure(const char *name, long calls, void (*call)(void)) {
    double rounds[ROUNDS];
    for (int k = 0; k < ROUNDS; k++) {
        double begin = now();
        for (long i = 0; i < calls; i++)
            call();
        rounds[k] = (now() - begin) / calls;
    }
    told(name, rounds, ROUNDS);
}

/* Ticks in a fade of cues 1 and 2 in turn, of 200 that come after the key. */
static void fades(const char *name, bool with_frame) {
    double rounds[ROUNDS];
    for (int k = 0; k < ROUNDS; k++) {
        line("settle");
        line(k & 1 ? "goto 1" : "goto 2");
        double begin = now();
        for (int i = 0; i < 200; i++) {
            tick();
            if (with_frame) {
                has_changed();
                frame();
            }
        }
        rounds[k] = (now() - begin) / 200;
    }
    told(name, rounds, ROUNDS);
}

static void openings(const uint8_t *text, size_t size) {
    double rounds[5];
    cuedesk_report report;
    for (int k = 0; k < 5; k++) {
        cuedesk other = CUEDESK_CLOSED_DESK;
        double begin = now();
        uint32_t status = cuedesk_open(&other, text, size, false, &report);
        rounds[k] = now() - begin;
        if (status != CUEDESK_OK) {
            fprintf(stderr, "hosts: status %u, fault %u, line %u\n", (unsigned)status, (unsigned)report.fault, (unsigned)report.line);
            exit(EXIT_FAILURE);
        }
        cuedesk_close(&other);
    }
    told("open", rounds, 5);
}

int main(int count, char **words) {
    static uint8_t text[1 << 25];
    FILE *file = count > 1 ? fopen(words[1], "rb") : NULL;
    size_t size = file ? fread(text, 1, sizeof text, file) : 0;
    cuedesk_report report;
    if (!file || cuedesk_open(&desk, text, size, false, &report) != CUEDESK_OK)
        return EXIT_FAILURE;
    openings(text, size);
    line("goto 1");
    line("settle");
    measure("tick at rest", 50000, tick);
    measure("frame", 50000, frame);
    measure("changed", 50000, has_changed);
    measure("state", 50000, state);
    measure("level", 50000, level_of);
    measure("tracked", 50000, tracked);
    measure("line tick 1, at rest", 20000, tick_line);
    measure("line frame 1", 20000, frame_line);
    measure("line bogus", 20000, bad_line);
    measure("line master at 50", 20000, master_line);
    measure("line set 1 chan 1 at ..", 5000, edit_line);
    line("master at 100");
    fades("tick in a fade", false);
    fades("tick in a fade, changed and frame", true);
    cuedesk_close(&desk);
    return EXIT_SUCCESS;
}
