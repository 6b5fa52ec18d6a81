/* What a program can do wrong and be told of, call by call: each has its status, and changes nothing. */
#include "cuedesk.h"
#include "heap.h"

#include <stdio.h>
#include <stdlib.h>
#include <string.h>

static const char SHOW[] = "IDENT 3:0\nSET CHANNELS 4\nPATCH 1 1<1@FL\nCUE 1\nUP 0\nCHAN 1@FL\nENDDATA\n";
static const char REFUSED[] = "IDENT 3:0\nCUE 1\nUP x\nENDDATA\n";

static int failed, passed;

static void is(bool holds, const char *what) {
    if (holds) {
        passed++;
    } else {
        failed++;
        fprintf(stderr, "misuse: %s\n", what);
    }
}

static uint32_t say(cuedesk *desk, const char *line, char *room, size_t cap, size_t *length) {
    return cuedesk_command(desk, (const uint8_t *)line, strlen(line), (uint8_t *)room, cap, length);
}

/* The reply to the line `save` isn't longer than the room, and is this. */
static bool shows(cuedesk *desk, const char *text) {
    char room[1024];
    size_t length = 0;
    return say(desk, "save", room, sizeof room, &length) == CUEDESK_OK && length == strlen(text) && memcmp(room, text, length) == 0;
}

static void closed_desk(void) {
    cuedesk desk = CUEDESK_CLOSED_DESK;
    uint8_t slots[CUEDESK_SLOTS] = { 7 }, level = 7;
    char room[8] = "unmoved";
    size_t length = 7;
    uint32_t accepted = 7;
    bool changed = true;
    cuedesk_playback playback;
    memset(&playback, 7, sizeof playback);
    is(say(&desk, "go", room, sizeof room, &length) == CUEDESK_CLOSED && length == 0 && !strcmp(room, "unmoved"), "a line of a closed desk");
    length = 7;
    is(cuedesk_reply(&desk, 0, (uint8_t *)room, sizeof room, &length) == CUEDESK_CLOSED && length == 0 && !strcmp(room, "unmoved"),
       "the reply of a closed desk");
    is(cuedesk_tick(&desk, 3, &accepted) == CUEDESK_CLOSED && accepted == 0, "a tick of a closed desk");
    is(cuedesk_frame(&desk, 1, slots, sizeof slots) == CUEDESK_CLOSED && slots[0] == 7, "a frame of a closed desk");
    is(cuedesk_changed(&desk, 1, &changed) == CUEDESK_CLOSED && changed, "changed, of a closed desk");
    is(cuedesk_level(&desk, 1, &level) == CUEDESK_CLOSED && level == 7, "a level of a closed desk");
    is(cuedesk_tracked(&desk, 1000, 1, &level) == CUEDESK_CLOSED && level == 7, "a tracked level of a closed desk");
    is(cuedesk_fader(&desk, 1, &level) == CUEDESK_CLOSED && level == 7, "a fader of a closed desk");
    is(cuedesk_state(&desk, &playback) == CUEDESK_CLOSED && playback.moment == 0x07070707u, "the state of a closed desk");
    cuedesk_close(&desk);
    cuedesk_close(&desk);
    is(!desk.open_ && heap_live == 0, "a closed desk stays so");
}

static void openings(cuedesk *desk) {
    cuedesk_report report = { 9, 9 };
    cuedesk other = CUEDESK_CLOSED_DESK;
    size_t long_length = 67108865, length = 7;
    uint8_t room[8], *long_text = malloc(long_length);
    is(cuedesk_open(desk, (const uint8_t *)REFUSED, strlen(REFUSED), false, &report) == CUEDESK_OPEN && report.fault == 9,
       "an open desk is opened again");
    is(cuedesk_open_undo(desk, (const uint8_t *)SHOW, strlen(SHOW), false, 1, &report) == CUEDESK_OPEN && report.line == 9,
       "an open desk is opened again, with a history");
    is(cuedesk_open(&other, (const uint8_t *)REFUSED, strlen(REFUSED), false, &report) == CUEDESK_SHOW_REFUSED
       && report.fault == CUEDESK_BAD_NUMBER && report.line == 3 && !other.open_, "a show with a fault");
    is(cuedesk_open(&other, (const uint8_t *)"", 0, false, &report) == CUEDESK_SHOW_REFUSED && report.fault == CUEDESK_NO_END_DATA
       && report.line == 1, "an empty show");
    memset(long_text, '\n', long_length);
    is(cuedesk_open(&other, long_text, long_length, false, &report) == CUEDESK_TOO_LONG && report.fault == 0 && !other.open_, "a long show");
    is(cuedesk_open(&other, long_text, long_length - 1, false, &report) == CUEDESK_SHOW_REFUSED && report.fault == CUEDESK_NO_END_DATA
       && report.line == 67108865, "the longest show");
    memcpy(long_text, SHOW, strlen(SHOW));
    is(cuedesk_open(&other, long_text, long_length, false, &report) == CUEDESK_OK && other.open_, "a show before a longer script");
    is(cuedesk_reply(&other, 0, room, sizeof room, &length) == CUEDESK_OK && length == 0, "no reply yet");
    cuedesk_close(&other);
    free(long_text);
}

static void lines(cuedesk *desk) {
    char room[16] = "unmoved";
    size_t length = 7;
    char line[4098];
    is(say(desk, "go\n", room, sizeof room, &length) == CUEDESK_NOT_A_LINE && length == 0 && !strcmp(room, "unmoved"), "a line with LF");
    is(say(desk, "g\ro", room, sizeof room, &length) == CUEDESK_NOT_A_LINE && length == 0 && !strcmp(room, "unmoved"), "a line with CR");
    memset(line, ' ', sizeof line);
    memcpy(line, "master at FL", 12);
    is(cuedesk_command(desk, (uint8_t *)line, 4097, (uint8_t *)room, sizeof room, &length) == CUEDESK_OK && length == 4
       && !memcmp(room, "bad\n", 4), "a line that is too long");
    is(cuedesk_command(desk, (uint8_t *)line, 4096, (uint8_t *)room, sizeof room, &length) == CUEDESK_OK && length == 3
       && !memcmp(room, "ok\n", 3), "the longest line");
    is(say(desk, "undo", room, sizeof room, &length) == CUEDESK_OK && !memcmp(room, "bad\nved", 7), "undo of a plain desk, and the room behind it");
    is(say(desk, "quit", room, sizeof room, &length) == CUEDESK_QUIT && length == 0, "quit");
    is(cuedesk_reply(desk, 0, (uint8_t *)room, sizeof room, &length) == CUEDESK_OK && length == 0, "the reply to quit is empty");
}

static void replies(cuedesk *desk) {
    char room[8] = "unmoved";
    size_t length = 7;
    is(say(desk, "sheet 1", room, 4, &length) == CUEDESK_MORE && length == 12 && !memcmp(room, "row ved", 7), "no room for the reply");
    is(cuedesk_reply(desk, 4, (uint8_t *)room, 8, &length) == CUEDESK_OK && length == 8 && !memcmp(room, "1 1=255\n", 8),
       "the rest of it");
    is(cuedesk_reply(desk, 12, (uint8_t *)room, 8, &length) == CUEDESK_OK && length == 0, "nothing is left of it");
    is(cuedesk_reply(desk, (size_t)-1, (uint8_t *)room, 8, &length) == CUEDESK_OK && length == 0, "far behind it");
    is(say(desk, "sheet\n", room, 8, &length) == CUEDESK_NOT_A_LINE && cuedesk_reply(desk, 0, (uint8_t *)room, 4, &length) == CUEDESK_OK
       && length == 4 && !memcmp(room, "row ", 4), "the reply before is kept");
}

static void numbers(cuedesk *desk) {
    uint8_t slots[CUEDESK_SLOTS + 1] = { 7 }, level = 7;
    bool changed = false;
    is(cuedesk_frame(desk, 0, slots, CUEDESK_SLOTS) == CUEDESK_OUT_OF_RANGE && slots[0] == 7, "universe 0");
    is(cuedesk_frame(desk, 33, slots, CUEDESK_SLOTS) == CUEDESK_OUT_OF_RANGE && slots[0] == 7, "universe 33");
    is(cuedesk_frame(desk, 0xffffffffu, slots, CUEDESK_SLOTS) == CUEDESK_OUT_OF_RANGE && slots[0] == 7, "the greatest universe");
    is(cuedesk_frame(desk, 1, slots, CUEDESK_SLOTS - 1) == CUEDESK_OUT_OF_RANGE && slots[0] == 7, "room for 511 slots");
    is(cuedesk_frame(desk, 1, slots, CUEDESK_SLOTS + 1) == CUEDESK_OUT_OF_RANGE && slots[0] == 7, "room for 513 slots");
    is(cuedesk_changed(desk, 1, &changed) == CUEDESK_OK && changed, "none of these took the slots");
    changed = false;
    is(cuedesk_changed(desk, 0, &changed) == CUEDESK_OUT_OF_RANGE && !changed, "changed, of universe 0");
    is(cuedesk_changed(desk, 33, &changed) == CUEDESK_OUT_OF_RANGE && !changed, "changed, of universe 33");
    is(cuedesk_level(desk, 0, &level) == CUEDESK_OUT_OF_RANGE && level == 7, "channel 0");
    is(cuedesk_level(desk, 5, &level) == CUEDESK_OUT_OF_RANGE && level == 7, "a channel that the show lacks");
    is(cuedesk_tracked(desk, 1000, 0, &level) == CUEDESK_OUT_OF_RANGE && level == 7, "a tracked level of channel 0");
    is(cuedesk_tracked(desk, 1000, 5, &level) == CUEDESK_OUT_OF_RANGE && level == 7, "a tracked level of a channel that the show lacks");
    is(cuedesk_tracked(desk, CUEDESK_CUE_MAX + 1, 1, &level) == CUEDESK_OUT_OF_RANGE && level == 7, "a cue number that is too great");
    is(cuedesk_tracked(desk, CUEDESK_CUE_MAX, 1, &level) == CUEDESK_OK && level == 255, "the greatest cue number");
    level = 7;
    is(cuedesk_fader(desk, 0, &level) == CUEDESK_OUT_OF_RANGE && level == 7, "submaster 0");
    is(cuedesk_fader(desk, CUEDESK_SUBS + 1, &level) == CUEDESK_OUT_OF_RANGE && level == 7, "submaster 97");
    is(cuedesk_fader(desk, CUEDESK_SUBS, &level) == CUEDESK_OK && level == 0, "submaster 96");
}

int main(void) {
    static const char SAVED[] =
        "IDENT 3:0\nSET CHANNELS 4\nPATCH 1 1<1@HFF\nCUE 1\nPART 1\nUP 0 0\nDOWN 5 0\nCHAN 1@HFF\nENDDATA\n";
    cuedesk desk = CUEDESK_CLOSED_DESK;
    cuedesk_report report;
    cuedesk_playback playback;
    uint32_t accepted = 7;
    is(cuedesk_version() == CUEDESK_VERSION, "the version");
    closed_desk();
    is(cuedesk_open(&desk, (const uint8_t *)SHOW, strlen(SHOW), false, &report) == CUEDESK_OK, "a show");
    openings(&desk);
    lines(&desk);
    replies(&desk);
    numbers(&desk);
    is(shows(&desk, SAVED), "the show is as it was");
    is(cuedesk_state(&desk, &playback) == CUEDESK_OK && playback.moment == 0 && playback.live == 0 && playback.next == 1000
       && playback.channels == 4 && playback.cues == 1 && playback.master == 255 && !playback.follows, "the playback is as it was");
    is(cuedesk_tick(&desk, 0, &accepted) == CUEDESK_OK && accepted == 0, "no tick");
    is(cuedesk_tick(&desk, 0xffffffffu, &accepted) == CUEDESK_AT_END && accepted == 100000000, "more ticks than there are");
    is(cuedesk_tick(&desk, 1, &accepted) == CUEDESK_AT_END && accepted == 0, "a tick at the end");
    cuedesk_close(&desk);
    is(heap_live == 0, "nothing is leaked");
    printf("misuse: %d passed, %d failed\n", passed, failed);
    return failed ? EXIT_FAILURE : EXIT_SUCCESS;
}
