/* Each call for memory is refused in turn, alone and with all that follow: what the statuses are, that a refused edit changes nothing, that
   a desk goes on, and that nothing is leaked. After each line ticks, frames, levels and states ask for no memory.

       wants FILE */
#include "cuedesk.h"
#include "heap.h"

#include <stdio.h>
#include <stdlib.h>
#include <string.h>

enum { ROOM = 1 << 20 };

static const char *const LINES[] = {
    "go", "tick 40", "frame 1", "cue 77", "set 77 chan 1 thru 3 at 50", "set 1 chan 2 at 20 only", "label 77 Dusk", "group 5 chan 1 at 30",
    "sub 3 chan 2 at 60", "fader 3 at FL", "patch 9 chan 2 at FL", "record 78", "undo", "redo", "undo", "save", "sheet 77", "delete 77 only",
    "block 1", "tick 3", "frame", "bogus", "", NULL
};

static uint8_t reply[ROOM], before[ROOM], after[ROOM], slots[CUEDESK_SLOTS];
static long opened, wanted, done, short_replies, refused;

static void must(bool holds, const char *what, const char *line) {
    if (!holds) {
        fprintf(stderr, "wants: %s: %s\n", line, what);
        exit(EXIT_FAILURE);
    }
}

/* The show as it is now, and its length. Nothing is refused. */
static size_t show(cuedesk *desk, uint8_t *room) {
    size_t length = 0;
    heap_refused_at = -1;
    must(cuedesk_command(desk, (const uint8_t *)"save", 4, room, ROOM, &length) == CUEDESK_OK, "no show", "save");
    return length;
}

/* The calls that take no memory: none of them asks for any. */
static void takes_none(cuedesk *desk, const char *line) {
    long asked = heap_asked;
    uint32_t accepted;
    uint8_t level;
    bool changed;
    cuedesk_playback playback;
    must(cuedesk_tick(desk, 3, &accepted) == CUEDESK_OK, "no tick", line);
    must(cuedesk_frame(desk, 1, slots, sizeof slots) == CUEDESK_OK, "no frame", line);
    must(cuedesk_changed(desk, 1, &changed) == CUEDESK_OK && !changed, "another frame than was taken", line);
    must(cuedesk_level(desk, 1, &level) == CUEDESK_OK, "no level", line);
    must(cuedesk_tracked(desk, 1000, 1, &level) == CUEDESK_OK, "no tracked level", line);
    must(cuedesk_fader(desk, 1, &level) == CUEDESK_OK, "no fader", line);
    must(cuedesk_state(desk, &playback) == CUEDESK_OK, "no state", line);
    must(heap_asked == asked, "memory was asked for", line);
}

/* A line at which the call for memory of the number is refused. */
static void do_line(cuedesk *desk, const char *line, long at) {
    size_t length = 0, had = show(desk, before), has;
    uint32_t status;
    heap_asked = 0;
    heap_refused_at = at;
    status = cuedesk_command(desk, (const uint8_t *)line, strlen(line), reply, ROOM, &length);
    heap_refused_at = -1;
    done++;
    if (status == CUEDESK_MEMORY) {
        short_replies++;
        must(heap_asked > at, "MEMORY, and none was refused", line);
    } else {
        must(status == CUEDESK_OK, "another status", line);
    }
    if (status == CUEDESK_OK && length == 15 && memcmp(reply, "refused Memory\n", 15) == 0) {
        refused++;
        has = show(desk, after);
        must(has == had && memcmp(before, after, had) == 0, "a refused edit changed the show", line);
    }
    takes_none(desk, line);
}

/* The show's text as the first reply of a desk, at which the call for memory of the number is refused. */
static void save_first(cuedesk *desk, long at) {
    size_t length = 0, whole;
    uint32_t status;
    heap_asked = 0;
    heap_refused_at = at;
    status = cuedesk_command(desk, (const uint8_t *)"save", 4, reply, ROOM, &length);
    heap_refused_at = -1;
    must(status == (heap_asked > at ? CUEDESK_MEMORY : CUEDESK_OK), "MEMORY exactly where it was refused", "save");
    short_replies += status == CUEDESK_MEMORY;
    whole = show(desk, before);
    must(length <= whole && memcmp(reply, before, length) == 0 && (status == CUEDESK_MEMORY) == (length < whole), "no front", "save");
}

/* A desk at whose opening the call of the number is refused; then each line, with each of its first calls refused. Whether there was such
   a call. */
static bool open_at(const uint8_t *text, size_t length, bool undo, long at) {
    cuedesk desk = CUEDESK_CLOSED_DESK;
    cuedesk_report report = { 9, 9 };
    uint32_t status;
    bool was_asked;
    heap_asked = 0;
    heap_refused_at = at;
    status = undo ? cuedesk_open_undo(&desk, text, length, false, 16, &report) : cuedesk_open(&desk, text, length, false, &report);
    was_asked = heap_asked > at;
    heap_refused_at = -1;
    must((status == CUEDESK_MEMORY) == was_asked, "MEMORY exactly where it was refused", "open");
    if (status == CUEDESK_OK) {
        opened++;
        save_first(&desk, 0);
        for (const char *const *line = LINES; *line; line++)
            for (long k = 0; k < 8; k++)
                do_line(&desk, *line, k);
    } else {
        wanted++;
        must(status == CUEDESK_MEMORY && report.fault == 0 && report.line == 0, "no report of no fault", "open");
        must(!desk.open_ && heap_live == 0, "a refused opening leaves something", "open");
    }
    cuedesk_close(&desk);
    cuedesk_close(&desk);
    must(heap_live == 0, "a leak", "close");
    return was_asked;
}

int main(int count, char **words) {
    static uint8_t text[ROOM];
    FILE *file = count > 1 ? fopen(words[1], "rb") : NULL;
    size_t length;
    must(file != NULL, "can't be read", "the show");
    length = fread(text, 1, sizeof text, file);
    fclose(file);
    for (int kind = 0; kind < 4; kind++) {
        heap_refuses_on = kind % 2;
        for (long at = 0; open_at(text, length, kind / 2, at); at++)
            ;
    }
    must(opened == 4 && wanted > 0 && refused > 0 && short_replies > 0, "nothing was tried", "all");
    printf("wants: %ld openings, %ld refused; %ld lines, %ld with a short reply, %ld refused; nothing leaked\n", opened, wanted, done,
           short_replies, refused);
    return EXIT_SUCCESS;
}
