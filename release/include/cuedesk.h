/* cuedesk: a theatre lighting desk's engine, for programs in C, C++ and whatever calls C.

       cuedesk desk = CUEDESK_CLOSED_DESK;
       cuedesk_report report;
       if (cuedesk_open(&desk, text, text_len, false, &report) != CUEDESK_OK) ..
       cuedesk_command(&desk, (const uint8_t *)"go", 2, reply, sizeof reply, &reply_len);
       cuedesk_tick(&desk, 1, &accepted);
       cuedesk_frame(&desk, 1, slots, CUEDESK_SLOTS);
       cuedesk_close(&desk);

   THE DESK. A `cuedesk` is a struct that the caller keeps, closed at first (CUEDESK_CLOSED_DESK, or all zero bytes), and passes by
   its address. What an open one leads to is memory of the C library (malloc, realloc, free), which `cuedesk_close` gives back. Between
   `cuedesk_open` and `cuedesk_close` the struct is neither copied nor changed but by these calls; a closed one is free to be copied
   or let go.

   STATUS. Each call that can fail answers an `enum cuedesk_status` as a `uint32_t`. After any status but CUEDESK_OK, and but for the
   lines that say otherwise, nothing changed: neither the desk nor what the call would have filled in, where a count is set to 0.

   WHAT CAN'T BE TOLD, and is the caller's to keep:
   - no pointer is NULL, also where the length beside it is 0, and it leads to as many bytes as the length says;
   - what a call writes to (the desk, the room of a reply, a count) doesn't overlap anything else that is given to the same call;
   - an open desk isn't copied, and the struct isn't written to;
   - a `bool` is false or true.

   THREADS. One call of a desk at a time. Between calls a desk may go to another thread, handed over in order: by a lock, or at a
   thread's start or join. Several desks in several threads are free: they share nothing. No call waits, starts a thread, or reads a
   clock, a file or a socket.

   NUMBERS. A cue number is in thousandths: 1500 is cue 1.5; 0 names no cue, and is before the first. A moment is in hundredths of a
   second since the opening, and a tick is 2 of them. A level is 0 to 255. Channels, universes and slots count from 1, and slot s of a
   universe stands at place s - 1 of its frame.

   C99; C++ can include it. */
#ifndef CUEDESK_H
#define CUEDESK_H

#include <stdbool.h>
#include <stddef.h>
#include <stdint.h>

#ifdef __cplusplus
extern "C" {
#endif

/* The version of this header. `cuedesk_version()` tells that of the library: a program that finds another there must not go on. It
   grows where a program that was compiled before would no longer be right, and is the number behind libcuedesk.so. */
#define CUEDESK_VERSION 1u

/* Universes, and the slots of each. */
#define CUEDESK_UNIVERSES 32u
#define CUEDESK_SLOTS 512u

/* The greatest channel number that a show may have, and the greatest cue number, 9999.999. */
#define CUEDESK_CHANNELS 4096u
#define CUEDESK_CUE_MAX 9999999u

/* The greatest number of a submaster. */
#define CUEDESK_SUBS 96u

/* How many hundredths of a second a tick is. */
#define CUEDESK_TICK 2u

/* A desk. The members are the library's own. */
typedef struct {
    void *at_;
    bool open_;
} cuedesk;

/* A desk that is closed, to begin with. */
#define CUEDESK_CLOSED_DESK { 0, false }

/* How a call ended. */
enum cuedesk_status {
    CUEDESK_OK = 0,            /* it was done */
    CUEDESK_CLOSED = 1,        /* the desk is closed */
    CUEDESK_OPEN = 2,          /* the desk is open already */
    CUEDESK_MEMORY = 3,        /* out of memory */
    CUEDESK_SHOW_REFUSED = 4,  /* the show's text has a fault: the report tells which, and its line */
    CUEDESK_TOO_LONG = 5,      /* the show's text up to its line ENDDATA, or to its first fault, is longer than 67,108,864 bytes */
    CUEDESK_NOT_A_LINE = 6,    /* there is a LF or a CR among the bytes of the line */
    CUEDESK_OUT_OF_RANGE = 7,  /* there is no such universe, channel, submaster or cue number, or no room of just 512 bytes */
    CUEDESK_QUIT = 8,          /* the line was `quit`: nothing was done, and the desk stays open */
    CUEDESK_AT_END = 9,        /* fewer ticks were accepted: the moment is at its end, 200,000,000 */
    CUEDESK_MORE = 10          /* the line was done; its reply is longer than the room, and cuedesk_reply gives the rest */
};

/* The faults of a show's text, as `show FAULT LINE` names them. */
enum cuedesk_fault {
    CUEDESK_NO_FAULT = 0,
    CUEDESK_NO_IDENT = 1,
    CUEDESK_BAD_NUMBER = 2,
    CUEDESK_FAULT_OUT_OF_RANGE = 3,
    CUEDESK_NOT_IN_RECORD = 4,
    CUEDESK_LINE_TOO_LONG = 5,
    CUEDESK_SHORT_LIST = 6,
    CUEDESK_NO_END_DATA = 7
};

/* Why a show was refused. */
typedef struct {
    uint32_t fault; /* an enum cuedesk_fault */
    uint32_t line;  /* the number of the line that has it, from 1 */
} cuedesk_report;

/* Where the playback stands. */
typedef struct {
    uint32_t moment;    /* the present moment */
    uint32_t position;  /* the cue that runs: that of the newest live run, or where the playback came to rest; 0 before the first */
    uint32_t next;      /* the cue that a `go` would run, or 0 where none is above the position */
    uint32_t live;      /* how many runs are live, 0 to 512; with 0 the playback is at rest */
    uint32_t over_at;   /* from this moment on every live run is over, so until then something may fade; 0 where none is live */
    uint32_t began;     /* the moment at which the newest live run began; 0 where none is live */
    uint32_t ends;      /* from this moment on that run is over; 0 where none is live */
    uint32_t follow_at; /* the moment at which the pending follow-on is due, where `follows`; else 0 */
    uint32_t channels;  /* how many channels the show has */
    uint32_t cues;      /* how many cues the show has */
    uint8_t master;     /* the master */
    bool follows;       /* a follow-on is pending */
} cuedesk_playback;

/* The version of the library. It takes no desk. */
uint32_t cuedesk_version(void);

/* Opens a closed desk over a show's text (docs/FORMATS.md), at moment 0 before the first cue. Levels of cues are moves, or with
   `states` whole looks. The text is read up to its line ENDDATA, and isn't needed after the call. How much stands behind that line
   doesn't matter. The reply of a desk that was just opened is empty.

   OK; OPEN where the desk isn't closed; SHOW_REFUSED, with the first fault in `report`; TOO_LONG; MEMORY. Without OK an open desk goes on
   as it was, and a closed one is closed. `report` is set by each call that finds the desk closed and isn't OK, to no fault but with
   SHOW_REFUSED. */
uint32_t cuedesk_open(cuedesk *desk, const uint8_t *text, size_t text_len, bool states, cuedesk_report *report);

/* The same, of a desk that keeps the last `depth` shows that edits and records replaced. Its script has three lines more: `undo`, `redo`
   and `record n [only]`. Any other desk answers these `bad`. Room for the depth is taken at the opening. */
uint32_t cuedesk_open_undo(cuedesk *desk, const uint8_t *text, size_t text_len, bool states, uint32_t depth, cuedesk_report *report);

/* Gives all that the desk leads to back, and closes it. A closed desk stays so. */
void cuedesk_close(cuedesk *desk);

/* Does one line of a script (docs/FORMATS.md), without its line end, and puts its reply, each line of it with its LF, into `reply`,
   which has room for `reply_cap` bytes. `reply_len` is set to how many bytes the whole reply has, or with MEMORY to how many of them are
   kept. Where that is more than there is room for the front of it stands there, and `cuedesk_reply` gives the rest: the reply is kept up
   to the next line. Where it is shorter, the room behind it is as it was.

   OK: the line was done, and its whole reply stands in `reply`. A line that is refused or bad is answered so, and with OK. MORE: as OK,
   but that there was no room for all of it. QUIT: the line is `quit`, whose reply is empty. MEMORY: the line was done, and of its reply
   a front is kept. CLOSED, NOT_A_LINE: nothing was done, and the reply before is kept. */
uint32_t cuedesk_command(cuedesk *desk, const uint8_t *line, size_t line_len, uint8_t *reply, size_t reply_cap, size_t *reply_len);

/* Puts the bytes of the last line's reply from place `from` on, as many as there are and fit, into `out`, and their count into `len`.
   Behind them `out` is as it was.

   OK, also with none where `from` is at the end or past it; CLOSED. */
uint32_t cuedesk_reply(cuedesk *desk, size_t from, uint8_t *out, size_t cap, size_t *len);

/* Lets `n` ticks go by, and sets `accepted` to how many of them did.

   OK: all of them. AT_END: as many as it tells, and no further one will. CLOSED. It takes no memory. */
uint32_t cuedesk_tick(cuedesk *desk, uint32_t n, uint32_t *accepted);

/* Puts the 512 slots of a universe at the present moment into `out`; `out_len` is 512. They are taken: `cuedesk_changed` tells from then
   on whether the slots are still these.

   OK; OUT_OF_RANGE where there is no such universe or `out_len` isn't 512; CLOSED. It takes no memory. */
uint32_t cuedesk_frame(cuedesk *desk, uint32_t universe, uint8_t *out, size_t out_len);

/* Tells whether the slots of a universe are others than those that `cuedesk_frame` gave last, or were never taken.

   OK; OUT_OF_RANGE where there is no such universe; CLOSED. It takes no memory. */
uint32_t cuedesk_changed(cuedesk *desk, uint32_t universe, bool *changed);

/* Tells the level of a channel on stage: that of the playback at the present moment, before submasters and master.

   OK; OUT_OF_RANGE where the show has no such channel; CLOSED. It takes no memory. */
uint32_t cuedesk_level(cuedesk *desk, uint32_t channel, uint8_t *level);

/* Tells the tracked level of a channel at a cue number, 0 to CUEDESK_CUE_MAX, which need not be a cue's.

   OK; OUT_OF_RANGE where the show has no such channel, or the number is above the greatest; CLOSED. It takes no memory. */
uint32_t cuedesk_tracked(cuedesk *desk, uint32_t cue, uint32_t channel, uint8_t *level);

/* Tells the fader of a submaster, 1 to 96; the show need not have it.

   OK; OUT_OF_RANGE where there is no such number; CLOSED. It takes no memory. */
uint32_t cuedesk_fader(cuedesk *desk, uint32_t sub, uint8_t *level);

/* Tells where the playback stands.

   OK; CLOSED. It takes no memory. */
uint32_t cuedesk_state(cuedesk *desk, cuedesk_playback *state);

#ifdef __cplusplus
}
#endif
#endif
