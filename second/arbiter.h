/* The audio.device arbiter of document 01, as functions over one struct.
   Plain C99. Every request is named by its id; every order is an array of ids. */
#ifndef ARBITER_H
#define ARBITER_H

#include <stddef.h>
#include <stdint.h>

#define MOST_CHANNELS 8u                    /* a map is one byte */
#define REQUESTS 64u
#define DESKS 2u
#define HALF (REQUESTS / DESKS)             /* the ids of one desk, and the records of its replies */
#define COMBINATIONS 16u
#define LAST_OF_KEYS 65535u
#define MOST_OPENS 32u                      /* entries of the table of open keys */
#define NO_ID 255u                          /* the last byte when it says nothing */

/* exec/io.h and devices/audio.h */
enum {
    CMD_RESET = 1, CMD_READ = 2, CMD_WRITE = 3, CMD_UPDATE = 4, CMD_CLEAR = 5,
    CMD_STOP = 6, CMD_START = 7, CMD_FLUSH = 8,
    ADCMD_FREE = 9, ADCMD_SETPREC = 10, ADCMD_FINISH = 11, ADCMD_PERVOL = 12,
    ADCMD_LOCK = 13, ADCMD_WAITCYCLE = 14, ADCMD_ALLOCATE = 32
};
enum { IOF_QUICK = 1, ADIOF_SYNCCYCLE = 32, ADIOF_NOWAIT = 64 };

/* Request #101: what a write plays. */
#define LEAST_PERIOD 124u
#define MOST_PERIOD 65536u
#define MOST_VOLUME 64u

/* Document 01, "Numbers a caller can get back" */
enum {
    DONE = 0,
    IOERR_OPENFAIL = -1, IOERR_ABORTED = -2, IOERR_NOCMD = -3,
    IOERR_BADLENGTH = -4, IOERR_BADADDRESS = -5,
    ADIOERR_NOALLOCATION = -10, ADIOERR_ALLOCFAILED = -11, ADIOERR_CHANNELSTOLEN = -12,
    REFUSED_UNSOUND = 1, REFUSED_CLOSED = 2, REFUSED_OUTSTANDING = 3,
    REFUSED_ID = 4, REFUSED_REPLIES = 5, REFUSED_LINE = 7, REFUSED_DESK = 8
};

/* Request #109: the two desks that share one board. */
enum { DESK_A = 0, DESK_B = 1 };

/* "Operations F0 to F3 are OPEN, CLOSE, ABORT, event; others are the command number." Request
   #102: F3 is "a cycle ended", F4 "the driver gave up". */
enum {
    CALL_OPEN = 0xF0, CALL_CLOSE = 0xF1, CALL_ABORT = 0xF2,
    CALL_CYCLE_ENDED = 0xF3, CALL_GAVE_UP = 0xF4
};

/* Ids in order; the places from count on are 0. */
struct Ids {
    uint8_t count;
    uint8_t id[REQUESTS];
};

/* The table of open keys, in order of opening; the places from count on are 0. */
struct Keys {
    uint8_t count;
    uint16_t key[MOST_OPENS];
};

struct Channel {
    uint16_t key;                           /* 0: the channel is free */
    int8_t precedence;
    uint8_t locked, stopped;                /* 0 or 1 */
    struct Ids writes;                      /* oldest first */
    uint8_t finish, pervol;                 /* 0 or 1: remembered until the cycle ends */
    uint32_t period;                        /* of the remembered PERVOL; without one 0 */
    uint8_t volume;
};

/* One outstanding request. What its command does not use is 0; an idle entry is all 0. */
struct Request {
    uint8_t command;                        /* 0: the id is idle */
    uint8_t nowait;                         /* waiting allocation: 0 or 1 */
    uint8_t map;                            /* lock: the channels it still holds; WAITCYCLE: its channel */
    int8_t precedence;                      /* waiting allocation */
    uint16_t key;
    uint8_t length;                         /* waiting allocation: 1 to 16 */
    uint8_t combination[COMBINATIONS];
    uint16_t cycles;                        /* write: how many are left; 0 is endless */
    uint32_t period;                        /* write */
    uint8_t volume;                         /* write */
};

struct Arbiter {
    uint8_t channels;                       /* the board has 4 or 8 */
    struct Channel channel[MOST_CHANNELS];  /* those behind the board's own are free */
    struct Request request[REQUESTS];
    struct Ids locks;                       /* oldest first */
    struct Ids waiting;                     /* highest precedence first, then arrival */
    struct Ids cycles;                      /* outstanding WAITCYCLEs of all channels, oldest first */
    struct Keys open;                       /* one entry for each successful OPEN */
    uint16_t last_key;
};

/* One call: the desk that makes it, and the bytes of a log frame. Any other number than A's and B's is no desk. */
struct Frame {
    uint8_t desk;
    uint8_t operation, id, flags, map;
    int8_t precedence;
    uint16_t key;
    uint8_t length;
    uint8_t combination[255];
};

struct Reply {
    uint8_t id, command;
    int8_t error;
    uint8_t map;
    uint16_t key;
};

/* Request #110: the numbers of the wall display. They stand beside the state and are no part of what makes it sound:
   any numbers may be handed in, and a call corrects them by what it moves, modulo 256. */
struct Display {
    uint8_t writes[MOST_CHANNELS];          /* of each channel's queue, the whole of it */
    uint8_t naming[MOST_CHANNELS];          /* the waiting requests that name the channel, each once */
    uint16_t looks;                         /* of the last settling */
};

/* What the display lends for each waiting request. */
struct Waiting {
    uint8_t id;
    int8_t precedence;
    uint8_t held;                           /* 0 or 1, by a choice made now */
    uint8_t desk;                           /* 0 is A, 1 is B */
};

/* The caller lends capacity records; a call fills those for desk A from the first on and those for desk B from
   record 32 on, and says how many each has. Made has the places of all, in the order in which they were made.
   Display is lent for one call by arbiter_call_shown, and NULL for a call that keeps no numbers. */
struct Replies {
    struct Reply *record;
    size_t capacity, count[DESKS];
    uint8_t made[REQUESTS];
    struct Display *display;
};

struct Answer {
    uint8_t outstanding;                    /* 0 or 1 */
    int8_t error;
    uint8_t map;
    uint16_t key;
    uint8_t last;                           /* READ's id, ABORT's 1 or 0, else 255 */
};

/* A fresh device on a board of so many channels: everything free, idle and 0. */
void arbiter_fresh(struct Arbiter *a, unsigned channels);

/* 1 if the state is sound, 0 if not. Reads any bytes safely. */
int arbiter_sound(const struct Arbiter *a);

/* One call of any kind. Any state, frame and capacity get an answer. */
struct Answer arbiter_call(struct Arbiter *a, const struct Frame *f, struct Replies *r);

/* The same call, with the display's numbers corrected by what it moves. A fresh device's are all 0. */
struct Answer arbiter_call_shown(struct Arbiter *a, struct Display *d, const struct Frame *f, struct Replies *r);

/* The waiting requests in order, into the first of so many records; *count is their number. 1 for a state that is not
   sound, then 5 for fewer than 64 records, then 0. After 1 and 5 *count is 0 and no record is written. */
int arbiter_waiting(const struct Arbiter *a, struct Waiting *record, size_t capacity, size_t *count);

/* The desk of an id: A has 0 to 31, B all others. */
unsigned arbiter_desk(unsigned id);

/* How many replies there are in both halves. */
size_t arbiter_replied(const struct Replies *r);

/* The choice of a combination in a sound state; chosen is 0 if it fails. */
enum Look { LOOK_FAILS, LOOK_HELD, LOOK_GRANTED };
enum Look arbiter_look(const struct Arbiter *a, int precedence,
                       const uint8_t *combination, unsigned length, uint8_t *chosen);

/* The key that a grant with key 0 would issue in a sound state. */
uint16_t arbiter_new_key(const struct Arbiter *a);

#endif
