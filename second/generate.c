/* Writes a hard random log to standard output: generate SEED LINES [STYLE [CHANNELS]].
   STYLE is a style's name, or its number; mix where it is left out. CHANNELS is 4, where
   it is left out, or 8.
   It plays its own log on an arbiter, so that it knows live keys, idle ids and waiting
   requests. Same arguments, same bytes, on every machine. */
#include "chance.h"
#include "log.h"

#include <stdio.h>
#include <stdlib.h>
#include <string.h>

/* ---- Styles ---- */

enum Kind {
    OPEN, CLOSE, ABORT, CYCLE, RESET, READ, WRITE, UPDATE, CLEAR, STOP, START, FLUSH,
    FREE, SETPREC, LOCK, ALLOCATE, UNKNOWN, FINISH, PERVOL, WAITCYCLE, GIVE_UP, KINDS
};

static const uint8_t operation_of[KINDS] = {
    CALL_OPEN, CALL_CLOSE, CALL_ABORT, CALL_CYCLE_ENDED, CMD_RESET, CMD_READ, CMD_WRITE,
    CMD_UPDATE, CMD_CLEAR, CMD_STOP, CMD_START, CMD_FLUSH, ADCMD_FREE, ADCMD_SETPREC,
    ADCMD_LOCK, ADCMD_ALLOCATE, 0, ADCMD_FINISH, ADCMD_PERVOL, ADCMD_WAITCYCLE, CALL_GAVE_UP
};

struct Style {
    const char *name;
    uint8_t weight[KINDS];      /* in the order of enum Kind */
    uint8_t nowait;             /* percent of allocations with NOWAIT */
    uint8_t wrong;              /* percent of calls with a wrong id, map or list */
    uint8_t full;               /* percent of lists with sixteen entries */
    uint8_t malformed;          /* percent of malformed lines */
    uint8_t drain;              /* outstanding requests above which they are ended */
};

enum {
    MIX, LOCKS, NOWAIT, QUEUES, FULL, ABORTS, PRECEDENCES, REFUSALS, MALFORMED, LISTS,
    BYTES, TIES, CUTS, CYCLES, TWO_DESKS, OPENS, KEYS, MANY_LOCKS, MANY_STEALS, MANY_ENTRIES, MANY_WAITING,
    DISPLAY, SAVED, STYLES
};
#define SHORT_STYLES KEYS       /* 1 to 15 take part in the mix */
#define LONG_STRETCH 67500ul    /* lines in which the keys reach their end */
#define LONG_LOG 70000ul        /* a mix this long begins with such a stretch */

static const struct Style styles[STYLES] = {
    /*              Op Cl Ab Cy Rs Rd Wr Up Cr Sp St Fl Fr Pr Lk Al Un Fi Pv Wc Gu */
    {"mix",         {0}, 0, 0, 0, 0, 0},
    {"locks",       {2, 2, 2, 1, 1, 1, 6, 1, 1, 1, 1, 1,18, 6,26,34, 0, 1, 1, 1, 1}, 30, 2,  5,  1, 30},
    {"nowait",      {2, 1, 3, 1, 1, 1, 3, 0, 0, 1, 1, 1, 9,26,20,36, 0, 0, 0, 1, 1}, 85, 2,  5,  1, 30},
    {"queues",      {2, 1, 5,14, 3, 8,46, 1, 1, 4, 6, 2, 2, 2, 1, 5, 0, 4, 4, 8, 4}, 30, 2,  5,  1, 62},
    {"full",        {3, 0, 1, 2, 0, 3,64, 0, 0, 2, 2, 0, 0, 1, 6,18, 0, 1, 1, 6, 1}, 30, 3,  5,  1, 62},
    {"aborts",      {2, 1,30, 3, 1, 2,22, 1, 1, 1, 1, 1, 4, 4, 8,24, 0, 1, 1, 8, 2}, 20, 3,  5,  1, 40},
    {"precedences", {5, 4, 3, 2, 1, 1, 8, 1, 1, 1, 1, 1, 8,30, 6,30, 0, 1, 1, 1, 1}, 25, 2, 10,  1, 40},
    {"refusals",    {9,14, 4, 5, 4, 4, 9, 4, 4, 4, 4, 4, 6, 5, 5,18,10, 3, 3, 3, 5}, 40,40, 15,  2, 30},
    {"malformed",   {6, 4, 4, 6, 3, 4,12, 3, 3, 4, 4, 3, 8, 6, 8,20, 2, 2, 2, 2, 3}, 40, 5, 10, 50, 40},
    {"lists",       {14,8, 3, 2, 1, 1, 6, 0, 0, 1, 1, 1,12, 6, 8,46, 0, 0, 0, 0, 1}, 40,12, 60,  1, 40},
    {"bytes",       {1, 1, 1, 1, 1, 1, 1, 1, 1, 1, 1, 1, 1, 1, 1, 1, 1, 1, 1, 1, 1}, 50,30, 20,  5, 50},
    {"ties",        {2, 1, 3, 1, 1, 1, 4, 0, 0, 1, 1, 1, 4,30, 1,50, 0, 0, 0, 0, 1}, 70, 2,  8,  1, 30},
    {"cuts",        {2, 1, 5, 8, 3, 2,26, 0, 0, 5, 7, 3, 3, 1, 1, 8, 0,12,12,24, 2}, 20, 3,  5,  1, 55},
    {"cycles",      {2, 1, 3,40, 1, 2,26, 0, 0, 5, 9, 1, 1, 1, 1, 6, 0,10,14,16, 7}, 20, 3,  5,  1, 50},
    {"desks",       {3, 2, 8, 7, 2,10,46, 0, 0, 2, 4, 4, 4, 6, 8,14, 0, 5, 3,18, 3}, 20, 4,  5,  1, 58},
    {"opens",       {40,22, 2, 2, 1, 1, 4, 1, 1, 1, 1, 1, 4, 3, 3,12, 1, 1, 1, 1, 1}, 40, 3, 5,  1, 40},
    {"keys",        {6, 1, 2, 2, 1, 1, 4, 1, 1, 1, 1, 1, 4, 6, 4,40, 1, 0, 0, 0, 1}, 20, 2, 10,  1, 40},
    /* One kind of work each, for measuring: good frames, hardly a refusal, and no F4, so that
       their logs stay what they were before there was one. */
    {"many-locks",  {1, 0, 2, 1, 1, 2, 4, 2, 2, 2, 2, 1, 4, 8,60, 3, 0, 0, 0, 0, 0}, 90, 0,  5,  0, 50},
    {"many-steals", {1, 0, 1, 1, 0, 1,30, 0, 0, 1, 1, 0, 1,36, 0,36, 0, 0, 0, 0, 0},100, 0,  5,  0, 50},
    {"many-entries",{6, 4, 3, 1, 1, 1, 4, 1, 1, 1, 1, 1, 9, 9, 2,55, 0, 0, 0, 0, 0}, 60, 0,100,  0, 40},
    {"many-waiting",{1, 0, 4, 4, 1, 8, 8, 4, 4, 4, 4, 2, 0, 1, 0,55, 0, 0, 0, 0, 0},  0, 0,  5,  0, 56},
    /* Behind those, so that the numbers of the styles and the logs of the mix stay what they were. */
    {"display",     {3, 2, 7, 3, 1, 2,26, 0, 0, 2, 2, 2, 5,20,14,36, 2, 1, 0, 2, 1}, 50, 3,  8,  2, 20},
    {"saved",       {14,2, 2, 3, 0, 1,26, 0, 0, 3, 2, 0, 1, 1,14,22, 0, 7, 8,16, 1}, 10, 1, 60,  1, 62}
};

static int measures(const struct Style *s)
{
    return s >= &styles[MANY_LOCKS] && s <= &styles[MANY_WAITING];
}

/* ---- The device as it stands ---- */

static struct Arbiter state;

static unsigned all_channels(void)
{
    return (1u << state.channels) - 1;
}

static int outstanding(unsigned id)
{
    return state.request[id].command != 0;
}

static unsigned count_outstanding(void)
{
    unsigned count = 0;

    for (unsigned id = 0; id < REQUESTS; id++)
        count += (unsigned)outstanding(id);
    return count;
}

/* An id that is outstanding, or idle, from a random place on; any id if there is none. */
static unsigned pick_id(int wanted)
{
    unsigned id = below(REQUESTS);

    for (unsigned tries = 0; tries < REQUESTS && outstanding(id) != wanted; tries++)
        id = (id + 1) % REQUESTS;
    return id;
}

/* The same of one desk, and often one of the two ids where the desks meet. */
static unsigned pick_id_of(unsigned desk, int wanted)
{
    unsigned id = desk * HALF + below(HALF), edge = desk == DESK_A ? HALF - 1 : HALF;

    if (percent(15) && outstanding(edge) == wanted)
        return edge;
    for (unsigned tries = 0; tries < HALF && outstanding(id) != wanted; tries++)
        id = desk * HALF + (id + 1) % HALF;
    return id;
}

/* A channel that is allocated, from a random place on; any channel if there is none. */
static unsigned pick_channel(void)
{
    unsigned c = below(state.channels);

    for (unsigned tries = 0; tries < state.channels && state.channel[c].key == 0; tries++)
        c = (c + 1) % state.channels;
    return c;
}

/* A channel that has a write, from a random place on; any channel if there is none. */
static unsigned pick_playing(void)
{
    unsigned c = below(state.channels);

    for (unsigned tries = 0; tries < state.channels && state.channel[c].writes.count == 0; tries++)
        c = (c + 1) % state.channels;
    return c;
}

/* ---- The parts of a frame ---- */

#define NEAR_THE_END 30u        /* the keys about the round, on either side */

/* One of the next keys to be issued, so that the count has to pass over it. Near the end
   it is one of those about the round. */
static unsigned next_key(void)
{
    unsigned key = state.last_key + 1 + below(4);

    if (state.last_key > LAST_OF_KEYS - NEAR_THE_END)
        key = LAST_OF_KEYS - 2 + below(6);
    return key > LAST_OF_KEYS ? key - LAST_OF_KEYS : key;
}

/* A key of the table of open keys, or 0 where it is empty. */
static unsigned pick_open(void)
{
    return state.open.count == 0 ? 0 : state.open.key[below(state.open.count)];
}

static unsigned pick_key(void)
{
    unsigned odds = below(100);

    if (odds < 74)
        return state.channel[pick_channel()].key;
    if (odds < 80)
        return state.request[pick_id(1)].key;
    if (odds < 84)
        return pick_open();
    if (odds < 88)
        return 0;
    if (odds < 91)
        return 1 + below(8);
    if (odds < 94)
        return state.last_key;
    if (odds < 97)
        return next_key();
    if (odds < 98)
        return LAST_OF_KEYS - below(4);
    return below(LAST_OF_KEYS + 1);
}

static uint8_t taken_by[LAST_OF_KEYS + 1];  /* the desk that was the last to take this key */

/* Who calls under this key: mostly the desk that took it; the other one where it was passed by hand. */
static unsigned pick_desk(unsigned key)
{
    return percent(65) ? taken_by[key] : DESK_B - taken_by[key];
}

static unsigned channels_of(unsigned key)
{
    unsigned own = 0;

    for (unsigned c = 0; c < state.channels; c++)
        if (key != 0 && state.channel[c].key == key)
            own |= 1u << c;
    return own;
}

/* Mostly the channels of this key, all of them, some, or some more. */
static unsigned pick_map(unsigned key)
{
    unsigned odds = below(100), random = below(all_channels() + 1), own = channels_of(key);

    if (odds < 45)
        return own;
    if (odds < 80)
        return (own & random) != 0 ? own & random : own;
    if (odds < 92)
        return own | random;
    return random;
}

/* Few values, so that many are equal; now and then an end of the range. */
static int pick_precedence(void)
{
    static const int8_t ends[8] = {-128, -127, -1, 10, 20, 100, 126, 127};
    unsigned odds = below(100);

    if (odds < 85)
        return (int)below(7) - 3;
    if (odds < 97)
        return ends[below(8)];
    return (int)below(256) - 128;
}

static unsigned pick_combination(void)
{
    unsigned odds = below(100);

    if (odds < 1)
        return 0;
    if (odds < 35)
        return 1u << below(state.channels);
    return 1 + below(all_channels());
}

static void pick_list(struct Frame *f, const struct Style *s)
{
    unsigned odds = below(100);

    /* More than one combination, or none could tie with another. */
    if (s == &styles[TIES] && odds < 40)
        odds = 85;
    if (percent(s->full))
        f->length = COMBINATIONS;
    else if (odds < 4)
        f->length = 0;
    else if (odds < 85)
        f->length = (uint8_t)(1 + below(3));
    else
        f->length = (uint8_t)(4 + below(12));
    for (unsigned i = 0; i < f->length; i++)
        f->combination[i] = (uint8_t)pick_combination();
    /* Each names some of the channels that the one before it names. */
    for (unsigned i = 1; i < f->length && s == &styles[TIES]; i++) {
        unsigned some = f->combination[i - 1] & below(all_channels() + 1);

        if (some != 0 && percent(60))
            f->combination[i] = (uint8_t)some;
    }
    /* As in M10, only the last entry differs. */
    if (f->length == COMBINATIONS && percent(40))
        memset(f->combination, f->combination[0], COMBINATIONS - 1);
}

/* Endless, few cycles, or any number. Of many hardly one would be seen to end, so style cycles
   has fewer of those, and some whose low byte runs out. */
static unsigned pick_cycles(const struct Style *s)
{
    static const uint16_t many[3] = {256, 257, 65535};

    if (s == &styles[CYCLES])
        return percent(75) ? below(4) : many[below(3)];
    return percent(70) ? below(4) : below(65536);
}

/* The six numbers of a WRITE or a PERVOL: mostly good ones, at times an end of a range or
   one beyond it, at times another length. */
static void pick_sound(struct Frame *f, const struct Style *s)
{
    static const uint32_t periods[8] = {124, 125, 65535, 65536, 123, 65537, 0, 0xFFFFFF};
    static const uint8_t volumes[4] = {0, 64, 65, 255};
    static const uint8_t lengths[6] = {1, 4, 5, 7, 16, 255};
    uint32_t period = 124 + below(1000);
    unsigned volume = below(65), cycles = pick_cycles(s);

    if (percent(s == &styles[CYCLES] ? 15 : 40))
        return;
    if (percent(25))
        period = periods[below(percent(60) ? 4 : 8)];
    if (percent(20))
        volume = volumes[below(percent(60) ? 2 : 4)];
    f->length = (uint8_t)(percent(95) ? 6 : lengths[below(6)]);
    f->combination[0] = (uint8_t)(cycles >> 8);
    f->combination[1] = (uint8_t)(cycles & 255);
    f->combination[2] = (uint8_t)(period >> 16);
    f->combination[3] = (uint8_t)(period >> 8 & 255);
    f->combination[4] = (uint8_t)(period & 255);
    f->combination[5] = (uint8_t)volume;
}

/* A list that is refused, or with ignore set any list at all, up to the longest. */
static void spoil_list(struct Frame *f, int ignore)
{
    unsigned odds = below(6), high = 16 + below(240);

    if (ignore)
        f->length = (uint8_t)below(256);
    else if (odds < 2 && f->length > 0)
        f->combination[below(f->length)] = (uint8_t)high;
    else if (odds < 5)
        f->length = 17;
    else
        f->length = (uint8_t)(18 + below(238));
    for (unsigned i = COMBINATIONS; i < f->length; i++)
        f->combination[i] = (uint8_t)pick_combination();
    /* The document's trap: seventeen entries, one of them 10. */
    if (f->length > COMBINATIONS && percent(50))
        f->combination[below(f->length)] = 0x10;
}

/* Every number but those of the listed commands and of F0 to F4. */
static unsigned pick_unknown(void)
{
    static const uint8_t near[8] = {0, 15, 16, 30, 31, 33, 0xEF, 0xF5};
    unsigned number = near[below(8)];

    if (percent(40))
        number = below(256);
    for (unsigned kind = 0; kind < KINDS; kind++)
        if (kind != UNKNOWN && operation_of[kind] == number)
            return 15;
    return number;
}

/* ---- Tides ---- */

/* Style display goes by tides. While they rise nearly every call is a request that waits, and what else is outstanding is
   aborted, until 64 wait; while they fall holders are lowered or freed, so that many are granted in one settling. */
static enum { CALM, RISING, FALLING } tide;

/* A request that is outstanding and does not wait; REQUESTS where there is none. */
static unsigned pick_not_waiting(void)
{
    unsigned id = below(REQUESTS), tries = 0;

    while (tries < REQUESTS && (!outstanding(id) || state.request[id].command == ADCMD_ALLOCATE)) {
        id = (id + 1) % REQUESTS;
        tries++;
    }
    return tries < REQUESTS ? id : REQUESTS;
}

static void turn_tide(void)
{
    if (tide == CALM && below(150) == 0)
        tide = RISING;
    else if (tide == RISING && percent(state.waiting.count == REQUESTS ? 20 : 1))
        tide = FALLING;
    else if (tide == FALLING && percent(state.waiting.count < 3 ? 25 : 1))
        tide = CALM;
}

static enum Kind pick_by_tide(enum Kind kind)
{
    static const enum Kind falls[6] = {ABORT, ABORT, SETPREC, SETPREC, FREE, CLOSE};

    turn_tide();
    if (tide == RISING)
        return pick_not_waiting() < REQUESTS && percent(20) ? ABORT : ALLOCATE;
    return tide == FALLING && percent(80) ? falls[below(6)] : kind;
}

/* Rising, one who would have all channels stands above the others: it holds them, or is held by who locked one. */
static void make_rising(struct Frame *f)
{
    if (f->operation == CALL_ABORT) {
        unsigned id = pick_not_waiting();

        f->id = (uint8_t)(id < REQUESTS ? id : f->id);
    }
    if (f->operation != ADCMD_ALLOCATE)
        return;
    f->flags = (uint8_t)(f->flags & ~(unsigned)ADIOF_NOWAIT);
    f->precedence = (int8_t)((int)below(12) - 6);
    if (percent(8)) {
        f->precedence = (int8_t)(120 + below(8));
        f->length = 1;
        f->combination[0] = (uint8_t)all_channels();
    }
}

/* Falling, all that a key holds is lowered or let go. */
static void make_falling(struct Frame *f)
{
    if (f->operation != ADCMD_SETPREC && f->operation != ADCMD_FREE && f->operation != CALL_CLOSE)
        return;
    f->key = state.channel[pick_channel()].key;
    f->map = (uint8_t)channels_of(f->key);
    f->precedence = (int8_t)(percent(50) ? -128 : (int)below(12) - 6);
}

static void make_by_tide(struct Frame *f)
{
    /* A channel is named by several combinations of one request, and one channel by many requests. */
    for (unsigned i = 0; i < f->length && f->operation == ADCMD_ALLOCATE; i++) {
        if (i > 0 && percent(50))
            f->combination[i] |= f->combination[i - 1];
        else if (percent(60))
            f->combination[i] = (uint8_t)(1u << below(state.channels));
    }
    if (tide == RISING)
        make_rising(f);
    if (tide == FALLING)
        make_falling(f);
}

/* ---- Long texts ---- */

/* Style saved has everything outstanding at once; in long lists, for some time, nearly all that is outstanding waits. */
static int long_lists;

static enum Kind pick_for_text(enum Kind kind)
{
    if (below(120) == 0)
        long_lists = !long_lists;
    if (!long_lists || percent(10))
        return kind;
    return pick_not_waiting() < REQUESTS && percent(40) ? ABORT : ALLOCATE;
}

/* The first holders stay above all who come after them, so that these wait and the locks stay. Synced, so that it is remembered. */
static void make_for_text(struct Frame *f)
{
    if (f->operation == ADCMD_ALLOCATE) {
        f->precedence = (int8_t)(state.waiting.count < 2 ? 127 : (int)below(200) - 128);
        while (long_lists && f->length < COMBINATIONS && percent(97))
            f->combination[f->length++] = (uint8_t)pick_combination();
    }
    if (f->operation == ADCMD_SETPREC)
        f->precedence = (int8_t)(percent(90) ? 127 : 0);
    if (f->operation == CALL_OPEN && percent(80))
        f->length = 0;
    if (f->operation == CALL_ABORT && long_lists) {
        unsigned id = pick_not_waiting();

        f->id = (uint8_t)(id < REQUESTS ? id : f->id);
    }
    if (f->operation == ADCMD_FINISH || f->operation == ADCMD_PERVOL)
        f->flags |= ADIOF_SYNCCYCLE;
    if (f->operation == ADCMD_LOCK && percent(70)) {
        f->key = state.channel[pick_channel()].key;
        f->map = (uint8_t)channels_of(f->key);
    }
}

/* ---- Frames ---- */

/* One thing is wrong: the id, the map or the list. */
static void spoil(struct Frame *f)
{
    int listed = f->operation == CALL_OPEN || f->operation == ADCMD_ALLOCATE;
    unsigned odds = below(10);

    if (listed && percent(60))
        odds = 9;
    if (odds < 2)
        f->id = (uint8_t)(64 + below(192));
    else if (odds < 4)
        f->id = (uint8_t)pick_id(1);
    else if (odds < 5)
        f->map = (uint8_t)(16u << below(4));
    else if (odds < 7)
        f->map = (uint8_t)(16 + below(240));
    else
        spoil_list(f, !listed);
}

static void make_frame(struct Frame *f, enum Kind kind, const struct Style *s)
{
    memset(f, 0, sizeof *f);
    f->operation = operation_of[kind];
    f->id = (uint8_t)pick_id(0);
    f->flags = percent(50) ? IOF_QUICK : 0;
    if (percent(10))
        f->flags = (uint8_t)(f->flags | (below(256) & ~(unsigned)ADIOF_NOWAIT));
    if (percent(s->nowait))
        f->flags |= ADIOF_NOWAIT;
    f->precedence = (int8_t)pick_precedence();
    f->key = (uint16_t)pick_key();
    f->map = (uint8_t)pick_map(f->key);
    switch (kind) {
    case OPEN:
        if (percent(50))
            f->key = 0;
        else if (percent(s == &styles[OPENS] || s == &styles[KEYS] ? 60 : 5))
            f->key = (uint16_t)next_key();
        if (percent(s == &styles[OPENS] ? 20 : 60))
            pick_list(f, s);
        /* High enough to steal what both desks play. */
        if (s == &styles[TWO_DESKS] && f->length > 0)
            f->precedence = (int8_t)(percent(60) ? 4 + below(20) : 2);
        break;
    case CLOSE:
        /* The desks that opened first are to be there when the keys come round. */
        if (percent(s == &styles[KEYS] ? 10 : 75))
            f->key = (uint16_t)pick_open();
        else if (percent(30))
            f->key = 0;
        break;
    case ABORT:
        if (percent(85))
            f->id = (uint8_t)pick_id(1);
        break;
    case CYCLE: case GIVE_UP:
        if (percent(80))
            f->map = (uint8_t)(1u << pick_playing());
        break;
    case SETPREC:
        /* Raised above the waiting requests, so that held ones fail. */
        if (s == &styles[NOWAIT] && percent(60))
            f->precedence = (int8_t)(2 + below(4));
        /* Lowered, so that the next request steals. */
        if (s == &styles[MANY_STEALS])
            f->precedence = (int8_t)((int)below(20) - 128);
        /* All holders at one precedence or the other. */
        if (s == &styles[TIES])
            f->precedence = (int8_t)(percent(80) ? 0 : 1);
        break;
    case ALLOCATE:
        if (percent(50))
            f->key = 0;
        else if (percent(s == &styles[KEYS] ? 80 : 10))
            f->key = (uint16_t)next_key();
        pick_list(f, s);
        if (s == &styles[MANY_STEALS])
            f->precedence = (int8_t)(108 + below(20));
        /* The first holders stay above all who come after them. */
        if (s == &styles[MANY_WAITING])
            f->precedence = (int8_t)(count_outstanding() < 4 ? 127 : (int)below(60) - 100);
        /* Half of them are holders for the others to steal from. */
        if (s == &styles[TIES])
            f->precedence = (int8_t)(percent(35) ? 0 : 2 + (int)below(2));
        break;
    case UNKNOWN:
        f->operation = (uint8_t)pick_unknown();
        break;
    case WRITE: case PERVOL:
        if (!measures(s))
            pick_sound(f, s);
        break;
    case FLUSH: case RESET:
        /* All that a desk plays, so that waiters of several channels are cut at once. */
        if (s == &styles[CUTS] || s == &styles[TWO_DESKS]) {
            f->key = state.channel[pick_playing()].key;
            f->map = (uint8_t)channels_of(f->key);
        }
        break;
    case WAITCYCLE:
        if (percent(70)) {
            unsigned c = pick_playing();

            f->map = (uint8_t)(1u << c);
            f->key = state.channel[c].key;
        }
        break;
    default:
        break;
    }
    if (kind == FINISH || kind == PERVOL) {
        if (percent(s == &styles[CYCLES] ? 85 : 50))
            f->flags |= ADIOF_SYNCCYCLE;
        if (percent(60)) {
            unsigned c = pick_playing();

            f->map = (uint8_t)(1u << c | (percent(60) ? 1u << pick_playing() : 0u));
            f->key = state.channel[c].key;
        }
    }
    /* Either desk; a READ of what plays, its own or not, and an ABORT of what it has outstanding. */
    if (s == &styles[TWO_DESKS]) {
        if (kind == READ && percent(80)) {
            unsigned c = pick_playing();

            f->map = (uint8_t)(1u << c);
            f->key = state.channel[c].key;
        }
        f->id = (uint8_t)pick_id_of(pick_desk(f->key), kind == ABORT);
    }
    if (s == &styles[DISPLAY])
        make_by_tide(f);
    if (s == &styles[SAVED])
        make_for_text(f);
    if (percent(s->wrong))
        spoil(f);
}

/* Any bytes. Most fields stay near what means something. */
static void any_frame(struct Frame *f)
{
    memset(f, 0, sizeof *f);
    f->operation = percent(80) ? operation_of[below(KINDS)] : (uint8_t)below(256);
    f->id = (uint8_t)(percent(90) ? below(72) : below(256));
    f->flags = (uint8_t)below(256);
    f->map = (uint8_t)(percent(85) ? below(16) : below(256));
    f->precedence = (int8_t)((int)below(256) - 128);
    f->key = (uint16_t)(percent(60) ? pick_key() : below(65536));
    f->length = (uint8_t)(percent(85) ? below(18) : below(256));
    for (unsigned i = 0; i < f->length; i++)
        f->combination[i] = (uint8_t)(percent(98) ? below(16) : below(256));
    if (state.open.count == 0 && percent(50)) {
        f->operation = CALL_OPEN;
        f->length = 0;
    }
}

static enum Kind pick_kind(unsigned style)
{
    const struct Style *s = &styles[style];
    unsigned sum = 0, at, kind = 0;

    /* The driver goes on with what plays, open or not. */
    if (state.open.count == 0 && !measures(s) && state.channel[pick_playing()].writes.count > 0 && percent(40))
        return percent(50) ? CYCLE : GIVE_UP;
    /* Closed, most calls would be refused with 2. */
    if (state.open.count == 0 && percent(style == REFUSALS ? 30 : 80))
        return OPEN;
    if (count_outstanding() > s->drain && percent(50) && (style != DISPLAY || tide != RISING)) {
        static const enum Kind drains[7] = {ABORT, CYCLE, FLUSH, FREE, CLOSE, RESET, GIVE_UP};

        return style == MANY_WAITING || style == SAVED ? ABORT : drains[below(measures(s) ? 6 : 7)];
    }
    for (unsigned i = 0; i < KINDS; i++)
        sum += s->weight[i];
    at = below(sum);
    while (at >= s->weight[kind])
        at -= s->weight[kind++];
    if (kind == CLOSE && state.open.count == 1 && style != REFUSALS && percent(60))
        return OPEN;
    if (style == SAVED)
        return pick_for_text((enum Kind)kind);
    return style == DISPLAY ? pick_by_tide((enum Kind)kind) : (enum Kind)kind;
}

/* The long style counts up with one cheap call a line; 1 if this line is such a one. First
   some desks open, so that the round meets their keys. */
static int climb(struct Frame *f, unsigned style)
{
    int near = state.last_key < NEAR_THE_END
            || state.last_key > LAST_OF_KEYS - NEAR_THE_END;

    if (style != KEYS || !percent(near ? 30 : 99))
        return 0;
    memset(f, 0, sizeof *f);
    f->operation = CALL_OPEN;
    if (state.open.count > (state.last_key < NEAR_THE_END ? 8 : 0)) {
        f->operation = ADCMD_ALLOCATE;
        f->flags = IOF_QUICK;
        f->id = (uint8_t)pick_id(0);
    }
    return 1;
}

/* ---- Lines ---- */

static char text[1 << 17];      /* the line, without its LF */
static size_t length;

static void put_byte(unsigned byte)
{
    static const char digits[] = "0123456789ABCDEF";

    text[length++] = digits[byte >> 4 & 15];
    text[length++] = digits[byte & 15];
}

static void put_frame(const struct Frame *f)
{
    put_byte(f->operation);
    put_byte(f->id);
    put_byte(f->flags);
    put_byte(f->map);
    put_byte((uint8_t)f->precedence);
    put_byte((unsigned)f->key >> 8);
    put_byte(f->key & 255u);
    put_byte(f->length);
    for (unsigned i = 0; i < f->length; i++)
        put_byte(f->combination[i]);
}

static void put_digits(size_t until)
{
    while (length + 1 < until)
        put_byte(below(256));
    if (length < until)
        text[length++] = '7';
}

/* The line holds a frame; it becomes one that document 01 calls malformed. */
static void damage(void)
{
    static const char strange[] = "GZ@/:` \t.-xgz\"\\";
    unsigned at = below((unsigned)length);
    unsigned odds;

    switch (below(16)) {
    case 0:                                 /* an empty line */
        length = 0;
        break;
    case 1:                                 /* odd, one digit less */
        length--;
        break;
    case 2:                                 /* odd, one digit more */
        text[length++] = '0';
        break;
    case 3:                                 /* lower case */
        text[at] = (char)("abcdef"[below(6)]);
        break;
    case 4:                                 /* no digit at all */
        text[at] = strange[below(sizeof strange - 1)];
        break;
    case 5:                                 /* no whole head */
        length = 2 * below(FRAME_HEAD);
        break;
    case 6:                                 /* one byte less than n says */
        length -= 2;
        break;
    case 7:                                 /* one byte more than n says */
        put_byte(below(16));
        break;
    case 8:                                 /* longer than any frame */
        odds = below(8);
        put_digits(odds == 0 ? 60000 + below(60000) : LONGEST_LINE + 1 + below(600));
        break;
    case 9:                                 /* the longest frame and more */
        length = 14;
        put_byte(255);
        put_digits(LONGEST_LINE);
        put_digits(LONGEST_LINE + 1 + below(4));
        break;
    case 10:                                /* CR before the LF */
        text[length++] = '\r';
        break;
    case 11:
        text[at] = '\0';
        break;
    case 12:                                /* a high byte */
        text[at] = (char)(128 + (int)below(128) - 256);
        break;
    case 13:                                /* two frames on a line */
        memcpy(&text[length], text, length);
        length *= 2;
        break;
    case 14:                                /* a space at the end */
        text[length++] = ' ';
        break;
    default:                                /* any bytes */
        length = below(60);
        for (size_t i = 0; i < length; i++) {
            text[i] = (char)((int)below(256) - 128);
            if (text[i] == '\n')
                text[i] = 'F';
        }
        break;
    }
}

static void make_line(unsigned style)
{
    const struct Style *s = &styles[style];
    struct Frame f;

    if (!climb(&f, style)) {
        if (style == BYTES)
            any_frame(&f);
        else
            make_frame(&f, pick_kind(style), s);
    }
    length = 0;
    put_frame(&f);
    if (percent(s->malformed))
        damage();
}

/* The arbiter follows the line as a reader of the log would, and learns who has taken a key. */
static void follow_line(void)
{
    static struct Reply record[REQUESTS];
    struct Replies replies = {.record = record, .capacity = REQUESTS};
    struct Answer answer;
    struct Frame f;

    if (!log_decode(text, length, &f))
        return;
    answer = arbiter_call(&state, &f, &replies);
    if ((f.operation == CALL_OPEN || f.operation == ADCMD_ALLOCATE) && answer.error == DONE && !answer.outstanding)
        taken_by[answer.key] = f.desk;
    for (size_t i = 0; i < arbiter_replied(&replies); i++) {
        const struct Reply *reply = &record[replies.made[i]];

        if (reply->command == ADCMD_ALLOCATE && reply->error == DONE)
            taken_by[reply->key] = (uint8_t)arbiter_desk(reply->id);
    }
}

/* The style of this name or number; STYLES where there is none. */
static unsigned style_of(const char *word)
{
    unsigned style = 0;

    if (word[0] >= '0' && word[0] <= '9')
        return (unsigned)strtoul(word, NULL, 10);
    while (style < STYLES && strcmp(styles[style].name, word) != 0)
        style++;
    return style;
}

int main(int count, char **argument)
{
    unsigned long lines, left = 0;
    unsigned chosen = MIX, style = MIX, channels = 4;

    if (count < 3 || count > 5) {
        fputs("usage: generate SEED LINES [STYLE [CHANNELS]]\n", stderr);
        for (unsigned i = 0; i < STYLES; i++)
            fprintf(stderr, "  style %2u: %s\n", i, styles[i].name);
        return 2;
    }
    chance_seed(strtoull(argument[1], NULL, 10));
    lines = strtoul(argument[2], NULL, 10);
    if (count > 3)
        chosen = style_of(argument[3]);
    if (count > 4)
        channels = (unsigned)strtoul(argument[4], NULL, 10);
    if (chosen >= STYLES || (channels != 4 && channels != 8)) {
        fputs("generate: no such style or board\n", stderr);
        return 2;
    }
    arbiter_fresh(&state, channels);
    style = chosen;
    if (chosen == MIX && lines >= LONG_LOG) {
        style = KEYS;
        left = LONG_STRETCH;
    }
    for (unsigned long line = 1; line <= lines; line++) {
        if (chosen == MIX && left == 0) {
            style = 1 + below(SHORT_STYLES - 1);
            left = 20 + below(180);
        }
        if (left > 0)
            left--;
        make_line(style);
        /* The last line may lack its LF, or its end as well. */
        if (line == lines && length > 1 && percent(25))
            length = 1 + below((unsigned)length - 1);
        follow_line();
        fwrite(text, 1, length, stdout);
        if (line < lines || percent(50))
            putchar('\n');
    }
    if (fflush(stdout) != 0 || ferror(stdout)) {
        fputs("generate: output failed\n", stderr);
        return 1;
    }
    return 0;
}
