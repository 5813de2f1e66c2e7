/* Writes vectors for the machine: calls with what this arbiter makes of them, as text of
   antt. vectors calls SEED writes calls on states that are not at rest, which no log
   reaches; vectors log NAME reads a log and writes it beside its output; vectors shown NAME
   the same with the lines of the wall display; vectors saved NAME and vectors saved2 NAME
   read a log and write it beside its output and the saved text of the state after it, in the
   first or the second form. Same arguments, same bytes, on every machine. */
#include "chance.h"
#include "log.h"
#include "saved.h"

#include <stdio.h>
#include <stdlib.h>
#include <string.h>

/* The board: 4 channels, or 8 where the compiler is told so. */
#ifndef CHANNELS
#define CHANNELS 4
#endif
#define ALL_CHANNELS ((1u << CHANNELS) - 1u)

/* ---- Sound states by chance ---- */

static uint16_t keys[3];                /* the keys that this state and its call use */
static uint8_t used[REQUESTS];

static unsigned idle_id(void)
{
    unsigned id = below(REQUESTS);

    while (used[id])
        id = (id + 1) % REQUESTS;
    return id;
}

static unsigned take_id(void)
{
    unsigned id = idle_id();

    used[id] = 1;
    return id;
}

static uint16_t any_key(void)
{
    return keys[below(3)];
}

/* Few values, so that many are equal; now and then an end of the range. */
static int8_t any_precedence(void)
{
    if (percent(94))
        return (int8_t)((int)below(7) - 3);
    return percent(50) ? -128 : 127;
}

static uint8_t any_combination(void)
{
    unsigned any = below(ALL_CHANNELS + 1);

    if (percent(50))
        return (uint8_t)(1u << below(CHANNELS));
    return (uint8_t)any;
}

static unsigned any_list(uint8_t *combination)
{
    unsigned length = percent(4) ? COMBINATIONS : 1 + below(3);

    for (unsigned i = 0; i < length; i++)
        combination[i] = any_combination();
    return length;
}

static void add_id(struct Ids *list, unsigned id)
{
    list->id[list->count++] = (uint8_t)id;
}

/* An end of the range now and then. */
static uint32_t any_period(void)
{
    static const uint32_t ends[4] = {124, 125, 65535, 65536};

    return percent(30) ? ends[below(4)] : 124 + below(65413);
}

static void make_channel(struct Arbiter *a, struct Channel *channel)
{
    unsigned writes = percent(40) ? 1 + below(2) : 0;

    if (percent(20))
        return;
    channel->key = any_key();
    channel->precedence = any_precedence();
    channel->locked = (uint8_t)percent(40);
    channel->stopped = (uint8_t)percent(20);
    for (unsigned i = 0; i < writes; i++) {
        unsigned id = take_id();

        a->request[id].command = CMD_WRITE;
        a->request[id].key = channel->key;
        a->request[id].cycles = (uint16_t)(percent(30) ? below(65536) : below(3));
        a->request[id].period = any_period();
        a->request[id].volume = (uint8_t)below(65);
        add_id(&channel->writes, id);
    }
    if (writes > 0) {
        channel->finish = (uint8_t)percent(25);
        channel->pervol = (uint8_t)percent(25);
        channel->period = channel->pervol ? any_period() : 0;
        channel->volume = (uint8_t)(channel->pervol ? below(65) : 0);
    }
}

/* A WAITCYCLE on one of the channels that have a write. */
static void make_cycle(struct Arbiter *a)
{
    unsigned c = below(CHANNELS), id;

    if (a->channel[c].writes.count == 0)
        return;
    id = take_id();
    a->request[id].command = ADCMD_WAITCYCLE;
    a->request[id].key = a->channel[c].key;
    a->request[id].map = (uint8_t)(1u << c);
    add_id(&a->cycles, id);
}

static void make_lock(struct Arbiter *a)
{
    uint16_t key = any_key();
    unsigned map = 0, some = below(ALL_CHANNELS + 1), id;

    for (unsigned c = 0; c < CHANNELS; c++)
        if (a->channel[c].key == key && a->channel[c].locked)
            map |= 1u << c;
    if ((map & some) != 0)
        map &= some;
    if (map == 0)
        return;
    id = take_id();
    a->request[id].command = ADCMD_LOCK;
    a->request[id].key = key;
    a->request[id].map = (uint8_t)map;
    add_id(&a->locks, id);
}

static void make_waiting(struct Arbiter *a, int8_t precedence)
{
    unsigned id = take_id();
    struct Request *q = &a->request[id];

    q->command = ADCMD_ALLOCATE;
    q->nowait = (uint8_t)percent(45);
    q->precedence = precedence;
    q->key = percent(50) ? 0 : any_key();
    q->length = (uint8_t)any_list(q->combination);
    add_id(&a->waiting, id);
}

static void make_state(struct Arbiter *a)
{
    static const uint16_t lasts[6] = {0, 1, 2, 9, 65534, 65535};
    unsigned locks = below(3), waiting = percent(90) ? 1 + below(4) : 0;
    int8_t order[4];

    arbiter_fresh(a, CHANNELS);
    memset(used, 0, sizeof used);
    a->last_key = lasts[below(6)];
    keys[0] = (uint16_t)(1 + a->last_key % 65535u);         /* the next to be issued */
    keys[1] = (uint16_t)(2 + below(3));
    keys[2] = (uint16_t)(percent(50) ? 65535 : 1 + below(65535));
    for (unsigned left = percent(3) ? 0 : percent(4) ? MOST_OPENS : 1 + below(3); left > 0; left--)
        a->open.key[a->open.count++] = percent(70) ? keys[below(3)] : (uint16_t)(1 + below(65535));
    for (unsigned c = 0; c < CHANNELS; c++)
        make_channel(a, &a->channel[c]);
    for (unsigned i = 0; i < locks; i++)
        make_lock(a);
    for (unsigned i = below(4); i > 0; i--)
        make_cycle(a);
    for (unsigned i = 0; i < waiting; i++) {
        unsigned at = i;

        order[i] = any_precedence();
        while (at > 0 && order[at - 1] < order[at]) {
            int8_t low = order[at - 1];

            order[at - 1] = order[at];
            order[at--] = low;
        }
    }
    for (unsigned i = 0; i < waiting; i++)
        make_waiting(a, order[i]);
}

/* "A waiting request that could be granted, a failing one with NOWAIT, a lock over a
   channel that a held one has chosen": settling would do something. */
static int at_rest(const struct Arbiter *a)
{
    for (unsigned at = 0; at < a->waiting.count; at++) {
        const struct Request *q = &a->request[a->waiting.id[at]];
        uint8_t chosen;
        enum Look look =
            arbiter_look(a, q->precedence, q->combination, q->length, &chosen);

        if (look == LOOK_GRANTED || (look == LOOK_FAILS && q->nowait))
            return 0;
        for (unsigned i = 0; look == LOOK_HELD && i < a->locks.count; i++)
            if ((a->request[a->locks.id[i]].map & chosen) != 0)
                return 0;
    }
    return 1;
}

#define SPOILS 15u

/* One thing that a sound state may not have, where both programs can say it. */
static void spoil(struct Arbiter *a, unsigned kind)
{
    struct Channel *channel = &a->channel[below(CHANNELS)];
    unsigned id;

    switch (kind) {
    case 0:                                 /* a free channel with a mark */
        memset(channel, 0, sizeof *channel);
        channel->stopped = 1;
        break;
    case 1:                                 /* a free channel with a precedence */
        memset(channel, 0, sizeof *channel);
        channel->precedence = 1;
        break;
    case 2:                                 /* a lock over a channel that is not locked */
        if (a->locks.count > 0)
            for (unsigned c = 0; c < CHANNELS; c++)
                a->channel[c].locked = 0;
        break;
    case 3:                                 /* a lock that names nothing */
        if (a->locks.count > 0)
            a->request[a->locks.id[0]].map = 0;
        break;
    case 4:                                 /* the waiting requests turned round */
        if (a->waiting.count > 1) {
            id = a->waiting.id[0];
            a->waiting.id[0] = a->waiting.id[a->waiting.count - 1];
            a->waiting.id[a->waiting.count - 1] = (uint8_t)id;
        }
        break;
    case 5:                                 /* an id twice in a queue */
        if (channel->writes.count > 0)
            add_id(&channel->writes, channel->writes.id[0]);
        break;
    case 6:                                 /* an id above 63 */
        if (channel->writes.count > 0)
            channel->writes.id[channel->writes.count - 1] = 64;
        break;
    case 7:                                 /* an entry of the open keys that is 0 */
        if (a->open.count > 0)
            a->open.key[a->open.count - 1] = 0;
        break;
    case 8:                                 /* a WAITCYCLE of two channels */
        if (a->cycles.count > 0)
            a->request[a->cycles.id[0]].map |= (uint8_t)(a->request[a->cycles.id[0]].map > 1 ? 1 : 2);
        break;
    case 9:                                 /* a WAITCYCLE with another key */
        if (a->cycles.count > 0)
            a->request[a->cycles.id[0]].key ^= 3;
        break;
    case 10:                                /* a WAITCYCLE on a channel without a write */
        if (a->cycles.count > 0)
            for (unsigned c = 0; c < CHANNELS; c++)
                if (a->request[a->cycles.id[0]].map == 1u << c) {
                    while (a->channel[c].writes.count > 0) {
                        id = a->channel[c].writes.id[--a->channel[c].writes.count];
                        a->channel[c].writes.id[a->channel[c].writes.count] = 0;
                        memset(&a->request[id], 0, sizeof a->request[id]);
                    }
                    a->channel[c].finish = a->channel[c].pervol = a->channel[c].volume = 0;
                    a->channel[c].period = 0;
                }
        break;
    case 11:                                /* a write with a period of 123 */
        if (channel->writes.count > 0)
            a->request[channel->writes.id[channel->writes.count - 1]].period = 123;
        break;
    case 12:                                /* a write with a volume of 65 */
        if (channel->writes.count > 0)
            a->request[channel->writes.id[0]].volume = 65;
        break;
    case 13:                                /* a remembered period of 65,537 */
        if (channel->pervol)
            channel->period = 65537;
        break;
    default:                                /* a waiting request without a combination */
        if (a->waiting.count > 0) {
            struct Request *q = &a->request[a->waiting.id[0]];

            memset(q->combination, 0, sizeof q->combination);
            q->length = 0;
        }
        break;
    }
}

/* ---- Calls by chance ---- */

static void make_call(struct Frame *f, unsigned operation)
{
    memset(f, 0, sizeof *f);
    f->operation = (uint8_t)operation;
    f->id = (uint8_t)idle_id();
    if (percent(operation == CALL_ABORT ? 60 : 5))
        f->id = (uint8_t)below(72);
    f->desk = (uint8_t)arbiter_desk(f->id);
    if (percent(12))
        f->desk = (uint8_t)(percent(60) ? below(2) : percent(50) ? 2 : 2 + below(254));
    f->flags = (uint8_t)((percent(50) ? IOF_QUICK : 0) | (percent(50) ? ADIOF_NOWAIT : 0)
                         | (percent(50) ? ADIOF_SYNCCYCLE : 0));
    if (percent(10))
        f->flags |= 0x0A;                   /* bits without a meaning */
    f->map = (uint8_t)(percent(96) ? below(ALL_CHANNELS + 1) : below(256));
    f->precedence = any_precedence();
    f->key = percent(10) ? 0 : any_key();
    if (operation == CALL_OPEN || operation == ADCMD_ALLOCATE) {
        if (percent(50))
            f->key = 0;
        if (percent(90))
            f->length = (uint8_t)any_list(f->combination);
        if (percent(4))
            f->length = 17;
        if (percent(4) && f->length > 0)
            f->combination[f->length - 1] = 255;
    }
    if ((operation == CMD_WRITE || operation == ADCMD_PERVOL) && percent(70)) {
        uint32_t period = percent(92) ? any_period() : percent(50) ? 123 : 65537;
        unsigned cycles = percent(50) ? below(3) : below(65536);

        f->length = (uint8_t)(percent(95) ? 6 : 4);
        f->combination[0] = (uint8_t)(cycles >> 8);
        f->combination[1] = (uint8_t)(cycles & 255);
        f->combination[2] = (uint8_t)(period >> 16);
        f->combination[3] = (uint8_t)(period >> 8 & 255);
        f->combination[4] = (uint8_t)(period & 255);
        f->combination[5] = (uint8_t)(percent(95) ? below(65) : 65);
    }
}

/* ---- What a vector is wanted for ---- */

static struct Arbiter before, after;
static struct Display display;
static struct Frame call;
static struct Reply record[REQUESTS];
static struct Replies replies;
static struct Answer answer;

/* The reply that was made so many after the first: the machine has them in one list. */
static const struct Reply *reply(size_t i)
{
    return &record[replies.made[i]];
}

static int settled(void)                    /* some reply to another than the caller */
{
    for (size_t i = 0; i < arbiter_replied(&replies); i++)
        if (reply(i)->id != call.id
            && (reply(i)->command == ADCMD_ALLOCATE || reply(i)->error == ADIOERR_CHANNELSTOLEN))
            return 1;
    return 0;
}

static unsigned grants(void)
{
    unsigned count = 0;

    for (size_t i = 0; i < arbiter_replied(&replies); i++)
        if (reply(i)->command == ADCMD_ALLOCATE && reply(i)->error == DONE)
            count++;
    return count;
}

/* The call's own request, answered as outstanding and ended in the same call. */
static int ended_itself(int error)
{
    for (size_t i = 0; i < arbiter_replied(&replies); i++)
        if (answer.outstanding && reply(i)->id == call.id && reply(i)->error == error)
            return 1;
    return 0;
}

static int unchanged(void)
{
    return arbiter_replied(&replies) == 0 && memcmp(&before, &after, sizeof before) == 0;
}

static int read_settles(void) { return answer.error == DONE && settled(); }
static int read_found(void) { return answer.last != NO_ID && settled(); }
static int mismatch_settles(void)
{
    return answer.error == ADIOERR_NOALLOCATION && settled();
}
static int done_settles(void) { return answer.error == DONE && settled(); }
static int not_aborted(void)
{
    return answer.error == DONE && answer.last == 0 && settled();
}
static int aborted(void) { return answer.last == 1 && settled(); }
static int failed_settles(void)
{
    return answer.error == ADIOERR_ALLOCFAILED && settled();
}
static int open_failed(void)
{
    return answer.error == ADIOERR_ALLOCFAILED && unchanged();
}
static int own_walk_grants(void) { return ended_itself(DONE); }
static int own_walk_drops(void) { return ended_itself(ADIOERR_ALLOCFAILED); }
static int own_walk_aborts(void) { return ended_itself(IOERR_ABORTED); }
static int own_walk_steals(void) { return ended_itself(ADIOERR_CHANNELSTOLEN); }
static int outstanding_settles(void) { return answer.outstanding && settled(); }
static int two_grants(void) { return grants() >= 2 && answer.error == DONE; }
static int event_ends(void) { return answer.map != 0 && settled(); }
static int event_idle(void)
{
    return answer.error == DONE && answer.map == 0 && settled();
}
static int two_new_keys(void)               /* the call's and at least one of the walk's */
{
    return answer.error == DONE && call.key == 0 && grants() >= 1
        && after.last_key != answer.key && after.last_key != before.last_key;
}
static unsigned told(unsigned command, int error)   /* how many replies */
{
    unsigned count = 0;

    for (size_t i = 0; i < arbiter_replied(&replies); i++)
        count += reply(i)->command == command && reply(i)->error == error;
    return count;
}
static unsigned remembered(const struct Arbiter *a)
{
    unsigned count = 0;

    for (unsigned c = 0; c < CHANNELS; c++)
        count += a->channel[c].finish + a->channel[c].pervol;
    return count;
}
static int cuts_waiters(void) { return told(ADCMD_WAITCYCLE, IOERR_ABORTED) > 0; }
static int cuts_two(void)                   /* oldest first, and not by channel */
{
    unsigned last = 0, falls = 0;

    for (size_t i = 0; i < arbiter_replied(&replies); i++)
        if (reply(i)->command == ADCMD_WAITCYCLE) {
            unsigned map = before.request[reply(i)->id].map;

            falls += map < last;
            last = map;
        }
    return falls > 0 && told(ADCMD_WAITCYCLE, IOERR_ABORTED) > 1;
}
static int meets_waiters(void) { return told(ADCMD_WAITCYCLE, DONE) > 0; }
/* The channel whose write an event has met, as it stood before; NULL where there is none. */
static const struct Channel *met(void)
{
    for (unsigned c = 0; c < CHANNELS; c++)
        if (answer.error == DONE && answer.map == 1u << c)
            return &before.channel[c];
    return NULL;
}
static int met_cycles(unsigned least, unsigned most)
{
    return met() != NULL && before.request[met()->writes.id[0]].cycles >= least
        && before.request[met()->writes.id[0]].cycles <= most;
}
static int goes_on(void) { return met() != NULL && after.request[met()->writes.id[0]].command == CMD_WRITE; }
static int counted(void) { return met_cycles(2, 65535) && goes_on() && !met()->pervol; }
static int endless(void) { return met_cycles(0, 0) && goes_on() && !met()->pervol; }
static int tuned(void) { return goes_on() && met()->pervol; }
static int last_cycle(void) { return met_cycles(1, 1) && !met()->finish && !met()->pervol; }
static int last_tuned(void) { return met_cycles(1, 1) && !met()->finish && met()->pervol; }
static int finished(void) { return met() != NULL && met()->finish && !met_cycles(1, 1); }
static int last_finished(void) { return met_cycles(1, 1) && met()->finish; }
static int given_up(void) { return met() != NULL && cuts_waiters(); }
static int given_up_before(void) { return met() != NULL && met()->writes.count > 1; }
static int event_stopped(void)
{
    for (unsigned c = 0; c < CHANNELS; c++)
        if ((call.map >> c & 1) != 0)
            return answer.error == DONE && before.channel[c].stopped && before.channel[c].writes.count > 0;
    return 0;
}
static int drops_memory(void) { return met() != NULL && !goes_on() && remembered(&after) < remembered(&before); }
static int remembers(void) { return remembered(&after) > remembered(&before); }
static int tunes_front(void)
{
    for (unsigned c = 0; c < CHANNELS; c++)
        for (unsigned at = 0; at < before.channel[c].writes.count; at++) {
            unsigned id = before.channel[c].writes.id[at];

            if (after.request[id].command == CMD_WRITE && after.request[id].period != before.request[id].period)
                return 1;
        }
    return 0;
}
static int front_aborted(void)              /* the first of two writes, and somebody waits */
{
    return answer.last == 1 && cuts_waiters() && before.request[call.id].command == CMD_WRITE;
}
static int waiter_aborted(void) { return answer.last == 1 && before.request[call.id].command == ADCMD_WAITCYCLE; }
static int waits(void) { return answer.outstanding; }
static int waits_not(void) { return answer.error == DONE && !answer.outstanding; }
static int own_cut(void) { return ended_itself(IOERR_ABORTED); }
static int closed(void) { return answer.error == REFUSED_CLOSED && unchanged(); }
static unsigned entries(const struct Arbiter *a, unsigned key)
{
    unsigned count = 0;

    for (unsigned at = 0; at < a->open.count; at++)
        count += a->open.key[at] == key;
    return count;
}
static int foreign_close(void) { return closed() && before.open.count > 0; }
static int oldest_close(void)               /* and another entry stands between the two */
{
    return answer.error == DONE && entries(&before, call.key) == 2
        && before.open.key[0] == call.key && before.open.key[1] != call.key;
}
static int passes_opener(void)              /* the next key to be issued has an entry, and nothing else has it */
{
    if (answer.error != DONE || answer.outstanding || call.key != 0 || entries(&before, keys[0]) == 0)
        return 0;
    for (unsigned c = 0; c < CHANNELS; c++)
        if (before.channel[c].key == keys[0])
            return 0;
    for (unsigned at = 0; at < before.waiting.count; at++)
        if (before.request[before.waiting.id[at]].key == keys[0])
            return 0;
    return 1;
}
static int id_outstanding(void) { return answer.error == REFUSED_OUTSTANDING && unchanged(); }
static int id_high(void) { return answer.error == REFUSED_ID && unchanged(); }
static int of_other_desk(void)              /* the id of the other half, or the call of no desk */
{
    return answer.error == REFUSED_DESK && call.desk < DESKS && unchanged();
}
static int of_no_desk(void) { return answer.error == REFUSED_DESK && call.desk >= DESKS && unchanged(); }
static int other_outstanding(void) { return of_other_desk() && before.request[call.id].command != 0; }
static int other_closed(void) { return answer.error == REFUSED_DESK && before.open.count == 0 && unchanged(); }
static int other_high(void) { return id_high() && call.desk != arbiter_desk(call.id); }
static int any_desk(void)                   /* the desk makes no difference */
{
    return answer.error == DONE && call.desk != arbiter_desk(call.id) && arbiter_replied(&replies) > 0;
}
/* The channel that a READ is done on, where a write is in progress there; else NULL. */
static const struct Channel *read_of(void)
{
    for (unsigned c = 0; c < CHANNELS; c++)
        if (answer.error == DONE && answer.map == 1u << c && before.channel[c].writes.count > 0 && !before.channel[c].stopped)
            return &before.channel[c];
    return NULL;
}
static int hidden_read(void) { return read_of() != NULL && answer.last == NO_ID; }
static int own_read(void)                   /* of the front of two desks' writes */
{
    const struct Channel *c = read_of();

    return c != NULL && answer.last != NO_ID && c->writes.count > 1 && arbiter_desk(c->writes.id[1]) != call.desk;
}
static int b_first(void)                    /* replies to both, and one to B was made before one to A */
{
    int to_b = 0;

    for (size_t i = 0; i < arbiter_replied(&replies); i++) {
        if (arbiter_desk(reply(i)->id) == DESK_B)
            to_b = 1;
        else if (to_b)
            return 1;
    }
    return 0;
}
static int no_command(void) { return answer.error == IOERR_NOCMD; }
static int bad_length(void) { return answer.error == IOERR_BADLENGTH; }
static int bad_address(void) { return answer.error == IOERR_BADADDRESS; }
static int open_end(void) { return answer.error == IOERR_OPENFAIL && unchanged(); }
static int short_list(void) { return answer.error == REFUSED_REPLIES && unchanged(); }
static int unsound(void) { return answer.error == REFUSED_UNSOUND && unchanged(); }

/* Two faults at once: the number is that of the earlier step. */
static int address_bad(void)                /* a map or a combination that is off the board */
{
    if (call.operation != CALL_OPEN && call.operation != ADCMD_ALLOCATE)
        return call.map >> CHANNELS != 0;
    for (unsigned i = 0; i < call.length; i++)
        if (call.combination[i] >> CHANNELS != 0)
            return 1;
    return 0;
}
static int numbers_bad(void)                /* of a WRITE or PERVOL: their number or the volume */
{
    return call.length != 0 && (call.length != 6 || call.combination[5] > 64);
}
static int unsound_short(void) { return unsound(); }
static int short_high(void) { return short_list() && call.id >= REQUESTS; }
static int short_closed(void) { return short_list() && before.open.count == 0; }
static int short_address(void) { return short_list() && address_bad(); }
static int outstanding_closed(void) { return id_outstanding() && before.open.count == 0; }
static int closed_unknown(void) { return closed(); }
static int unknown_address(void) { return no_command() && address_bad(); }
static int length_address(void) { return bad_length() && address_bad(); }
static int address_numbers(void) { return bad_address() && numbers_bad(); }
static int length_full(void) { return bad_length() && before.open.count == MOST_OPENS; }
static int address_full(void) { return bad_address() && before.open.count == MOST_OPENS; }

/* What a wish is looked for with: a spoilt state, a list of 63 records; a map or a combination off the board. */
static int wants_spoilt(int (*met)(void)) { return met == unsound || met == unsound_short; }
static int wants_address(int (*met)(void))
{
    return met == bad_address || met == short_address || met == unknown_address || met == length_address || met == address_numbers
        || met == address_full;
}
static int wants_short(int (*met)(void))
{
    return met == short_list || met == unsound_short || met == short_high || met == short_closed || met == short_address;
}

struct Wish {
    const char *name;
    unsigned count;
    uint8_t operation[10];                  /* one of these; 0 ends them */
    int (*met)(void);
    const char *why;
};

static const struct Wish wishes[] = {
    {"reads_settle", 6, {CMD_READ}, read_settles, "READ is done, and the walk follows"},
    {"reads_find", 4, {CMD_READ}, read_found,
     "READ answers the front write, which the walk may end"},
    {"mismatches_settle", 8,
     {CMD_READ, CMD_WRITE, CMD_RESET, CMD_CLEAR, CMD_STOP, ADCMD_FREE, ADCMD_SETPREC,
      ADCMD_LOCK}, mismatch_settles, "-10, and the walk follows"},
    {"clears_settle", 6, {CMD_CLEAR, CMD_UPDATE}, done_settles,
     "CLEAR or UPDATE does nothing, and the walk follows"},
    {"not_aborted_settles", 6, {CALL_ABORT}, not_aborted,
     "\"not aborted\", and the walk follows"},
    {"aborted_settles", 4, {CALL_ABORT}, aborted, "ABORT ends one, and the walk follows"},
    {"failed_settles", 6, {ADCMD_ALLOCATE}, failed_settles,
     "ALLOCATE is answered -11, and the walk follows"},
    {"failed_open_does_not", 6, {CALL_OPEN}, open_failed,
     "OPEN is answered -11, and nothing is settled"},
    {"walk_grants_its_own", 6, {ADCMD_ALLOCATE}, own_walk_grants,
     "ALLOCATE is answered as outstanding, and granted by the walk of its own call"},
    {"walk_drops_its_own", 4, {ADCMD_ALLOCATE}, own_walk_drops,
     "ALLOCATE is answered as outstanding, and dropped by the walk of its own call"},
    {"walk_aborts_its_own", 4, {CMD_WRITE}, own_walk_aborts,
     "WRITE is answered as outstanding, and aborted by a steal of its own call"},
    {"walk_steals_its_own", 4, {ADCMD_LOCK}, own_walk_steals,
     "LOCK is answered as outstanding, and replied -12 by the walk of its own call"},
    {"outstanding_settles", 4, {ADCMD_LOCK, CMD_WRITE, ADCMD_ALLOCATE}, outstanding_settles,
     "outstanding, and the walk follows"},
    {"many_granted", 9,
     {ADCMD_FREE, CALL_CLOSE, ADCMD_SETPREC, CMD_FLUSH, CMD_RESET, CMD_STOP, CMD_START,
      CALL_OPEN, ADCMD_ALLOCATE}, two_grants, "one walk grants two or more"},
    {"events_settle", 4, {CALL_CYCLE_ENDED, CALL_GAVE_UP}, event_ends,
     "an event meets a write, and the walk follows"},
    {"empty_events_settle", 4, {CALL_CYCLE_ENDED, CALL_GAVE_UP}, event_idle,
     "an event finds nothing, and the walk follows"},
    {"opens_settle", 4, {CALL_OPEN, CALL_CLOSE}, done_settles,
     "OPEN or CLOSE is done, and the walk follows"},
    {"new_keys", 4, {CALL_OPEN, ADCMD_ALLOCATE}, two_new_keys,
     "a new key for the call and one for the walk"},
    {"closed_device", 2, {CMD_WRITE, CALL_CLOSE}, closed, "refused with 2: nothing is settled"},
    {"foreign_closes", 2, {CALL_CLOSE}, foreign_close,
     "CLOSE without an entry of its key: 2, and nothing is settled"},
    {"oldest_closes", 3, {CALL_CLOSE}, oldest_close, "CLOSE removes the oldest of two entries"},
    {"passed_openers", 4, {CALL_OPEN, ADCMD_ALLOCATE}, passes_opener,
     "a new key passes over one that only an opener has"},
    {"outstanding_ids", 2, {CMD_WRITE, ADCMD_ALLOCATE}, id_outstanding,
     "refused with 3: nothing is settled"},
    {"high_ids", 2, {CALL_ABORT, ADCMD_LOCK}, id_high, "refused with 4: nothing is settled"},
    {"other_desks", 4, {CALL_ABORT, ADCMD_LOCK, CMD_READ, ADCMD_ALLOCATE}, of_other_desk,
     "an id of the other desk's half: 8, and nothing is settled"},
    {"no_desks", 2, {CALL_ABORT, CMD_WRITE}, of_no_desk, "neither desk A nor B: 8"},
    {"other_desks_outstanding", 2, {CMD_CLEAR, CALL_ABORT}, other_outstanding, "8 before 3; and ABORT of the other's request"},
    {"other_desks_closed", 1, {CMD_FLUSH}, other_closed, "8 before 2"},
    {"other_desks_high", 2, {CALL_ABORT, CMD_STOP}, other_high, "4 before 8"},
    {"any_desk", 4, {CALL_OPEN, CALL_CLOSE, CALL_CYCLE_ENDED, CALL_GAVE_UP}, any_desk, "OPEN, CLOSE and the events from any desk"},
    {"reads_hidden", 4, {CMD_READ}, hidden_read, "READ answers 255 for the other desk's write"},
    {"reads_own", 2, {CMD_READ}, own_read, "READ answers its own write, with the other desk's behind it"},
    {"both_desks_told", 8, {CMD_FLUSH, ADCMD_FREE, CALL_CLOSE, CALL_OPEN, ADCMD_ALLOCATE, ADCMD_FINISH, CALL_CYCLE_ENDED, CALL_GAVE_UP},
     b_first, "replies to both desks, one of them to B before one to A"},
    {"cuts_tell", 8, {CMD_RESET, CMD_FLUSH, ADCMD_FREE, ADCMD_FINISH, CALL_CLOSE, CALL_OPEN, ADCMD_ALLOCATE, CALL_ABORT}, cuts_waiters,
     "a front write ends otherwise than at its cycle's end: who waits for its cycle is replied -2"},
    {"cuts_by_age", 3, {CMD_FLUSH, ADCMD_FREE, ADCMD_FINISH}, cuts_two, "who waits is told by age, and not by channel"},
    {"cycles_tell", 3, {CALL_CYCLE_ENDED}, meets_waiters, "a cycle's end answers who waits, then goes to the write"},
    {"cycles_counted", 2, {CALL_CYCLE_ENDED}, counted, "a cycle's end counts down"},
    {"cycles_uncounted", 1, {CALL_CYCLE_ENDED}, endless, "an endless write is not counted down"},
    {"cycles_tuned", 2, {CALL_CYCLE_ENDED}, tuned, "a remembered PERVOL is applied, and the write goes on"},
    {"last_cycles", 1, {CALL_CYCLE_ENDED}, last_cycle, "the last cycle ends the write with 0"},
    {"last_cycles_tuned", 1, {CALL_CYCLE_ENDED}, last_tuned, "the same with a PERVOL remembered"},
    {"cycles_finished", 2, {CALL_CYCLE_ENDED}, finished, "a remembered FINISH ends the write with -2"},
    {"last_cycles_finished", 1, {CALL_CYCLE_ENDED}, last_finished, "the same in the last cycle"},
    {"given_up", 2, {CALL_GAVE_UP}, given_up, "the driver gave up: the write -2, then who waits for its cycle"},
    {"given_up_before_others", 1, {CALL_GAVE_UP}, given_up_before, "the next write moves up"},
    {"events_stopped", 2, {CALL_CYCLE_ENDED, CALL_GAVE_UP}, event_stopped, "an event on a stopped channel with a write"},
    {"events_forget", 2, {CALL_CYCLE_ENDED, CALL_GAVE_UP}, drops_memory, "what is remembered goes with the write"},
    {"fronts_aborted", 2, {CALL_ABORT}, front_aborted, "ABORT of the front write: then who waits for it"},
    {"waiters_aborted", 2, {CALL_ABORT}, waiter_aborted, "ABORT of a WAITCYCLE"},
    {"later", 4, {ADCMD_FINISH, ADCMD_PERVOL}, remembers, "a synced FINISH or PERVOL is remembered"},
    {"tuned", 3, {ADCMD_PERVOL}, tunes_front, "PERVOL replaces the numbers of the front write"},
    {"cycles_awaited", 2, {ADCMD_WAITCYCLE}, waits, "WAITCYCLE is outstanding"},
    {"cycles_done", 2, {ADCMD_WAITCYCLE}, waits_not, "WAITCYCLE is done at once"},
    {"walk_cuts_its_own", 2, {ADCMD_WAITCYCLE}, own_cut,
     "WAITCYCLE is answered as outstanding, and ended by a steal of its own call"},
    {"bad_numbers", 4, {CMD_WRITE, ADCMD_PERVOL}, bad_length, "refused with -4 for its numbers: nothing is settled"},
    {"no_commands", 2, {15, 0xF5}, no_command, "refused with -3: nothing is settled"},
    {"bad_lengths", 2, {ADCMD_ALLOCATE, CALL_OPEN}, bad_length,
     "refused with -4: nothing is settled"},
    {"bad_addresses", 5, {ADCMD_ALLOCATE, CALL_OPEN, CMD_STOP, CALL_CYCLE_ENDED, CALL_GAVE_UP}, bad_address,
     "refused with -5: nothing is settled"},
    {"no_more_opens", 2, {CALL_OPEN}, open_end, "OPEN at 32 entries: -1"},
    {"short_lists", 2, {CMD_READ, CALL_OPEN}, short_list, "a reply list of 63 records: 5"},
    {"unsound_states", SPOILS,
     {CMD_READ, CALL_OPEN, CALL_ABORT, ADCMD_ALLOCATE, CALL_CLOSE, CALL_CYCLE_ENDED, CALL_GAVE_UP}, unsound,
     "a state that is not sound: 1"},
    {"unsound_short_lists", 6, {CMD_READ, CALL_OPEN, CALL_CLOSE, CALL_ABORT, CALL_CYCLE_ENDED, CALL_GAVE_UP}, unsound_short, "1 before 5"},
    {"short_lists_high_ids", 2, {CALL_ABORT, CMD_STOP}, short_high, "5 before 4"},
    {"short_lists_closed", 2, {CALL_CLOSE, CMD_CLEAR}, short_closed, "5 before 2"},
    {"short_lists_addresses", 4, {CALL_CYCLE_ENDED, CALL_GAVE_UP, CALL_OPEN, CMD_FLUSH}, short_address, "5 before -5"},
    {"outstanding_closed", 2, {CMD_WRITE, ADCMD_ALLOCATE}, outstanding_closed, "3 before 2"},
    {"closed_no_commands", 2, {15, 0xF5}, closed_unknown, "2 before -3"},
    {"no_commands_addresses", 2, {15, 0xF5}, unknown_address, "-3 before -5"},
    {"lengths_addresses", 2, {ADCMD_ALLOCATE, CALL_OPEN}, length_address, "-4 before -5"},
    {"addresses_numbers", 2, {CMD_WRITE, ADCMD_PERVOL}, address_numbers, "-5 before the -4 for numbers"},
    {"lengths_no_more_opens", 1, {CALL_OPEN}, length_full, "-4 before -1"},
    {"addresses_no_more_opens", 1, {CALL_OPEN}, address_full, "-5 before -1"}
};

/* Draws states and calls until one meets the wish; its operations take turns. */
static void find(const struct Wish *w, unsigned turn)
{
    unsigned kinds = 0;

    while (kinds < sizeof w->operation && w->operation[kinds] != 0)
        kinds++;
    for (unsigned long tries = 0; tries < 2000000; tries++) {
        make_state(&before);
        if (!arbiter_sound(&before)) {
            fputs("vectors: a state made here is not sound\n", stderr);
            exit(1);
        }
        if (at_rest(&before))
            continue;
        if (wants_spoilt(w->met))
            spoil(&before, turn % SPOILS);
        make_call(&call, w->operation[turn % kinds]);
        after = before;
        replies.record = record;
        replies.capacity = wants_short(w->met) ? REQUESTS - 1 : REQUESTS;
        answer = arbiter_call(&after, &call, &replies);
        if (w->met())
            return;
    }
    fprintf(stderr, "vectors: no call found for %s\n", w->name);
    exit(1);
}

/* ---- The machine's words ---- */

static void put_numbers(const uint8_t *number, unsigned count)
{
    if (count == 0) {
        printf("[]");
        return;
    }
    putchar('(');
    for (unsigned i = 0; i < count; i++)
        printf("%u ∷ ", number[i]);
    printf("[])");
}

static void put_keys(const struct Keys *open)
{
    putchar('(');
    for (unsigned at = 0; at < open->count; at++)
        printf("%u ∷ ", open->key[at]);
    printf("[])");
}

static const char *truth(int holds)
{
    return holds ? "true" : "false";
}

static unsigned shifted(int precedence)     /* the machine stores precedence + 128 */
{
    return (unsigned)(precedence + 128);
}

/* The writes, front first; what is remembered stands with the front one. */
static void put_writes(const struct Arbiter *a, const struct Channel *channel)
{
    if (channel->writes.count == 0) {
        printf("[]");
        return;
    }
    putchar('(');
    for (unsigned at = 0; at < channel->writes.count; at++) {
        static const struct Request none;
        unsigned id = channel->writes.id[at];
        const struct Request *q = id < REQUESTS ? &a->request[id] : &none;
        int finish = at == 0 && channel->finish, pervol = at == 0 && channel->pervol;

        printf("%s %u %u %u %u ", finish ? pervol ? "both" : "cuts" : pervol ? "tunes" : "plays", id,
               q->cycles, (unsigned)q->period, q->volume);
        if (pervol)
            printf("%u %u ", (unsigned)channel->period, channel->volume);
        printf("∷ ");
    }
    printf("[])");
}

static void put_channel(const struct Arbiter *a, const struct Channel *channel)
{
    if (channel->key == 0 && channel->precedence == 0 && !channel->locked
        && !channel->stopped && channel->writes.count == 0) {
        printf("free");
        return;
    }
    printf("chan %u %u %s %s ", channel->key, shifted(channel->precedence),
           truth(channel->locked), truth(channel->stopped));
    put_writes(a, channel);
}

static void put_state(const struct Arbiter *a)
{
    printf("(stands (");
    for (unsigned c = 0; c < CHANNELS; c++) {
        put_channel(a, &a->channel[c]);
        printf(" ∷ ");
    }
    printf("[])\n    (");
    for (unsigned at = 0; at < a->locks.count; at++) {
        const struct Request *q = &a->request[a->locks.id[at]];

        printf("lock %u %u %u ∷ ", a->locks.id[at], q->key, q->map);
    }
    printf("[])\n    (");
    for (unsigned at = 0; at < a->cycles.count; at++) {
        const struct Request *q = &a->request[a->cycles.id[at]];

        printf("lock %u %u %u ∷ ", a->cycles.id[at], q->key, q->map);
    }
    printf("[])\n    (");
    for (unsigned at = 0; at < a->waiting.count; at++) {
        const struct Request *q = &a->request[a->waiting.id[at]];

        printf("wait %u %u %u %s ", a->waiting.id[at], q->key, shifted(q->precedence),
               truth(q->nowait));
        put_numbers(q->combination, q->length);
        printf(" ∷ ");
    }
    printf("[]) ");
    put_keys(&a->open);
    printf(" %u)", a->last_key);
}

static void put_call(void)
{
    static const char *const named[5] = {"OPEN", "CLOSE", "ABORT", "(EVENT CYCLE_ENDED)", "(EVENT GAVE_UP)"};

    /* `asks` is of the desk that has the id. */
    if (call.desk == arbiter_desk(call.id))
        printf("(asks ");
    else
        printf("(asks_from %u ", call.desk);
    if (call.operation >= CALL_OPEN && call.operation <= CALL_GAVE_UP)
        printf("%s", named[call.operation - CALL_OPEN]);
    else
        printf("(COMMAND %u)", call.operation);
    printf(" %u %u %u %u %u ", call.id, call.flags, call.map, shifted(call.precedence),
           call.key);
    put_numbers(call.combination, call.length);
    printf(" %u)", (unsigned)replies.capacity);
}

static void put_outcome(void)
{
    printf("(gets (says %s %u %u %u %u)\n    (", truth(answer.outstanding),
           (uint8_t)answer.error, answer.map, answer.key, answer.last);
    for (size_t i = 0; i < arbiter_replied(&replies); i++) {
        const struct Reply *r = reply(i);

        printf("reply %u %u %u %u %u ∷ ", r->id, r->command, (uint8_t)r->error, r->map,
               r->key);
    }
    printf("[])\n    ");
    put_state(&after);
    putchar(')');
}

/* The call in words, above its vector. */
static void put_remark(void)
{
    static const char *const command[] = {
        "", "RESET", "READ", "WRITE", "UPDATE", "CLEAR", "STOP", "START", "FLUSH", "FREE",
        "SETPREC", "FINISH", "PERVOL", "LOCK", "WAITCYCLE"
    };
    static const char *const other[5] = {"OPEN", "CLOSE", "ABORT", "a cycle ended", "the driver gave up"};
    unsigned n = call.operation;

    printf("    -- ");
    if (n >= CALL_OPEN && n <= CALL_GAVE_UP)
        printf("%s", other[n - CALL_OPEN]);
    else if (n >= CMD_RESET && n <= ADCMD_WAITCYCLE)
        printf("%s", command[n]);
    else if (n == ADCMD_ALLOCATE)
        printf("ALLOCATE");
    else
        printf("command %02X", n);
    if (call.desk != arbiter_desk(call.id))
        printf(" of desk %u", call.desk);
    printf(": %s, error %d, replies %u\n", answer.outstanding ? "outstanding" : "done",
           answer.error, (unsigned)arbiter_replied(&replies));
}

/* One statement: a table of calls that belong together. */
static void put_wish(const struct Wish *w)
{
    const char *board = CHANNELS == 4 ? "" : "_of_8";
    unsigned count = CHANNELS == 4 ? w->count : 1;

    if (CHANNELS == 8 && wants_address(w->met))
        return;                             /* no byte is above 255 */
    printf("\n-- %s\nabbrev pub %s%s_vectors : List Vector\n%s%s_vectors =\n", w->why,
           w->name, board, w->name, board);
    for (unsigned i = 0; i < count; i++) {
        find(w, i);
        put_remark();
        printf("    %svector\n    ", i == 0 ? "" : "∷ ");
        put_state(&before);
        printf("\n    ");
        put_call();
        printf("\n    ");
        put_outcome();
        printf("\n");
    }
    printf("    ∷ []\n\npub %s%s : Computes %s%s_vectors\nunfolding machine\n%s%s = refl\n",
           w->name, board, w->name, board, w->name, board);
}

/* ---- Logs ---- */

#define LONGEST_QUOTED 600              /* longer lines are left out, to keep the file short */

static int quotable(const char *line, size_t length)
{
    for (size_t i = 0; i < length; i++)
        if (line[i] < 32 || line[i] > 126 || line[i] == '"' || line[i] == '\\')
            return 0;
    return length <= LONGEST_QUOTED;
}

static void put_hex(const uint8_t *byte, size_t count)
{
    printf("\"");
    for (size_t i = 0; i < count; i++)
        printf("%02X", byte[i]);
    printf("\"");
}

/* "A's replies are written first." */
static void put_answer_lines(void)
{
    for (size_t at = 0; at < REQUESTS; at++)
        if (at % HALF < replies.count[at / HALF]) {
            const struct Reply *r = &record[at];
            uint8_t byte[7] = {0xC0, r->id, r->command, (uint8_t)r->error, r->map,
                               (uint8_t)(r->key >> 8), (uint8_t)(r->key & 255)};

            put_hex(byte, sizeof byte);
            printf(" ∷ ");
        }
    {
        uint8_t byte[6] = {(uint8_t)(0xA0 + answer.outstanding), (uint8_t)answer.error,
                           answer.map, (uint8_t)(answer.key >> 8),
                           (uint8_t)(answer.key & 255), answer.last};

        put_hex(byte, sizeof byte);
        printf(" ∷ ");
    }
}

/* E0 with each channel's two numbers and the looks; E1 for each waiting request. */
static void put_display_lines(void)
{
    struct Waiting waiting[REQUESTS];
    uint8_t byte[1 + 2 * CHANNELS + 2] = {0xE0};
    size_t count;

    for (unsigned c = 0; c < CHANNELS; c++) {
        byte[1 + 2 * c] = display.writes[c];
        byte[2 + 2 * c] = display.naming[c];
    }
    byte[1 + 2 * CHANNELS] = (uint8_t)(display.looks >> 8);
    byte[2 + 2 * CHANNELS] = (uint8_t)(display.looks & 255);
    put_hex(byte, sizeof byte);
    printf(" ∷ ");
    arbiter_waiting(&after, waiting, REQUESTS, &count);
    for (size_t i = 0; i < count; i++) {
        uint8_t of[5] = {0xE1, waiting[i].id, (uint8_t)waiting[i].precedence, waiting[i].held, waiting[i].desk};

        put_hex(of, sizeof of);
        printf(" ∷ ");
    }
}

/* A log from standard input, line by line; a line that cannot be quoted is left out. */
static void put_lines(const char *name, int shown)
{
    static char line[1 << 18];
    size_t length = 0;
    int c;

    arbiter_fresh(&after, CHANNELS);
    memset(&display, 0, sizeof display);
    printf("\nabbrev pub %s_lines : Talk\n%s_lines =\n    ", name, name);
    do {
        c = getchar();
        if (c != EOF && c != '\n') {
            if (length < sizeof line)
                line[length++] = (char)c;
            continue;
        }
        if ((c != EOF || length > 0) && quotable(line, length)) {
            answer = log_malformed();
            replies.record = record;
            replies.capacity = REQUESTS;
            replies.count[DESK_A] = replies.count[DESK_B] = 0;
            if (log_decode(line, length, &call))
                answer = arbiter_call_shown(&after, &display, &call, &replies);
            printf("(\"%.*s\", ", (int)length, line);
            put_answer_lines();
            if (shown)
                put_display_lines();
            printf("[]");
            printf(")\n    ∷ ");
        }
        length = 0;
    } while (c != EOF);
    printf("[]\n");
}

static void put_log(const char *name)
{
    put_lines(name, 0);
    printf("\npub %s : Answers %u %s_lines\nunfolding machine bytes page frees\n%s = refl\n", name, CHANNELS, name, name);
}

static void put_shown(const char *name)
{
    put_lines(name, 1);
    printf("\npub %s : Shows %u %s_lines\n"
           "unfolding machine bytes page frees shown beyond reached look_on looks_in looks acting looks_after looked_by looked"
           " names writes_on naming number numbers_from corrected displayed displayed_by holds record_of load_line request_lines display_lines\n"
           "%s = refl\n", name, CHANNELS, name, name);
}

/* A log, and the lines of the text of the state after it. */
static void put_saved(const char *name, int form)
{
    static char text[SAVED_LONGEST2];
    size_t length;
    int error;

    put_lines(name, 0);
    error = form == 1 ? saved_save(&after, text, sizeof text, &length) : saved_save2(&after, &display, text, sizeof text, &length);
    if (error != DONE) {
        fputs("vectors: the state has no saved text\n", stderr);
        exit(1);
    }
    printf("\nabbrev pub %s_text : List String\n%s_text =\n    ", name, name);
    for (const char *line = text; line < text + length; line = strchr(line, '\n') + 1)
        printf("\"%.*s\"\n    ∷ ", (int)strcspn(line, "\n"), line);
    if (form == 1)
        printf("[]\n\npub %s : Keeps %s_lines %s_text\nunfolding machine bytes page text", name, name, name);
    else
        printf("[]\n\npub %s : Keeps2 %u %s_lines %s_text\n"
               "unfolding machine bytes page frees names writes_on naming number_frame number_frames frames2 text2",
               name, CHANNELS, name, name);
    printf(" kept channel_frame request_frame span_frame write_frame write_frames key_frame frames spelt\n%s = refl\n", name);
}

int main(int count, char **argument)
{
    if (count == 3 && strcmp(argument[1], "calls") == 0) {
        chance_seed(strtoull(argument[2], NULL, 10));
        for (size_t i = 0; i < sizeof wishes / sizeof wishes[0]; i++)
            put_wish(&wishes[i]);
    } else if (count == 3 && strcmp(argument[1], "log") == 0) {
        put_log(argument[2]);
    } else if (count == 3 && strcmp(argument[1], "shown") == 0) {
        put_shown(argument[2]);
    } else if (count == 3 && strcmp(argument[1], "saved") == 0) {
        put_saved(argument[2], 1);
    } else if (count == 3 && strcmp(argument[1], "saved2") == 0) {
        put_saved(argument[2], 2);
    } else {
        fputs("usage: vectors calls SEED | vectors log|shown|saved|saved2 NAME\n", stderr);
        return 2;
    }
    if (fflush(stdout) != 0 || ferror(stdout)) {
        fputs("vectors: output failed\n", stderr);
        return 1;
    }
    return 0;
}
