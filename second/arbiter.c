/* The audio.device arbiter, written from document 01 and the autodoc.
   Ids and arrays throughout: no linked lists, no recursion, no allocation. */
#include "arbiter.h"

#include <string.h>

/* ---- Arrays of ids ---- */

/* An id is in one place only, so a list of 64 always has room for an idle one. */
static void insert_id(struct Ids *list, unsigned at, uint8_t id)
{
    memmove(&list->id[at + 1], &list->id[at], (size_t)list->count - at);
    list->id[at] = id;
    list->count++;
}

static uint8_t remove_id(struct Ids *list, unsigned at)
{
    uint8_t id = list->id[at];

    list->count--;
    memmove(&list->id[at], &list->id[at + 1], (size_t)list->count - at);
    list->id[list->count] = 0;
    return id;
}

/* The id's place in the list, or the count if it is not there. */
static unsigned find_id(const struct Ids *list, uint8_t id)
{
    unsigned at = 0;

    while (at < list->count && list->id[at] != id)
        at++;
    return at;
}

/* ---- Maps ---- */

static int names(unsigned map, unsigned channel)
{
    return (map >> channel & 1u) != 0;
}

/* The map of all channels: 15 on four. "Maps above 255 can't occur", so on eight none is beyond it. */
static unsigned all_channels(const struct Arbiter *a)
{
    return (1u << a->channels) - 1u;
}

static int beyond_board(const struct Arbiter *a, unsigned map)
{
    return map > all_channels(a);
}

static unsigned lowest_channel(unsigned map)
{
    unsigned c = 0;

    while (!names(map, c))
        c++;
    return c;
}

/* The channels of the map that have this key. "Key 0 matches nothing." */
static unsigned matching(const struct Arbiter *a, unsigned map, uint16_t key)
{
    unsigned own = 0;

    for (unsigned c = 0; c < a->channels; c++)
        if (names(map, c) && key != 0 && a->channel[c].key == key)
            own |= 1u << c;
    return own;
}

/* ---- Replies ---- */

/* "Desk A has ids 0 to 31, desk B 32 to 63." */
unsigned arbiter_desk(unsigned id)
{
    return id < HALF ? DESK_A : DESK_B;
}

size_t arbiter_replied(const struct Replies *r)
{
    return r->count[DESK_A] + r->count[DESK_B];
}

/* "Replies for desk B go into the reply list from record 32 onward, those for A before it."
   A call replies each id at most once, so 32 records a desk are enough. */
static void add_reply(struct Replies *r, uint8_t id, uint8_t command,
                      int error, unsigned map, uint16_t key)
{
    unsigned desk = arbiter_desk(id);
    size_t at = desk * HALF + r->count[desk];
    struct Reply *record = &r->record[at];

    r->made[arbiter_replied(r)] = (uint8_t)at;
    r->count[desk]++;
    record->id = id;
    record->command = command;
    record->error = (int8_t)error;
    record->map = (uint8_t)map;
    record->key = key;
}

/* An outstanding request, already out of its list, is replied and becomes idle. */
static void end_request(struct Arbiter *a, uint8_t id, int error, unsigned map,
                        struct Replies *r)
{
    struct Request *q = &a->request[id];

    add_reply(r, id, q->command, error, map, q->key);
    memset(q, 0, sizeof *q);
}

/* ---- The wall display: request #110 ---- */

/* "Keep the two numbers beside the state, corrected at each call and never recounted": one
   more or one less where a write joins or leaves its queue, however the numbers stood. */
static void correct_writes(unsigned c, int by, struct Replies *r)
{
    if (r->display != NULL)
        r->display->writes[c] = (uint8_t)(r->display->writes[c] + by);
}

/* The same where a request joins or leaves those that wait. It counts once for a channel,
   however many of its combinations name it. */
static void correct_naming(const struct Request *q, int by, struct Replies *r)
{
    unsigned named = 0;

    if (r->display == NULL)
        return;
    for (unsigned i = 0; i < q->length; i++)
        named |= q->combination[i];
    for (unsigned c = 0; c < MOST_CHANNELS; c++)
        if (names(named, c))
            r->display->naming[c] = (uint8_t)(r->display->naming[c] + by);
}

/* "How many waiting requests the last settling looked at." */
static void report_looks(unsigned looks, struct Replies *r)
{
    if (r->display != NULL)
        r->display->looks = (uint16_t)looks;
}

/* ---- Channels ---- */

/* "A write is in progress at the front of a queue that isn't stopped." */
static int in_progress(const struct Channel *channel)
{
    return !channel->stopped && channel->writes.count > 0;
}

/* What is remembered is "dropped when that write ends". */
static void forget(struct Channel *channel)
{
    channel->finish = channel->pervol = channel->volume = 0;
    channel->period = 0;
}

/* The front write ends, however. Who waits for its cycle is replied apart. */
static void end_front(struct Arbiter *a, unsigned c, int error, unsigned map, struct Replies *r)
{
    correct_writes(c, -1, r);
    end_request(a, remove_id(&a->channel[c].writes, 0), error, map, r);
    forget(&a->channel[c]);
}

/* "FLUSH aborts all its writes." The result is the channel's bit where a front write has
   so ended, for its waiters. */
static unsigned flush(struct Arbiter *a, unsigned c, struct Replies *r)
{
    unsigned ended = a->channel[c].writes.count > 0 ? 1u << c : 0;

    while (a->channel[c].writes.count > 0)
        end_front(a, c, IOERR_ABORTED, 0, r);
    return ended;
}

/* "RESET flushes and un-stops." It does not unlock. */
static unsigned reset(struct Arbiter *a, unsigned c, struct Replies *r)
{
    a->channel[c].stopped = 0;
    return flush(a, c, r);
}

/* The WAITCYCLEs on these channels end, oldest first over the whole board: with 0 and their
   bit where their cycle has ended. "A front write that ends otherwise has its channel's
   waiters replied -2, map 0, oldest first after the writes." */
static void end_waiters(struct Arbiter *a, unsigned map, int error, struct Replies *r)
{
    unsigned at = 0;

    while (at < a->cycles.count) {
        unsigned bit = a->request[a->cycles.id[at]].map;

        if ((bit & map) != 0)
            end_request(a, remove_id(&a->cycles, at), error, error == DONE ? bit : 0, r);
        else
            at++;
    }
}

/* "FREE resets it, unlocks it, makes it free and clears its bit in every lock; a lock
   with no bit left is replied 0 with map 0." All writes come first, then all waiters,
   then all locks. */
static void free_channels(struct Arbiter *a, unsigned map, struct Replies *r)
{
    unsigned at = 0, ended = 0;

    for (unsigned c = 0; c < a->channels; c++)
        if (names(map, c)) {
            ended |= reset(a, c, r);
            memset(&a->channel[c], 0, sizeof a->channel[c]);
        }
    end_waiters(a, ended, IOERR_ABORTED, r);
    while (at < a->locks.count) {
        struct Request *lock = &a->request[a->locks.id[at]];

        lock->map = (uint8_t)(lock->map & ~map);
        if (lock->map == 0)
            end_request(a, remove_id(&a->locks, at), DONE, 0, r);
        else
            at++;
    }
}

/* ---- Allocation ---- */

/* The place of the oldest entry with this key; the count where there is none. */
static unsigned find_open(const struct Keys *open, unsigned key)
{
    unsigned at = 0;

    while (at < open->count && open->key[at] != key)
        at++;
    return at;
}

/* Request #105: in use are the keys "on a channel, in a waiting request or in the table". */
static int key_in_use(const struct Arbiter *a, unsigned key)
{
    for (unsigned c = 0; c < a->channels; c++)
        if (a->channel[c].key == key)
            return 1;
    for (unsigned at = 0; at < a->waiting.count; at++)
        if (a->request[a->waiting.id[at]].key == key)
            return 1;
    return find_open(&a->open, key) < a->open.count;
}

/* "Count up from the number after the last key issued, 65,535 being followed by 1, to
   the first not in use." Four channels, 64 requests and 32 entries use at most 100 keys, so
   the 101st candidate is free at the latest; on eight channels the 105th. */
uint16_t arbiter_new_key(const struct Arbiter *a)
{
    unsigned key = a->last_key;

    do
        key = key == LAST_OF_KEYS ? 1 : key + 1;
    while (key_in_use(a, key));
    return (uint16_t)key;
}

/* "Locks play no part in the choice. If the chosen combination names a locked channel,
   the request is held." */
static enum Look held_or_granted(const struct Arbiter *a, unsigned chosen)
{
    for (unsigned c = 0; c < a->channels; c++)
        if (names(chosen, c) && a->channel[c].locked)
            return LOOK_HELD;
    return LOOK_GRANTED;
}

/* What a combination costs: "the highest precedence among its allocated channels", and,
   since request #104, how many allocated channels it names. Of free channels alone the
   highest is FREE_OF_COST. */
enum { FREE_OF_COST = -129, DEAREST = 128 };        /* beside every precedence */
struct Cost {
    int highest;
    unsigned stolen;
};

static struct Cost cost_of(const struct Arbiter *a, unsigned combination)
{
    struct Cost cost = {FREE_OF_COST, 0};

    for (unsigned c = 0; c < a->channels; c++)
        if (names(combination, c) && a->channel[c].key != 0) {
            cost.stolen++;
            if (a->channel[c].precedence > cost.highest)
                cost.highest = a->channel[c].precedence;
        }
    return cost;
}

/* "Where two combinations cost the same highest precedence, the one stealing fewer
   allocated channels now wins." */
static int costs_less(struct Cost one, struct Cost other)
{
    if (one.highest != other.highest)
        return one.highest < other.highest;
    return one.stolen < other.stolen;
}

enum Look arbiter_look(const struct Arbiter *a, int precedence,
                       const uint8_t *combination, unsigned length, uint8_t *chosen)
{
    struct Cost least = {DEAREST, MOST_CHANNELS + 1};

    *chosen = 0;
    if (length == 0)
        return LOOK_GRANTED;                        /* "The empty list is granted map 0." */
    for (unsigned i = 0; i < length; i++) {
        struct Cost cost = cost_of(a, combination[i]);

        /* Eligible if "strictly below the request's"; "and only then the earliest". The
           first combination of free channels costs less than every steal and every
           precedence, so it is eligible and wins wherever it stands. */
        if (cost.highest < precedence && costs_less(cost, least)) {
            least = cost;
            *chosen = combination[i];
        }
    }
    return least.highest == DEAREST ? LOOK_FAILS : held_or_granted(a, *chosen);
}

/* "Granting resets each channel ..., then sets key and precedence." The new key is
   found first: "in the state just before the grant, channels about to be stolen
   included". */
static uint16_t grant(struct Arbiter *a, uint16_t key, int precedence, unsigned map,
                      struct Replies *r)
{
    unsigned ended = 0;

    if (key == 0) {
        key = arbiter_new_key(a);
        a->last_key = key;
    }
    for (unsigned c = 0; c < a->channels; c++)
        if (names(map, c)) {
            ended |= reset(a, c, r);
            a->channel[c].key = key;
            a->channel[c].precedence = (int8_t)precedence;
        }
    end_waiters(a, ended, IOERR_ABORTED, r);
    return key;
}

/* "Every outstanding lock over a channel of its chosen combination is replied -12,
   oldest first, and ends; the channels stay locked." */
static void steal_locks(struct Arbiter *a, unsigned chosen, struct Replies *r)
{
    unsigned at = 0;

    while (at < a->locks.count) {
        unsigned map = a->request[a->locks.id[at]].map;

        if ((map & chosen) != 0)
            end_request(a, remove_id(&a->locks, at), ADIOERR_CHANNELSTOLEN, map, r);
        else
            at++;
    }
}

/* "Waiting requests stand by precedence, highest first, then by arrival." */
static void wait_in_order(struct Arbiter *a, uint8_t id)
{
    unsigned at = 0;

    while (at < a->waiting.count
           && a->request[a->waiting.id[at]].precedence >= a->request[id].precedence)
        at++;
    insert_id(&a->waiting, at, id);
}

/* The waiting request at this place is granted or dropped. */
static void end_waiting(struct Arbiter *a, unsigned at, int error, unsigned map, struct Replies *r)
{
    uint8_t id = remove_id(&a->waiting, at);

    correct_naming(&a->request[id], -1, r);
    end_request(a, id, error, map, r);
}

/* "Walk from the head. ... Granted: grant, reply, remove, and start again at the head.
   A walk to the end without a grant finishes. The choice is made afresh at each look."
   Each request reached is a look, those granted and dropped too. */
static void settle(struct Arbiter *a, struct Replies *r)
{
    unsigned at = 0, looks = 0;

    while (at < a->waiting.count) {
        uint8_t id = a->waiting.id[at];
        struct Request *q = &a->request[id];
        uint8_t chosen;

        looks++;
        switch (arbiter_look(a, q->precedence, q->combination, q->length, &chosen)) {
        case LOOK_FAILS:
            if (q->nowait)
                end_waiting(a, at, ADIOERR_ALLOCFAILED, 0, r);
            else
                at++;
            break;
        case LOOK_HELD:
            steal_locks(a, chosen, r);
            at++;
            break;
        case LOOK_GRANTED:
            q->key = grant(a, q->key, q->precedence, chosen, r);
            end_waiting(a, at, DONE, chosen, r);
            at = 0;
            break;
        }
    }
    report_looks(looks, r);
}

/* ---- Answers ---- */

static struct Answer answer(int error, unsigned map, uint16_t key)
{
    struct Answer made = {0, 0, 0, 0, NO_ID};

    made.error = (int8_t)error;
    made.map = (uint8_t)map;
    made.key = key;
    return made;
}

/* "A refused call answers map 0 ... and the key it was given." It does not settle. */
static struct Answer refuse(const struct Frame *f, int error)
{
    return answer(error, 0, f->key);
}

/* "A command finished at once is also replied if QUICK (flag 1) is clear." */
static void own_reply(const struct Frame *f, struct Replies *r,
                      int error, unsigned map, uint16_t key)
{
    if ((f->flags & IOF_QUICK) == 0)
        add_reply(r, f->id, f->operation, error, map, key);
}

/* A command is finished: its own reply stands before settling's replies. */
static struct Answer finish(struct Arbiter *a, const struct Frame *f, struct Replies *r,
                            int error, unsigned map, uint16_t key)
{
    own_reply(f, r, error, map, key);
    settle(a, r);
    return answer(error, map, key);
}

/* "One that the walk of its own call ends is still answered as outstanding." */
static struct Answer leave_outstanding(struct Arbiter *a, const struct Frame *f,
                                       struct Replies *r)
{
    struct Answer made = answer(DONE, 0, f->key);

    made.outstanding = 1;
    settle(a, r);
    return made;
}

/* The id's entry is idle, so all 0; the caller fills what the command uses. */
static struct Request *begin_request(struct Arbiter *a, const struct Frame *f)
{
    struct Request *q = &a->request[f->id];

    q->command = f->operation;
    q->key = f->key;
    return q;
}

/* ---- The commands ---- */

static struct Answer allocate(struct Arbiter *a, const struct Frame *f, struct Replies *r)
{
    struct Request *q;
    uint8_t chosen;
    enum Look seen = arbiter_look(a, f->precedence, f->combination, f->length, &chosen);

    if (seen == LOOK_GRANTED) {
        uint16_t key = grant(a, f->key, f->precedence, chosen, r);

        return finish(a, f, r, DONE, chosen, key);
    }
    if (seen == LOOK_FAILS && (f->flags & ADIOF_NOWAIT) != 0)
        return finish(a, f, r, ADIOERR_ALLOCFAILED, 0, f->key);
    /* "A held one waits even with NOWAIT; so does a failing one without it." */
    q = begin_request(a, f);
    q->nowait = (f->flags & ADIOF_NOWAIT) != 0;
    q->precedence = f->precedence;
    q->length = f->length;
    memcpy(q->combination, f->combination, f->length);
    wait_in_order(a, f->id);
    correct_naming(q, 1, r);
    return leave_outstanding(a, f, r);
}

/* "Any mismatch locks nothing, -10, map 0. Map 0 is done at once." */
static struct Answer lock(struct Arbiter *a, const struct Frame *f, struct Replies *r)
{
    if (matching(a, f->map, f->key) != f->map)
        return finish(a, f, r, ADIOERR_NOALLOCATION, 0, f->key);
    if (f->map == 0)
        return finish(a, f, r, DONE, 0, f->key);
    for (unsigned c = 0; c < a->channels; c++)
        if (names(f->map, c))
            a->channel[c].locked = 1;
    begin_request(a, f)->map = f->map;
    insert_id(&a->locks, a->locks.count, f->id);
    return leave_outstanding(a, f, r);
}

/* The numbers of a WRITE or a PERVOL: "in a frame they are the bytes after n: two, three
   and one, high byte first, with n 6; n 0 means 1, 124 and 64". */
struct Sound {
    unsigned cycles, period, volume;
};

static struct Sound sound_of(const struct Frame *f)
{
    const uint8_t *b = f->combination;
    struct Sound sound = {1, LEAST_PERIOD, MOST_VOLUME};

    if (f->length == 6) {
        sound.cycles = 256u * b[0] + b[1];
        sound.period = 65536u * b[2] + 256u * b[3] + b[4];
        sound.volume = b[5];
    }
    return sound;
}

/* "Any other n, a period outside 124 to 65,536 or a volume above 64 gets -4." */
static int bad_sound(const struct Frame *f)
{
    struct Sound sound = sound_of(f);

    return (f->length != 0 && f->length != 6)
        || sound.period < LEAST_PERIOD || sound.period > MOST_PERIOD || sound.volume > MOST_VOLUME;
}

/* WRITE, READ and WAITCYCLE "use the lowest set bit; map 0 gives -10". */
static struct Answer on_one_channel(struct Arbiter *a, const struct Frame *f,
                                   struct Replies *r)
{
    struct Channel *channel;
    struct Answer made;
    unsigned c, id = NO_ID;

    if (f->map == 0)
        return finish(a, f, r, ADIOERR_NOALLOCATION, 0, f->key);
    c = lowest_channel(f->map);
    if (matching(a, 1u << c, f->key) == 0)
        return finish(a, f, r, ADIOERR_NOALLOCATION, 0, f->key);
    channel = &a->channel[c];
    if (f->operation == CMD_WRITE) {
        struct Request *q = begin_request(a, f);
        struct Sound sound = sound_of(f);

        q->cycles = (uint16_t)sound.cycles;
        q->period = sound.period;
        q->volume = (uint8_t)sound.volume;
        insert_id(&channel->writes, channel->writes.count, f->id);
        correct_writes(c, 1, r);
        return leave_outstanding(a, f, r);
    }
    /* It "is outstanding if one is" in progress, "else done at once". */
    if (f->operation == ADCMD_WAITCYCLE && in_progress(channel)) {
        begin_request(a, f)->map = (uint8_t)(1u << c);
        insert_id(&a->cycles, a->cycles.count, f->id);
        return leave_outstanding(a, f, r);
    }
    /* "The id at the front, or 255 if the queue is empty or the channel stopped." Request
       #109: and "255 for the other desk's write". It is read before the walk, which may end
       that write. */
    if (f->operation == CMD_READ && in_progress(channel)
        && arbiter_desk(channel->writes.id[0]) == f->desk)
        id = channel->writes.id[0];
    made = finish(a, f, r, DONE, 1u << c, f->key);
    made.last = (uint8_t)id;
    return made;
}

/* "FINISH replies the write -2." A synced one "is remembered until the cycle ends". The
   result is the channel's bit where its front write has ended. On a channel without a write
   in progress it does nothing. */
static unsigned cut(struct Arbiter *a, unsigned c, const struct Frame *f, struct Replies *r)
{
    if (!in_progress(&a->channel[c]))
        return 0;
    if ((f->flags & ADIOF_SYNCCYCLE) != 0) {
        a->channel[c].finish = 1;
        return 0;
    }
    end_front(a, c, IOERR_ABORTED, 0, r);
    return 1u << c;
}

/* "PERVOL replaces the last two in the front write"; a synced one is remembered, "the last
   of each standing". */
static void change_sound(struct Arbiter *a, unsigned c, const struct Frame *f)
{
    struct Channel *channel = &a->channel[c];
    struct Sound sound = sound_of(f);

    if (!in_progress(channel))
        return;
    if ((f->flags & ADIOF_SYNCCYCLE) != 0) {
        channel->pervol = 1;
        channel->period = sound.period;
        channel->volume = (uint8_t)sound.volume;
    } else {
        a->request[channel->writes.id[0]].period = sound.period;
        a->request[channel->writes.id[0]].volume = (uint8_t)sound.volume;
    }
}

/* "Any mismatch gives -10, and the rest is still done." */
static struct Answer for_each_channel(struct Arbiter *a, const struct Frame *f,
                                      struct Replies *r)
{
    unsigned own = matching(a, f->map, f->key), ended = 0;

    if (f->operation == ADCMD_FREE)
        free_channels(a, own, r);
    else
        for (unsigned c = 0; c < a->channels; c++)
            if (names(own, c))
                switch (f->operation) {
                case CMD_RESET: ended |= reset(a, c, r); break;
                case CMD_FLUSH: ended |= flush(a, c, r); break;
                case CMD_STOP: a->channel[c].stopped = 1; break;
                case CMD_START: a->channel[c].stopped = 0; break;
                case ADCMD_SETPREC: a->channel[c].precedence = f->precedence; break;
                case ADCMD_FINISH: ended |= cut(a, c, f, r); break;
                case ADCMD_PERVOL: change_sound(a, c, f); break;
                default: break;             /* "CLEAR and UPDATE do nothing." */
                }
    end_waiters(a, ended, IOERR_ABORTED, r);
    return finish(a, f, r, own == f->map ? DONE : ADIOERR_NOALLOCATION, own, f->key);
}

/* ---- Refusals of form ---- */

/* Request #109: "A command or ABORT naming an id of the other half gets 8, right after the
   check for 4 and treated like it." What is no desk has no half, so that all ids are others'. */
static int id_error(const struct Frame *f)
{
    if (f->id >= REQUESTS)
        return REFUSED_ID;
    return arbiter_desk(f->id) == f->desk ? DONE : REFUSED_DESK;
}

static int known_command(unsigned command)
{
    return (command >= CMD_RESET && command <= ADCMD_WAITCYCLE) || command == ADCMD_ALLOCATE;
}

/* Seventeen entries, one of them 10, are -4: the length is checked first (M11). */
static int list_error(const struct Arbiter *a, const struct Frame *f)
{
    if (f->length > COMBINATIONS)
        return IOERR_BADLENGTH;
    for (unsigned i = 0; i < f->length; i++)
        if (beyond_board(a, f->combination[i]))
            return IOERR_BADADDRESS;
    return DONE;
}

static int command_error(const struct Arbiter *a, const struct Frame *f)
{
    if (!known_command(f->operation))
        return IOERR_NOCMD;
    if (f->operation == ADCMD_ALLOCATE)
        return list_error(a, f);
    if (beyond_board(a, f->map))
        return IOERR_BADADDRESS;
    /* Request #101: "gets -4, checked after -5". */
    if ((f->operation == CMD_WRITE || f->operation == ADCMD_PERVOL) && bad_sound(f))
        return IOERR_BADLENGTH;
    return DONE;
}

/* ---- The calls ---- */

/* "Order: 1, 5, 4, 3, 2, -3, -4, -5, ... then the key or allocation rule", with 8 behind 4. */
static struct Answer command(struct Arbiter *a, const struct Frame *f, struct Replies *r)
{
    int error = id_error(f);

    if (error != DONE)
        return refuse(f, error);
    if (a->request[f->id].command != 0)
        return refuse(f, REFUSED_OUTSTANDING);
    if (a->open.count == 0)
        return refuse(f, REFUSED_CLOSED);
    error = command_error(a, f);
    if (error != DONE) {
        own_reply(f, r, error, 0, f->key);
        return refuse(f, error);
    }
    switch (f->operation) {
    case ADCMD_ALLOCATE: return allocate(a, f, r);
    case ADCMD_LOCK: return lock(a, f, r);
    case CMD_WRITE: case CMD_READ: case ADCMD_WAITCYCLE: return on_one_channel(a, f, r);
    default: return for_each_channel(a, f, r);
    }
}

/* "OPEN with combinations acts as ALLOCATE, but failing or held gives -11, replies no
   lock and leaves the state unchanged. OPEN with none and key 0 gets a new key": that
   is the grant of the empty list. */
static struct Answer open_device(struct Arbiter *a, const struct Frame *f,
                                 struct Replies *r)
{
    uint16_t key;
    uint8_t chosen;
    int error = list_error(a, f);

    if (error != DONE)
        return refuse(f, error);
    if (a->open.count == MOST_OPENS)
        return refuse(f, IOERR_OPENFAIL);
    if (arbiter_look(a, f->precedence, f->combination, f->length, &chosen) != LOOK_GRANTED)
        return refuse(f, ADIOERR_ALLOCFAILED);
    key = grant(a, f->key, f->precedence, chosen, r);
    a->open.key[a->open.count++] = key;
    settle(a, r);
    return answer(DONE, chosen, key);
}

/* Request #105: "CLOSE removes the oldest entry with its key and gets 2 if there is none".
   As before it frees every channel with its key. */
static struct Answer close_device(struct Arbiter *a, const struct Frame *f,
                                  struct Replies *r)
{
    unsigned at = find_open(&a->open, f->key);

    if (at == a->open.count)
        return refuse(f, REFUSED_CLOSED);
    a->open.count--;
    memmove(&a->open.key[at], &a->open.key[at + 1], (a->open.count - at) * sizeof a->open.key[0]);
    a->open.key[a->open.count] = 0;
    free_channels(a, matching(a, all_channels(a), f->key), r);
    settle(a, r);
    return answer(DONE, 0, f->key);
}

/* "ABORT removes a waiting allocation or a write, replied -2; a lock or an idle id
   answers 'not aborted'." Request #101: it "may name a WAITCYCLE", and a front write that
   it ends takes its waiters with it. */
static struct Answer abort_request(struct Arbiter *a, const struct Frame *f,
                                   struct Replies *r)
{
    struct Ids *place = NULL;
    struct Answer made = answer(DONE, 0, f->key);
    unsigned front = 0;
    int error = id_error(f);

    if (error != DONE)
        return refuse(f, error);
    if (a->request[f->id].command == ADCMD_ALLOCATE) {
        place = &a->waiting;
        correct_naming(&a->request[f->id], -1, r);
    }
    if (a->request[f->id].command == ADCMD_WAITCYCLE)
        place = &a->cycles;
    if (a->request[f->id].command == CMD_WRITE)
        for (unsigned c = 0; c < a->channels; c++)
            if (find_id(&a->channel[c].writes, f->id) < a->channel[c].writes.count) {
                place = &a->channel[c].writes;
                correct_writes(c, -1, r);
                if (place->id[0] == f->id) {
                    front = 1u << c;
                    forget(&a->channel[c]);
                }
            }
    made.last = place != NULL;
    if (place != NULL)
        end_request(a, remove_id(place, find_id(place, f->id)), IOERR_ABORTED, 0, r);
    end_waiters(a, front, IOERR_ABORTED, r);
    settle(a, r);
    return made;
}

/* Request #102: "F3 becomes 'a cycle ended': it answers waiters first, then applies what was
   remembered (FINISH ends the write with -2 and stops here), then counts down, and the last
   cycle ends the write with 0." A count of 0 is endless. */
static void cycle_ended(struct Arbiter *a, unsigned c, struct Replies *r)
{
    struct Channel *channel = &a->channel[c];
    struct Request *front = &a->request[channel->writes.id[0]];

    end_waiters(a, 1u << c, DONE, r);
    if (channel->finish) {
        end_front(a, c, IOERR_ABORTED, 0, r);
        return;
    }
    if (channel->pervol) {
        front->period = channel->period;
        front->volume = channel->volume;
        forget(channel);
    }
    if (front->cycles == 1)
        end_front(a, c, DONE, 1u << c, r);
    else if (front->cycles > 1)
        front->cycles--;
}

/* "F4 is 'the driver gave up': the front write ends with -2, and its waiters too." */
static void gave_up(struct Arbiter *a, unsigned c, struct Replies *r)
{
    end_front(a, c, IOERR_ABORTED, 0, r);
    end_waiters(a, 1u << c, IOERR_ABORTED, r);
}

/* "The event takes the lowest set bit." Where a write is in progress there it answers that
   bit, whether or not the write ends; "on a stopped or empty channel both answer map 0". */
static struct Answer event(struct Arbiter *a, const struct Frame *f, struct Replies *r)
{
    unsigned met = 0;

    if (beyond_board(a, f->map))
        return refuse(f, IOERR_BADADDRESS);
    if (f->map != 0) {
        unsigned c = lowest_channel(f->map);

        if (in_progress(&a->channel[c])) {
            met = 1u << c;
            if (f->operation == CALL_CYCLE_ENDED)
                cycle_ended(a, c, r);
            else
                gave_up(a, c, r);
        }
    }
    settle(a, r);
    return answer(DONE, met, f->key);
}

struct Answer arbiter_call(struct Arbiter *a, const struct Frame *f, struct Replies *r)
{
    r->count[DESK_A] = r->count[DESK_B] = 0;
#ifndef TRUSTING /* a build that takes every state for sound, for bench/run --trusting alone */
    if (!arbiter_sound(a))
        return refuse(f, REFUSED_UNSOUND);
#endif
    if (r->capacity < REQUESTS)
        return refuse(f, REFUSED_REPLIES);
    switch (f->operation) {
    case CALL_OPEN: return open_device(a, f, r);
    case CALL_CLOSE: return close_device(a, f, r);
    case CALL_ABORT: return abort_request(a, f, r);
    case CALL_CYCLE_ENDED: case CALL_GAVE_UP: return event(a, f, r);
    default: return command(a, f, r);
    }
}

struct Answer arbiter_call_shown(struct Arbiter *a, struct Display *d, const struct Frame *f, struct Replies *r)
{
    struct Answer made;

    r->display = d;
    made = arbiter_call(a, f, r);
    r->display = NULL;
    return made;
}

/* "One for each waiting request (id, precedence, held or not, desk), to be filled in order; a
   list shorter than 64 gets 5 and is not written." */
int arbiter_waiting(const struct Arbiter *a, struct Waiting *record, size_t capacity, size_t *count)
{
    *count = 0;
    if (!arbiter_sound(a))
        return REFUSED_UNSOUND;
    if (capacity < REQUESTS)
        return REFUSED_REPLIES;
    while (*count < a->waiting.count) {
        uint8_t id = a->waiting.id[*count], chosen;
        const struct Request *q = &a->request[id];
        struct Waiting *w = &record[(*count)++];

        w->id = id;
        w->precedence = q->precedence;
        w->held = arbiter_look(a, q->precedence, q->combination, q->length, &chosen) == LOOK_HELD;
        w->desk = (uint8_t)arbiter_desk(id);
    }
    return DONE;
}

/* "A fresh device has four free channels, nothing outstanding, open count 0, last
   key 0." "The new board has eight channels." The open count is the number of entries. */
void arbiter_fresh(struct Arbiter *a, unsigned channels)
{
    memset(a, 0, sizeof *a);
    a->channels = (uint8_t)channels;
}

/* ---- Sound ---- */

static int all_zero(const uint8_t *bytes, size_t count)
{
    for (size_t i = 0; i < count; i++)
        if (bytes[i] != 0)
            return 0;
    return 1;
}

/* Ids on the table with this command, none of them met before, and 0 behind them.
   "Each outstanding id in exactly one place." */
static int sound_place(const struct Arbiter *a, const struct Ids *list, unsigned command,
                       uint8_t met[REQUESTS])
{
    if (list->count > REQUESTS)
        return 0;
    for (unsigned at = 0; at < list->count; at++) {
        unsigned id = list->id[at];

        if (id >= REQUESTS || met[id] || a->request[id].command != command)
            return 0;
        met[id] = 1;
    }
    return all_zero(&list->id[list->count], REQUESTS - list->count);
}

/* What only a waiting allocation uses. */
static int no_allocation_fields(const struct Request *q)
{
    return q->nowait == 0 && q->precedence == 0 && q->length == 0
        && all_zero(q->combination, COMBINATIONS);
}

/* What only a write uses. */
static int no_numbers(const struct Request *q)
{
    return q->cycles == 0 && q->period == 0 && q->volume == 0;
}

/* "Stored numbers are in range." A count may be any of two bytes. */
static int in_range(unsigned long period, unsigned volume)
{
    return period >= LEAST_PERIOD && period <= MOST_PERIOD && volume <= MOST_VOLUME;
}

static int sound_numbers(const struct Request *q)
{
    return in_range(q->period, q->volume);
}

/* "Nothing is remembered without a write"; what is not remembered is 0. */
static int sound_memory(const struct Channel *channel)
{
    if (channel->finish > 1 || channel->pervol > 1)
        return 0;
    if (channel->writes.count == 0 && (channel->finish || channel->pervol))
        return 0;
    return channel->pervol ? in_range(channel->period, channel->volume)
                           : channel->period == 0 && channel->volume == 0;
}

static int sound_channel(const struct Arbiter *a, const struct Channel *channel)
{
    if (channel->locked > 1 || channel->stopped > 1)
        return 0;
    if (channel->key == 0)
        return channel->precedence == 0 && !channel->locked && !channel->stopped
            && channel->writes.count == 0 && sound_memory(channel);
    for (unsigned at = 0; at < channel->writes.count; at++) {
        const struct Request *q = &a->request[channel->writes.id[at]];

        if (q->key != channel->key || q->map != 0 || !no_allocation_fields(q) || !sound_numbers(q))
            return 0;
    }
    return sound_memory(channel);
}

/* "Each lock's map nonempty and naming only locked channels; each write and lock with
   the key of its channels." */
static int sound_lock(const struct Arbiter *a, const struct Request *q)
{
    if (q->map == 0 || beyond_board(a, q->map) || !no_allocation_fields(q) || !no_numbers(q))
        return 0;
    for (unsigned c = 0; c < a->channels; c++)
        if (names(q->map, c) && (!a->channel[c].locked || a->channel[c].key != q->key))
            return 0;
    return 1;
}

/* A WAITCYCLE "has the key of its channel, which has a write". Its map is one bit. */
static int sound_waiter(const struct Arbiter *a, const struct Request *q)
{
    unsigned c;

    if (q->map == 0 || beyond_board(a, q->map) || !no_allocation_fields(q) || !no_numbers(q))
        return 0;
    c = lowest_channel(q->map);
    return q->map == 1u << c && a->channel[c].key == q->key && a->channel[c].writes.count > 0;
}

/* "Waiting requests with 1 to 16 combinations, each at most 15"; on eight channels, any. */
static int sound_waiting(const struct Arbiter *a, const struct Request *q)
{
    if (q->length < 1 || q->length > COMBINATIONS || q->nowait > 1 || q->map != 0 || !no_numbers(q))
        return 0;
    for (unsigned i = 0; i < q->length; i++)
        if (beyond_board(a, q->combination[i]))
            return 0;
    return all_zero(&q->combination[q->length], COMBINATIONS - q->length);
}

/* "An idle id's entry with all its stored numbers 0." */
static int sound_idle(const struct Request *q)
{
    return q->command == 0 && q->key == 0 && q->map == 0 && no_allocation_fields(q) && no_numbers(q);
}

/* "Sound now includes at most 32 entries, none 0." */
static int sound_open(const struct Keys *open)
{
    if (open->count > MOST_OPENS)
        return 0;
    for (unsigned at = 0; at < MOST_OPENS; at++)
        if ((open->key[at] != 0) != (at < open->count))
            return 0;
    return 1;
}

int arbiter_sound(const struct Arbiter *a)
{
    uint8_t met[REQUESTS] = {0};

    if ((a->channels != 4 && a->channels != 8) || !sound_open(&a->open))
        return 0;
    for (unsigned c = 0; c < MOST_CHANNELS; c++)
        if (!sound_place(a, &a->channel[c].writes, CMD_WRITE, met)
            || !sound_channel(a, &a->channel[c])
            || (c >= a->channels && a->channel[c].key != 0))
            return 0;
    if (!sound_place(a, &a->locks, ADCMD_LOCK, met)
        || !sound_place(a, &a->waiting, ADCMD_ALLOCATE, met)
        || !sound_place(a, &a->cycles, ADCMD_WAITCYCLE, met))
        return 0;
    for (unsigned at = 0; at < a->cycles.count; at++)
        if (!sound_waiter(a, &a->request[a->cycles.id[at]]))
            return 0;
    for (unsigned at = 0; at < a->locks.count; at++)
        if (!sound_lock(a, &a->request[a->locks.id[at]]))
            return 0;
    for (unsigned at = 0; at < a->waiting.count; at++) {
        const struct Request *q = &a->request[a->waiting.id[at]];

        if (!sound_waiting(a, q))
            return 0;
        if (at > 0 && a->request[a->waiting.id[at - 1]].precedence < q->precedence)
            return 0;
    }
    for (unsigned id = 0; id < REQUESTS; id++)
        if (!met[id] && !sound_idle(&a->request[id]))
            return 0;
    return 1;
}
