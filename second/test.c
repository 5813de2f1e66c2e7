/* Tests of the arbiter's C functions: the marked examples M1 to M14, what a log cannot
   reach (refusals 1, 5 and 8, states not settled) and the sound test; then the two events, the two desks, the wall
   display, the stereo lists and the saved texts of both forms. */
#include "arbiter.h"
#include "saved.h"
#include "stereo.h"

#include <stdio.h>
#include <string.h>

static int passed, failed;

static void check(int holds, const char *what)
{
    if (holds) {
        passed++;
    } else {
        failed++;
        printf("FAILED: %s\n", what);
    }
}

static struct Reply record[REQUESTS + 1];
static struct Replies replies = {.record = record, .capacity = REQUESTS};
static struct Display shown;                /* corrected by every call, whatever the state */

static size_t told(void)
{
    return arbiter_replied(&replies);
}

/* One call of this desk, with a list given as a string of bytes; \0 is no entry here. */
static struct Answer call_from(unsigned desk, struct Arbiter *a, unsigned operation, unsigned id,
                               unsigned flags, unsigned map, int precedence, unsigned key,
                               const char *list)
{
    struct Frame f = {0};

    f.desk = (uint8_t)desk;
    f.operation = (uint8_t)operation;
    f.id = (uint8_t)id;
    f.flags = (uint8_t)flags;
    f.map = (uint8_t)map;
    f.precedence = (int8_t)precedence;
    f.key = (uint16_t)key;
    f.length = (uint8_t)strlen(list);
    memcpy(f.combination, list, f.length);
    return arbiter_call_shown(a, &shown, &f, &replies);
}

/* The same of the desk that has the id. */
static struct Answer call(struct Arbiter *a, unsigned operation, unsigned id,
                          unsigned flags, unsigned map, int precedence, unsigned key,
                          const char *list)
{
    return call_from(arbiter_desk(id), a, operation, id, flags, map, precedence, key, list);
}

static int same_answer(struct Answer got, unsigned outstanding, int error, unsigned map,
                       unsigned key, unsigned last)
{
    return got.outstanding == outstanding && got.error == error && got.map == map
        && got.key == key && got.last == last;
}

/* The record at this place of the list: A's are those before 32. */
static int same_reply(size_t at, unsigned id, unsigned command, int error, unsigned map,
                      unsigned key)
{
    const struct Reply *got = &record[at];

    return at % HALF < replies.count[at / HALF] && got->id == id && got->command == command
        && got->error == error && got->map == map && got->key == key;
}

/* An entry of the table of open keys, as an OPEN with this key leaves it. */
static void enter(struct Arbiter *a, unsigned key)
{
    a->open.key[a->open.count++] = (uint16_t)key;
}

/* "Channel 0 key 5 precedence 10; 1 free; 2 and 3 key 6 precedence 3, 3 locked." The entry
   is of a key that is on a channel, so that it moves no example. */
static void marked_state(struct Arbiter *a)
{
    arbiter_fresh(a, 4);
    enter(a, 5);
    a->channel[0].key = 5;
    a->channel[0].precedence = 10;
    a->channel[2].key = a->channel[3].key = 6;
    a->channel[2].precedence = a->channel[3].precedence = 3;
    a->channel[3].locked = 1;
}

static void test_marked(void)
{
    static const struct {
        const char *name;
        int precedence;
        unsigned length;
        uint8_t list[16];
        enum Look look;
        unsigned chosen;
    } marked[] = {
        {"M1", 0, 2, {0x01, 0x02}, LOOK_GRANTED, 0x02},
        {"M2", 10, 1, {0x01}, LOOK_FAILS, 0},
        {"M3", 11, 1, {0x01}, LOOK_GRANTED, 0x01},
        {"M4", 11, 2, {0x01, 0x04}, LOOK_GRANTED, 0x04},
        {"M5", 11, 2, {0x05, 0x06}, LOOK_GRANTED, 0x06},
        {"M6", 11, 2, {0x08, 0x04}, LOOK_HELD, 0x08},
        {"M7", -128, 1, {0x04}, LOOK_FAILS, 0},
        {"M8", -128, 1, {0x02}, LOOK_GRANTED, 0x02},
        {"M9", 0, 1, {0x00}, LOOK_GRANTED, 0x00},
        {"M10", 0, 16, {1, 1, 1, 1, 1, 1, 1, 1, 1, 1, 1, 1, 1, 1, 1, 2}, LOOK_GRANTED, 0x02},
        {"M13", 0, 0, {0}, LOOK_GRANTED, 0x00},
        {"M14, of request #104", 11, 2, {0x0C, 0x04}, LOOK_GRANTED, 0x04}
    };
    struct Arbiter a;

    marked_state(&a);
    check(arbiter_sound(&a), "the marked state is sound");
    for (size_t i = 0; i < sizeof marked / sizeof *marked; i++) {
        uint8_t chosen;
        enum Look look = arbiter_look(&a, marked[i].precedence, marked[i].list,
                                      marked[i].length, &chosen);
        struct Arbiter b = a;
        struct Frame f = {DESK_A, ADCMD_ALLOCATE, 9, IOF_QUICK | ADIOF_NOWAIT, 0, 0, 5, 0, {0}};
        struct Answer got;

        check(look == marked[i].look && chosen == marked[i].chosen, marked[i].name);
        f.precedence = (int8_t)marked[i].precedence;
        f.length = (uint8_t)marked[i].length;
        memcpy(f.combination, marked[i].list, f.length);
        got = arbiter_call(&b, &f, &replies);
        check(told() == 0 && (look == LOOK_HELD ? same_answer(got, 1, 0, 0, 5, 255)
              : look == LOOK_FAILS ? same_answer(got, 0, ADIOERR_ALLOCFAILED, 0, 5, 255)
              : same_answer(got, 0, 0, marked[i].chosen, 5, 255)), marked[i].name);
    }
    check(same_answer(call(&a, ADCMD_ALLOCATE, 9, IOF_QUICK, 0, 11, 7,
                           "\1\1\1\1\1\1\1\1\1\1\1\1\1\1\1\1\x10"),
                      0, IOERR_BADLENGTH, 0, 7, 255), "M11");

    marked_state(&a);
    a.open.key[0] = a.channel[0].key = 1;
    a.channel[2].key = a.channel[3].key = 2;
    a.last_key = 65535;
    check(arbiter_new_key(&a) == 3, "M12");
    check(same_answer(call(&a, CALL_OPEN, 0, 0, 0, 11, 0, "\1"), 0, 0, 1, 3, 255)
          && a.last_key == 3, "M12 by OPEN, stealing key 1's channel");
}

/* Request #104: the highest precedence first, then the number of allocated channels, one's
   own and locked ones too, then the place in the list. Free channels do not count. */
static void test_fewer_stolen(void)
{
    static const struct {
        const char *name;
        uint8_t list[3];
        unsigned chosen;
    } lists[] = {
        {"one rather than two", {0x0C, 0x04}, 0x04},
        {"one rather than two, last of three", {0x0C, 0x0D, 0x04}, 0x04},
        {"the highest precedence first: two at 3 before one at 10", {0x01, 0x0C}, 0x0C},
        {"two at 3 before one at 10, in the other order", {0x0C, 0x01}, 0x0C},
        {"a free channel does not count", {0x06, 0x04}, 0x06},
        {"nor before the other", {0x04, 0x06}, 0x04},
        {"a locked one counts like another: the earliest", {0x0A, 0x04}, 0x0A},
        {"with a free one beside it", {0x0E, 0x06}, 0x06},
        {"equal in both: the earliest", {0x0D, 0x0F}, 0x0D},
        {"two of three, the highest alike", {0x0F, 0x09}, 0x09},
        {"all free wins, last or not", {0x04, 0x02}, 0x02}
    };
    struct Arbiter a;

    marked_state(&a);
    for (size_t i = 0; i < sizeof lists / sizeof *lists; i++)
        for (int own = 0; own < 2; own++) {
            struct Arbiter b = a;
            unsigned key = own ? 6 : 9;
            char list[4];
            struct Answer got;
            int held = (lists[i].chosen & 8) != 0;

            memcpy(list, lists[i].list, 3);
            list[3] = 0;
            got = call(&b, ADCMD_ALLOCATE, 9, IOF_QUICK, 0, 11, key, list);
            check(held ? same_answer(got, 1, 0, 0, key, 255)
                       : same_answer(got, 0, 0, lists[i].chosen, key, 255), lists[i].name);
            b = a;
            got = call(&b, CALL_OPEN, 9, 0, 0, 11, key, list);
            check(held ? same_answer(got, 0, ADIOERR_ALLOCFAILED, 0, key, 255)
                       : same_answer(got, 0, 0, lists[i].chosen, key, 255), lists[i].name);
        }
    /* Settling chooses by the same rule: at first all is above it, then SETPREC lowers. */
    arbiter_fresh(&a, 4);
    enter(&a, 5);
    call(&a, ADCMD_ALLOCATE, 0, IOF_QUICK, 0, 20, 5, "\17");
    check(same_answer(call(&a, ADCMD_ALLOCATE, 1, 0, 0, 4, 7, "\7\3\14"), 1, 0, 0, 7, 255),
          "the request waits");
    call(&a, ADCMD_SETPREC, 2, IOF_QUICK, 15, 3, 5, "");
    check(told() == 1 && same_reply(0, 1, ADCMD_ALLOCATE, 0, 3, 7),
          "settling: the first of those that steal two, and not the one before that steals three");
}

/* Keys of channels, waiting requests and openers are skipped: at most 101 candidates. */
static void test_most_candidates(void)
{
    struct Arbiter a;

    arbiter_fresh(&a, 4);
    a.last_key = 65500;
    for (unsigned i = 0; i < MOST_OPENS; i++)
        check(same_answer(call(&a, CALL_OPEN, 0, 0, 0, 0, 0, ""), 0, 0, 0, 65501 + i, 255), "a new key");
    for (unsigned c = 0; c < 4; c++)
        call(&a, ADCMD_ALLOCATE, 0, IOF_QUICK, 0, 1, 65533 + c > 65535 ? 65533 + c - 65535 : 65533 + c, "\1\2\4\10");
    for (unsigned id = 0; id < REQUESTS; id++)
        call(&a, ADCMD_ALLOCATE, id, 0, 0, 0, 2 + id, "\17");
    check(a.waiting.count == REQUESTS && arbiter_sound(&a), "64 wait");
    a.last_key = 65500;
    check(arbiter_new_key(&a) == 66, "the 101st candidate");
    call(&a, CALL_ABORT, 40, 0, 0, 0, 0, "");
    check(arbiter_new_key(&a) == 42, "a key no longer waiting");
    call(&a, CALL_CLOSE, 0, 0, 0, 0, 65510, "");
    check(arbiter_new_key(&a) == 65510, "a key no longer open");
}

/* Request #105: one entry for each successful OPEN, at most 32; CLOSE removes the oldest. */
static void test_open_keys(void)
{
    struct Arbiter a, b;

    arbiter_fresh(&a, 4);
    check(same_answer(call(&a, CALL_CLOSE, 0, 0, 0, 0, 0, ""), 0, REFUSED_CLOSED, 0, 0, 255), "CLOSE at no entry");
    call(&a, CALL_OPEN, 0, 0, 0, 5, 7, "\3");
    call(&a, CALL_OPEN, 0, 0, 0, 0, 9, "");
    call(&a, CALL_OPEN, 0, 0, 0, 0, 7, "");
    check(a.open.count == 3 && a.open.key[0] == 7 && a.open.key[1] == 9 && a.open.key[2] == 7, "entries in order of opening");
    b = a;
    check(same_answer(call(&b, CALL_CLOSE, 0, 0, 0, 0, 0, ""), 0, REFUSED_CLOSED, 0, 0, 255)
          && memcmp(&a, &b, sizeof a) == 0, "CLOSE with key 0 always gets 2");
    check(same_answer(call(&b, CALL_CLOSE, 0, 0, 0, 0, 8, ""), 0, REFUSED_CLOSED, 0, 8, 255)
          && memcmp(&a, &b, sizeof a) == 0, "CLOSE of a key that nobody opened");
    check(same_answer(call(&b, CALL_CLOSE, 0, 0, 0, 0, 7, ""), 0, 0, 0, 7, 255) && b.open.count == 2
          && b.open.key[0] == 9 && b.open.key[1] == 7 && b.open.key[2] == 0, "the oldest entry goes");
    check(b.channel[0].key == 0 && b.channel[1].key == 0, "its channels are freed, though an entry remains");
    call(&b, CALL_CLOSE, 0, 0, 0, 0, 9, "");
    call(&b, CALL_CLOSE, 0, 0, 0, 0, 7, "");
    check(same_answer(call(&b, CMD_CLEAR, 0, IOF_QUICK, 0, 0, 7, ""), 0, REFUSED_CLOSED, 0, 7, 255), "no entry: closed");
    b = a;
    call(&b, CALL_OPEN, 0, 0, 0, 0, 6, "\1");
    check(b.open.count == 3, "an OPEN answered -11 leaves none");
    b = a;
    while (b.open.count < MOST_OPENS)
        call(&b, CALL_OPEN, 0, 0, 0, 0, 0, "");
    check(b.open.key[31] == 29 + 2 && arbiter_sound(&b), "the 32nd OPEN, past the keys 7 and 9");
    check(same_answer(call(&b, CALL_OPEN, 0, 0, 0, 0, 0, ""), 0, IOERR_OPENFAIL, 0, 0, 255), "the 33rd gets -1");
    check(same_answer(call(&b, CALL_OPEN, 0, 0, 0, 0, 6, "\1"), 0, IOERR_OPENFAIL, 0, 6, 255), "-1 where it would fail");
    check(same_answer(call(&b, CALL_OPEN, 0, 0, 0, 0, 6, "\20"), 0, IOERR_BADADDRESS, 0, 6, 255), "-5 before -1");
    call(&b, CALL_CLOSE, 0, 0, 0, 0, 9, "");
    check(same_answer(call(&b, CALL_OPEN, 0, 0, 0, 0, 9, ""), 0, 0, 0, 9, 255) && b.open.key[31] == 9, "a place is free again");
}

/* A call may make 64 replies, 32 in a half, and no more. */
static void test_most_replies(void)
{
    struct Arbiter a;

    arbiter_fresh(&a, 4);
    enter(&a, 5);
    call(&a, ADCMD_ALLOCATE, 0, IOF_QUICK, 0, 1, 8, "\3");
    for (unsigned id = 0; id < REQUESTS; id++)
        call(&a, CMD_WRITE, id, 0, id % 2 + 1, 0, 8, "");
    memset(record, 0x55, sizeof record);
    check(same_answer(call(&a, CALL_OPEN, 0, 0, 0, 2, 9, "\3"), 0, 0, 3, 9, 255)
          && told() == REQUESTS, "64 replies");
    check(replies.count[DESK_A] == HALF && replies.count[DESK_B] == HALF, "32 in each half");
    for (unsigned i = 0; i < HALF; i++) {
        unsigned id = i < HALF / 2 ? 2 * i : 2 * i - HALF + 1;

        check(same_reply(i, id, CMD_WRITE, IOERR_ABORTED, 0, 8)
              && same_reply(HALF + i, HALF + id, CMD_WRITE, IOERR_ABORTED, 0, 8),
              "by channel, then oldest first, in each half");
    }
    check(record[64].id == 0x55, "records behind the list are not touched");
    check(arbiter_sound(&a), "sound after 64 replies");
}

/* Refusals 1 and 5 change nothing, and 1 comes first. */
static void test_refusals(void)
{
    struct Arbiter a, before;

    marked_state(&a);
    memcpy(&before, &a, sizeof a);
    memset(record, 0x55, sizeof record);
    replies.capacity = REQUESTS - 1;
    check(same_answer(call(&a, ADCMD_FREE, 200, 0, 1, 0, 5, ""), 0, 5, 0, 5, 255), "5");
    check(same_answer(call(&a, CALL_OPEN, 0, 0, 0, 0, 5, ""), 0, 5, 0, 5, 255), "5, OPEN");
    check(same_answer(call(&a, CALL_CLOSE, 0, 0, 0, 0, 5, ""), 0, 5, 0, 5, 255), "5, CLOSE");
    check(same_answer(call(&a, CALL_ABORT, 0, 0, 0, 0, 5, ""), 0, 5, 0, 5, 255), "5, ABORT");
    check(same_answer(call(&a, CALL_CYCLE_ENDED, 0, 0, 1, 0, 5, ""), 0, 5, 0, 5, 255), "5, F3");
    check(same_answer(call(&a, CALL_GAVE_UP, 0, 0, 1, 0, 5, ""), 0, 5, 0, 5, 255), "5, F4");
    check(memcmp(&before, &a, sizeof a) == 0 && told() == 0
          && record[0].id == 0x55, "5 leaves state and replies");
    a.channel[1].precedence = 1;
    memcpy(&before, &a, sizeof a);
    check(same_answer(call(&a, ADCMD_FREE, 200, 0, 1, 0, 5, ""), 0, 1, 0, 5, 255), "1 before 5");
    replies.capacity = REQUESTS;
    for (unsigned operation = 0; operation < 256; operation++)
        check(same_answer(call(&a, operation, 0, 0, 1, 0, 5, ""), 0, 1, 0, 5, 255), "1");
    check(memcmp(&before, &a, sizeof a) == 0 && record[0].id == 0x55, "1 leaves all");
}

/* Puts a waiting allocation into the state without settling. */
static void put_waiting(struct Arbiter *a, unsigned id, int precedence, unsigned key,
                        unsigned nowait, unsigned combination)
{
    struct Request *q = &a->request[id];

    q->command = ADCMD_ALLOCATE;
    q->precedence = (int8_t)precedence;
    q->key = (uint16_t)key;
    q->nowait = (uint8_t)nowait;
    q->length = 1;
    q->combination[0] = (uint8_t)combination;
    a->waiting.id[a->waiting.count++] = (uint8_t)id;
}

/* A sound state need not be settled: calls that do nothing themselves settle it. */
static void test_unsettled(void)
{
    struct Arbiter a, b;

    marked_state(&a);
    put_waiting(&a, 20, 11, 8, 0, 0x01);
    put_waiting(&a, 21, 10, 9, 1, 0x01);
    put_waiting(&a, 22, -5, 0, 0, 0x02);
    check(arbiter_sound(&a), "a state not settled is sound");

    b = a;
    check(same_answer(call(&b, CMD_CLEAR, 0, 0, 0, 0, 0, ""), 0, 0, 0, 0, 255)
          && told() == 4
          && same_reply(0, 0, CMD_CLEAR, 0, 0, 0)
          && same_reply(1, 20, ADCMD_ALLOCATE, 0, 1, 8)
          && same_reply(2, 21, ADCMD_ALLOCATE, ADIOERR_ALLOCFAILED, 0, 9)
          && same_reply(3, 22, ADCMD_ALLOCATE, 0, 2, 1), "CLEAR settles");
    b = a;
    call(&b, CALL_ABORT, 50, 0, 0, 0, 0, "");
    check(told() == 3, "\"not aborted\" settles");
    b = a;
    check(same_answer(call(&b, CALL_CYCLE_ENDED, 0, 0, 2, 0, 4, ""), 0, 0, 0, 4, 255) && told() == 3, "F3 settles");
    b = a;
    check(same_answer(call(&b, CALL_GAVE_UP, 0, 0, 2, 0, 4, ""), 0, 0, 0, 4, 255) && told() == 3, "F4 settles");
    b = a;
    check(same_answer(call(&b, ADCMD_ALLOCATE, 0, ADIOF_NOWAIT, 0, 0, 4, "\1"),
                      0, ADIOERR_ALLOCFAILED, 0, 4, 255)
          && told() == 4 && same_reply(1, 20, ADCMD_ALLOCATE, 0, 1, 8),
          "ALLOCATE's -11 settles");
    b = a;
    call(&b, CALL_OPEN, 0, 0, 0, 0, 4, "\1");
    check(told() == 0 && memcmp(&a, &b, sizeof a) == 0, "OPEN's -11 does not");
    call(&b, 99, 0, IOF_QUICK, 0, 0, 4, "");
    call(&b, CMD_CLEAR, 0, IOF_QUICK, 16, 0, 4, "");
    call(&b, CALL_CYCLE_ENDED, 0, 0, 16, 0, 4, "");
    call(&b, CALL_GAVE_UP, 0, 0, 16, 0, 4, "");
    call(&b, CMD_CLEAR, 20, 0, 0, 0, 4, "");
    check(told() == 0 && memcmp(&a, &b, sizeof a) == 0, "refusals do not settle");
    b = a;
    while (b.open.count < MOST_OPENS)
        enter(&b, 4);
    call(&b, CALL_OPEN, 0, 0, 0, 0, 4, "");
    check(told() == 0 && b.waiting.count == 3, "-1 does not settle");

    /* READ's answer is settled before the walk, which aborts that very write. */
    b = a;
    call(&b, CMD_WRITE, 30, 0, 1, 0, 5, "");
    check(same_reply(0, 30, CMD_WRITE, IOERR_ABORTED, 0, 5)
          && same_reply(1, 20, ADCMD_ALLOCATE, 0, 1, 8), "the walk may end its own call's write");
    b = a;
    b.request[30].command = CMD_WRITE;
    b.request[30].key = 5;
    b.request[30].period = LEAST_PERIOD;
    b.channel[0].writes.id[0] = 30;
    b.channel[0].writes.count = 1;
    check(same_answer(call(&b, CMD_READ, 0, IOF_QUICK, 1, 0, 5, ""), 0, 0, 1, 5, 30)
          && same_reply(0, 30, CMD_WRITE, IOERR_ABORTED, 0, 5), "READ before the walk");

    /* Held, answered as outstanding, then dropped in the walk of its own call: the
       channel it also wants goes to a higher one first. */
    marked_state(&a);
    put_waiting(&a, 20, 50, 8, 0, 0x02);
    check(same_answer(call(&a, ADCMD_ALLOCATE, 0, ADIOF_NOWAIT, 0, 40, 9, "\12"),
                      1, 0, 0, 9, 255)
          && told() == 2
          && same_reply(0, 20, ADCMD_ALLOCATE, 0, 2, 8)
          && same_reply(1, 0, ADCMD_ALLOCATE, ADIOERR_ALLOCFAILED, 0, 9),
          "held, then dropped in its own walk");
}

/* Each clause of "Sound means" is broken alone. */
static void test_sound(void)
{
    struct Arbiter good, a;

    marked_state(&good);
    call(&good, ADCMD_LOCK, 1, 0, 4, 0, 6, "");
    call(&good, CMD_WRITE, 2, 0, 1, 0, 5, "");
    call(&good, CMD_WRITE, 3, 0, 1, 0, 5, "");
    call(&good, ADCMD_ALLOCATE, 4, 0, 0, 2, 0, "\1");
    call(&good, ADCMD_ALLOCATE, 5, 0, 0, 2, 7, "\1\5");
    check(arbiter_sound(&good), "sound");
#define UNSOUND(change) \
    do { a = good; change; check(!arbiter_sound(&a), "not sound: " #change); } while (0)
#define SOUND(change) \
    do { a = good; change; check(arbiter_sound(&a), "sound: " #change); } while (0)
    UNSOUND(a.channel[1].precedence = -1);
    UNSOUND(a.channel[1].locked = 1);
    UNSOUND(a.channel[1].stopped = 1);
    UNSOUND(a.channel[0].key = 0);
    UNSOUND(a.channel[0].key = 6);
    UNSOUND(a.channel[0].locked = 2);
    UNSOUND(a.channel[0].stopped = 2);
    UNSOUND(a.channel[0].writes.count = 1);
    UNSOUND(a.channel[0].writes.count = 3);
    UNSOUND(a.channel[0].writes.count = 65);
    UNSOUND(a.channel[0].writes.count = 255);
    UNSOUND(a.channel[0].writes.id[0] = 3);
    UNSOUND(a.channel[0].writes.id[0] = 64);
    UNSOUND(a.channel[0].writes.id[0] = 255);
    UNSOUND(a.channel[0].writes.id[0] = 1);
    UNSOUND(a.channel[0].writes.id[63] = 2);
    UNSOUND(a.request[2].map = 1);
    UNSOUND(a.request[2].nowait = 1);
    UNSOUND(a.request[2].precedence = 1);
    UNSOUND(a.request[2].length = 1);
    UNSOUND(a.request[2].combination[15] = 1);
    UNSOUND(a.request[2].command = ADCMD_LOCK);
    UNSOUND(a.request[2].command = 0);
    UNSOUND(a.request[2].key = 6);
    UNSOUND(a.channel[2].locked = 0);
    UNSOUND(a.request[1].key = 5);
    UNSOUND(a.request[1].map = 0);
    UNSOUND(a.request[1].map = 6);
    UNSOUND(a.request[1].map = 0x14);
    UNSOUND(a.request[1].precedence = 3);
    UNSOUND(a.locks.count = 0);
    UNSOUND(a.locks.count = 200);
    UNSOUND(a.locks.id[1] = 1; a.locks.count = 2);
    UNSOUND(a.request[4].length = 0);
    UNSOUND(a.request[4].length = 17);
    UNSOUND(a.request[4].combination[0] = 16);
    UNSOUND(a.request[4].combination[1] = 1);
    UNSOUND(a.request[4].nowait = 2);
    UNSOUND(a.request[4].map = 1);
    UNSOUND(a.request[4].precedence = 1);
    UNSOUND(a.waiting.id[0] = 5; a.waiting.id[1] = 5);
    UNSOUND(a.waiting.count = 1);
    UNSOUND(a.request[6].key = 1);
    UNSOUND(a.request[6].map = 1);
    UNSOUND(a.request[63].combination[7] = 1);
    UNSOUND(a.request[0].nowait = 1);
    SOUND(a.channel[0].locked = 1);
    SOUND(a.channel[0].stopped = 1);
    SOUND(a.request[1].map = 0xC);
    SOUND(a.open.count = 0; a.open.key[0] = 0);
    SOUND(a.open.key[0] = 9);
    SOUND(while (a.open.count < MOST_OPENS) enter(&a, 9));
    UNSOUND(a.open.key[0] = 0);
    UNSOUND(a.open.count = 0);
    UNSOUND(a.open.count = 2);
    UNSOUND(a.open.key[31] = 9);
    UNSOUND(while (a.open.count < MOST_OPENS) enter(&a, 9); a.open.count = 33);
    SOUND(a.request[2].cycles = 0);
    SOUND(a.request[2].cycles = 65535; a.request[2].period = 65536; a.request[2].volume = 0);
    UNSOUND(a.request[2].period = 123);
    UNSOUND(a.request[2].period = 65537);
    UNSOUND(a.request[3].volume = 65);
    UNSOUND(a.request[1].period = 124);
    UNSOUND(a.request[4].volume = 1);
    SOUND(a.channel[0].finish = 1);
    SOUND(a.channel[0].pervol = 1; a.channel[0].period = 124; a.channel[0].volume = 64);
    UNSOUND(a.channel[0].pervol = 1; a.channel[0].period = 123);
    UNSOUND(a.channel[0].period = 124);
    UNSOUND(a.channel[0].finish = 2);
    UNSOUND(a.channel[2].finish = 1);
    UNSOUND(a.channel[1].pervol = 1; a.channel[1].period = 124);
    call(&good, ADCMD_WAITCYCLE, 8, 0, 1, 0, 5, "");
    check(good.cycles.count == 1 && arbiter_sound(&good), "a WAITCYCLE is outstanding, and sound");
    SOUND(a.channel[0].stopped = 1);
    UNSOUND(a.request[8].map = 3);
    UNSOUND(a.request[8].map = 0);
    UNSOUND(a.request[8].map = 4);
    UNSOUND(a.request[8].key = 6);
    UNSOUND(a.request[8].volume = 1);
    UNSOUND(a.cycles.count = 0);
    UNSOUND(a.cycles.id[1] = 2; a.cycles.count = 2);
    SOUND(a.last_key = 65535);
    SOUND(a.request[4].nowait = 1; a.request[4].combination[0] = 0);
    SOUND(a.waiting.id[0] = 5; a.waiting.id[1] = 4);
    SOUND(a.request[4].precedence = 127);
}

/* ---- The two events: request #102 ---- */

/* A write of so many cycles, period 200 and volume 10. */
static void put_write(struct Arbiter *a, unsigned id, unsigned map, unsigned cycles)
{
    struct Frame f = {0, CMD_WRITE, 0, 0, 0, 0, 5, 6, {0, 0, 0, 0, 200, 10}};

    f.desk = (uint8_t)arbiter_desk(id);
    f.id = (uint8_t)id;
    f.map = (uint8_t)map;
    f.combination[0] = (uint8_t)(cycles >> 8);
    f.combination[1] = (uint8_t)(cycles & 255);
    arbiter_call(a, &f, &replies);
}

/* A synced PERVOL with period 300 and volume 20. */
static void remember_sound(struct Arbiter *a, unsigned map)
{
    struct Frame f = {DESK_B, ADCMD_PERVOL, 40, IOF_QUICK | ADIOF_SYNCCYCLE, 0, 0, 5, 6, {0, 0, 0, 1, 44, 20}};

    f.map = (uint8_t)map;
    arbiter_call(a, &f, &replies);
}

static void remember_finish(struct Arbiter *a, unsigned map)
{
    call(a, ADCMD_FINISH, 40, IOF_QUICK | ADIOF_SYNCCYCLE, map, 0, 5, "");
}

/* Key 5 has channels 0 and 1. On channel 0 id 20 plays so many cycles, id 21 stands behind it, and ids 30 and 31
   wait for its cycle; on channel 1 id 22 plays, and id 29 waits, the oldest of the three. */
static void playing(struct Arbiter *a, unsigned cycles)
{
    arbiter_fresh(a, 4);
    enter(a, 5);
    call(a, ADCMD_ALLOCATE, 0, IOF_QUICK, 0, 1, 5, "\3");
    put_write(a, 20, 1, cycles);
    put_write(a, 21, 1, 7);
    put_write(a, 22, 2, 7);
    call(a, ADCMD_WAITCYCLE, 29, 0, 2, 0, 5, "");
    call(a, ADCMD_WAITCYCLE, 31, 0, 1, 0, 5, "");
    call(a, ADCMD_WAITCYCLE, 30, 0, 1, 0, 5, "");
}

/* F3 on channel 0 answers the bit, whatever it does, and its waiters 0 with the bit, oldest first and before the
   write. Who waits on another channel goes on waiting. */
static void cycle_ends(struct Arbiter *a, const char *what)
{
    struct Answer got = call(a, CALL_CYCLE_ENDED, 99, 0, 5, 0, 1234, "");

    check(same_answer(got, 0, 0, 1, 1234, 255), what);
    check(same_reply(0, 31, ADCMD_WAITCYCLE, 0, 1, 5) && same_reply(1, 30, ADCMD_WAITCYCLE, 0, 1, 5)
          && a->cycles.count == 1 && a->cycles.id[0] == 29, what);
    check(arbiter_sound(a), what);
}

/* The front write of channel 0: its id, what is left of its count, period and volume. */
static int front_is(const struct Arbiter *a, unsigned id, unsigned cycles, unsigned period, unsigned volume)
{
    const struct Request *q = &a->request[id];

    return a->channel[0].writes.count > 0 && a->channel[0].writes.id[0] == id && q->cycles == cycles
        && q->period == period && q->volume == volume;
}

static int nothing_remembered(const struct Arbiter *a)
{
    return !a->channel[0].finish && !a->channel[0].pervol && a->channel[0].period == 0 && a->channel[0].volume == 0;
}

static void test_cycle_ended(void)
{
    static const struct {
        unsigned cycles, left;
    } counts[] = {{0, 0}, {2, 1}, {3, 2}, {256, 255}, {257, 256}, {65535, 65534}};
    struct Arbiter a;

    for (size_t i = 0; i < sizeof counts / sizeof *counts; i++) {
        playing(&a, counts[i].cycles);
        cycle_ends(&a, "F3: the write goes on");
        check(told() == 2 && front_is(&a, 20, counts[i].left, 200, 10) && a.channel[0].writes.count == 2,
              "F3 counts down, and never from 0");

        playing(&a, counts[i].cycles);
        remember_sound(&a, 1);
        check(front_is(&a, 20, counts[i].cycles, 200, 10), "a synced PERVOL waits for the cycle's end");
        cycle_ends(&a, "F3: PERVOL is applied");
        check(told() == 2 && front_is(&a, 20, counts[i].left, 300, 20) && nothing_remembered(&a),
              "F3 applies PERVOL, which is then no longer remembered, and counts down");

        playing(&a, counts[i].cycles);
        remember_sound(&a, 1);
        remember_finish(&a, 1);
        cycle_ends(&a, "F3: FINISH is applied");
        check(told() == 3 && same_reply(2, 20, CMD_WRITE, IOERR_ABORTED, 0, 5) && front_is(&a, 21, 7, 200, 10)
              && nothing_remembered(&a), "F3: FINISH ends the write with -2, and the next is as it was sent");
    }

    playing(&a, 1);
    cycle_ends(&a, "F3: the last cycle");
    check(told() == 3 && same_reply(2, 20, CMD_WRITE, 0, 1, 5) && front_is(&a, 21, 7, 200, 10),
          "F3: the last cycle ends the write with 0, and the next is not counted");
    playing(&a, 1);
    remember_sound(&a, 1);
    cycle_ends(&a, "F3: the last cycle, with a PERVOL");
    check(told() == 3 && same_reply(2, 20, CMD_WRITE, 0, 1, 5) && front_is(&a, 21, 7, 200, 10)
          && nothing_remembered(&a), "F3: in the last cycle the numbers go with the write");
    playing(&a, 1);
    remember_finish(&a, 1);
    cycle_ends(&a, "F3: the last cycle, with a FINISH");
    check(told() == 3 && same_reply(2, 20, CMD_WRITE, IOERR_ABORTED, 0, 5) && front_is(&a, 21, 7, 200, 10)
          && nothing_remembered(&a), "F3: FINISH also in the last cycle: -2");

    /* A count of 3 is three cycles: the third ends it. */
    playing(&a, 3);
    call(&a, CALL_CYCLE_ENDED, 0, 0, 1, 0, 0, "");
    check(same_answer(call(&a, CALL_CYCLE_ENDED, 0, 0, 1, 0, 0, ""), 0, 0, 1, 0, 255) && told() == 0
          && front_is(&a, 20, 1, 200, 10), "two of three cycles: the bit, though nobody is replied");
    check(same_answer(call(&a, CALL_CYCLE_ENDED, 0, 0, 1, 0, 0, ""), 0, 0, 1, 0, 255) && told() == 1
          && same_reply(0, 20, CMD_WRITE, 0, 1, 5), "three of three");
    /* A plain PERVOL beside a remembered one acts at once, and is replaced at the cycle's end. */
    playing(&a, 0);
    remember_sound(&a, 1);
    call(&a, ADCMD_PERVOL, 40, IOF_QUICK, 1, 0, 5, "");
    check(front_is(&a, 20, 0, 124, 64), "a plain PERVOL acts at once");
    call(&a, CALL_CYCLE_ENDED, 0, 0, 1, 0, 0, "");
    check(front_is(&a, 20, 0, 300, 20), "and the remembered one replaces it");
}

/* F4: the write -2, then its waiters -2, oldest first; the next write moves up. */
static void test_gave_up(void)
{
    static const unsigned counts[3] = {0, 1, 9};
    struct Arbiter a;

    for (unsigned i = 0; i < 6; i++) {
        playing(&a, counts[i % 3]);
        if (i >= 3) {
            remember_sound(&a, 1);
            remember_finish(&a, 1);
        }
        check(same_answer(call(&a, CALL_GAVE_UP, 99, 0, 5, 0, 1234, ""), 0, 0, 1, 1234, 255), "F4 answers the bit");
        check(told() == 3 && same_reply(0, 20, CMD_WRITE, IOERR_ABORTED, 0, 5)
              && same_reply(1, 31, ADCMD_WAITCYCLE, IOERR_ABORTED, 0, 5)
              && same_reply(2, 30, ADCMD_WAITCYCLE, IOERR_ABORTED, 0, 5), "F4: the write, then its waiters");
        check(front_is(&a, 21, 7, 200, 10) && a.channel[0].writes.count == 1 && nothing_remembered(&a)
              && a.cycles.count == 1 && a.cycles.id[0] == 29 && arbiter_sound(&a), "F4: the next write moves up");
    }
    check(same_answer(call(&a, CALL_GAVE_UP, 0, 0, 1, 0, 0, ""), 0, 0, 1, 0, 255) && told() == 1
          && same_reply(0, 21, CMD_WRITE, IOERR_ABORTED, 0, 5) && a.channel[0].writes.count == 0, "F4 of a write alone");
    check(same_answer(call(&a, CALL_GAVE_UP, 0, 0, 1, 0, 0, ""), 0, 0, 0, 0, 255) && told() == 0, "F4 of no write");
}

/* What both have in common, and that F5 to FF are commands. */
static void test_events(void)
{
    struct Arbiter a, b;

    for (unsigned op = CALL_CYCLE_ENDED; op <= CALL_GAVE_UP; op++) {
        playing(&a, 2);
        remember_finish(&a, 1);
        call(&a, CMD_STOP, 41, IOF_QUICK, 1, 0, 5, "");
        b = a;
        check(same_answer(call(&b, op, 0, 0, 1, 0, 77, ""), 0, 0, 0, 77, 255) && told() == 0
              && memcmp(&a, &b, sizeof a) == 0, "a stopped channel: map 0, and nothing moves");
        check(same_answer(call(&b, op, 0, 0, 4, 0, 0, ""), 0, 0, 0, 0, 255) && told() == 0, "a free channel: map 0");
        check(same_answer(call(&b, op, 0, 0, 0, 0, 5, ""), 0, 0, 0, 5, 255) && told() == 0, "map 0: map 0");
        check(same_answer(call(&b, op, 0, 0, 16, 0, 5, ""), 0, IOERR_BADADDRESS, 0, 5, 255) && told() == 0
              && same_answer(call(&b, op, 0, 0, 255, 0, 5, ""), 0, IOERR_BADADDRESS, 0, 5, 255), "above 15: -5");
        check(memcmp(&a, &b, sizeof a) == 0, "none of these moves anything");
        check(same_answer(call(&b, op, 200, 0, 3, 0, 9, ""), 0, 0, 0, 9, 255) && memcmp(&a, &b, sizeof a) == 0,
              "the lowest bit, though the next has a write");
        check(same_answer(call(&b, op, 200, 255, 2, 0, 9, "\1\2\20"), 0, 0, 2, 9, 255),
              "no id, no flags, no list and no key is read");
        playing(&b, 1);
        b.open.count = 0;
        b.open.key[0] = 0;
        check(same_answer(call(&b, op, 0, 0, 1, 0, 9, ""), 0, 0, 1, 9, 255) && told() == 3
              && b.channel[0].writes.count == 1, "no open device is needed");
    }
    playing(&a, 2);
    for (unsigned op = CALL_GAVE_UP + 1; op < 256; op++)
        check(same_answer(call(&a, op, 0, 0, 1, 0, 5, ""), 0, IOERR_NOCMD, 0, 5, 255) && same_reply(0, 0, op, IOERR_NOCMD, 0, 5),
              "F5 to FF are commands");
    /* A write of n 0 has one cycle: as before #101, its first F3 ends it. */
    arbiter_fresh(&a, 4);
    enter(&a, 5);
    call(&a, ADCMD_ALLOCATE, 0, IOF_QUICK, 0, 1, 5, "\1");
    call(&a, CMD_WRITE, 1, 0, 1, 0, 5, "");
    check(same_answer(call(&a, CALL_CYCLE_ENDED, 0, 0, 1, 0, 0, ""), 0, 0, 1, 0, 255)
          && same_reply(0, 1, CMD_WRITE, 0, 1, 5) && told() == 1, "n 0: one cycle");
}

/* ---- The two desks: request #109 ---- */

static const unsigned desks[] = {DESK_A, DESK_B, 2, 255};
#define EVERY_DESK(d) (size_t d = 0; d < sizeof desks / sizeof *desks; d++)

/* Key 5 is on channels 0 and 1, and was passed by hand. On channel 0 A's 10 plays before B's 40; on channel 1 B's 41 before A's
   11. B's 42 waits for 10's cycle, then A's 12 for 41's; both have locked channel 2 of key 6, B's 43 first, then A's 13. */
static void shared(struct Arbiter *a)
{
    arbiter_fresh(a, 4);
    enter(a, 5);
    call(a, ADCMD_ALLOCATE, 0, IOF_QUICK, 0, 1, 5, "\3");
    call(a, ADCMD_ALLOCATE, 0, IOF_QUICK, 0, 1, 6, "\4");
    put_write(a, 10, 1, 7);
    put_write(a, 40, 1, 7);
    put_write(a, 41, 2, 7);
    put_write(a, 11, 2, 7);
    call(a, ADCMD_WAITCYCLE, 42, 0, 1, 0, 5, "");
    call(a, ADCMD_WAITCYCLE, 12, 0, 2, 0, 5, "");
    call(a, ADCMD_LOCK, 43, 0, 4, 0, 6, "");
    call(a, ADCMD_LOCK, 13, 0, 4, 0, 6, "");
    memset(record, 0x55, sizeof record);
}

static int untouched(unsigned from, unsigned to)
{
    for (unsigned at = from; at < to; at++)
        for (size_t i = 0; i < sizeof *record; i++)
            if (((const uint8_t *)&record[at])[i] != 0x55)
                return 0;
    return 1;
}

static int asks_no_desk(unsigned operation)
{
    return operation == CALL_OPEN || operation == CALL_CLOSE || operation == CALL_CYCLE_ENDED || operation == CALL_GAVE_UP;
}

/* 8 is like 4: nothing moves, no reply, map 0, the key given, FF, no settling. What is no desk has no id of its own. */
static void test_other_desk(void)
{
    struct Arbiter a, before;

    shared(&a);
    put_waiting(&a, 20, 50, 9, 0, 8);               /* it could be granted, and must not be */
    before = a;
    check(arbiter_sound(&a), "two desks, and sound");
    for EVERY_DESK(d) {
        int alike = 1;

        for (unsigned operation = 0; operation < 256; operation++)
            for (unsigned id = 0; id < 256 && !asks_no_desk(operation); id++)
                if (id >= REQUESTS || id / HALF != desks[d])
                    alike &= same_answer(call_from(desks[d], &a, operation, id, 0, 255, 0, 1234, "\377"),
                                         0, id >= REQUESTS ? REFUSED_ID : REFUSED_DESK, 0, 1234, 255)
                        && told() == 0 && memcmp(&a, &before, sizeof a) == 0;
        check(alike && untouched(0, REQUESTS), "an id of the other half: 8, and above 63: 4, and nothing moves");
    }
    for EVERY_DESK(d) {
        int alike = 1;

        for (unsigned id = 0; id < REQUESTS; id++) {
            a = before;
            alike &= (call_from(desks[d], &a, CALL_ABORT, id, 0, 0, 0, 5, "").error == REFUSED_DESK) == (id / HALF != desks[d]);
            alike &= (call_from(desks[d], &a, 99, id, 0, 0, 0, 5, "").error == REFUSED_DESK) == (id / HALF != desks[d]);
        }
        check(alike, "each desk has its half, and what is no desk has none");
    }
    /* Order: 1, 5, 4, 8, 3, 2, then the others. */
    a = before;
    check(call_from(DESK_B, &a, CMD_CLEAR, 10, 0, 0, 0, 5, "").error == REFUSED_DESK, "8 before 3");
    check(call_from(DESK_A, &a, CMD_CLEAR, 10, 0, 0, 0, 5, "").error == REFUSED_OUTSTANDING, "its own: 3");
    replies.capacity = REQUESTS - 1;
    check(call_from(DESK_B, &a, CMD_CLEAR, 10, 0, 0, 0, 5, "").error == REFUSED_REPLIES, "5 before 8");
    check(call(&a, CMD_CLEAR, 1, 0, 0, 0, 5, "").error == REFUSED_REPLIES, "5 stands at 64 records, for A");
    check(call(&a, CMD_CLEAR, 50, 0, 0, 0, 5, "").error == REFUSED_REPLIES, "5 stands at 64 records, for B");
    replies.capacity = REQUESTS;
    a.open.count = a.open.key[0] = 0;
    check(call_from(DESK_A, &a, CMD_CLEAR, 60, 0, 0, 0, 5, "").error == REFUSED_DESK, "8 before 2");
    check(call_from(DESK_B, &a, CMD_CLEAR, 60, 0, 0, 0, 5, "").error == REFUSED_CLOSED, "its own: 2");
    a.channel[3].stopped = 1;
    check(call_from(DESK_A, &a, CMD_CLEAR, 60, 0, 0, 0, 5, "").error == REFUSED_UNSOUND, "1 before 8");
}

/* OPEN, CLOSE and the events do not depend on the desk, nor on the id. */
static void test_no_desk_asked(void)
{
    static const unsigned operations[] = {CALL_OPEN, CALL_CLOSE, CALL_CYCLE_ENDED, CALL_GAVE_UP};
    struct Arbiter a, b;

    for (size_t i = 0; i < sizeof operations / sizeof *operations; i++) {
        struct Answer want;
        size_t to_a, to_b;
        struct Reply kept[REQUESTS + 1];

        shared(&a);
        want = call_from(DESK_A, &a, operations[i], 0, 0, 1, 2, 5, "\3");
        check(want.error == DONE && told() > 0, "the call does something");
        to_a = replies.count[DESK_A];
        to_b = replies.count[DESK_B];
        memcpy(kept, record, sizeof record);
        for EVERY_DESK(d) {
            int alike = 1;

            for (unsigned id = 0; id < 256; id++) {
                struct Answer got;

                shared(&b);
                got = call_from(desks[d], &b, operations[i], id, 0, 1, 2, 5, "\3");
                alike &= same_answer(got, want.outstanding, want.error, want.map, want.key, want.last)
                    && memcmp(&a, &b, sizeof a) == 0 && replies.count[DESK_A] == to_a && replies.count[DESK_B] == to_b
                    && memcmp(kept, record, sizeof record) == 0;
            }
            check(alike, "OPEN, CLOSE and the events: the same from any desk");
        }
    }
}

/* A reply goes to the half of its id, whoever calls; each half in the order of making, and nothing behind its number. */
static void test_halves(void)
{
    struct Arbiter a;

    for (unsigned id = 1; id < REQUESTS; id += HALF) {      /* A calls, then B: all is alike but its own reply */
        unsigned to_a = id < HALF ? 4 : 3, to_b = id < HALF ? 3 : 4;

        shared(&a);
        check(same_answer(call(&a, CMD_FLUSH, id, 0, 3, 0, 5, ""), 0, 0, 3, 5, 255), "FLUSH of what both play");
        check(replies.count[DESK_A] == to_a && replies.count[DESK_B] == to_b, "each half has its own number");
        check(same_reply(0, 10, CMD_WRITE, IOERR_ABORTED, 0, 5) && same_reply(1, 11, CMD_WRITE, IOERR_ABORTED, 0, 5)
              && same_reply(2, 12, ADCMD_WAITCYCLE, IOERR_ABORTED, 0, 5), "A's writes, then its waiter");
        check(same_reply(32, 40, CMD_WRITE, IOERR_ABORTED, 0, 5) && same_reply(33, 41, CMD_WRITE, IOERR_ABORTED, 0, 5)
              && same_reply(34, 42, ADCMD_WAITCYCLE, IOERR_ABORTED, 0, 5), "B's writes, then its waiter");
        check(same_reply(id < HALF ? 3 : 35, id, CMD_FLUSH, 0, 3, 5), "its own reply, in its own half");
        check(untouched(to_a, HALF) && untouched(HALF + to_b, REQUESTS + 1), "records behind each number are untouched");
        check(replies.made[0] == 0 && replies.made[1] == 32 && replies.made[2] == 33 && replies.made[3] == 1
              && replies.made[4] == 34 && replies.made[5] == 2, "made in document 01's order over both desks");
    }
    shared(&a);
    call(&a, CMD_CLEAR, 40 + 1, 0, 0, 0, 0, "");
    check(told() == 0 && untouched(0, REQUESTS), "3 touches no record");
    call(&a, CMD_CLEAR, 32, 0, 0, 0, 9, "");
    check(replies.count[DESK_A] == 0 && replies.count[DESK_B] == 1 && same_reply(32, 32, CMD_CLEAR, 0, 0, 9) && untouched(0, 32)
          && untouched(33, REQUESTS), "32 is B's first id");
    shared(&a);
    call(&a, CMD_CLEAR, 31, 0, 0, 0, 9, "");
    check(replies.count[DESK_A] == 1 && replies.count[DESK_B] == 0 && same_reply(0, 31, CMD_CLEAR, 0, 0, 9)
          && untouched(1, REQUESTS), "31 is A's last id");
    /* A steal tells both desks, whoever steals; a grant that had waited goes to the half that asked. */
    shared(&a);
    check(same_answer(call(&a, CALL_OPEN, 0, 0, 0, 2, 7, "\1"), 0, 0, 1, 7, 255) && replies.count[DESK_A] == 1
          && replies.count[DESK_B] == 2 && same_reply(0, 10, CMD_WRITE, IOERR_ABORTED, 0, 5)
          && same_reply(32, 40, CMD_WRITE, IOERR_ABORTED, 0, 5) && same_reply(33, 42, ADCMD_WAITCYCLE, IOERR_ABORTED, 0, 5),
          "a steal tells both");
    shared(&a);
    call(&a, ADCMD_ALLOCATE, 50, 0, 0, 1, 8, "\2");
    check(same_answer(call(&a, ADCMD_FREE, 1, IOF_QUICK, 2, 0, 5, ""), 0, 0, 2, 5, 255) && replies.count[DESK_A] == 2
          && replies.count[DESK_B] == 2 && same_reply(0, 11, CMD_WRITE, IOERR_ABORTED, 0, 5)
          && same_reply(1, 12, ADCMD_WAITCYCLE, IOERR_ABORTED, 0, 5) && same_reply(32, 41, CMD_WRITE, IOERR_ABORTED, 0, 5)
          && same_reply(33, 50, ADCMD_ALLOCATE, 0, 2, 8), "A's FREE is B's grant");
}

/* READ answers 255 for the other desk's write, and is else as it was. Nothing else hides it. */
static void test_passed_keys(void)
{
    struct Arbiter a, b;

    shared(&a);
    b = a;
    check(same_answer(call(&b, CMD_READ, 1, IOF_QUICK, 1, 0, 5, ""), 0, 0, 1, 5, 10), "A reads its own write");
    check(same_answer(call(&b, CMD_READ, 33, IOF_QUICK, 1, 0, 5, ""), 0, 0, 1, 5, 255), "B reads nothing of it, its own behind it");
    check(same_answer(call(&b, CMD_READ, 33, IOF_QUICK, 2, 0, 5, ""), 0, 0, 2, 5, 41), "B reads its own write");
    check(same_answer(call(&b, CMD_READ, 1, IOF_QUICK, 2, 0, 5, ""), 0, 0, 2, 5, 255), "A reads nothing of it");
    check(same_answer(call(&b, CMD_READ, 1, 0, 2, 0, 5, ""), 0, 0, 2, 5, 255) && told() == 1
          && same_reply(0, 1, CMD_READ, 0, 2, 5), "its own reply is as ever");
    check(same_answer(call(&b, CMD_READ, 1, IOF_QUICK, 2, 0, 6, ""), 0, ADIOERR_NOALLOCATION, 0, 6, 255), "another key: -10");
    check(memcmp(&a, &b, sizeof a) == 0, "READ moves nothing");

    /* B under A's key: its PERVOL, STOP, FINISH, WAITCYCLE and FREE reach A's write. */
    call(&b, ADCMD_PERVOL, 33, IOF_QUICK, 1, 0, 5, "");
    check(front_is(&b, 10, 7, 124, 64), "B's PERVOL of A's write");
    check(same_answer(call(&b, ADCMD_WAITCYCLE, 33, 0, 1, 0, 5, ""), 1, 0, 0, 5, 255), "B waits for A's cycle");
    check(same_answer(call(&b, CALL_CYCLE_ENDED, 0, 0, 1, 0, 0, ""), 0, 0, 1, 0, 255) && replies.count[DESK_A] == 0
          && same_reply(32, 42, ADCMD_WAITCYCLE, 0, 1, 5) && same_reply(33, 33, ADCMD_WAITCYCLE, 0, 1, 5), "and is told");
    check(same_answer(call(&b, ADCMD_FINISH, 33, IOF_QUICK, 1, 0, 5, ""), 0, 0, 1, 5, 255) && replies.count[DESK_B] == 0
          && same_reply(0, 10, CMD_WRITE, IOERR_ABORTED, 0, 5) && front_is(&b, 40, 7, 200, 10), "B's FINISH of A's write");
    check(same_answer(call_from(DESK_B, &b, CALL_ABORT, 11, 0, 0, 0, 5, ""), 0, REFUSED_DESK, 0, 5, 255), "but no ABORT");
    check(same_answer(call(&b, CALL_ABORT, 11, 0, 0, 0, 5, ""), 0, 0, 0, 5, 1), "which A may send");

    /* One order of age over both desks: B's lock is the older, and so is its WAITCYCLE. */
    b = a;
    call(&b, ADCMD_ALLOCATE, 34, 0, 0, 9, 7, "\4");
    check(told() == 2 && same_reply(0, 13, ADCMD_LOCK, ADIOERR_CHANNELSTOLEN, 4, 6)
          && same_reply(32, 43, ADCMD_LOCK, ADIOERR_CHANNELSTOLEN, 4, 6) && replies.made[0] == 32 && replies.made[1] == 0,
          "B's lock is the older");
    call(&a, CMD_RESET, 33, IOF_QUICK, 3, 0, 5, "");
    check(replies.made[4] == 34 && replies.made[5] == 2 && same_reply(34, 42, ADCMD_WAITCYCLE, IOERR_ABORTED, 0, 5)
          && same_reply(2, 12, ADCMD_WAITCYCLE, IOERR_ABORTED, 0, 5), "B's WAITCYCLE is the older");
}

/* Two states alike in what is A's and in what both see, and not in what B plays, awaits, has locked and has asked to be
   remembered. A's next call, under no key of B's writes, gets the same answer and the same replies in its half. */
static void test_apart(void)
{
    static const unsigned keys[] = {0, 5, 7, 9};
    struct Arbiter one, two, a, b;

    arbiter_fresh(&one, 4);
    enter(&one, 5);
    enter(&one, 6);
    call(&one, ADCMD_ALLOCATE, 0, IOF_QUICK, 0, 1, 5, "\1");
    call(&one, ADCMD_ALLOCATE, 32, IOF_QUICK, 0, 2, 6, "\6");
    put_write(&one, 10, 1, 3);
    put_write(&one, 11, 1, 3);
    call(&one, ADCMD_WAITCYCLE, 12, 0, 1, 0, 5, "");
    call(&one, ADCMD_ALLOCATE, 13, 0, 0, 0, 7, "\7");
    call(&one, ADCMD_ALLOCATE, 50, 0, 0, -1, 9, "\3");
    two = one;
    call(&one, ADCMD_LOCK, 51, 0, 2, 0, 6, "");
    call(&two, ADCMD_LOCK, 52, 0, 2, 0, 6, "");
    call(&two, ADCMD_LOCK, 51, 0, 2, 0, 6, "");
    for (unsigned id = 40; id < 43; id++) {
        struct Frame f = {DESK_B, CMD_WRITE, (uint8_t)id, 0, 4, 0, 6, 0, {0}};

        arbiter_call(&two, &f, &replies);
    }
    call(&two, ADCMD_FINISH, 60, IOF_QUICK | ADIOF_SYNCCYCLE, 4, 0, 6, "");
    call(&two, ADCMD_WAITCYCLE, 61, 0, 4, 0, 6, "");
    check(arbiter_sound(&one) && arbiter_sound(&two) && two.channel[2].finish && one.channel[2].writes.count == 0, "two states");
    for (unsigned operation = 0; operation < 256; operation++) {
        int alike = 1;

        if (operation == CALL_CYCLE_ENDED || operation == CALL_GAVE_UP)
            continue;                       /* no desk's */
        for (unsigned id = 0; id < 15; id++)
            for (unsigned map = 0; map < 16; map++)
                for (size_t k = 0; k < sizeof keys / sizeof *keys; k++) {
                    struct Reply kept[HALF];
                    struct Answer want, got;
                    size_t count;

                    a = one;
                    b = two;
                    memset(record, 0x55, sizeof record);
                    want = call(&a, operation, id, map & 1, map, (int)id - 2, keys[k], id % 3 ? "\6\3" : "");
                    count = replies.count[DESK_A];
                    memcpy(kept, record, sizeof kept);
                    memset(record, 0x55, sizeof record);
                    got = call(&b, operation, id, map & 1, map, (int)id - 2, keys[k], id % 3 ? "\6\3" : "");
                    alike &= same_answer(got, want.outstanding, want.error, want.map, want.key, want.last)
                        && replies.count[DESK_A] == count && memcmp(kept, record, sizeof kept) == 0;
                }
        check(alike, "what B plays makes no difference to A");
    }
}

/* ---- The wall display: request #110 ---- */

/* The two numbers of each of the first four channels, channel 0 first. */
static int numbers(const char *writes, const char *naming)
{
    return memcmp(shown.writes, writes, 4) == 0 && memcmp(shown.naming, naming, 4) == 0;
}

/* Two writes on channel 0 and three on channel 1 of key 5 at precedence 1, one on channel 2 of key 6 at 2. Nobody waits. */
static void writing_state(struct Arbiter *a)
{
    memset(&shown, 0, sizeof shown);
    arbiter_fresh(a, 4);
    call(a, CALL_OPEN, 0, 0, 0, 1, 5, "\3");
    call(a, CALL_OPEN, 0, 0, 0, 2, 6, "\4");
    for (unsigned id = 0; id < 6; id++)
        call(a, CMD_WRITE, id, 0, id < 2 ? 1 : id < 5 ? 2 : 4, 0, id < 5 ? 5 : 6, "");
}

/* "Each channel's number of writes": the whole queue, however one of them joins or ends. */
static void test_shown_writes(void)
{
    static const struct {
        unsigned operation, id, flags, map;
        int precedence;
        unsigned key;
        const char *list, *writes, *what;
    } ends[] = {
        {CALL_CYCLE_ENDED, 0, 0, 1, 0, 0, "", "\1\3\1", "F3: the last cycle"},
        {CALL_GAVE_UP, 0, 0, 2, 0, 0, "", "\2\2\1", "F4"},
        {ADCMD_FINISH, 9, 0, 3, 0, 5, "", "\1\2\1", "FINISH of two channels"},
        {ADCMD_FINISH, 9, ADIOF_SYNCCYCLE, 3, 0, 5, "", "\2\3\1", "a synced FINISH ends none"},
        {CMD_FLUSH, 9, 0, 2, 0, 5, "", "\2\0\1", "FLUSH"},
        {CMD_RESET, 9, 0, 3, 0, 5, "", "\0\0\1", "RESET"},
        {ADCMD_FREE, 9, 0, 7, 0, 5, "", "\0\0\1", "FREE, and not of another's"},
        {CALL_CLOSE, 0, 0, 0, 0, 5, "", "\0\0\1", "CLOSE"},
        {CALL_ABORT, 2, 0, 0, 0, 0, "", "\2\2\1", "ABORT of a front write"},
        {CALL_ABORT, 4, 0, 0, 0, 0, "", "\2\2\1", "ABORT of a write behind it"},
        {CALL_ABORT, 9, 0, 0, 0, 0, "", "\2\3\1", "ABORT of an idle id"},
        {ADCMD_ALLOCATE, 9, 0, 0, 5, 7, "\5", "\0\3\0", "a steal"},
        {CALL_OPEN, 0, 0, 0, 5, 7, "\6", "\2\0\0", "a steal by OPEN"},
        {CALL_OPEN, 0, 0, 0, 1, 7, "\6", "\2\3\1", "an OPEN that fails"},
        {CMD_WRITE, 9, 0, 6, 0, 5, "", "\2\4\1", "WRITE: the lowest bit"},
        {CMD_WRITE, 9, 0, 4, 0, 5, "", "\2\3\1", "WRITE: -10"},
        {CMD_WRITE, 0, 0, 1, 0, 5, "", "\2\3\1", "WRITE: 3"},
        {CMD_STOP, 9, 0, 3, 0, 5, "", "\2\3\1", "STOP keeps them"},
        {ADCMD_WAITCYCLE, 9, 0, 1, 0, 5, "", "\2\3\1", "a WAITCYCLE is no write"},
        {ADCMD_LOCK, 9, 0, 1, 0, 5, "", "\2\3\1", "nor is a LOCK"}
    };
    struct Arbiter a;

    for (size_t i = 0; i < sizeof ends / sizeof *ends; i++) {
        writing_state(&a);
        check(numbers("\2\3\1", "\0\0\0"), "writes joined");
        call(&a, ends[i].operation, ends[i].id, ends[i].flags, ends[i].map, ends[i].precedence, ends[i].key, ends[i].list);
        check(numbers(ends[i].writes, "\0\0\0"), ends[i].what);
    }
    /* Settling's grant ends writes too: the request waits at 1 for channel 0, which is then lowered. */
    writing_state(&a);
    call(&a, ADCMD_ALLOCATE, 9, 0, 0, 1, 7, "\1");
    check(numbers("\2\3\1", "\1\0\0"), "it waits");
    call(&a, ADCMD_SETPREC, 10, 0, 1, 0, 5, "");
    check(numbers("\0\3\1", "\0\0\0"), "granted by settling: its writes and its waiting end");
    /* A cycle that is not the last. */
    writing_state(&a);
    a.request[0].cycles = 2;
    call(&a, CALL_CYCLE_ENDED, 0, 0, 1, 0, 0, "");
    check(numbers("\2\3\1", "\0\0\0"), "F3: a cycle is left");
    call(&a, ADCMD_FINISH, 9, ADIOF_SYNCCYCLE, 2, 0, 5, "");
    call(&a, CALL_CYCLE_ENDED, 0, 0, 2, 0, 0, "");
    check(numbers("\2\2\1", "\0\0\0"), "F3: a remembered FINISH");
}

/* Reading 41: a request counts once for a channel, however many of its combinations name it. */
static void test_shown_naming(void)
{
    struct Arbiter a, b;
    struct Display kept;

    memset(&shown, 0, sizeof shown);
    arbiter_fresh(&a, 4);
    call(&a, CALL_OPEN, 0, 0, 0, 9, 5, "\17");
    call(&a, ADCMD_ALLOCATE, 1, 0, 0, 1, 0, "\1\3\1\5\3");
    check(numbers("\0\0\0\0", "\1\1\1\0"), "named once, twice and five times: one");
    call(&a, ADCMD_ALLOCATE, 40, 0, 0, 2, 0, "\14\4");
    check(numbers("\0\0\0\0", "\1\1\2\1"), "two requests name channel 2");
    call(&a, ADCMD_ALLOCATE, 2, ADIOF_NOWAIT, 0, 2, 0, "\17");
    check(numbers("\0\0\0\0", "\1\1\2\1"), "one that fails with NOWAIT does not wait");
    call(&a, CALL_OPEN, 0, 0, 0, 2, 0, "\17");
    check(numbers("\0\0\0\0", "\1\1\2\1"), "nor does an OPEN");
    call(&a, ADCMD_ALLOCATE, 1, 0, 0, 2, 0, "\17");
    check(numbers("\0\0\0\0", "\1\1\2\1"), "nor one whose id is outstanding");
    b = a;
    kept = shown;
    call(&a, CALL_ABORT, 1, 0, 0, 0, 0, "");
    check(numbers("\0\0\0\0", "\0\0\1\1"), "ABORT");
    a = b;
    shown = kept;
    call(&a, CALL_CLOSE, 0, 0, 0, 0, 5, "");
    check(a.waiting.count == 0 && numbers("\0\0\0\0", "\0\0\0\0"), "both granted by one CLOSE");
    /* Held with NOWAIT, then failing: dropped. */
    a = b;
    shown = kept;
    call(&a, ADCMD_LOCK, 3, 0, 8, 0, 5, "");
    call(&a, ADCMD_ALLOCATE, 4, ADIOF_NOWAIT, 0, 20, 0, "\10\11");
    check(numbers("\0\0\0\0", "\2\1\2\2"), "held");
    call(&a, ADCMD_SETPREC, 3, 0, 9, 20, 5, "");
    check(numbers("\0\0\0\0", "\1\1\2\1") && a.request[4].command == 0, "dropped");
    /* Combination 0 names nothing; an empty list does not wait. */
    call(&a, ADCMD_ALLOCATE, 3, 0, 0, 2, 0, "");
    check(numbers("\0\0\0\0", "\1\1\2\1"), "the empty list");
    /* The numbers of channels behind the board are nobody's. */
    for (unsigned c = 4; c < MOST_CHANNELS; c++)
        check(shown.writes[c] == 0 && shown.naming[c] == 0, "behind four channels");
    arbiter_fresh(&a, 8);
    memset(&shown, 0, sizeof shown);
    call(&a, CALL_OPEN, 0, 0, 0, 9, 5, "\377");
    call(&a, ADCMD_ALLOCATE, 1, 0, 0, 1, 0, "\201\200");
    call(&a, CMD_WRITE, 2, 0, 0x80, 0, 5, "");
    check(shown.naming[0] == 1 && shown.naming[7] == 1 && shown.naming[6] == 0 && shown.writes[7] == 1, "the eighth channel");
}

/* "Where they agreed with a count"; where they did not, the same steps, modulo 256, and no call is refused for them. */
static void test_shown_wrong(void)
{
    struct Arbiter a, b;

    writing_state(&a);
    b = a;
    memset(&shown, 0xFF, sizeof shown);
    check(same_answer(call(&a, CMD_WRITE, 9, 0, 1, 0, 5, ""), 1, 0, 0, 5, 255) && shown.writes[0] == 0, "255 and one are 0");
    check(shown.writes[1] == 255 && shown.writes[7] == 255 && shown.naming[0] == 255, "the others stay");
    check(same_answer(call(&a, ADCMD_ALLOCATE, 10, 0, 0, 0, 7, "\3"), 1, 0, 0, 7, 255)
          && shown.naming[0] == 0 && shown.naming[1] == 0 && shown.naming[2] == 255 && shown.looks == 1, "the same of naming");
    memset(&shown, 0, sizeof shown);
    call(&b, CMD_FLUSH, 9, 0, 3, 0, 5, "");
    check(shown.writes[0] == 254 && shown.writes[1] == 253 && shown.writes[2] == 0, "0 less two is 254");
    call(&a, CALL_ABORT, 10, 0, 0, 0, 0, "");
    check(shown.naming[0] == 255 && shown.naming[1] == 255, "0 less one is 255");
    /* Without a display the call is the same. */
    b = a;
    call(&a, CALL_CLOSE, 0, 0, 0, 0, 5, "");
    {
        struct Frame f = {DESK_A, CALL_CLOSE, 0, 0, 0, 0, 5, 0, {0}};
        struct Display kept = shown;

        arbiter_call(&b, &f, &replies);
        check(memcmp(&a, &b, sizeof a) == 0 && memcmp(&kept, &shown, sizeof kept) == 0, "no numbers, the same state");
    }
}

/* A call, and the looks after it. */
static int looks_after(struct Arbiter *a, unsigned operation, unsigned id, unsigned flags, unsigned map, int precedence,
                       unsigned key, const char *list, unsigned looks)
{
    call(a, operation, id, flags, map, precedence, key, list);
    return shown.looks == looks;
}

/* Reading 42: what leaves the number, and what sets it. */
static void test_looks_left(void)
{
    struct Arbiter a, b;

    memset(&shown, 0, sizeof shown);
    arbiter_fresh(&a, 4);
    shown.looks = 777;
    check(looks_after(&a, CMD_CLEAR, 0, 0, 0, 0, 5, "", 777), "2 leaves the looks");
    check(looks_after(&a, CALL_CLOSE, 0, 0, 0, 0, 5, "", 777), "CLOSE's 2");
    check(looks_after(&a, CALL_CYCLE_ENDED, 0, 0, 16, 0, 5, "", 777), "-5 of an event");
    check(looks_after(&a, CALL_OPEN, 0, 0, 0, 9, 5, "\17", 0), "settled with nobody waiting: 0");
    for (unsigned id = 1; id < 4; id++)
        check(looks_after(&a, ADCMD_ALLOCATE, id, 0, 0, 3, 6, "\1", id), "the one that joins is looked at too");
    call(&a, ADCMD_LOCK, 5, 0, 8, 0, 5, "");
    b = a;
    shown.looks = 777;
    check(looks_after(&b, CMD_CLEAR, 64, 0, 0, 0, 5, "", 777), "4");
    call_from(DESK_B, &b, CMD_CLEAR, 0, 0, 0, 0, 5, "");
    check(shown.looks == 777, "8");
    check(looks_after(&b, CMD_CLEAR, 1, 0, 0, 0, 5, "", 777), "3");
    check(looks_after(&b, 15, 0, 0, 0, 0, 5, "", 777), "-3");
    check(looks_after(&b, CMD_WRITE, 0, 0, 1, 0, 5, "\1", 777), "-4 of a WRITE");
    check(looks_after(&b, ADCMD_ALLOCATE, 0, 0, 0, 0, 5, "\1\1\1\1\1\1\1\1\1\1\1\1\1\1\1\1\1", 777), "-4 of an ALLOCATE");
    check(looks_after(&b, CMD_CLEAR, 0, 0, 16, 0, 5, "", 777), "-5");
    check(looks_after(&b, CALL_OPEN, 0, 0, 0, 3, 5, "\1", 777), "OPEN's -11");
    check(looks_after(&b, CALL_OPEN, 0, 0, 0, 30, 5, "\10", 777), "OPEN's -11, held");
    while (b.open.count < MOST_OPENS)
        enter(&b, 5);
    check(looks_after(&b, CALL_OPEN, 0, 0, 0, 0, 5, "", 777), "-1");
    replies.capacity = REQUESTS - 1;
    check(looks_after(&b, CMD_CLEAR, 0, 0, 0, 0, 5, "", 777), "5");
    replies.capacity = REQUESTS;
    b.channel[0].locked = 2;
    check(looks_after(&b, CMD_CLEAR, 0, 0, 0, 0, 5, "", 777), "1");
    b = a;
    check(looks_after(&b, CMD_CLEAR, 0, 0, 1, 0, 7, "", 3), "-10 settles");
    shown.looks = 777;
    check(looks_after(&b, ADCMD_ALLOCATE, 0, ADIOF_NOWAIT, 0, 3, 5, "\1", 3), "ALLOCATE's -11 settles");
    shown.looks = 777;
    check(looks_after(&b, CALL_ABORT, 0, 0, 0, 0, 5, "", 3), "not aborted settles");
    shown.looks = 777;
    check(looks_after(&b, CALL_CYCLE_ENDED, 0, 0, 0, 0, 5, "", 3), "an event of map 0 settles");
    check(looks_after(&b, CALL_ABORT, 2, 0, 0, 0, 5, "", 2), "the aborted one is no longer looked at");
    check(looks_after(&b, CALL_CLOSE, 0, 0, 0, 0, 5, "", 2), "one granted, then the other, which fails");
}

/* "Walk from the head ... Granted: grant, reply, remove, and start again at the head." */
static void test_looks_walks(void)
{
    struct Arbiter a, b;

    /* Channel 0 at 100, channel 1 free; three wait: the second can be granted. */
    arbiter_fresh(&a, 4);
    enter(&a, 5);
    a.channel[0].key = 5;
    a.channel[0].precedence = 100;
    put_waiting(&a, 1, 9, 7, 0, 1);
    b = a;
    put_waiting(&a, 2, 8, 7, 0, 2);
    put_waiting(&a, 40, 7, 7, 0, 1);
    check(looks_after(&a, CMD_CLEAR, 10, 0, 0, 0, 5, "", 4), "two, then two from the head");
    /* The same, the first with NOWAIT: it is dropped, and not met again. */
    a = b;
    a.request[1].nowait = 1;
    put_waiting(&a, 2, 8, 7, 0, 2);
    put_waiting(&a, 40, 7, 7, 0, 1);
    check(looks_after(&a, CMD_CLEAR, 10, 0, 0, 0, 5, "", 3) && told() == 3, "a dropped one is a look");
    /* One alone, granted: then a walk over nobody. */
    arbiter_fresh(&a, 4);
    enter(&a, 5);
    put_waiting(&a, 1, 9, 7, 0, 1);
    check(looks_after(&a, CMD_CLEAR, 10, 0, 0, 0, 5, "", 1), "w is 1: w(w+1)/2");
    a = b;
    put_waiting(&a, 2, 8, 7, 0, 2);
    check(looks_after(&a, CMD_CLEAR, 10, 0, 0, 0, 5, "", 3), "w is 2: w(w+1)/2");
    /* The bound at three. The second is held by the lock on channel 2, at 3; channel 3 is at 5. The third takes channel 1, and
       now the second's first combination is the dearer: it takes channel 3. */
    a = b;
    a.channel[2].key = a.channel[3].key = 6;
    a.channel[2].precedence = 3;
    a.channel[2].locked = 1;
    a.channel[3].precedence = 5;
    put_waiting(&a, 2, 8, 7, 0, 6);
    a.request[2].length = 2;
    a.request[2].combination[1] = 8;
    put_waiting(&a, 3, 7, 7, 0, 2);
    check(looks_after(&a, CMD_CLEAR, 10, IOF_QUICK, 0, 0, 5, "", 6) && told() == 2 && same_reply(0, 3, ADCMD_ALLOCATE, 0, 2, 7)
          && same_reply(1, 2, ADCMD_ALLOCATE, 0, 8, 7), "w is 3: w(w+1)/2");
}

/* 64 wait on eight channels, of them 57 for channel 0 at 100. The others stand last and take a free channel each: seven walks
   of 58, and one of 57. */
static void test_looks_many(void)
{
    struct Arbiter a;
    struct Waiting w[REQUESTS];
    size_t count;

    arbiter_fresh(&a, 8);
    enter(&a, 5);
    a.channel[0].key = 5;
    a.channel[0].precedence = 100;
    for (unsigned id = 0; id < REQUESTS; id++)
        put_waiting(&a, id, id < 57 ? 9 : 8, 7, 0, id < 57 ? 1 : 2u << (id - 57));
    check(arbiter_sound(&a) && arbiter_waiting(&a, w, REQUESTS, &count) == 0 && count == 64, "64 records");
    check(looks_after(&a, CALL_CYCLE_ENDED, 0, 0, 0, 0, 0, "", 463) && a.waiting.count == 57, "463 looks");
    check(looks_after(&a, CMD_CLEAR, 63, 0, 0, 0, 5, "", 57), "then 57");
}

/* A record's fields. */
static int same_record(const struct Waiting *w, unsigned id, int precedence, unsigned held, unsigned desk)
{
    return w->id == id && w->precedence == precedence && w->held == held && w->desk == desk;
}

/* Reading 43, and the list's refusals. */
static void test_records(void)
{
    struct Waiting w[REQUESTS + 1], untouched;
    struct Arbiter a, b;
    size_t count = 9;

    memset(w, 0x55, sizeof w);
    memset(&untouched, 0x55, sizeof untouched);
    arbiter_fresh(&a, 4);
    check(arbiter_waiting(&a, w, REQUESTS, &count) == 0 && count == 0 && w[0].id == 0x55, "nobody waits");
    enter(&a, 5);
    call(&a, ADCMD_ALLOCATE, 0, IOF_QUICK, 0, 3, 5, "\3");
    call(&a, ADCMD_LOCK, 1, 0, 1, 0, 5, "");
    call(&a, ADCMD_ALLOCATE, 32, 0, 0, 5, 0, "\1");
    call(&a, ADCMD_ALLOCATE, 31, 0, 0, 3, 0, "\2");
    call(&a, ADCMD_ALLOCATE, 2, 0, 0, 5, 0, "\1");
    call(&a, ADCMD_ALLOCATE, 63, 0, 0, -128, 0, "\3");
    check(arbiter_waiting(&a, w, REQUESTS, &count) == 0 && count == 4 && same_record(&w[0], 32, 5, 1, 1)
          && same_record(&w[1], 2, 5, 1, 0) && same_record(&w[2], 31, 3, 0, 0) && same_record(&w[3], 63, -128, 0, 1),
          "in order: highest first, then by arrival, both desks");
    check(memcmp(&w[4], &untouched, sizeof untouched) == 0 && memcmp(&w[64], &untouched, sizeof untouched) == 0,
          "records behind them are untouched");
    /* The lock was replied -12, and the channel stays locked: held still. Raised to 5 it fails; lowered it is held again. */
    check(a.locks.count == 0, "no lock is outstanding");
    call(&a, ADCMD_SETPREC, 3, 0, 1, 5, 5, "");
    check(arbiter_waiting(&a, w, REQUESTS, &count) == 0 && count == 4 && !w[0].held && !w[1].held, "held no more: it fails");
    call(&a, ADCMD_SETPREC, 3, 0, 1, 4, 5, "");
    check(arbiter_waiting(&a, w, REQUESTS, &count) == 0 && w[0].held && w[1].held && !w[2].held, "held again");
    /* A state that is not at rest: one that could be granted is not held. */
    b = a;
    b.channel[0].locked = 0;
    check(arbiter_waiting(&b, w, REQUESTS, &count) == 0 && count == 4 && !w[0].held && !w[1].held, "could be granted: not held");
    /* The choice, and not any combination: the cheaper one is locked. */
    b = a;
    b.request[31].length = 2;
    b.request[31].precedence = b.request[2].precedence = 5;
    b.request[31].combination[0] = 2;
    b.request[31].combination[1] = 1;
    check(arbiter_sound(&b) && arbiter_waiting(&b, w, REQUESTS, &count) == 0 && w[2].id == 31 && !w[2].held,
          "chosen is channel 1, at 3, and not the locked one at 4");
    b.channel[1].precedence = 4;
    b.request[31].combination[0] = 1;
    b.request[31].combination[1] = 2;
    check(arbiter_waiting(&b, w, REQUESTS, &count) == 0 && w[2].held, "chosen is the locked one, the earliest");
    /* 1, then 5; nothing is written. */
    memset(w, 0x55, sizeof w);
    count = 9;
    check(arbiter_waiting(&a, w, REQUESTS - 1, &count) == 5 && count == 0 && w[0].id == 0x55, "63 records: 5");
    count = 9;
    check(arbiter_waiting(&a, NULL, 0, &count) == 5 && count == 0, "none: 5");
    a.channel[3].stopped = 1;
    count = 9;
    check(arbiter_waiting(&a, w, REQUESTS - 1, &count) == 1 && count == 0 && w[0].id == 0x55, "1 before 5");
}

/* ---- Stereo: request #108 ---- */

/* The maker writes just this list, and the checker accepts it. */
static void makes(unsigned left, unsigned right, const char *list, size_t length,
                  const char *what)
{
    uint8_t room[5] = {0xEE, 0xEE, 0xEE, 0xEE, 0xEE};
    size_t count = 99;
    int error = stereo_make(left, right, room, sizeof room, &count), rest = 1;

    for (size_t i = length; i < sizeof room; i++)
        rest = rest && room[i] == 0xEE;
    check(error == 0 && count == length && memcmp(room, list, length) == 0 && rest
          && stereo_accepts(left, right, room, count), what);
}

static void refuses(unsigned left, unsigned right, size_t room, int error)
{
    uint8_t list[5] = {0xEE, 0xEE, 0xEE, 0xEE, 0xEE};
    size_t count = 99;

    check(stereo_make(left, right, list, room, &count) == error && count == 0
          && memcmp(list, "\xEE\xEE\xEE\xEE\xEE", 5) == 0, "a stereo list is refused");
}

static int accepts(unsigned left, unsigned right, const char *list, size_t length)
{
    return stereo_accepts(left, right, (const uint8_t *)list, length);
}

static void test_stereo(void)
{
    makes(1, 1, "\x03\x05\x0A\x0C", 4, "one left and one right gives 03, 05, 0A and 0C");
    makes(0, 0, "\0", 1, "none and none gives 00 alone");
    makes(1, 0, "\x01\x08", 2, "channels 0 and 3 sound left");
    makes(0, 1, "\x02\x04", 2, "channels 1 and 2 sound right");
    makes(2, 0, "\x09", 1, "both left");
    makes(0, 2, "\x06", 1, "both right");
    makes(2, 1, "\x0B\x0D", 2, "both left and one right");
    makes(1, 2, "\x07\x0E", 2, "one left and both right");
    makes(2, 2, "\x0F", 1, "all four");
    refuses(3, 0, 5, 11);
    refuses(0, 255, 5, 11);
    refuses(3, 3, 0, 11);
    refuses(0, 0, 3, 12);
    refuses(1, 1, 0, 12);
    check(accepts(1, 1, "\x0C\x03\x0A\x05", 4), "any order");
    check(!accepts(1, 1, "\x03\x05\x0A", 3), "one is missing");
    check(!accepts(1, 1, "\x03\x05\x0A\x0C\x03", 5), "one stands twice");
    check(!accepts(1, 1, "\x03\x05\x0A\x0A", 4), "one stands in another's place");
    check(!accepts(1, 1, "\x03\x05\x0A\x0C\x10", 5), "10 is no map of this board");
    check(!accepts(0, 0, "", 0), "no list is not the list of 00");
    check(!accepts(3, 0, "", 0), "no list at all is accepted for 3");
}

/* #111: maps 0 to 255, no -5, the lowest of eight bits, 105 candidates, and which boards there are. */
static void test_eight(void)
{
    struct Arbiter a, b;

    arbiter_fresh(&a, 8);
    enter(&a, 5);
    check(same_answer(call(&a, ADCMD_ALLOCATE, 0, IOF_QUICK, 0, 1, 5, "\360"), 0, 0, 0xF0, 5, 255), "map F0 on eight");
    check(same_answer(call(&a, CMD_WRITE, 1, 0, 0xC0, 0, 5, ""), 1, 0, 0, 5, 255) && a.channel[6].writes.count == 1,
          "the lowest of eight bits");
    check(same_answer(call(&a, CALL_CYCLE_ENDED, 0, 0, 0x80, 0, 0, ""), 0, 0, 0, 0, 255), "F3 on another channel");
    check(same_answer(call(&a, CALL_GAVE_UP, 0, 0, 0x80, 0, 0, ""), 0, 0, 0, 0, 255), "F4 on another channel");
    check(same_answer(call(&a, ADCMD_LOCK, 2, 0, 0xF0, 0, 5, ""), 1, 0, 0, 5, 255), "a lock over the upper four");
    check(arbiter_sound(&a), "eight channels are sound");
    b = a;
    b.channels = 4;
    check(!arbiter_sound(&b), "a channel behind the board that is not free");
    b.channels = 5;
    check(!arbiter_sound(&b), "five channels");
    check(same_answer(call(&a, CALL_CLOSE, 0, 0, 0, 0, 5, ""), 0, 0, 0, 5, 255) && a.channel[7].key == 0,
          "CLOSE frees the eighth channel");
    arbiter_fresh(&a, 8);
    enter(&a, 5);
    a.open.count = 0;
    for (unsigned i = 0; i < MOST_OPENS; i++)
        enter(&a, 73 + i);
    for (unsigned c = 0; c < 8; c++)
        call(&a, ADCMD_ALLOCATE, 0, IOF_QUICK, 0, 1, 1 + c, "\1\2\4\10\20\40\100\200");
    for (unsigned id = 0; id < REQUESTS; id++)
        call(&a, ADCMD_ALLOCATE, id, 0, 0, 0, 9 + id, "\377");
    check(a.waiting.count == REQUESTS && arbiter_sound(&a), "64 wait on eight channels");
    check(arbiter_new_key(&a) == 105, "the 105th candidate");
    arbiter_fresh(&a, 4);
    enter(&a, 5);
    check(same_answer(call(&a, ADCMD_ALLOCATE, 0, IOF_QUICK, 0, 1, 5, "\20"), 0, -5, 0, 5, 255), "map 10 on four");
}

/* ---- Saved texts: #106. The lines were worked out by hand ---- */

static const char fresh_text[] =
    "D001\n"
    "D10000000000000000000000\nD10000000000000000000000\nD10000000000000000000000\nD10000000000000000000000\n"
    "D70000\n";

/* A state with every kind of line. The request of id 2 asks for no channel, so it could be granted: the state is not at rest. */
#define SAVED_LINES 20
static const char *const saved_lines[SAVED_LINES] = {
    "D001",
    "D10005FD0100010101000040",             /* key 5, precedence -3, locked, FINISH and PERVOL 65,536, 64 remembered */
    "D10005FD0101000000000000",             /* key 5, precedence -3, locked, stopped */
    "D10000000000000000000000",             /* free */
    "D112347F0000000100007C00",             /* key 4660, precedence 127, PERVOL 124, 0 remembered */
    "D23F00000A01020F01",                   /* id 63, key 0, precedence 10, NOWAIT, 0F 01 */
    "D20200090A000100",                     /* id 2, key 9, precedence 10, 00 */
    "D20700008000100F0F0F0F0F0F0F0F0F0F0F0F0F0F0F0F",   /* id 7, key 0, precedence -128, sixteen times 0F */
    "D328000503",                           /* the older lock: id 40, key 5, channels 0 and 1 */
    "D30C000501",                           /* id 12, key 5, channel 0 */
    "D421123408",                           /* the older WAITCYCLE: id 33, key 4660, channel 3 */
    "D401000501",                           /* id 1, key 5, channel 0 */
    "D50014000000007C40",                   /* channel 0: id 20, endless, 124, 64 */
    "D50013FFFF01000000",                   /* behind it: id 19, 65,535 cycles, 65,536, 0 */
    "D50100000100012C01",                   /* channel 1: id 0, 1 cycle, 300, 1 */
    "D5033201020003E820",                   /* channel 3: id 50, 258 cycles, 1000, 32 */
    "D60005",
    "D6FFFF",
    "D60005",
    "D71234"
};

static void write_to(struct Arbiter *a, unsigned c, unsigned id, unsigned cycles, unsigned period, unsigned volume)
{
    struct Request *q = &a->request[id];

    q->command = CMD_WRITE;
    q->key = a->channel[c].key;
    q->cycles = (uint16_t)cycles;
    q->period = period;
    q->volume = (uint8_t)volume;
    a->channel[c].writes.id[a->channel[c].writes.count++] = (uint8_t)id;
}

static void hold(struct Arbiter *a, struct Ids *list, unsigned command, unsigned id, unsigned key, unsigned map)
{
    a->request[id].command = (uint8_t)command;
    a->request[id].key = (uint16_t)key;
    a->request[id].map = (uint8_t)map;
    list->id[list->count++] = (uint8_t)id;
}

static void ask(struct Arbiter *a, unsigned id, unsigned key, int precedence, unsigned nowait, unsigned length, unsigned first, unsigned rest)
{
    struct Request *q = &a->request[id];

    q->command = ADCMD_ALLOCATE;
    q->key = (uint16_t)key;
    q->precedence = (int8_t)precedence;
    q->nowait = (uint8_t)nowait;
    q->length = (uint8_t)length;
    memset(q->combination, (int)rest, length);
    q->combination[0] = (uint8_t)first;
    a->waiting.id[a->waiting.count++] = (uint8_t)id;
}

/* The state of those lines. */
static void saved_state(struct Arbiter *a)
{
    arbiter_fresh(a, 4);
    a->channel[0].key = a->channel[1].key = 5;
    a->channel[0].precedence = a->channel[1].precedence = -3;
    a->channel[0].locked = a->channel[1].locked = a->channel[1].stopped = 1;
    a->channel[0].finish = a->channel[0].pervol = a->channel[3].pervol = 1;
    a->channel[0].period = 65536;
    a->channel[0].volume = 64;
    a->channel[3].key = 0x1234;
    a->channel[3].precedence = 127;
    a->channel[3].period = 124;
    ask(a, 63, 0, 10, 1, 2, 0x0F, 0x01);
    ask(a, 2, 9, 10, 0, 1, 0, 0);
    ask(a, 7, 0, -128, 0, 16, 0x0F, 0x0F);
    hold(a, &a->locks, ADCMD_LOCK, 40, 5, 0x03);
    hold(a, &a->locks, ADCMD_LOCK, 12, 5, 0x01);
    hold(a, &a->cycles, ADCMD_WAITCYCLE, 33, 0x1234, 0x08);
    hold(a, &a->cycles, ADCMD_WAITCYCLE, 1, 5, 0x01);
    write_to(a, 0, 20, 0, 124, 64);
    write_to(a, 0, 19, 65535, 65536, 0);
    write_to(a, 1, 0, 1, 300, 1);
    write_to(a, 3, 50, 258, 1000, 32);
    enter(a, 5);
    enter(a, 65535);
    enter(a, 5);
    a->last_key = 0x1234;
}

/* The lines as a text, with this one, from 1 on, in another spelling, or gone where that is NULL; 0 changes none. */
static size_t text_with(unsigned line, const char *other, char *text)
{
    size_t length = 0;

    for (unsigned i = 1; i <= SAVED_LINES; i++)
        if (i != line || other != NULL)
            length += (size_t)sprintf(text + length, "%s\n", i == line ? other : saved_lines[i - 1]);
    return length;
}

/* Loads with one of the two loaders, and tells whether all that was lent is as it was. */
static int load_with(int (*load)(unsigned, const char *, size_t, struct Arbiter *, struct Display *), unsigned channels,
                     const char *text, size_t length, struct Arbiter *a, struct Display *d, int *untouched)
{
    struct Arbiter before;
    struct Display shown_before;
    int result;

    memset(a, 0x55, sizeof *a);
    memset(d, 0x55, sizeof *d);
    memcpy(&before, a, sizeof before);
    memcpy(&shown_before, d, sizeof shown_before);
    result = load(channels, text, length, a, d);
    *untouched = memcmp(a, &before, sizeof before) == 0 && memcmp(d, &shown_before, sizeof shown_before) == 0;
    return result;
}

static int load_text(unsigned channels, const char *text, size_t length, struct Arbiter *a, struct Display *d, int *untouched)
{
    return load_with(saved_load, channels, text, length, a, d, untouched);
}

/* This text is refused with 9, nothing is touched, and the line at fault is this one; 0 where only the whole is at fault. */
static void refuses_text(const char *text, size_t length, size_t fault, const char *what)
{
    struct Arbiter a;
    struct Display d;
    int untouched, result = load_text(4, text, length, &a, &d, &untouched);

    check(result == REFUSED_TEXT && untouched && saved_fault(text, length) == fault, what);
}

/* This text is that of a state, which is saved as it. */
static void accepts_text(const char *text, size_t length, const char *what)
{
    char again[SAVED_LONGEST];
    struct Arbiter a;
    struct Display d;
    size_t written;
    int untouched, result = load_text(4, text, length, &a, &d, &untouched);

    check(result == DONE && saved_fault(text, length) == 0 && saved_save(&a, again, sizeof again, &written) == DONE
              && written == length && memcmp(again, text, length) == 0, what);
}

static void test_saved_text(void)
{
    static const uint8_t writes[MOST_CHANNELS] = {2, 1, 0, 1}, naming[MOST_CHANNELS] = {2, 2, 2, 2};
    char text[SAVED_LONGEST], wanted[SAVED_LONGEST];
    struct Arbiter a, b;
    struct Display d;
    size_t written, length;
    int untouched;

    arbiter_fresh(&a, 4);
    check(saved_save(&a, text, sizeof text, &written) == DONE && written == 112 && memcmp(text, fresh_text, 112) == 0,
          "a fresh board's text");
    check(load_text(4, fresh_text, 112, &b, &d, &untouched) == DONE && memcmp(&a, &b, sizeof a) == 0, "a fresh board comes back");
    check(d.writes[0] == 0 && d.naming[3] == 0 && d.looks == 0, "a fresh board's display is 0");
    saved_state(&a);
    check(arbiter_sound(&a), "the state of the lines is sound");
    length = text_with(0, NULL, wanted);
    check(saved_save(&a, text, sizeof text, &written) == DONE && written == length && memcmp(text, wanted, length) == 0,
          "a text with every kind of line");
    check(load_text(4, wanted, length, &b, &d, &untouched) == DONE && memcmp(&a, &b, sizeof a) == 0,
          "and its state, with a request that could be granted still waiting");
    check(memcmp(d.writes, writes, sizeof writes) == 0 && memcmp(d.naming, naming, sizeof naming) == 0 && d.looks == 0,
          "a load counts the display's numbers and sets the looks to 0");
    shown = d;
    /* Id 63 has chosen channel 0, so both locks are stolen, the older first. */
    check(same_answer(call(&b, CMD_CLEAR, 5, IOF_QUICK, 0, 0, 5, ""), 0, 0, 0, 5, 255) && told() == 3
              && same_reply(32, 40, ADCMD_LOCK, -12, 0x03, 5) && same_reply(0, 12, ADCMD_LOCK, -12, 0x01, 5)
              && same_reply(1, 2, ADCMD_ALLOCATE, 0, 0, 9),
          "the next call settles, and grants it");
    check(memcmp(shown.naming, naming, sizeof naming) == 0 && shown.looks > 0, "the numbers go on from the count");
}

static void test_saved_room(void)
{
    char text[SAVED_LONGEST + 2], before[sizeof text], wanted[SAVED_LONGEST];
    struct Arbiter a;
    size_t written, length = text_with(0, NULL, wanted);

    saved_state(&a);
    memset(before, 0x55, sizeof before);
    for (size_t room = 0; room <= length + 1; room++) {
        int result, fits = room >= length;

        memcpy(text, before, sizeof text);
        written = 99;
        result = saved_save(&a, text, room, &written);
        if (room == 0 || room == 111 || room == 112 || room + 1 >= length)
            check(result == (fits ? DONE : REFUSED_ROOM) && written == (fits ? length : 0) && (!fits || memcmp(text, wanted, length) == 0)
                      && memcmp(text + written, before + written, sizeof text - written) == 0,
                  fits ? "a text just as long as the room, or shorter, fits" : "no room: 12, and nothing is written");
    }
    /* The longest: 64 requests of sixteen combinations, 32 open keys. */
    arbiter_fresh(&a, 4);
    for (unsigned id = 0; id < REQUESTS; id++)
        ask(&a, id, 65535, 0, 0, COMBINATIONS, 0x0F, 0x0F);
    for (unsigned i = 0; i < MOST_OPENS; i++)
        enter(&a, 65535);
    check(saved_save(&a, text, SAVED_LONGEST, &written) == DONE && written == 3344, "the longest text has 3,344 bytes");
    accepts_text(text, 3344, "the longest text");
    check(saved_save(&a, text, 3343, &written) == REFUSED_ROOM && written == 0, "a byte less is too small for it");
    a.locks.count = 1;
    memcpy(text, before, sizeof text);
    check(saved_save(&a, text, 0, &written) == REFUSED_UNSOUND && written == 0, "1 before 12");
    check(saved_save(&a, text, sizeof text, &written) == REFUSED_UNSOUND && memcmp(text, before, sizeof text) == 0, "not sound: 1");
    arbiter_fresh(&a, 8);
    check(saved_save(&a, text, 0, &written) == REFUSED_EIGHT && written == 0, "10 before 12");
    check(saved_save(&a, text, sizeof text, &written) == REFUSED_EIGHT && memcmp(text, before, sizeof text) == 0, "eight channels: 10");
    a.channel[7].locked = 1;
    check(saved_save(&a, text, sizeof text, &written) == REFUSED_UNSOUND && written == 0, "1 before 10");
}

static void test_saved_lines(void)
{
    static const struct {
        unsigned line;
        const char *other;                  /* NULL: the line is gone */
        size_t fault;                       /* 0: every line may stand, and the whole is not sound */
        const char *what;
    } wrong[] = {
        {1, "D002", 1, "D002"}, {1, "D00", 1, "D00"}, {1, "d001", 1, "d001"}, {1, "D0001", 1, "D0001"}, {1, "D001\r", 1, "D001 and CR"},
        {1, " D001", 1, "a space before D001"}, {1, "", 1, "an empty first line"}, {1, NULL, 1, "no first line"},
        {1, "D001\nD001", 2, "D001 twice"}, {1, "D001\n", 2, "an empty second line"}, {1, "D001\nD804", 2, "a line of another form"},
        {2, "d10005FD0100010101000040", 2, "a kind in lower case"}, {2, "D10005fd0100010101000040", 2, "digits in lower case"},
        {2, "D10005FD010001010100004", 2, "a digit less"}, {2, "D10005FD01000101010000400", 2, "a digit more"},
        {2, "D10005FD0100010101000", 2, "three digits less"}, {2, "D10005FD010001010100004000", 2, "a byte more"},
        {2, "D10005FD01000101010000", 2, "a byte less"}, {2, "D10005FD0100010101000040\r", 2, "CR before an LF"},
        {2, "D10005FD 100010101000040", 2, "a space among the digits"}, {2, "D10005FDG100010101000040", 2, "no digit"},
        {2, "D10005FD0200010101000040", 2, "a lock mark of 02"}, {2, "D10005FD0102010101000040", 2, "a stop mark of 02"},
        {2, "D10005FD0100020101000040", 2, "a FINISH mark of 02"}, {2, "D10005FD0100010201000040", 2, "a PERVOL mark of 02"},
        {2, "D10005FD0100010100000040", 0, "PERVOL of period 0"}, {2, "D10005FD0100010100007B40", 0, "PERVOL of period 123"},
        {2, "D10005FD0100010101000140", 0, "PERVOL of period 65,537"}, {2, "D10005FD0100010101000041", 0, "PERVOL of volume 65"},
        {2, "D10005FD0100010001000040", 0, "numbers of no PERVOL"}, {2, "D10000FD0100010101000040", 0, "a free channel with all that"},
        {2, "D10006FD0100010101000040", 0, "another key than its locks and waiters"},
        {2, "D10005FD0000010101000040", 0, "a lock of an unlocked channel"}, {2, NULL, 5, "three channels"},
        {2, "D10005FD0100010101000040\nD10000000000000000000000", 6, "five channels"},
        {4, "D10000010000000000000000", 0, "a free channel of precedence 1"}, {4, "D10000000100000000000000", 0, "a free channel, locked"},
        {4, "D10000000001000000000000", 0, "a free channel, stopped"}, {4, "D10000000000010000000000", 0, "FINISH on a free channel"},
        {4, "D10000000000000100007C00", 0, "PERVOL on a free channel"}, {4, "D10007000000010000000000", 0, "FINISH without a write"},
        {4, "D10007000000000100007C00", 0, "PERVOL without a write"}, {4, "D10007000000000000007C00", 0, "a period of nothing"},
        {6, "D24000000A01020F01", 6, "a waiting id of 64"}, {6, "D2FF00000A01020F01", 6, "a waiting id of 255"},
        {6, "D23F00000A02020F01", 6, "a NOWAIT mark of 02"}, {6, "D23F00000A01010F01", 6, "n 1 and two combinations"},
        {6, "D23F00000A01030F01", 6, "n 3 and two combinations"}, {6, "D23F00000A0100", 0, "no combination"}, {6, "D23F00000A01", 6, "no n"},
        {6, "D23F00000A01110101010101010101010101010101010101", 6, "seventeen combinations"},
        {6, "D23F00000A01021001", 0, "a combination of 10"}, {6, "D23F00000901020F01", 0, "a lower precedence before a higher"},
        {6, "D20200000A01020F01", 7, "an id that waits twice"}, {6, "D22800000A01020F01", 9, "an id that waits and locks"},
        {6, "D22100000A01020F01", 11, "an id that waits for two things"}, {6, "D21400000A01020F01", 13, "an id that waits and plays"},
        {8, "D20700000B00100F0F0F0F0F0F0F0F0F0F0F0F0F0F0F0F", 0, "the last of higher precedence"},
        {9, "D328000500", 0, "a lock of no channel"}, {9, "D328000510", 0, "a lock of map 10"}, {9, "D328000504", 0, "a lock of a free channel"},
        {9, "D328000508", 0, "a lock of an unlocked channel of another key"}, {9, "D32800050B", 0, "a lock of one channel too many"},
        {9, "D328000603", 0, "a lock of another key"}, {9, "D328000003", 0, "a lock of key 0"}, {9, "D340000503", 9, "a lock of id 64"},
        {9, "D30C000503", 10, "an id that locks twice"}, {9, "D32800050", 9, "a lock with a digit less"},
        {9, "D32800050300", 9, "a lock with a byte more"}, {9, "D428000501", 10, "a lock behind a WAITCYCLE"},
        {9, "D60005", 10, "an open key before the locks"}, {5, "D112347F0000000100007C00\nD50014000000007C40", 7, "a write before the waiting"},
        {11, "D421123400", 0, "a WAITCYCLE of no channel"}, {11, "D421123409", 0, "a WAITCYCLE of two channels"},
        {11, "D421123410", 0, "a WAITCYCLE of map 10"}, {11, "D421000008", 0, "a WAITCYCLE of key 0"},
        {11, "D421000508", 0, "a WAITCYCLE of another key"}, {11, "D421123404", 0, "a WAITCYCLE of a free channel"},
        {11, "D440123408", 11, "a WAITCYCLE of id 64"}, {11, "D401123408", 12, "an id that waits for two cycles"},
        {13, "D50114000000007C40", 14, "a write of channel 0 behind one of channel 1"}, {13, "D50414000000007C40", 13, "a write of channel 4"},
        {13, "D50040000000007C40", 13, "a write of id 64"}, {13, "D50013000000007C40", 14, "an id that plays twice"},
        {13, "D50014000000007B40", 0, "a write of period 123"}, {13, "D50014000001000140", 0, "a write of period 65,537"},
        {13, "D50014000000000040", 0, "a write of period 0"}, {13, "D50014000000007C41", 0, "a write of volume 65"},
        {13, "D50014000000007C4", 13, "a write with a digit less"}, {13, "D50014000000007C4000", 13, "a write with a byte more"},
        {15, "D50200000100012C01", 0, "a write on a free channel"}, {16, "D5003201020003E820", 16, "channel 0 behind channel 1"},
        {16, NULL, 0, "a WAITCYCLE and a PERVOL without a write"}, {17, "D60000", 0, "an open key of 0"}, {17, "D6000500", 17, "an open key of three bytes"},
        {17, "D605", 17, "an open key of a byte"}, {17, "D71234", 18, "the last key before the open keys"},
        {20, NULL, 20, "no last key"}, {20, "D71234\nD71234", 21, "two last keys"}, {20, "D7123", 20, "a last key with a digit less"},
        {20, "D7123400", 20, "a last key of three bytes"}, {20, "D71234\n", 21, "an empty line at the end"}, {20, "D81234", 20, "no such kind"},
        {20, "D71234\nD60005", 21, "an open key at the end"}
    };
    char text[4096];

    for (size_t i = 0; i < sizeof wrong / sizeof *wrong; i++)
        refuses_text(text, text_with(wrong[i].line, wrong[i].other, text), wrong[i].fault, wrong[i].what);
}

/* What no line alone shows; and other texts that are good. */
static void test_saved_whole(void)
{
    char text[4096], opens[512] = "";
    struct Arbiter a;
    struct Display d;
    size_t length = text_with(0, NULL, text);
    int untouched;

    refuses_text(text, 0, 1, "an empty text");
    for (size_t cut = 0; cut < length; cut++)
        if (load_text(4, text, cut, &a, &d, &untouched) != REFUSED_TEXT || !untouched)
            check(0, "a text that is cut");
    refuses_text(text, length - 1, 20, "no last LF");
    text[length] = '\0';
    refuses_text(text, length + 1, 21, "a NUL behind the end");
    text[length] = '0';
    refuses_text(text, length + 1, 21, "a digit behind the end");
    text[30] = '\0';
    refuses_text(text, length, 3, "a NUL in the text");
    for (unsigned i = 0; i < MOST_OPENS - 3; i++)
        strcat(opens, "D60001\n");
    strcat(opens, "D71234");
    accepts_text(text, text_with(20, opens, text), "32 open keys");
    memcpy(opens + strlen(opens) - 6, "D60001\nD71234", sizeof "D60001\nD71234");
    refuses_text(text, text_with(20, opens, text), 49, "33 open keys");
    length = text_with(0, NULL, text);
    check(load_text(8, text, length, &a, &d, &untouched) == REFUSED_TEXT && untouched, "a board of eight has no first form");
    check(load_text(0, text, length, &a, &d, &untouched) == REFUSED_TEXT && untouched, "no board of no channels");
    check(load_text(5, text, length, &a, &d, &untouched) == REFUSED_TEXT && untouched, "no board of five");
    accepts_text(text, text_with(17, NULL, text), "an open key less");
    accepts_text(text, text_with(17, "D60005\nD60005", text), "an open key more");
    accepts_text(text, text_with(20, "D7FFFF", text), "any last key");
    accepts_text(text, text_with(20, "D70000", text), "no key issued yet");
    accepts_text(text, text_with(9, "D306000503", text), "another id, that is idle");
    accepts_text(text, text_with(8, NULL, text), "a waiting request less");
    accepts_text(text, text_with(6, "D23F00007F01020F01", text), "the first of the highest precedence");
    accepts_text(text, text_with(3, "D10005FD0100000000000000", text), "a channel that is not stopped");
    accepts_text(text, text_with(4, "D10009800100000000000000", text), "a locked channel that no lock names");
}

/* Age is an order of its own: the locks, the WAITCYCLEs, the writes of a channel and the open keys the other way round are other
   states, and each is saved as it stands. */
static void test_saved_order(void)
{
    static const unsigned first[] = {9, 11, 13, 18};
    char text[4096], swapped[4096];
    struct Arbiter a, b;
    struct Display d;
    int untouched;

    saved_state(&a);
    for (size_t i = 0; i < sizeof first / sizeof *first; i++) {
        size_t length = 0;

        for (unsigned line = 1; line <= SAVED_LINES; line++) {
            unsigned from = line == first[i] ? line + 1 : line == first[i] + 1 ? line - 1 : line;

            length += (size_t)sprintf(swapped + length, "%s\n", saved_lines[from - 1]);
        }
        accepts_text(swapped, length, "two neighbours the other way round");
        check(load_text(4, swapped, length, &b, &d, &untouched) == DONE && memcmp(&a, &b, sizeof a) != 0, "and that is another state");
    }
    load_text(4, text, text_with(9, "D30C000501", text), &b, &d, &untouched);
    check(untouched, "a lock that stands twice");
    load_text(4, text, text_with(0, NULL, text), &b, &d, &untouched);
    check(b.locks.count == 2 && b.locks.id[0] == 40 && b.locks.id[1] == 12, "the order of the locks is their age");
    check(b.cycles.count == 2 && b.cycles.id[0] == 33 && b.cycles.id[1] == 1, "the order of the WAITCYCLEs is their age");
}

/* A sound state that is not at rest: what settling would end is still there after a load. */
static void test_saved_unsettled(void)
{
    char text[SAVED_LONGEST];
    struct Arbiter a, b;
    struct Display d;
    size_t length;
    int untouched;

    marked_state(&a);
    hold(&a, &a.locks, ADCMD_LOCK, 3, 6, 0x08);
    ask(&a, 0, 0, 50, 0, 1, 0x08, 0);       /* held, over an outstanding lock */
    ask(&a, 1, 0, 20, 0, 1, 0x01, 0);       /* could be granted */
    ask(&a, 2, 0, 0, 1, 1, 0x01, 0);        /* fails with NOWAIT */
    check(arbiter_sound(&a) && saved_save(&a, text, sizeof text, &length) == DONE, "a state that is not at rest is saved");
    check(load_text(4, text, length, &b, &d, &untouched) == DONE && memcmp(&a, &b, sizeof a) == 0 && b.waiting.count == 3
              && b.locks.count == 1, "and loaded, and not settled");
    call(&b, CALL_ABORT, 9, 0, 0, 0, 0, "");
    check(told() == 3 && b.waiting.count == 1 && b.locks.count == 0, "the first call after it settles");
}

/* ---- The second form: #112 ---- */

/* The state of saved_lines in the second form: from the channels on the same, then the numbers. */
static size_t text2_with(unsigned line, const char *other, char *text)
{
    static const char *const head[2] = {"D002", "D804"}, *const tail[4] = {"D9000202", "D9010102", "D9020002", "D9030102"};
    size_t length = 0;

    for (unsigned i = 1; i <= SAVED_LINES + 5; i++) {
        const char *stands = i <= 2 ? head[i - 1] : i <= SAVED_LINES + 1 ? saved_lines[i - 2] : tail[i - SAVED_LINES - 2];

        if (i != line || other != NULL)
            length += (size_t)sprintf(text + length, "%s\n", i == line ? other : stands);
    }
    return length;
}

static int load_text2(unsigned channels, const char *text, size_t length, struct Arbiter *a, struct Display *d, int *untouched)
{
    return load_with(saved_load2, channels, text, length, a, d, untouched);
}

/* Refused by both boards with 9, and by to_old too, whatever the room. */
static void refuses_text2(const char *text, size_t length, size_t fault, const char *what)
{
    char room[4] = "abc";
    struct Arbiter a;
    struct Display d;
    size_t written = 9;
    int four, eight, untouched, both;

    four = load_text2(4, text, length, &a, &d, &untouched);
    eight = load_text2(8, text, length, &a, &d, &both);
    check(four == REFUSED_TEXT && eight == REFUSED_TEXT && untouched && both && saved_fault2(4, text, length) == fault
              && saved_to_old(text, length, room, 3, &written) == REFUSED_TEXT && written == 0 && memcmp(room, "abc", 4) == 0,
          what);
}

/* A state of eight channels with what four have not, and its text, worked out by hand. */
static const char eight_text[] =
    "D002\nD808\n"
    "D10000000000000000000000\nD10000000000000000000000\nD10000000000000000000000\nD10000000000000000000000\n"
    "D10000000000000000000000\nD10000000000000000000000\nD10000000000000000000000\nD10009010100010000000000\n"
    "D2000000000001F0\n"                    /* id 0, key 0, precedence 0, F0 */
    "D301000980\n"                          /* id 1, key 9, channel 7 */
    "D402000980\n"
    "D50704000100007C40\n"                  /* channel 7: id 4, 1 cycle, 124, 64 */
    "D60009\nD70009\n"
    "D9000000\nD9010000\nD9020000\nD9030000\nD9040001\nD9050001\nD9060001\nD9070101\n";

static void eight_state(struct Arbiter *a)
{
    arbiter_fresh(a, 8);
    a->channel[7].key = 9;
    a->channel[7].precedence = a->channel[7].locked = a->channel[7].finish = 1;
    ask(a, 0, 0, 0, 0, 1, 0xF0, 0);
    hold(a, &a->locks, ADCMD_LOCK, 1, 9, 0x80);
    hold(a, &a->cycles, ADCMD_WAITCYCLE, 2, 9, 0x80);
    write_to(a, 7, 4, 1, 124, 64);
    enter(a, 9);
    a->last_key = 9;
}

static void test_second_form(void)
{
    static const char fresh_four[] =
        "D002\nD804\n"
        "D10000000000000000000000\nD10000000000000000000000\nD10000000000000000000000\nD10000000000000000000000\n"
        "D70000\nD9000000\nD9010000\nD9020000\nD9030000\n";
    char text[SAVED_LONGEST2 + 1], wanted[SAVED_LONGEST2];
    struct Arbiter a, b;
    struct Display d, e;
    size_t written, length;
    int untouched;

    arbiter_fresh(&a, 4);
    memset(&d, 0, sizeof d);
    check(saved_save2(&a, &d, text, sizeof text, &written) == DONE && written == 153 && memcmp(text, fresh_four, 153) == 0,
          "a fresh board of four, second form");
    arbiter_fresh(&a, 8);
    check(saved_save2(&a, &d, text, sizeof text, &written) == DONE && written == 289 && memcmp(text, "D002\nD808\nD1", 12) == 0
              && memcmp(text + 280, "D9070000\n", 9) == 0, "a fresh board of eight");
    saved_state(&a);
    saved_count(&a, &d);
    d.looks = 77;
    length = text2_with(0, NULL, wanted);
    check(saved_save2(&a, &d, text, sizeof text, &written) == DONE && written == length && memcmp(text, wanted, length) == 0,
          "every kind of line in the second form, whatever the looks");
    check(load_text2(4, wanted, length, &b, &e, &untouched) == DONE && memcmp(&a, &b, sizeof a) == 0
              && memcmp(d.writes, e.writes, sizeof d.writes) == 0 && memcmp(d.naming, e.naming, sizeof d.naming) == 0 && e.looks == 0,
          "and back, not settled, the looks 0");
    check(load_text2(8, wanted, length, &b, &e, &untouched) == REFUSED_TEXT && untouched, "a text of four on the board of eight");
    check(load_text2(0, wanted, length, &b, &e, &untouched) == REFUSED_TEXT && untouched, "no board of no channels, second form");
    check(load_text2(5, wanted, length, &b, &e, &untouched) == REFUSED_TEXT && untouched, "no board of five, second form");
    check(load_text(4, wanted, length, &b, &e, &untouched) == REFUSED_TEXT && untouched, "the old loader refuses D002");
    length = text_with(0, NULL, wanted);
    check(load_text2(4, wanted, length, &b, &e, &untouched) == REFUSED_TEXT && untouched, "the new loader refuses D001");
    eight_state(&a);
    saved_count(&a, &d);
    check(arbiter_sound(&a) && saved_save2(&a, &d, text, sizeof text, &written) == DONE && written == sizeof eight_text - 1
              && memcmp(text, eight_text, written) == 0, "a board of eight with something of every kind");
    check(load_text2(8, eight_text, sizeof eight_text - 1, &b, &e, &untouched) == DONE && memcmp(&a, &b, sizeof a) == 0
              && memcmp(d.naming, e.naming, sizeof d.naming) == 0 && e.writes[7] == 1, "and back");
    check(load_text2(4, eight_text, sizeof eight_text - 1, &b, &e, &untouched) == REFUSED_TEXT && untouched,
          "a text of eight on the board of four");
    check(saved_save(&a, text, sizeof text, &written) == REFUSED_EIGHT, "which has no first form");
}

/* "Numbers that disagree with a count ... cannot be saved in the second form (1)." */
static void test_second_room(void)
{
    char text[SAVED_LONGEST2 + 1], before[sizeof text];
    struct Arbiter a;
    struct Display d, e;
    size_t written, length = sizeof eight_text - 1;

    memset(before, 0x55, sizeof before);
    memcpy(text, before, sizeof text);
    eight_state(&a);
    saved_count(&a, &d);
    for (unsigned c = 0; c < MOST_CHANNELS; c++)
        for (unsigned naming = 0; naming < 2; naming++) {
            e = d;
            (naming ? e.naming : e.writes)[c]++;
            check(saved_save2(&a, &e, text, naming ? 0 : sizeof text, &written) == REFUSED_UNSOUND && written == 0
                      && memcmp(text, before, sizeof text) == 0, "numbers that disagree: 1, before 12");
        }
    check(saved_save2(&a, &d, text, length - 1, &written) == REFUSED_ROOM && written == 0 && memcmp(text, before, sizeof text) == 0,
          "a byte too little: 12");
    check(saved_save2(&a, &d, text, length, &written) == DONE && written == length && text[length] == 0x55, "just as long fits");
    a.channel[0].stopped = 1;
    check(saved_save2(&a, &d, text, 0, &written) == REFUSED_UNSOUND, "not sound: 1, before 12");
    saved_state(&a);
    saved_count(&a, &d);
    d.writes[4] = 1;
    check(saved_save2(&a, &d, text, sizeof text, &written) == REFUSED_UNSOUND, "a number of a channel behind the board: 1");
    /* The longest text of all. */
    arbiter_fresh(&a, 8);
    for (unsigned id = 0; id < REQUESTS; id++)
        ask(&a, id, 65535, 0, 0, COMBINATIONS, 0xFF, 0xFF);
    for (unsigned i = 0; i < MOST_OPENS; i++)
        enter(&a, 65535);
    saved_count(&a, &d);
    check(saved_save2(&a, &d, text, SAVED_LONGEST2, &written) == DONE && written == 3521 && memcmp(text + 3512, "D9070040\n", 9) == 0,
          "the longest text of the second form has 3,521 bytes");
    check(saved_save2(&a, &d, text, 3520, &written) == REFUSED_ROOM, "a byte less is too small for it");
}

static void test_second_lines(void)
{
    static const struct {
        unsigned line;
        const char *other;
        size_t fault;
        const char *what;
    } wrong[] = {
        {1, "D001", 1, "D001 before a board"}, {1, "D003", 1, "D003"}, {1, "d002", 1, "d002"}, {1, NULL, 1, "no D002"},
        {2, NULL, 2, "no number of channels"}, {2, "D804\nD804", 3, "two numbers of channels"}, {2, "D808", 2, "eight, and four channels"},
        {2, "D805", 2, "five"}, {2, "D800", 2, "none"}, {2, "D80400", 2, "a byte more"}, {2, "D84", 2, "a digit less"},
        {2, "d804", 2, "lower case"}, {3, NULL, 6, "three channels"}, {4, "D1000", 4, "a channel of three bytes"},
        {3, "D10005FD0200010101000040", 3, "a mark of 02, second form"}, {10, "D340000503", 10, "an id of 64, second form"},
        {14, "D50014000000007B40", 0, "a period of 123, second form"}, {21, NULL, 21, "no last key, second form"},
        {22, NULL, 22, "no numbers of channel 0"}, {25, NULL, 25, "no numbers of channel 3"}, {22, "D9000302", 0, "a write too many"},
        {22, "D9000102", 0, "a write too few"}, {24, "D9020102", 0, "a write of a free channel"}, {23, "D9010101", 0, "a name too few"},
        {25, "D9030103", 0, "a name too many"}, {25, "D90301FF", 0, "255 who name it"}, {22, "D9010202", 22, "numbers of channel 1 first"},
        {25, "D9040102", 25, "numbers of channel 4"}, {25, "D9030102\nD9040000", 26, "numbers of a fifth channel"},
        {25, "D903010", 25, "numbers with a digit less"}, {25, "D903010200", 25, "numbers with a byte more"},
        {25, "D9030102\n", 26, "an empty line behind the numbers"}, {21, "D9000202\nD71234", 21, "numbers before the last key"},
        {9, NULL, 0, "a waiting request less, and its numbers"}, {15, NULL, 0, "a write less, and its number"}
    };
    char text[4096];
    size_t length = text2_with(0, NULL, text);
    struct Arbiter a;
    struct Display d;
    int untouched;

    for (size_t i = 0; i < sizeof wrong / sizeof *wrong; i++)
        refuses_text2(text, text2_with(wrong[i].line, wrong[i].other, text), wrong[i].fault, wrong[i].what);
    length = text2_with(0, NULL, text);
    refuses_text2(text, length - 1, 25, "no last LF, second form");
    refuses_text2(text, 0, 1, "an empty text, second form");
    text[length] = '\0';
    refuses_text2(text, length + 1, 26, "a NUL behind the end, second form");
    check(load_text2(4, text, text2_with(18, NULL, text), &a, &d, &untouched) == DONE, "an open key less is good, second form");
}

/* "There and back leaves an old text as it was, byte for byte." 9 first, then 10, then 12. */
static void test_convert(void)
{
    char old[4096], new_text[4096], text[4096], bad[sizeof eight_text];
    size_t old_length = text_with(0, NULL, old), new_length = text2_with(0, NULL, new_text), written = 9;

    check(saved_to_new(old, old_length, text, sizeof text, &written) == DONE && written == new_length
              && memcmp(text, new_text, new_length) == 0, "an old text moves to the new form");
    check(saved_to_old(new_text, new_length, text, sizeof text, &written) == DONE && written == old_length
              && memcmp(text, old, old_length) == 0, "and back, byte for byte");
    check(saved_to_new(fresh_text, 112, text, 153, &written) == DONE && written == 153, "a fresh board's, in room just as long");
    check(saved_to_old(text, 153, new_text, 112, &written) == DONE && written == 112 && memcmp(new_text, fresh_text, 112) == 0, "and back");
    text2_with(0, NULL, new_text);
    memset(text, 0x55, sizeof text);
    check(saved_to_new(old, old_length, text, new_length - 1, &written) == REFUSED_ROOM && written == 0 && text[0] == 0x55, "to new: 12");
    check(saved_to_old(new_text, new_length, text, old_length - 1, &written) == REFUSED_ROOM && written == 0 && text[0] == 0x55,
          "to old: 12");
    check(saved_to_new(new_text, new_length, text, sizeof text, &written) == REFUSED_TEXT && written == 0, "a new text is not moved to new");
    check(saved_to_old(old, old_length, text, sizeof text, &written) == REFUSED_TEXT && written == 0, "an old text is not moved to old");
    check(saved_to_new(old, old_length - 1, text, 0, &written) == REFUSED_TEXT && written == 0, "to new: 9 before 12");
    check(saved_to_old(new_text, new_length - 1, text, 0, &written) == REFUSED_TEXT && written == 0, "to old: 9 before 12");
    check(saved_to_old(eight_text, sizeof eight_text - 1, text, sizeof text, &written) == REFUSED_EIGHT && written == 0 && text[0] == 0x55,
          "eight channels have no old text: 10");
    check(saved_to_old(eight_text, sizeof eight_text - 1, text, 0, &written) == REFUSED_EIGHT && written == 0, "10 before 12, to old");
    memcpy(bad, eight_text, sizeof bad);
    bad[sizeof bad - 3] = '2';              /* the last number */
    check(saved_to_old(bad, sizeof bad - 1, text, sizeof text, &written) == REFUSED_TEXT, "eight channels with a wrong number: 9 before 10");
    bad[sizeof bad - 3] = '1';
    bad[8] = '4';
    check(saved_to_old(bad, sizeof bad - 1, text, sizeof text, &written) == REFUSED_TEXT, "eight channels under the number four: 9");
}

int main(void)
{
    test_marked();
    test_fewer_stolen();
    test_eight();
    test_most_candidates();
    test_open_keys();
    test_most_replies();
    test_refusals();
    test_unsettled();
    test_sound();
    test_cycle_ended();
    test_gave_up();
    test_events();
    test_other_desk();
    test_no_desk_asked();
    test_halves();
    test_passed_keys();
    test_apart();
    test_shown_writes();
    test_shown_naming();
    test_shown_wrong();
    test_looks_left();
    test_looks_walks();
    test_looks_many();
    test_records();
    test_stereo();
    test_saved_text();
    test_saved_room();
    test_saved_lines();
    test_saved_whole();
    test_saved_order();
    test_saved_unsettled();
    test_second_form();
    test_second_room();
    test_second_lines();
    test_convert();
    printf("test.c: %d passed, %d failed\n", passed, failed);
    return failed != 0;
}
