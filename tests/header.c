/* The numbers of qamhudeer.h are those of the library. Writes nothing and returns 0 where they are. */
#include <stdio.h>
#include <string.h>

#include "qamhudeer.h"

static int wrong;

static void same(const char *name, size_t header, size_t library)
{
    if (header != library) {
        printf("%s: %lu in the header, %lu in the library\n", name, (unsigned long)header, (unsigned long)library);
        wrong = 1;
    }
}

/* What the comments say of a state's bytes: channel 2 with key 258 and precedence 5, locked, stopped, with a write of two cycles,
 * period 300 and volume 50, and a request that waits for a cycle's end. */
static void places(void)
{
    static uint8_t state[QAMHUDEER_STATE_SIZE], table[QAMHUDEER_TABLE_SIZE], display[QAMHUDEER_DISPLAY_SIZE], replies[QAMHUDEER_REPLIES_SIZE], answer[QAMHUDEER_ANSWER_SIZE];
    static const uint8_t combos[1] = {4};
    uint8_t numbers[QAMHUDEER_NUMBERS_SIZE] = {0};
    const uint8_t *c = state + 2 * QAMHUDEER_CHANNEL_SIZE;
#define CALL(op, id, map, prec, key, combos, n) CALL_FROM(QAMHUDEER_DESK_A, op, id, map, prec, key, combos, n)
#define CALL_FROM(desk, op, id, map, prec, key, combos, n)                                                                       \
    qamhudeer_call(desk, op, id, 0, map, prec, key, combos, n, state, sizeof state, table, sizeof table, display, sizeof display, replies, sizeof replies, answer, sizeof answer)
    same("fresh", 0, qamhudeer_fresh(4, state, sizeof state, table, sizeof table, display, sizeof display));
    CALL(QAMHUDEER_OPEN, 0, 0, 0, 258, combos, 0);
    CALL(ADCMD_ALLOCATE, 1, 0, 5, 258, combos, 1);
    numbers[QAMHUDEER_NUMBERS_CYCLES + 1] = 2;
    numbers[QAMHUDEER_NUMBERS_PERIOD + 1] = 300 / 256;
    numbers[QAMHUDEER_NUMBERS_PERIOD + 2] = 300 % 256;
    numbers[QAMHUDEER_NUMBERS_VOLUME] = 65;
    CALL(CMD_WRITE, 3, 4, 0, 258, numbers, sizeof numbers);
    same("too loud", 256 + IOERR_BADLENGTH, answer[QAMHUDEER_ANSWER_ERROR]);
    numbers[QAMHUDEER_NUMBERS_VOLUME] = 50;
    CALL(CMD_WRITE, 3, 4, 0, 258, numbers, sizeof numbers);
    CALL(ADCMD_WAITCYCLE, 7, 4, 0, 258, combos, 0);
    CALL(CMD_STOP, 2, 4, 0, 258, combos, 0);
    CALL(ADCMD_LOCK, 9, 4, 0, 258, combos, 0);
    CALL(ADCMD_ALLOCATE, 11, 0, 0, 0, combos, 1);
    CALL(QAMHUDEER_OPEN, 0, 0, 0, 0, combos, 0);
    same("key", 258, 256u * c[QAMHUDEER_CHANNEL_KEY] + c[QAMHUDEER_CHANNEL_KEY + 1]);
    same("precedence", 133, c[QAMHUDEER_CHANNEL_PRECEDENCE]);
    same("locked", 1, c[QAMHUDEER_CHANNEL_LOCKED]);
    same("stopped", 1, c[QAMHUDEER_CHANNEL_STOPPED]);
    same("writes", 1, c[QAMHUDEER_CHANNEL_WRITES]);
    same("front write", 3, c[QAMHUDEER_CHANNEL_WRITES + 1]);
    same("locks", 1, state[QAMHUDEER_OFFSET_OF_LOCKS]);
    same("oldest lock", 9, state[QAMHUDEER_OFFSET_OF_LOCKS + 1]);
    same("waiters", 1, state[QAMHUDEER_OFFSET_OF_WAITERS]);
    same("oldest waiter", 7, state[QAMHUDEER_OFFSET_OF_WAITERS + 1]);
    same("waiting", 1, state[QAMHUDEER_OFFSET_OF_WAITING]);
    same("first waiting", 11, state[QAMHUDEER_OFFSET_OF_WAITING + 1]);
    same("open keys", 2, state[QAMHUDEER_OFFSET_OF_OPENS]);
    same("the oldest", 258, 256u * state[QAMHUDEER_OFFSET_OF_OPENS + 1] + state[QAMHUDEER_OFFSET_OF_OPENS + 2]);
    same("the newest", 1, 256u * state[QAMHUDEER_OFFSET_OF_OPENS + 3] + state[QAMHUDEER_OFFSET_OF_OPENS + 4]);
    same("the place of the last", QAMHUDEER_OFFSET_OF_LAST, QAMHUDEER_OFFSET_OF_OPENS + 1 + 2 * QAMHUDEER_OPENS);
    same("channels", 4, state[QAMHUDEER_OFFSET_OF_CHANNELS]);
    same("last key", 1, 256u * state[QAMHUDEER_OFFSET_OF_LAST] + state[QAMHUDEER_OFFSET_OF_LAST + 1]);
}

/* A map of 16 is beyond four channels, and on eight it is channel 4. */
static void boards(void)
{
    static uint8_t state[QAMHUDEER_STATE_SIZE], table[QAMHUDEER_TABLE_SIZE], display[QAMHUDEER_DISPLAY_SIZE], replies[QAMHUDEER_REPLIES_SIZE], answer[QAMHUDEER_ANSWER_SIZE];
    static const uint8_t combos[1] = {16};
    static const int error[2] = {IOERR_BADADDRESS, 0};
    unsigned board;

    for (board = 0; board < 2; board++) {
        same("fresh", 0, qamhudeer_fresh((uint8_t)(4 + 4 * board), state, sizeof state, table, sizeof table, display, sizeof display));
        same("channels", 4 + 4 * board, state[QAMHUDEER_OFFSET_OF_CHANNELS]);
        CALL(QAMHUDEER_OPEN, 0, 0, 5, 258, combos, 1);
        same("map 16", (size_t)(256 + error[board]), (size_t)(256 + QAMHUDEER_ERROR(answer[QAMHUDEER_ANSWER_ERROR])));
        same("channel 4", 258 * board, 256u * state[4 * QAMHUDEER_CHANNEL_SIZE] + state[4 * QAMHUDEER_CHANNEL_SIZE + 1]);
    }
    state[QAMHUDEER_OFFSET_OF_CHANNELS] = 4; /* channel 4 is not free */
    CALL(QAMHUDEER_CLOSE, 0, 0, 0, 258, combos, 0);
    same("behind the board", QAMHUDEER_UNSOUND, answer[QAMHUDEER_ANSWER_ERROR]);
    state[QAMHUDEER_OFFSET_OF_CHANNELS] = 5;
    CALL(QAMHUDEER_CLOSE, 0, 0, 0, 258, combos, 0);
    same("five channels", QAMHUDEER_UNSOUND, answer[QAMHUDEER_ANSWER_ERROR]);
}

/* What the comments say of the two events: a write of two cycles, with another behind it and a WAITCYCLE. */
static void events(void)
{
    static uint8_t state[QAMHUDEER_STATE_SIZE], table[QAMHUDEER_TABLE_SIZE], display[QAMHUDEER_DISPLAY_SIZE], replies[QAMHUDEER_REPLIES_SIZE], answer[QAMHUDEER_ANSWER_SIZE];
    static const uint8_t combos[1] = {1}, twice[QAMHUDEER_NUMBERS_SIZE] = {0, 2, 0, 1, 44, 50};

    same("fresh", 0, qamhudeer_fresh(4, state, sizeof state, table, sizeof table, display, sizeof display));
    CALL(QAMHUDEER_OPEN, 0, 0, 0, 258, combos, 1);
    CALL(CMD_WRITE, 3, 1, 0, 258, twice, sizeof twice);
    CALL(CMD_WRITE, 4, 1, 0, 258, twice, sizeof twice);
    same("the first of two cycles", 0, CALL(QAMHUDEER_CYCLE_ENDED, 0, 1, 0, 0, combos, 0));
    same("its bit", 1, answer[QAMHUDEER_ANSWER_MAP]);
    same("the last", 1, CALL(QAMHUDEER_CYCLE_ENDED, 0, 1, 0, 0, combos, 0));
    same("the write", 3, replies[QAMHUDEER_REPLY_ID]);
    same("played", 0, replies[QAMHUDEER_REPLY_ERROR]);
    CALL(ADCMD_WAITCYCLE, 7, 1, 0, 258, combos, 0);
    same("given up, with its waiter", 2, CALL(QAMHUDEER_GAVE_UP, 0, 1, 0, 0, combos, 0));
    same("its bit", 1, answer[QAMHUDEER_ANSWER_MAP]);
    same("the next write", 4, replies[QAMHUDEER_REPLY_ID]);
    same("given up", 256 + IOERR_ABORTED, replies[QAMHUDEER_REPLY_ERROR]);
    same("then who waits", 7, replies[QAMHUDEER_REPLY_SIZE + QAMHUDEER_REPLY_ID]);
    same("nothing to give up", 0, CALL(QAMHUDEER_GAVE_UP, 0, 1, 0, 0, combos, 0));
    same("no bit", 0, answer[QAMHUDEER_ANSWER_MAP]);
}

/* What the comments say of the two desks: whose ids are whose, where replies to each stand, and what is 8. Both play on channel 0
 * under one key, passed by hand: A's 31 before B's 32. */
static void desks(void)
{
    static uint8_t state[QAMHUDEER_STATE_SIZE], table[QAMHUDEER_TABLE_SIZE], display[QAMHUDEER_DISPLAY_SIZE], replies[QAMHUDEER_REPLIES_SIZE], answer[QAMHUDEER_ANSWER_SIZE];
    static const uint8_t combos[1] = {1};
    static const uint8_t other[QAMHUDEER_ANSWER_SIZE] = {0, QAMHUDEER_OTHERDESK, 0, 1, 2, 255, 0, 0};
    const uint8_t *b = replies + QAMHUDEER_FIRST_OF_B * QAMHUDEER_REPLY_SIZE;

    same("fresh", 0, qamhudeer_fresh(4, state, sizeof state, table, sizeof table, display, sizeof display));
    CALL_FROM(7, QAMHUDEER_OPEN, 0, 0, 0, 258, combos, 1);
    same("OPEN of no desk", 0, answer[QAMHUDEER_ANSWER_ERROR]);
    memset(replies, 77, sizeof replies);
    same("A's last id", 0, CALL_FROM(QAMHUDEER_DESK_A, CMD_WRITE, QAMHUDEER_FIRST_OF_B - 1, 1, 0, 258, combos, 0));
    same("is outstanding", 1, answer[QAMHUDEER_ANSWER_OUTSTANDING]);
    same("B's first id", 0, CALL_FROM(QAMHUDEER_DESK_B, CMD_WRITE, QAMHUDEER_FIRST_OF_B, 1, 0, 258, combos, 0));
    same("is outstanding", 1, answer[QAMHUDEER_ANSWER_OUTSTANDING]);
    same("A's id from B", 0, CALL_FROM(QAMHUDEER_DESK_B, QAMHUDEER_ABORT, QAMHUDEER_FIRST_OF_B - 1, 0, 0, 258, combos, 0));
    same("is 8", 0, (size_t)memcmp(answer, other, sizeof other));
    same("B's id from A", 0, CALL_FROM(QAMHUDEER_DESK_A, CMD_STOP, 63, 1, 0, 258, combos, 0));
    same("is 8", 0, (size_t)memcmp(answer, other, sizeof other));
    same("an id from no desk", 0, CALL_FROM(2, CMD_STOP, 0, 1, 0, 258, combos, 0));
    same("is 8", 0, (size_t)memcmp(answer, other, sizeof other));
    CALL_FROM(2, CMD_STOP, 64, 1, 0, 258, combos, 0);
    same("an id above 63 is 4", QAMHUDEER_BADID, answer[QAMHUDEER_ANSWER_ERROR]);
    CALL_FROM(QAMHUDEER_DESK_A, CMD_READ, 0, 1, 0, 258, combos, 0);
    same("A reads its own write", QAMHUDEER_FIRST_OF_B - 1, answer[QAMHUDEER_ANSWER_EXTRA]);
    same("and is replied", 1, answer[QAMHUDEER_ANSWER_REPLIES_A]);
    CALL_FROM(QAMHUDEER_DESK_B, CMD_READ, 63, 1, 0, 258, combos, 0);
    same("B does not", 255, answer[QAMHUDEER_ANSWER_EXTRA]);
    same("and is replied", 1, answer[QAMHUDEER_ANSWER_REPLIES_B]);
    same("in its half", 63, b[QAMHUDEER_REPLY_ID]);
    same("all three", 3, CALL_FROM(QAMHUDEER_DESK_B, CMD_FLUSH, 40, 1, 0, 258, combos, 0));
    same("one to A", 1, answer[QAMHUDEER_ANSWER_REPLIES_A]);
    same("its write", QAMHUDEER_FIRST_OF_B - 1, replies[QAMHUDEER_REPLY_ID]);
    same("nothing behind it", 77, replies[QAMHUDEER_REPLY_SIZE]);
    same("two to B", 2, answer[QAMHUDEER_ANSWER_REPLIES_B]);
    same("its write", QAMHUDEER_FIRST_OF_B, b[QAMHUDEER_REPLY_ID]);
    same("then its FLUSH", 40, b[QAMHUDEER_REPLY_SIZE + QAMHUDEER_REPLY_ID]);
    same("nothing behind them", 77, b[2 * QAMHUDEER_REPLY_SIZE]);
}

/* What is refused changes nothing but the answer. */
static void refusals(void)
{
    static uint8_t state[QAMHUDEER_STATE_SIZE], table[QAMHUDEER_TABLE_SIZE], display[QAMHUDEER_DISPLAY_SIZE], replies[QAMHUDEER_REPLIES_SIZE], answer[QAMHUDEER_ANSWER_SIZE + 1];
    static uint8_t state0[sizeof state], table0[sizeof table], display0[sizeof display], replies0[sizeof replies];
    static const uint8_t unsound[QAMHUDEER_ANSWER_SIZE] = {0, QAMHUDEER_UNSOUND, 0, 1, 2, 255, 0, 0};
    static const uint8_t zeros[sizeof answer] = {0};
#define KEEP() (memcpy(state0, state, sizeof state), memcpy(table0, table, sizeof table), memcpy(display0, display, sizeof display), memcpy(replies0, replies, sizeof replies))
#define KEPT(name)                                                                                                               \
    same(name, 0, (size_t)(memcmp(state0, state, sizeof state) || memcmp(table0, table, sizeof table) || memcmp(display0, display, sizeof display) || memcmp(replies0, replies, sizeof replies)))
    same("fresh", 0, qamhudeer_fresh(4, state, sizeof state, table, sizeof table, display, sizeof display));
    memset(replies, 77, sizeof replies);
    KEEP();
    same("fresh, of five channels", 1, qamhudeer_fresh(5, state, sizeof state, table, sizeof table, display, sizeof display));
    same("fresh, state too short", 1, qamhudeer_fresh(4, state, sizeof state - 1, table, sizeof table, display, sizeof display));
    same("fresh, table too short", 1, qamhudeer_fresh(4, state, sizeof state, table, sizeof table - 1, display, sizeof display));
    same("fresh, display too short", 1, qamhudeer_fresh(4, state, sizeof state, table, sizeof table, display, sizeof display - 1));
    same("a display of 17", QAMHUDEER_UNANSWERED, qamhudeer_call(QAMHUDEER_DESK_A, QAMHUDEER_OPEN, 0, 0, 0, 0, 0, zeros, 0, state, sizeof state, table, sizeof table, display, 17, replies, sizeof replies, answer, 8));
    same("no room", QAMHUDEER_UNANSWERED, qamhudeer_call(QAMHUDEER_DESK_A, QAMHUDEER_OPEN, 0, 0, 0, 0, 0, zeros, 0, state, sizeof state, table, sizeof table, display, sizeof display, replies, sizeof replies, answer, 7));
    same("too much room", QAMHUDEER_UNANSWERED, qamhudeer_call(QAMHUDEER_DESK_A, QAMHUDEER_OPEN, 0, 0, 0, 0, 0, zeros, 0, state, sizeof state, table, sizeof table, display, sizeof display, replies, sizeof replies, answer, 9));
    same("no answer", 0, (size_t)memcmp(answer, zeros, sizeof answer));
    KEPT("nothing moved");
    /* a mark of 2 */
    state[QAMHUDEER_CHANNEL_LOCKED] = 2;
    KEEP();
    same("mark", 0, qamhudeer_call(QAMHUDEER_DESK_A, QAMHUDEER_OPEN, 0, 0, 0, 0, 258, zeros, 0, state, sizeof state, table, sizeof table, display, sizeof display, replies, sizeof replies, answer, 8));
    same("unsound", 0, (size_t)memcmp(answer, unsound, sizeof unsound));
    KEPT("mark: nothing moved");
    /* a free channel that is locked */
    state[QAMHUDEER_CHANNEL_LOCKED] = 1;
    memset(answer, 0, sizeof answer);
    KEEP();
    same("locked", 0, qamhudeer_call(QAMHUDEER_DESK_A, QAMHUDEER_OPEN, 0, 0, 0, 0, 258, zeros, 0, state, sizeof state, table, sizeof table, display, sizeof display, replies, sizeof replies, answer, 8));
    same("unsound", 0, (size_t)memcmp(answer, unsound, sizeof unsound));
    KEPT("locked: nothing moved");
    /* a state that is one byte short, and a list of 63 records */
    state[QAMHUDEER_CHANNEL_LOCKED] = 0;
    memset(answer, 0, sizeof answer);
    KEEP();
    same("short", 0, qamhudeer_call(QAMHUDEER_DESK_A, QAMHUDEER_OPEN, 0, 0, 0, 0, 258, zeros, 0, state, sizeof state - 1, table, sizeof table, display, sizeof display, replies, sizeof replies, answer, 8));
    same("unsound", 0, (size_t)memcmp(answer, unsound, sizeof unsound));
    same("list", 0, qamhudeer_call(QAMHUDEER_DESK_A, QAMHUDEER_OPEN, 0, 0, 0, 0, 258, zeros, 0, state, sizeof state, table, sizeof table, display, sizeof display, replies, 383, answer, 8));
    same("list", QAMHUDEER_NOROOM, answer[QAMHUDEER_ANSWER_ERROR]);
    KEPT("short: nothing moved");
}

/* The numbers of the wall display, and who waits. */
static void wall(void)
{
    static uint8_t state[QAMHUDEER_STATE_SIZE], table[QAMHUDEER_TABLE_SIZE], display[QAMHUDEER_DISPLAY_SIZE], replies[QAMHUDEER_REPLIES_SIZE], answer[QAMHUDEER_ANSWER_SIZE];
    static uint8_t records[QAMHUDEER_RECORDS_SIZE + 1];
    static const uint8_t halls[] = {3, 1}, numbers[1] = {0};
    static const uint8_t low[] = {40, 251, 0, 1}, high[] = {2, 5, 1, 0};
    size_t count = 77;
#define ASK(desk, op, id, map, prec, key, list, n) \
    qamhudeer_call(desk, op, id, IOF_QUICK, map, (uint8_t)(prec), key, list, n, state, sizeof state, table, sizeof table, display, sizeof display, replies, sizeof replies, answer, sizeof answer)
#define WAITING(n) qamhudeer_waiting(state, sizeof state, table, sizeof table, records, n, &count)
    memset(display, 77, sizeof display);
    same("fresh", 0, qamhudeer_fresh(4, state, sizeof state, table, sizeof table, display, sizeof display));
    same("a fresh display", 0, display[QAMHUDEER_DISPLAY_WRITES(0)] | display[QAMHUDEER_DISPLAY_NAMING(7)] | display[QAMHUDEER_DISPLAY_LOOKS + 1]);
    memset(records, 77, sizeof records);
    same("nobody waits", 0, WAITING(QAMHUDEER_RECORDS_SIZE));
    same("nobody waits", 0, count);
    ASK(QAMHUDEER_DESK_A, QAMHUDEER_OPEN, 0, 0, 0, 0, halls, 1);
    ASK(QAMHUDEER_DESK_A, CMD_WRITE, 1, 1, 0, 1, numbers, 0);
    same("a write", 1, display[QAMHUDEER_DISPLAY_WRITES(0)]);
    ASK(QAMHUDEER_DESK_A, ADCMD_LOCK, 3, 1, 0, 1, numbers, 0);
    ASK(QAMHUDEER_DESK_B, ADCMD_ALLOCATE, 40, 0, -5, 0, halls, 2);
    ASK(QAMHUDEER_DESK_A, ADCMD_ALLOCATE, 2, 0, 5, 0, halls, 2);
    same("named by two, of whose combinations two name it", 2, display[QAMHUDEER_DISPLAY_NAMING(0)]);
    same("named by two", 2, display[QAMHUDEER_DISPLAY_NAMING(1)]);
    same("looks", 2, 256u * display[QAMHUDEER_DISPLAY_LOOKS] + display[QAMHUDEER_DISPLAY_LOOKS + 1]);
    same("63 records", QAMHUDEER_NOROOM, WAITING(QAMHUDEER_RECORDS_SIZE - QAMHUDEER_RECORD_SIZE));
    same("none told", 0, count);
    same("none written", 77, records[0]);
    same("who waits", 0, WAITING(QAMHUDEER_RECORDS_SIZE));
    same("two", 2, count);
    same("the higher first, held", 0, (size_t)memcmp(records, high, sizeof high));
    same("then the lower, which fails", 0, (size_t)memcmp(records + QAMHUDEER_RECORD_SIZE, low, sizeof low));
    same("nothing behind them", 77, records[2 * QAMHUDEER_RECORD_SIZE]);
    ASK(QAMHUDEER_DESK_A, QAMHUDEER_ABORT, 2, 0, 0, 1, numbers, 0);
    same("one less", 1, display[QAMHUDEER_DISPLAY_NAMING(1)]);
    state[QAMHUDEER_CHANNEL_LOCKED] = 2;
    same("unsound before no room", QAMHUDEER_UNSOUND, WAITING(0));
#undef ASK
#undef WAITING
}

/* What the comments say of a port's bytes, and in which order it is refused. */
static void port(void)
{
    static uint8_t state[QAMHUDEER_STATE_SIZE], table[QAMHUDEER_TABLE_SIZE], display[QAMHUDEER_DISPLAY_SIZE], line[QAMHUDEER_PORT_SIZE + 1], out[QAMHUDEER_ROOM_SIZE];
    static const uint8_t fragment[] = "F00000000000\n";
    size_t used = 77, written = 77;
#define FEED(n, port_len, out_len) \
    qamhudeer_feed(fragment, n, line, port_len, state, sizeof state, table, sizeof table, display, sizeof display, out, out_len, &used, &written)
    same("fresh", 0, qamhudeer_fresh(4, state, sizeof state, table, sizeof table, display, sizeof display));
    same("a port too long, and no room", QAMHUDEER_UNSOUND, FEED(13, QAMHUDEER_PORT_SIZE + 1, 0));
    same("used", 0, used);
    same("written", 0, written);
    same("no room", QAMHUDEER_TOOSMALL, FEED(13, QAMHUDEER_PORT_SIZE, QAMHUDEER_ROOM_SIZE - 1));
    same("taken", 0, FEED(4, QAMHUDEER_PORT_SIZE, QAMHUDEER_ROOM_SIZE));
    same("used", 4, used);
    same("written", 0, written);
    same("started", 4, 256u * line[QAMHUDEER_PORT_STARTED] + line[QAMHUDEER_PORT_STARTED + 1]);
    same("the line", 0, (size_t)memcmp(line + QAMHUDEER_PORT_LINE, fragment, 4));
    same("ended", 0, FEED(13, QAMHUDEER_PORT_SIZE, QAMHUDEER_ROOM_SIZE));
    same("used, with the LF", 13, used);
    same("written", 13, written);
    same("an empty port", 0, line[QAMHUDEER_PORT_STARTED + 1]);
    line[QAMHUDEER_PORT_STARTED] = 2;
    line[QAMHUDEER_PORT_STARTED + 1] = 16; /* 528 characters */
    same("no port", QAMHUDEER_UNSOUND, FEED(0, QAMHUDEER_PORT_SIZE, QAMHUDEER_ROOM_SIZE));
}

/* What docs/desk.md says of the table: 23 bytes an id, of a write with what is remembered, a WAITCYCLE, a lock, two allocations that wait,
 * and an idle id. */
static void entries(void)
{
    static uint8_t state[QAMHUDEER_STATE_SIZE], table[QAMHUDEER_TABLE_SIZE], display[QAMHUDEER_DISPLAY_SIZE];
    static uint8_t replies[QAMHUDEER_REPLIES_SIZE], answer[QAMHUDEER_ANSWER_SIZE];
    static const uint8_t combos[2] = {4, 12}, numbers[6] = {1, 2, 0, 1, 44, 50}, others[6] = {9, 9, 1, 0, 0, 63};
    static const uint8_t write[23] = {CMD_WRITE, 1, 2, 0, 0, 0, 12, 1, 2, 0, 1, 44, 50, 1, 1, 1, 0, 0, 63};
    static const uint8_t waiter[23] = {ADCMD_WAITCYCLE, 1, 2, 4}, lock[23] = {ADCMD_LOCK, 1, 2, 4};
    static const uint8_t waits[23] = {ADCMD_ALLOCATE, 0, 0, 0, 128 - 6, 0, 2, 4, 12};
    static const uint8_t nowait[23] = {ADCMD_ALLOCATE, 1, 3, 0, 128 + 7, 1, 1, 4};
    static const uint8_t idle[23] = {0};
#define ENTRY(name, id, bytes) same(name, 0, (size_t)(memcmp(table + 23 * (id), bytes, 23) != 0))
#define ASK(op, id, flags, map, prec, key, list, n)                                                                              \
    qamhudeer_call(QAMHUDEER_DESK_A, op, id, flags, map, (uint8_t)(prec), key, list, n, state, sizeof state, table, sizeof table, \
                   display, sizeof display, replies, sizeof replies, answer, sizeof answer)
    same("the table", QAMHUDEER_TABLE_SIZE, 64 * 23);
    same("fresh", 0, qamhudeer_fresh(4, state, sizeof state, table, sizeof table, display, sizeof display));
    ASK(QAMHUDEER_OPEN, 0, 0, 0, 5, 258, combos, 1);
    ASK(CMD_WRITE, 3, 0, 4, 0, 258, numbers, 6);
    ASK(ADCMD_WAITCYCLE, 7, 0, 4, 0, 258, combos, 0);
    ASK(ADCMD_FINISH, 5, ADIOF_SYNCCYCLE, 4, 0, 258, combos, 0);
    ASK(ADCMD_PERVOL, 6, ADIOF_SYNCCYCLE, 4, 0, 258, others, 6);
    ASK(ADCMD_LOCK, 9, 0, 4, 0, 258, combos, 0);
    ENTRY("a write's entry", 3, write);
    ENTRY("a WAITCYCLE's entry", 7, waiter);
    ENTRY("a lock's entry", 9, lock);
    ASK(ADCMD_ALLOCATE, 11, 0, 0, -6, 0, combos, 2);
    ASK(ADCMD_ALLOCATE, 12, ADIOF_NOWAIT, 0, 7, 259, combos, 1);
    ENTRY("a waiting allocation's entry", 11, waits);
    ENTRY("one with NOWAIT, held by a lock", 12, nowait);
    ENTRY("an idle entry", 9, idle);
#undef ASK
#undef ENTRY
}

/* The version is one: the line that scripts take, its three numbers, and the library's own. */
static void version(void)
{
    char text[40];

    sprintf(text, "%d.%d.%d", QAMHUDEER_VERSION_MAJOR, QAMHUDEER_VERSION_MINOR, QAMHUDEER_VERSION_PATCH);
    same("the version's three numbers", 0, (size_t)(strcmp(text, QAMHUDEER_VERSION) != 0));
    same("the version", QAMHUDEER_VERSION_NUMBER, qamhudeer_version());
}

/* The names of the NDK, by what its own headers say of them: flags by their bits, the device's commands from CMD_NONSTD on. */
static void names(void)
{
    same("IOF_QUICK", IOF_QUICK, 1u << IOB_QUICK);
    same("ADIOF_PERVOL", ADIOF_PERVOL, 1u << ADIOB_PERVOL);
    same("ADIOF_SYNCCYCLE", ADIOF_SYNCCYCLE, 1u << ADIOB_SYNCCYCLE);
    same("ADIOF_NOWAIT", ADIOF_NOWAIT, 1u << ADIOB_NOWAIT);
    same("ADIOF_WRITEMESSAGE", ADIOF_WRITEMESSAGE, 1u << ADIOB_WRITEMESSAGE);
    same("CMD_INVALID", CMD_INVALID, CMD_RESET - 1);
    same("CMD_NONSTD", CMD_NONSTD, CMD_FLUSH + 1);
    same("ADCMD_FREE", ADCMD_FREE, CMD_NONSTD);
    same("ADCMD_WAITCYCLE", ADCMD_WAITCYCLE, CMD_NONSTD + 5);
    same("precedences", ADALLOC_MAXPREC - ADALLOC_MINPREC, 255);
}

int main(void)
{
    version();
    names();
    entries();
    same("state", QAMHUDEER_STATE_SIZE, qamhudeer_state_size());
    same("table", QAMHUDEER_TABLE_SIZE, qamhudeer_table_size());
    same("display", QAMHUDEER_DISPLAY_SIZE, qamhudeer_display_size());
    same("records", QAMHUDEER_RECORDS_SIZE, qamhudeer_records_size());
    same("records of 64", QAMHUDEER_RECORDS_SIZE, 64 * QAMHUDEER_RECORD_SIZE);
    same("replies", QAMHUDEER_REPLIES_SIZE, qamhudeer_replies_size());
    same("answer", QAMHUDEER_ANSWER_SIZE, qamhudeer_answer_size());
    same("channel", QAMHUDEER_CHANNEL_SIZE, qamhudeer_channel_size());
    same("port", QAMHUDEER_PORT_SIZE, qamhudeer_port_size());
    same("room", QAMHUDEER_ROOM_SIZE, qamhudeer_room_size());
    same("text", QAMHUDEER_TEXT_SIZE, qamhudeer_text_size());
    same("text of the second form", QAMHUDEER_TEXT2_SIZE, qamhudeer_text2_size());
    same("locks", QAMHUDEER_OFFSET_OF_LOCKS, qamhudeer_offset_of_locks());
    same("waiters", QAMHUDEER_OFFSET_OF_WAITERS, qamhudeer_offset_of_waiters());
    same("waiting", QAMHUDEER_OFFSET_OF_WAITING, qamhudeer_offset_of_waiting());
    same("opens", QAMHUDEER_OFFSET_OF_OPENS, qamhudeer_offset_of_opens());
    same("last", QAMHUDEER_OFFSET_OF_LAST, qamhudeer_offset_of_last());
    same("channels", QAMHUDEER_OFFSET_OF_CHANNELS, qamhudeer_offset_of_channels());
    same("a reply list of 64", QAMHUDEER_REPLIES_SIZE, 64 * QAMHUDEER_REPLY_SIZE);
    places();
    boards();
    events();
    desks();
    refusals();
    wall();
    port();
    return wrong;
}
