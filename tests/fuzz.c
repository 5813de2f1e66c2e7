/* Any bytes through the library, held against the second program: fuzz SEED TRIES CHANNELS <LOG. CHANNELS is 4 or 8, the board's.
 *
 * The log's frames lead through good states. Each frame is called on the good state, and TRIES times more on a copy whose state,
 * table, numbers or lengths are damaged. What must come back is worked out from the second program: the bytes are translated into
 * its struct; where its test calls that sound, its call decides the answer, the replies, the next state and table; otherwise the
 * answer is 1 and nothing else has moved. So of the display, and of the list of who waits. Every byte is compared, with the bytes before and behind each piece of memory, beyond
 * which lie pages that can be neither read nor written. The same seed, tries and log give the same calls on every machine.
 *
 * At a difference it says which byte, shows the call and ends with status 1. Otherwise it writes a line for each count. */
#include <stdio.h>
#include <stdlib.h>
#include <string.h>

#include "../second/chance.h"
#include "states.h"

/* What is handed to a call; or, after it, what the lent memory holds. */
enum Piece { COMBOS, STATE, TABLE, DISPLAY, REPLIES, ANSWER, RECORDS, PIECES };
static const char *const piece_name[PIECES] = {"combinations", "state", "table", "display", "replies", "answer", "records"};

struct Call {
    uint8_t desk, op, id, flags, map, prec;
    uint16_t key;
    struct Bytes piece[PIECES];
};

/* ---- What was tried */

enum Count {
    CALLS, SOUND, ACCEPTED, REFUSED, DAMAGED_SOUND, UNSOUND, UNDECODED, UNANSWERED, REPLIED, TO_BOTH, FROM_A, FROM_B, FROM_NO_DESK,
    OTHERS_READ, CYCLES, GIVEN_UP, FRESH, OFF_COUNT, MANY_LOOKS, LISTS, LISTS_UNSOUND, LISTS_SHORT, LISTED, HELD, COUNTS
};
static const char *const count_name[COUNTS] = {
    "calls", "sound", "sound: accepted", "sound: refused", "sound: state or table was damaged", "not sound",
    "no state: a length or a mark", "no room for an answer", "replies", "replies to both desks", "accepted from A",
    "accepted from B", "accepted from no desk", "READs of the other's write", "cycles ended", "writes given up", "fresh devices",
    "numbers on the display that no count gives", "more looks than requests wait", "lists of who waits", "lists: not sound",
    "lists: fewer than 64 records", "lists: requests told", "lists: held requests told"
};
static unsigned long count[COUNTS];
static unsigned long answered[2][256], replied[256];        /* by error; answers: done, outstanding */

static unsigned board;                      /* how many channels the good states have */
static struct Lent lent[PIECES];

/* ---- What must come back */

static void put_answer(uint8_t *b, const struct Answer *answer, const struct Replies *replies)
{
    b[QAMHUDEER_ANSWER_OUTSTANDING] = answer->outstanding;
    b[QAMHUDEER_ANSWER_ERROR] = (uint8_t)answer->error;
    b[QAMHUDEER_ANSWER_MAP] = answer->map;
    put_key(b + QAMHUDEER_ANSWER_KEY, answer->key);
    b[QAMHUDEER_ANSWER_EXTRA] = answer->last;
    b[QAMHUDEER_ANSWER_REPLIES_A] = (uint8_t)replies->count[DESK_A];
    b[QAMHUDEER_ANSWER_REPLIES_B] = (uint8_t)replies->count[DESK_B];
}

static void put_reply(uint8_t *b, const struct Reply *reply)
{
    b[QAMHUDEER_REPLY_ID] = reply->id;
    b[QAMHUDEER_REPLY_COMMAND] = reply->command;
    b[QAMHUDEER_REPLY_ERROR] = (uint8_t)reply->error;
    b[QAMHUDEER_REPLY_MAP] = reply->map;
    put_key(b + QAMHUDEER_REPLY_KEY, reply->key);
}

/* A frame has at most 255 combinations. A longer list is refused, or not read, as one of 255 is. */
static void read_frame(struct Frame *f, const struct Call *c)
{
    size_t n = c->piece[COMBOS].length;

    memset(f, 0, sizeof *f);
    f->desk = c->desk;
    f->operation = c->op;
    f->id = c->id;
    f->flags = c->flags;
    f->map = c->map;
    f->precedence = twos(c->prec);
    f->key = c->key;
    f->length = (uint8_t)(n < 255 ? n : 255);
    memcpy(f->combination, c->piece[COMBOS].byte, f->length);
}

static int refusal(int error)
{
    return (error >= 1 && error <= 5) || error == 8 || error == -1 || (error <= -3 && error >= -5);
}

/* The call becomes what the lent memory must hold after it. The result is the one that must be returned. */
static size_t expected(struct Call *c)
{
    struct Reply record[REQUESTS];
    struct Replies replies = {.record = record, .capacity = c->piece[REPLIES].length / QAMHUDEER_REPLY_SIZE};
    struct Answer answer = {0, QAMHUDEER_UNSOUND, 0, 0, NO_ID};
    struct Arbiter a;
    struct Display d;
    struct Frame f;

    if (c->piece[ANSWER].length != QAMHUDEER_ANSWER_SIZE || c->piece[DISPLAY].length != QAMHUDEER_DISPLAY_SIZE)
        return QAMHUDEER_UNANSWERED;
    if (!is_sound(&c->piece[STATE], &c->piece[TABLE], &a)) {
        answer.key = c->key;
        put_answer(c->piece[ANSWER].byte, &answer, &replies);
        return 0;
    }
    read_frame(&f, c);
    read_display(&d, c->piece[DISPLAY].byte);
    answer = arbiter_call_shown(&a, &d, &f, &replies);
    put_answer(c->piece[ANSWER].byte, &answer, &replies);
    for (size_t at = 0; at < REQUESTS; at++)
        if (at % HALF < replies.count[at / HALF])
            put_reply(c->piece[REPLIES].byte + at * QAMHUDEER_REPLY_SIZE, &record[at]);
    if (!refusal(answer.error))
        put_all(c->piece[STATE].byte, c->piece[TABLE].byte, &a);
    put_display(c->piece[DISPLAY].byte, &d);
    return arbiter_replied(&replies);
}

/* ---- A call */

static void show(const struct Call *c)
{
    printf("    desk %u, operation %02X, id %u, flags %02X, map %02X, precedence %02X, key %u\n",
           c->desk, c->op, c->id, c->flags, c->map, c->prec, c->key);
    for (unsigned p = 0; p < PIECES; p++)
        show_bytes(piece_name[p], &c->piece[p]);
}

static void different(const struct Call *c)
{
    printf("    in seed %lu, line %lu, try %lu\n", where.seed, where.line, where.try);
    show(c);
    exit(1);
}

/* A READ that is done and tells no id, on a channel where a write is in progress. */
static int reads_others(const struct Call *before, const uint8_t *answer, const struct Arbiter *a)
{
    if (before->op != CMD_READ || answer[QAMHUDEER_ANSWER_ERROR] != 0 || answer[QAMHUDEER_ANSWER_EXTRA] != NO_ID)
        return 0;
    for (unsigned c = 0; c < a->channels; c++)
        if (answer[QAMHUDEER_ANSWER_MAP] == 1u << c)
            return a->channel[c].writes.count > 0 && !a->channel[c].stopped;
    return 0;
}

/* Some number on the display is not the count of it. */
static int off_count(const struct Arbiter *a, const uint8_t *display)
{
    for (unsigned c = 0; c < MOST_CHANNELS; c++) {
        unsigned naming = 0;

        for (unsigned at = 0; at < a->waiting.count; at++) {
            const struct Request *q = &a->request[a->waiting.id[at]];
            unsigned named = 0;

            for (unsigned i = 0; i < q->length; i++)
                named |= q->combination[i];
            naming += named >> c & 1;
        }
        if (display[QAMHUDEER_DISPLAY_WRITES(c)] != a->channel[c].writes.count || display[QAMHUDEER_DISPLAY_NAMING(c)] != naming)
            return 1;
    }
    return 0;
}

static void tell_apart(const struct Call *before, const struct Call *after, size_t result, int damaged)
{
    struct Arbiter a;
    const uint8_t *answer = after->piece[ANSWER].byte;
    uint8_t error = answer[QAMHUDEER_ANSWER_ERROR];

    count[CALLS]++;
    if (before->piece[ANSWER].length != QAMHUDEER_ANSWER_SIZE || before->piece[DISPLAY].length != QAMHUDEER_DISPLAY_SIZE) {
        count[UNANSWERED]++;
        return;
    }
    answered[answer[QAMHUDEER_ANSWER_OUTSTANDING] & 1][error]++;
    if (!decodes(&before->piece[STATE])) {
        count[UNDECODED]++;
    } else if (!is_sound(&before->piece[STATE], &before->piece[TABLE], &a)) {
        count[UNSOUND]++;
    } else {
        count[SOUND]++;
        count[DAMAGED_SOUND] += (unsigned)damaged;
        if (refusal(QAMHUDEER_ERROR(error))) {
            count[REFUSED]++;
        } else {
            count[ACCEPTED]++;
            count[before->desk == DESK_A ? FROM_A : before->desk == DESK_B ? FROM_B : FROM_NO_DESK]++;
        }
        count[REPLIED] += (unsigned long)result;
        count[OFF_COUNT] += (unsigned long)off_count(&a, before->piece[DISPLAY].byte);
        count[MANY_LOOKS] += key_at(after->piece[DISPLAY].byte + QAMHUDEER_DISPLAY_LOOKS) > a.waiting.count + 1u
            && memcmp(before->piece[DISPLAY].byte, after->piece[DISPLAY].byte, QAMHUDEER_DISPLAY_SIZE) != 0;
        count[TO_BOTH] += answer[QAMHUDEER_ANSWER_REPLIES_A] > 0 && answer[QAMHUDEER_ANSWER_REPLIES_B] > 0;
        count[OTHERS_READ] += (unsigned long)reads_others(before, answer, &a);
        count[CYCLES] += before->op == QAMHUDEER_CYCLE_ENDED && error == 0 && answer[QAMHUDEER_ANSWER_MAP] != 0;
        count[GIVEN_UP] += before->op == QAMHUDEER_GAVE_UP && error == 0 && answer[QAMHUDEER_ANSWER_MAP] != 0;
        for (size_t at = 0; at < REQUESTS; at++)
            if (at % HALF < answer[QAMHUDEER_ANSWER_REPLIES_A + at / HALF])
                replied[after->piece[REPLIES].byte[at * QAMHUDEER_REPLY_SIZE + QAMHUDEER_REPLY_ERROR]]++;
    }
}

/* Makes the call through the library and compares. The call becomes what the memory holds after it. Whether its state or
   table is damaged is only counted. */
static void make_call(struct Call *c, int damaged)
{
    static struct Call before;
    size_t want, result;
    int same;

    before = *c;
    want = expected(c);
    for (unsigned p = 0; p < PIECES; p++)
        lend(&lent[p], &before.piece[p]);
    result = qamhudeer_call(before.desk, before.op, before.id, before.flags, before.map, before.prec, before.key,
                            lent[COMBOS].at, lent[COMBOS].length, lent[STATE].at, lent[STATE].length,
                            lent[TABLE].at, lent[TABLE].length, lent[DISPLAY].at, lent[DISPLAY].length,
                            lent[REPLIES].at, lent[REPLIES].length, lent[ANSWER].at, lent[ANSWER].length);
    same = result == want;
    if (!same)
        printf("DIFFERENT: the result is %lu and must be %lu\n", (unsigned long)result, (unsigned long)want);
    for (unsigned p = 0; p < PIECES; p++)
        same &= lent_same(&lent[p], &c->piece[p], piece_name[p]);
    if (!same)
        different(&before);
    tell_apart(&before, c, result, damaged);
}

/* A fresh device with any number of channels, in memory of any size. */
static void make_fresh(const struct Call *c, unsigned channels)
{
    static struct Call after;
    int fits = (channels == 4 || channels == 8) && c->piece[STATE].length == QAMHUDEER_STATE_SIZE
        && c->piece[TABLE].length == QAMHUDEER_TABLE_SIZE && c->piece[DISPLAY].length == QAMHUDEER_DISPLAY_SIZE;
    uint8_t result;
    struct Arbiter a;

    after = *c;
    if (fits) {
        arbiter_fresh(&a, channels);
        put_all(after.piece[STATE].byte, after.piece[TABLE].byte, &a);
        memset(after.piece[DISPLAY].byte, 0, QAMHUDEER_DISPLAY_SIZE);
    }
    for (unsigned p = STATE; p <= DISPLAY; p++)
        lend(&lent[p], &c->piece[p]);
    result = qamhudeer_fresh((uint8_t)channels, lent[STATE].at, lent[STATE].length, lent[TABLE].at, lent[TABLE].length,
                             lent[DISPLAY].at, lent[DISPLAY].length);
    count[FRESH]++;
    if (result != !fits) {
        printf("DIFFERENT: a fresh device returns %u\n", result);
        different(c);
    }
    for (unsigned p = STATE; p <= DISPLAY; p++)
        if (!lent_same(&lent[p], &after.piece[p], piece_name[p]))
            different(c);
}

/* The list of who waits must become this, and so must the number returned. */
static unsigned expected_list(struct Call *c, size_t *told)
{
    struct Waiting record[REQUESTS];
    struct Arbiter a;
    uint8_t *b = c->piece[RECORDS].byte;
    unsigned result;

    *told = 0;
    if (!is_sound(&c->piece[STATE], &c->piece[TABLE], &a))
        return QAMHUDEER_UNSOUND;
    result = (unsigned)arbiter_waiting(&a, record, c->piece[RECORDS].length / QAMHUDEER_RECORD_SIZE, told);
    for (size_t at = 0; at < *told; at++) {
        b[QAMHUDEER_RECORD_SIZE * at + QAMHUDEER_RECORD_ID] = record[at].id;
        b[QAMHUDEER_RECORD_SIZE * at + QAMHUDEER_RECORD_PRECEDENCE] = (uint8_t)record[at].precedence;
        b[QAMHUDEER_RECORD_SIZE * at + QAMHUDEER_RECORD_HELD] = record[at].held;
        b[QAMHUDEER_RECORD_SIZE * at + QAMHUDEER_RECORD_DESK] = record[at].desk;
        count[HELD] += record[at].held;
    }
    return result;
}

/* Who waits, told into a list of any length. */
static void make_list(const struct Call *c)
{
    static struct Call after;
    size_t told, want_told;
    unsigned result, want;
    int same;

    after = *c;
    told = below(100);
    want = expected_list(&after, &want_told);
    lend(&lent[STATE], &c->piece[STATE]);
    lend(&lent[TABLE], &c->piece[TABLE]);
    lend(&lent[RECORDS], &c->piece[RECORDS]);
    result = qamhudeer_waiting(lent[STATE].at, lent[STATE].length, lent[TABLE].at, lent[TABLE].length, lent[RECORDS].at,
                               lent[RECORDS].length, &told);
    same = result == want && told == want_told;
    if (!same)
        printf("DIFFERENT: the list returns %u and tells %lu, and must return %u and tell %lu\n", result, (unsigned long)told, want,
               (unsigned long)want_told);
    same &= lent_same(&lent[STATE], &after.piece[STATE], piece_name[STATE]);
    same &= lent_same(&lent[TABLE], &after.piece[TABLE], piece_name[TABLE]);
    same &= lent_same(&lent[RECORDS], &after.piece[RECORDS], piece_name[RECORDS]);
    if (!same)
        different(c);
    count[LISTS]++;
    count[LISTS_UNSOUND] += result == QAMHUDEER_UNSOUND;
    count[LISTS_SHORT] += result == QAMHUDEER_NOROOM;
    count[LISTED] += (unsigned long)told;
}

/* ---- Damage */

static void damage_length(struct Call *c)
{
    /* Beside 16, and beside what fits a byte: 257 are not 1. */
    static const uint16_t lists[8] = {0, 16, 17, 255, 256, 257, 272, 1024};
    unsigned odds = below(10), pick = below(8);

    if (odds == 8)
        stretch(&c->piece[DISPLAY], any_length(QAMHUDEER_DISPLAY_SIZE) % 64);
    else if (odds == 9)
        stretch(&c->piece[RECORDS], percent(50) ? any_length(QAMHUDEER_RECORDS_SIZE) : QAMHUDEER_RECORD_SIZE * below(70));
    else if (odds < 3)
        stretch(&c->piece[COMBOS], lists[pick]);
    else if (odds < 4)
        damage_state_length(&c->piece[STATE]);
    else if (odds < 5)
        damage_table_length(&c->piece[TABLE]);
    else if (odds < 7)
        stretch(&c->piece[REPLIES], percent(50) ? any_length(QAMHUDEER_REPLIES_SIZE) : QAMHUDEER_REPLY_SIZE * below(70));
    else
        stretch(&c->piece[ANSWER], any_length(QAMHUDEER_ANSWER_SIZE) % 32);
}

static void damage_numbers(struct Call *c)
{
    static const uint8_t ops[20] = {0xF0, 0xF1, 0xF2, 0xF3, 0xF3, 0xF4, 0xF4, 0xF5, 1, 2, 3, 6, 8, 9, 10, 11, 12, 13, 14, 32};
    static const uint8_t desks[8] = {0, 0, 1, 1, 2, 2, 3, 255};
    unsigned value = below(256), odds = below(12);

    switch (odds) {
    case 10: case 11: c->desk = percent(80) ? desks[value % 8] : (uint8_t)value; break;
    case 0: c->op = (uint8_t)value; break;
    case 1: case 2: case 3: c->op = ops[value % 20]; break;
    case 4: c->id = (uint8_t)value; break;
    case 5: c->flags = (uint8_t)value; break;
    case 6: c->map = (uint8_t)(percent(70) ? value % 16 : value); break;
    case 7: c->prec = (uint8_t)value; break;
    case 8: c->key = (uint16_t)(percent(50) ? value % 8 : 256 * value + below(256)); break;
    default:
        if (c->piece[COMBOS].length > 0) {
            unsigned at = below((unsigned)c->piece[COMBOS].length);

            c->piece[COMBOS].byte[at] = (uint8_t)(percent(70) ? value % 16 : value);
        }
        break;
    }
}

/* State and table still have their lengths: these are damaged last. */
static void damage_once(struct Call *c)
{
    unsigned odds = below(100);

    if (odds < 82)
        damage_state(c->piece[STATE].byte, c->piece[TABLE].byte, board);
    else if (odds < 84)
        damage_all(&c->piece[STATE], &c->piece[TABLE]);
    else
        damage_numbers(c);
}

static void damage(struct Call *c)
{
    unsigned times = 1 + below(3);

    for (unsigned i = 0; i < times; i++)
        damage_once(c);
    if (percent(20))
        damage_length(c);
}

/* ---- A run */

static struct Call good, stray;             /* the log's state and table; a damaged state that was sound, and went on */

/* Its desk is the one that the log means, but for some, which are refused: so that the log's state hardly suffers. */
static void take_frame(struct Call *c, const struct Frame *f)
{
    c->desk = (uint8_t)(percent(97) ? f->desk : percent(50) ? 1u - f->desk : 2 + below(254));
    c->op = f->operation;
    c->id = f->id;
    c->flags = f->flags;
    c->map = f->map;
    c->prec = (uint8_t)f->precedence;
    c->key = f->key;
    c->piece[COMBOS].length = f->length;
    memcpy(c->piece[COMBOS].byte, f->combination, f->length);
    fill(&c->piece[REPLIES], QAMHUDEER_REPLIES_SIZE);
    if (percent(25))
        stretch(&c->piece[REPLIES], QAMHUDEER_REPLIES_SIZE + below(40));
    fill(&c->piece[ANSWER], QAMHUDEER_ANSWER_SIZE);
    fill(&c->piece[RECORDS], QAMHUDEER_RECORDS_SIZE + (percent(75) ? 0 : below(40)));
}

static int same_bytes(const struct Bytes *one, const struct Bytes *two)
{
    return one->length == two->length && memcmp(one->byte, two->byte, one->length) == 0;
}

static void try_damaged(const struct Frame *f)
{
    static struct Call c, whole;
    struct Arbiter a;

    whole = percent(30) ? stray : good;
    c = whole;
    take_frame(&c, f);
    damage(&c);
    if (percent(20))
        damage_display(&c.piece[DISPLAY]);
    if (percent(10))
        make_list(&c);
    if (percent(2))
        make_fresh(&c, percent(60) ? board : below(percent(50) ? 12 : 256));
    make_call(&c, !same_bytes(&c.piece[STATE], &whole.piece[STATE]) || !same_bytes(&c.piece[TABLE], &whole.piece[TABLE]));
    if (c.piece[ANSWER].length == QAMHUDEER_ANSWER_SIZE && c.piece[DISPLAY].length == QAMHUDEER_DISPLAY_SIZE && is_sound(&c.piece[STATE], &c.piece[TABLE], &a))
        stray = c;
}

static void play_line(const struct Frame *f, unsigned long tries)
{
    for (where.try = 1; where.try <= tries; where.try++)
        try_damaged(f);
    where.try = 0;
    take_frame(&good, f);
    make_call(&good, 0);
    make_list(&good);
    if (percent(4))
        stray = good;
}

int main(int words, char **word)
{
    struct Frame f;
    enum Line kind;
    unsigned long tries;

    if (words == 4)
        board = (unsigned)strtoul(word[3], NULL, 10);
    if (board != 4 && board != 8) {
        fputs("usage: fuzz SEED TRIES 4|8 <LOG\n", stderr);
        return 2;
    }
    where.seed = strtoul(word[1], NULL, 10);
    tries = strtoul(word[2], NULL, 10);
    chance_seed(where.seed);
    lent_pages(lent, PIECES);
    fill(&good.piece[STATE], QAMHUDEER_STATE_SIZE);
    fill(&good.piece[TABLE], QAMHUDEER_TABLE_SIZE);
    fill(&good.piece[DISPLAY], QAMHUDEER_DISPLAY_SIZE);
    make_fresh(&good, board);
    memcpy(good.piece[STATE].byte, lent[STATE].at, QAMHUDEER_STATE_SIZE);
    memcpy(good.piece[TABLE].byte, lent[TABLE].at, QAMHUDEER_TABLE_SIZE);
    memcpy(good.piece[DISPLAY].byte, lent[DISPLAY].at, QAMHUDEER_DISPLAY_SIZE);
    stray = good;
    for (where.line = 1; (kind = log_read(stdin, &f)) != LINE_NONE; where.line++)
        if (kind == LINE_FRAME)
            play_line(&f, tries);
    for (unsigned i = 0; i < COUNTS; i++)
        printf("count %lu %s\n", count[i], count_name[i]);
    for (unsigned i = 0; i < 256; i++) {
        printf("count %lu answer %d\n", answered[0][i], QAMHUDEER_ERROR(i));
        printf("count %lu outstanding %d\n", answered[1][i], QAMHUDEER_ERROR(i));
        printf("count %lu reply %d\n", replied[i], QAMHUDEER_ERROR(i));
    }
    return fflush(stdout) != 0 || ferror(stdout);
}
