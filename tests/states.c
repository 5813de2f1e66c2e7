/* States and tables as bytes. states.h says what each function does. */
#include "states.h"

#include "../second/chance.h"

#include <string.h>

#define ENTRY 23u                           /* bytes of a table's entry */
#define NUMBERS 12u                         /* bytes of a write's numbers */

int8_t twos(uint8_t b)
{
    return (int8_t)(b < 128 ? b : (int)b - 256);
}

static int8_t plus_128(uint8_t b)
{
    return (int8_t)((int)b - 128);
}

uint16_t key_at(const uint8_t *b)
{
    return (uint16_t)(256u * b[0] + b[1]);
}

void put_key(uint8_t *b, uint16_t key)
{
    b[0] = (uint8_t)(key >> 8);
    b[1] = (uint8_t)(key & 255);
}

void read_display(struct Display *d, const uint8_t *b)
{
    for (unsigned c = 0; c < MOST_CHANNELS; c++) {
        d->writes[c] = b[QAMHUDEER_DISPLAY_WRITES(c)];
        d->naming[c] = b[QAMHUDEER_DISPLAY_NAMING(c)];
    }
    d->looks = key_at(b + QAMHUDEER_DISPLAY_LOOKS);
}

void put_display(uint8_t *b, const struct Display *d)
{
    for (unsigned c = 0; c < MOST_CHANNELS; c++) {
        b[QAMHUDEER_DISPLAY_WRITES(c)] = d->writes[c];
        b[QAMHUDEER_DISPLAY_NAMING(c)] = d->naming[c];
    }
    put_key(b + QAMHUDEER_DISPLAY_LOOKS, d->looks);
}

static void read_queue(struct Ids *q, const uint8_t *b)
{
    q->count = b[0];
    memcpy(q->id, b + 1, REQUESTS);
}

static void put_queue(uint8_t *b, const struct Ids *q)
{
    b[0] = q->count;
    memcpy(b + 1, q->id, REQUESTS);
}

static uint32_t period_at(const uint8_t *b)
{
    return 65536u * b[0] + 256u * b[1] + b[2];
}

static void put_period(uint8_t *b, uint32_t period)
{
    b[0] = (uint8_t)(period >> 16);
    b[1] = (uint8_t)(period >> 8 & 255);
    b[2] = (uint8_t)(period & 255);
}

/* A write has its numbers where an allocation has combinations: twelve bytes, of which the last six are what it remembers. */
static void read_entry(struct Request *q, const uint8_t *b)
{
    q->command = b[0];
    q->key = key_at(b + 1);
    q->map = b[3];
    /* Only a waiting allocation has a precedence; in any other entry 0 means nothing, and stands as 0. */
    q->precedence = b[0] == ADCMD_ALLOCATE ? plus_128(b[4]) : twos(b[4]);
    q->nowait = b[5];
    if (b[0] == CMD_WRITE) {
        q->length = (uint8_t)(b[6] - NUMBERS);
        q->cycles = key_at(b + 7);
        q->period = period_at(b + 9);
        q->volume = b[12];
        memcpy(q->combination, b + 7 + NUMBERS, COMBINATIONS - NUMBERS);
        return;
    }
    q->length = b[6];
    memcpy(q->combination, b + 7, COMBINATIONS);
}

static void put_entry(uint8_t *b, const struct Request *q)
{
    b[0] = q->command;
    put_key(b + 1, q->key);
    b[3] = q->map;
    b[4] = (uint8_t)(q->command == ADCMD_ALLOCATE ? q->precedence + 128 : q->precedence);
    b[5] = q->nowait;
    if (q->command == CMD_WRITE) {
        memset(b + 7, 0, COMBINATIONS);
        b[6] = NUMBERS;
        put_key(b + 7, q->cycles);
        put_period(b + 9, q->period);
        b[12] = q->volume;
        return;
    }
    b[6] = q->length;
    memcpy(b + 7, q->combination, COMBINATIONS);
}

/* What is remembered stands in the front write's entry, and nothing in the entry of any other write. */
static int memory_fits(const struct Arbiter *a, const uint8_t *table)
{
    static const uint8_t none[6];

    for (unsigned id = 0; id < REQUESTS; id++) {
        int front = 0;

        for (unsigned c = 0; c < MOST_CHANNELS; c++)
            front = front || (a->channel[c].writes.count > 0 && a->channel[c].writes.id[0] == id);
        if (table[id * ENTRY] == CMD_WRITE && !front && memcmp(table + id * ENTRY + 13, none, sizeof none) != 0)
            return 0;
    }
    return 1;
}

static void read_memory(struct Arbiter *a, const uint8_t *table)
{
    for (unsigned c = 0; c < MOST_CHANNELS; c++) {
        struct Channel *channel = &a->channel[c];
        unsigned id = channel->writes.id[0];
        const uint8_t *b = table + id * ENTRY + 13;

        if (channel->writes.count == 0 || id >= REQUESTS || table[id * ENTRY] != CMD_WRITE)
            continue;
        channel->finish = b[0];
        channel->pervol = b[1];
        channel->period = period_at(b + 2);
        channel->volume = b[5];
    }
}

static void put_memory(uint8_t *table, const struct Arbiter *a)
{
    for (unsigned c = 0; c < MOST_CHANNELS; c++) {
        const struct Channel *channel = &a->channel[c];
        uint8_t *b = table + channel->writes.id[0] * ENTRY + 13;

        if (channel->writes.count == 0)
            continue;
        b[0] = channel->finish;
        b[1] = channel->pervol;
        put_period(b + 2, channel->period);
        b[5] = channel->volume;
    }
}

void read_all(struct Arbiter *a, const uint8_t *state, const uint8_t *table)
{
    memset(a, 0, sizeof *a);
    for (unsigned c = 0; c < MOST_CHANNELS; c++) {
        const uint8_t *b = state + c * QAMHUDEER_CHANNEL_SIZE;

        a->channel[c].key = key_at(b + QAMHUDEER_CHANNEL_KEY);
        a->channel[c].precedence = plus_128(b[QAMHUDEER_CHANNEL_PRECEDENCE]);
        a->channel[c].locked = b[QAMHUDEER_CHANNEL_LOCKED];
        a->channel[c].stopped = b[QAMHUDEER_CHANNEL_STOPPED];
        read_queue(&a->channel[c].writes, b + QAMHUDEER_CHANNEL_WRITES);
    }
    read_queue(&a->locks, state + QAMHUDEER_OFFSET_OF_LOCKS);
    read_queue(&a->cycles, state + QAMHUDEER_OFFSET_OF_WAITERS);
    read_queue(&a->waiting, state + QAMHUDEER_OFFSET_OF_WAITING);
    a->channels = state[QAMHUDEER_OFFSET_OF_CHANNELS];
    a->open.count = state[QAMHUDEER_OFFSET_OF_OPENS];
    for (unsigned at = 0; at < MOST_OPENS; at++)
        a->open.key[at] = key_at(state + QAMHUDEER_OFFSET_OF_OPENS + 1 + 2 * at);
    a->last_key = key_at(state + QAMHUDEER_OFFSET_OF_LAST);
    for (unsigned id = 0; id < REQUESTS; id++)
        read_entry(&a->request[id], table + id * ENTRY);
    read_memory(a, table);
}

void put_all(uint8_t *state, uint8_t *table, const struct Arbiter *a)
{
    for (unsigned c = 0; c < MOST_CHANNELS; c++) {
        uint8_t *b = state + c * QAMHUDEER_CHANNEL_SIZE;

        put_key(b + QAMHUDEER_CHANNEL_KEY, a->channel[c].key);
        b[QAMHUDEER_CHANNEL_PRECEDENCE] = (uint8_t)(a->channel[c].precedence + 128);
        b[QAMHUDEER_CHANNEL_LOCKED] = a->channel[c].locked;
        b[QAMHUDEER_CHANNEL_STOPPED] = a->channel[c].stopped;
        put_queue(b + QAMHUDEER_CHANNEL_WRITES, &a->channel[c].writes);
    }
    put_queue(state + QAMHUDEER_OFFSET_OF_LOCKS, &a->locks);
    put_queue(state + QAMHUDEER_OFFSET_OF_WAITERS, &a->cycles);
    put_queue(state + QAMHUDEER_OFFSET_OF_WAITING, &a->waiting);
    state[QAMHUDEER_OFFSET_OF_CHANNELS] = a->channels;
    state[QAMHUDEER_OFFSET_OF_OPENS] = a->open.count;
    for (unsigned at = 0; at < MOST_OPENS; at++)
        put_key(state + QAMHUDEER_OFFSET_OF_OPENS + 1 + 2 * at, a->open.key[at]);
    put_key(state + QAMHUDEER_OFFSET_OF_LAST, a->last_key);
    for (unsigned id = 0; id < REQUESTS; id++)
        put_entry(table + id * ENTRY, &a->request[id]);
    put_memory(table, a);
}

int decodes(const struct Bytes *state)
{
    if (state->length != QAMHUDEER_STATE_SIZE)
        return 0;
    for (unsigned c = 0; c < MOST_CHANNELS; c++) {
        const uint8_t *b = state->byte + c * QAMHUDEER_CHANNEL_SIZE;

        if (b[QAMHUDEER_CHANNEL_LOCKED] > 1 || b[QAMHUDEER_CHANNEL_STOPPED] > 1)
            return 0;
    }
    return 1;
}

int is_sound(const struct Bytes *state, const struct Bytes *table, struct Arbiter *a)
{
    if (state->length != QAMHUDEER_STATE_SIZE || table->length != QAMHUDEER_TABLE_SIZE)
        return 0;
    read_all(a, state->byte, table->byte);
    return memory_fits(a, table->byte) && arbiter_sound(a);
}

/* ---- Damage */

/* One of the queues of the board. */
static uint8_t *any_queue(uint8_t *state, unsigned board)
{
    static const unsigned other[3] = {QAMHUDEER_OFFSET_OF_LOCKS, QAMHUDEER_OFFSET_OF_WAITERS, QAMHUDEER_OFFSET_OF_WAITING};
    unsigned q = below(board + 3);

    if (q < board)
        return state + q * QAMHUDEER_CHANNEL_SIZE + QAMHUDEER_CHANNEL_WRITES;
    return state + other[q - board];
}

/* The entry of a request that is outstanding, from a random one on; any if there is none. */
static uint8_t *any_entry(uint8_t *table)
{
    unsigned id = below(REQUESTS);

    for (unsigned tries = 0; tries < REQUESTS && table[id * ENTRY] == 0; tries++)
        id = (id + 1) % REQUESTS;
    return table + id * ENTRY;
}

/* A byte that says something: most others are zeros whose damage is seen at once. */
static uint8_t *telling_byte(uint8_t *state, uint8_t *table, unsigned board)
{
    unsigned odds = below(10), at = below(256);
    uint8_t *queue;

    if (odds < 3)
        return state + at % MOST_CHANNELS * QAMHUDEER_CHANNEL_SIZE + at / MOST_CHANNELS % QAMHUDEER_CHANNEL_WRITES;
    if (odds < 4)
        return at % 2 == 0 ? state + QAMHUDEER_OFFSET_OF_OPENS + at / 2 % 10     /* the count and the first open keys */
                           : state + QAMHUDEER_OFFSET_OF_LAST + at / 2 % 3;      /* the last key, the number of channels */
    if (odds < 6) {
        queue = any_queue(state, board);
        return queue + at % ((queue[0] < REQUESTS ? queue[0] : REQUESTS - 1) + 2u);
    }
    return any_entry(table) + at % ENTRY;
}

static void damage_byte(uint8_t *b)
{
    unsigned odds = below(6), value = below(256);

    if (odds == 0)
        *b = (uint8_t)value;
    else if (odds == 1)
        *b = (uint8_t)(*b ^ 1u << value % 8);
    else if (odds == 2)
        *b = (uint8_t)(*b + 1);
    else if (odds == 3)
        *b = (uint8_t)(*b - 1);
    else if (odds == 4)
        *b = (uint8_t)(value % 16);
    else
        *b = (uint8_t)(value % 2);
}

/* So many open keys: those that stood, then others. */
static void set_entries(uint8_t *opens, unsigned count)
{
    for (unsigned at = 0; at < MOST_OPENS; at++)
        if (at >= count)
            put_key(opens + 1 + 2 * at, 0);
        else if (key_at(opens + 1 + 2 * at) == 0)
            put_key(opens + 1 + 2 * at, (uint16_t)(1 + below(percent(50) ? 8 : 65535)));
    opens[0] = (uint8_t)count;
}

/* A fresh board on which the keys come round, so that the first of them can be had again. */
static void come_round(uint8_t *state, uint8_t *table, unsigned board)
{
    struct Arbiter a;

    arbiter_fresh(&a, board);
    a.last_key = (uint16_t)(65535 - below(2));
    put_all(state, table, &a);
}

/* A remembered PERVOL: one more, another, or none; at times out of range. */
static void set_pervol(uint8_t *b, unsigned value)
{
    b[0] = (uint8_t)(value % 4 != 0);
    put_period(b + 1, value % 4 == 0 ? 0 : value % 16 == 1 ? 123 : value % 16 == 2 ? 65537 : 124 + below(65413));
    b[4] = (uint8_t)(value % 4 == 0 ? 0 : value % 16 == 3 ? 65 : below(65));
}

/* Numbers that a good state may have at any time, in places no log puts them: sound, but not settled. */
static void unsettle(uint8_t *state, uint8_t *table, unsigned board)
{
    unsigned c = below(board), value = below(256), odds = below(8);
    uint8_t *channel = state + c * QAMHUDEER_CHANNEL_SIZE, *entry = any_entry(table);
    int taken = key_at(channel) != 0;

    if (odds < 3 && taken)
        channel[QAMHUDEER_CHANNEL_PRECEDENCE] = (uint8_t)value;
    else if (odds == 3 && taken)
        channel[QAMHUDEER_CHANNEL_STOPPED] ^= 1;
    else if (odds == 4 && taken)
        channel[QAMHUDEER_CHANNEL_LOCKED] ^= 1;
    else if (odds == 5)
        set_entries(state + QAMHUDEER_OFFSET_OF_OPENS, value < 80 ? 0 : value < 180 ? MOST_OPENS : 1 + value % 8);
    else if (odds == 6 && value % 8 == 0)
        state[QAMHUDEER_OFFSET_OF_CHANNELS] ^= 12;          /* 4 becomes 8, and 8 becomes 4 */
    else if (odds == 6 && value % 8 == 1)
        come_round(state, table, board);
    else if (odds == 6)
        put_key(state + QAMHUDEER_OFFSET_OF_LAST, (uint16_t)(value < 128 ? 65535 - value % 4 : value % 8));
    else if (entry[0] == CMD_WRITE && value < 80)
        entry[13] ^= 1;                                     /* FINISH remembered, or not */
    else if (entry[0] == CMD_WRITE && value < 160)
        set_pervol(entry + 14, value);
    else if (entry[0] == CMD_WRITE && value < 220)
        put_key(entry + 7, (uint16_t)below(3));             /* endless, or nearly at its end */
    else if (entry[0] == CMD_WRITE)
        entry[7 + value % 6] = (uint8_t)below(256);         /* one of its numbers */
    else if (entry[0] == ADCMD_ALLOCATE && value < 128)
        entry[5] ^= 1;
    else if (entry[0] == ADCMD_ALLOCATE && entry[6] > 0)
        entry[7 + value % (entry[6] <= COMBINATIONS ? entry[6] : COMBINATIONS)] = (uint8_t)below(1u << board);
}

/* Two ids of a queue change places, a channel stands where another stood, or an entry in another's. */
static void mix_up(uint8_t *state, uint8_t *table, unsigned board)
{
    unsigned odds = below(3), one = below(REQUESTS), two = below(REQUESTS);
    uint8_t *to = state + one % MOST_CHANNELS * QAMHUDEER_CHANNEL_SIZE, *from = state + two % MOST_CHANNELS * QAMHUDEER_CHANNEL_SIZE;
    uint8_t *queue = any_queue(state, board), kept;

    if (odds == 0 && queue[0] >= 2 && queue[0] <= REQUESTS) {
        one = 1 + one % queue[0];
        two = 1 + two % queue[0];
        kept = queue[one];
        queue[one] = queue[two];
        queue[two] = kept;
    } else if (odds == 1) {
        memmove(to, from, QAMHUDEER_CHANNEL_SIZE);
    } else {
        memmove(table + one * ENTRY, any_entry(table), ENTRY);
    }
}

void damage_all(struct Bytes *state, struct Bytes *table)
{
    unsigned odds = below(3);

    if (odds != 0)
        fill(state, QAMHUDEER_STATE_SIZE);
    if (odds != 1)
        fill(table, QAMHUDEER_TABLE_SIZE);
    if (odds != 0 && percent(50))
        for (unsigned k = 0; k < MOST_CHANNELS; k++) {
            state->byte[k * QAMHUDEER_CHANNEL_SIZE + QAMHUDEER_CHANNEL_LOCKED] &= 1;
            state->byte[k * QAMHUDEER_CHANNEL_SIZE + QAMHUDEER_CHANNEL_STOPPED] &= 1;
        }
}

void damage_state(uint8_t *state, uint8_t *table, unsigned board)
{
    unsigned odds = below(82), at = below(QAMHUDEER_STATE_SIZE + QAMHUDEER_TABLE_SIZE);

    if (odds < 35)
        unsettle(state, table, board);
    else if (odds < 65)
        damage_byte(telling_byte(state, table, board));
    else if (odds < 75)
        damage_byte(at < QAMHUDEER_STATE_SIZE ? state + at : table + at - QAMHUDEER_STATE_SIZE);
    else
        mix_up(state, table, board);
}

void damage_state_length(struct Bytes *state)
{
    stretch(state, any_length(QAMHUDEER_STATE_SIZE));
}

void damage_table_length(struct Bytes *table)
{
    stretch(table, percent(50) ? any_length(QAMHUDEER_TABLE_SIZE) : ENTRY * below(LONGEST / ENTRY));
}

void damage_display(struct Bytes *display)
{
    if (percent(30) || display->length == 0)
        fill(display, QAMHUDEER_DISPLAY_SIZE);
    else
        display->byte[below((unsigned)display->length)] = (uint8_t)below(256);
}
