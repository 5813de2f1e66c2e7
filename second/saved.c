/* Writes and reads the saved texts of requests #106 and #112, line by line. What is read is a state only where the arbiter calls it
   sound; in the second form, where its numbers are those of a count as well. */
#include "saved.h"

#include <string.h>

/* "Each kind has its own first byte." */
enum {
    KIND_CHANNEL = 0xD1, KIND_WAITING = 0xD2, KIND_LOCK = 0xD3, KIND_CYCLE = 0xD4, KIND_WRITE = 0xD5, KIND_OPEN = 0xD6,
    KIND_LAST = 0xD7, KIND_BOARD = 0xD8, KIND_SHOWN = 0xD9
};

/* The bytes of a line of each kind, its first byte with them. */
enum {
    CHANNEL_BYTES = 12, WAITING_BYTES = 7, LOCK_BYTES = 5, CYCLE_BYTES = 5, WRITE_BYTES = 9, KEY_BYTES = 3,
    BOARD_BYTES = 2, SHOWN_BYTES = 4, MOST_BYTES = WAITING_BYTES + COMBINATIONS
};

#define FORM_CHANNELS 4u                    /* the first form is of the four-channel board alone */
#define SHOWN_LINE (2u * SHOWN_BYTES + 1u)  /* characters, with the LF */
#define BOARD_LINE (2u * BOARD_BYTES + 1u)

static const char digits[] = "0123456789ABCDEF";
static const char first_line[] = "D001\n";  /* of the first form */
static const char second_line[] = "D002\n"; /* the first line of the second form */

/* ---- Writing ---- */

struct Text {
    char text[SAVED_LONGEST2];
    size_t length;
};

/* So many bytes of the number, the high byte first. */
static void put(struct Text *t, unsigned long number, unsigned bytes)
{
    while (bytes-- > 0) {
        unsigned byte = (unsigned)(number >> 8 * bytes & 255);

        t->text[t->length++] = digits[byte >> 4];
        t->text[t->length++] = digits[byte & 15];
    }
}

/* "Every line ends with LF." */
static void end_line(struct Text *t)
{
    t->text[t->length++] = '\n';
}

static void put_channel(struct Text *t, const struct Channel *channel)
{
    put(t, KIND_CHANNEL, 1);
    put(t, channel->key, 2);
    put(t, (uint8_t)channel->precedence, 1);
    put(t, channel->locked, 1);
    put(t, channel->stopped, 1);
    put(t, channel->finish, 1);
    put(t, channel->pervol, 1);
    put(t, channel->period, 3);
    put(t, channel->volume, 1);
    end_line(t);
}

static void put_waiting(struct Text *t, const struct Request *q, unsigned id)
{
    put(t, KIND_WAITING, 1);
    put(t, id, 1);
    put(t, q->key, 2);
    put(t, (uint8_t)q->precedence, 1);
    put(t, q->nowait, 1);
    put(t, q->length, 1);
    for (unsigned i = 0; i < q->length; i++)
        put(t, q->combination[i], 1);
    end_line(t);
}

/* A lock with its map, or a WAITCYCLE with its bit. */
static void put_holder(struct Text *t, unsigned kind, const struct Request *q, unsigned id)
{
    put(t, kind, 1);
    put(t, id, 1);
    put(t, q->key, 2);
    put(t, q->map, 1);
    end_line(t);
}

/* The key is its channel's. */
static void put_write(struct Text *t, unsigned channel, const struct Request *q, unsigned id)
{
    put(t, KIND_WRITE, 1);
    put(t, channel, 1);
    put(t, id, 1);
    put(t, q->cycles, 2);
    put(t, q->period, 3);
    put(t, q->volume, 1);
    end_line(t);
}

static void put_key(struct Text *t, unsigned kind, unsigned key)
{
    put(t, kind, 1);
    put(t, key, 2);
    end_line(t);
}

/* "The channels 0 to 3, the waiting requests in order, the locks and the WAITCYCLEs oldest first, each channel's writes front
   first, the open keys in order of opening, the last key." */
static void put_state(struct Text *t, const struct Arbiter *a)
{
    for (unsigned c = 0; c < a->channels; c++)
        put_channel(t, &a->channel[c]);
    for (unsigned at = 0; at < a->waiting.count; at++)
        put_waiting(t, &a->request[a->waiting.id[at]], a->waiting.id[at]);
    for (unsigned at = 0; at < a->locks.count; at++)
        put_holder(t, KIND_LOCK, &a->request[a->locks.id[at]], a->locks.id[at]);
    for (unsigned at = 0; at < a->cycles.count; at++)
        put_holder(t, KIND_CYCLE, &a->request[a->cycles.id[at]], a->cycles.id[at]);
    for (unsigned c = 0; c < a->channels; c++)
        for (unsigned at = 0; at < a->channel[c].writes.count; at++)
            put_write(t, c, &a->request[a->channel[c].writes.id[at]], a->channel[c].writes.id[at]);
    for (unsigned at = 0; at < a->open.count; at++)
        put_key(t, KIND_OPEN, a->open.key[at]);
    put_key(t, KIND_LAST, a->last_key);
}

static void put_text(struct Text *t, const char *text, size_t length)
{
    memcpy(t->text + t->length, text, length);
    t->length += length;
}

/* "Then the channel number." */
static void put_board(struct Text *t, unsigned channels)
{
    put(t, KIND_BOARD, 1);
    put(t, channels, 1);
    end_line(t);
}

/* "The two display numbers", for each channel. */
static void put_shown(struct Text *t, unsigned channels, const struct Display *d)
{
    for (unsigned c = 0; c < channels; c++) {
        put(t, KIND_SHOWN, 1);
        put(t, c, 1);
        put(t, d->writes[c], 1);
        put(t, d->naming[c], 1);
        end_line(t);
    }
}

/* "A text that doesn't fit the lent room gets 12 and nothing is written." One just as long fits. */
static int lend_out(const struct Text *t, char *text, size_t room, size_t *written)
{
    if (t->length > room)
        return REFUSED_ROOM;
    memcpy(text, t->text, t->length);
    *written = t->length;
    return DONE;
}

int saved_save(const struct Arbiter *a, char *text, size_t room, size_t *written)
{
    struct Text t = {.length = 0};

    *written = 0;
    if (!arbiter_sound(a))
        return REFUSED_UNSOUND;
    if (a->channels != FORM_CHANNELS)
        return REFUSED_EIGHT;
    put_text(&t, first_line, strlen(first_line));
    put_state(&t, a);
    return lend_out(&t, text, room, written);
}

/* The numbers beside a sound state are those of a count; on a board of four those of channels 4 to 7 are 0. */
static int shows_count(const struct Arbiter *a, const struct Display *d)
{
    struct Display count;

    saved_count(a, &count);
    return memcmp(d->writes, count.writes, sizeof count.writes) == 0 && memcmp(d->naming, count.naming, sizeof count.naming) == 0;
}

int saved_save2(const struct Arbiter *a, const struct Display *d, char *text, size_t room, size_t *written)
{
    struct Text t = {.length = 0};

    *written = 0;
    if (!arbiter_sound(a) || !shows_count(a, d))
        return REFUSED_UNSOUND;
    put_text(&t, second_line, strlen(second_line));
    put_board(&t, a->channels);
    put_state(&t, a);
    put_shown(&t, a->channels, d);
    return lend_out(&t, text, room, written);
}

/* ---- Reading ---- */

struct Reader {
    const char *text;                       /* what is not read yet */
    size_t left;
    size_t line;                            /* the number of the line that stands in byte */
    uint8_t byte[MOST_BYTES];
    size_t count, at;                       /* its bytes, 0 where it is no frame; and how many of them are taken */
    int bad;                                /* a mark that is none */
};

/* The digit's value, or -1: lower case is none. */
static int digit_value(char c)
{
    const char *found = memchr(digits, c, 16);

    return found == NULL ? -1 : (int)(found - digits);
}

/* The bytes that these characters spell, or 0 where they spell none or more than any line has. */
static size_t spelt(const char *line, size_t length, uint8_t byte[MOST_BYTES])
{
    if (length % 2 != 0 || length > 2 * MOST_BYTES)
        return 0;
    for (size_t i = 0; i < length / 2; i++) {
        int high = digit_value(line[2 * i]), low = digit_value(line[2 * i + 1]);

        if (high < 0 || low < 0)
            return 0;
        byte[i] = (uint8_t)(16 * high + low);
    }
    return length / 2;
}

/* The next line stands in byte. One without LF is none. */
static void next_line(struct Reader *r)
{
    const char *end = r->left > 0 ? memchr(r->text, '\n', r->left) : NULL;

    r->line++;
    r->count = r->at = 0;
    if (end == NULL)
        return;
    r->count = spelt(r->text, (size_t)(end - r->text), r->byte);
    r->left -= (size_t)(end - r->text) + 1;
    r->text = end + 1;
}

static int stands(const struct Reader *r, unsigned kind)
{
    return r->count > 0 && r->byte[0] == kind;
}

/* 1 if the line is of this kind and has just so many bytes; then its first byte is taken. */
static int begins(struct Reader *r, unsigned kind, size_t count)
{
    r->at = 1;
    return stands(r, kind) && r->count == count;
}

static uint32_t take(struct Reader *r, unsigned bytes)
{
    uint32_t number = 0;

    while (bytes-- > 0)
        number = 256 * number + r->byte[r->at++];
    return number;
}

static uint8_t take_byte(struct Reader *r)
{
    return (uint8_t)take(r, 1);
}

static int8_t take_precedence(struct Reader *r)
{
    int byte = take_byte(r);

    return (int8_t)(byte < 128 ? byte : byte - 256);
}

static uint8_t take_mark(struct Reader *r)
{
    uint8_t mark = take_byte(r);

    if (mark > 1)
        r->bad = 1;
    return mark;
}

/* The id becomes the last of the list and its entry one of this command. NULL where there is no such id, or where it stands somewhere
   already: "each outstanding id in exactly one place". So a list of 64 has room for it. */
static struct Request *take_request(struct Reader *r, struct Arbiter *a, struct Ids *list, unsigned command)
{
    uint8_t id = take_byte(r);

    if (id >= REQUESTS || a->request[id].command != 0)
        return NULL;
    list->id[list->count++] = id;
    a->request[id].command = (uint8_t)command;
    return &a->request[id];
}

static int read_channel(struct Reader *r, struct Channel *channel)
{
    if (!begins(r, KIND_CHANNEL, CHANNEL_BYTES))
        return 0;
    channel->key = (uint16_t)take(r, 2);
    channel->precedence = take_precedence(r);
    channel->locked = take_mark(r);
    channel->stopped = take_mark(r);
    channel->finish = take_mark(r);
    channel->pervol = take_mark(r);
    channel->period = take(r, 3);
    channel->volume = take_byte(r);
    return !r->bad;
}

static int read_waiting(struct Reader *r, struct Arbiter *a)
{
    struct Request *q;

    if (r->count < WAITING_BYTES || !begins(r, KIND_WAITING, WAITING_BYTES + (size_t)r->byte[WAITING_BYTES - 1]))
        return 0;                           /* n, "then n combinations" */
    q = take_request(r, a, &a->waiting, ADCMD_ALLOCATE);
    if (q == NULL)
        return 0;
    q->key = (uint16_t)take(r, 2);
    q->precedence = take_precedence(r);
    q->nowait = take_mark(r);
    q->length = take_byte(r);               /* at most 16, or the line would be too long for a line */
    for (unsigned i = 0; i < q->length; i++)
        q->combination[i] = take_byte(r);
    return !r->bad;
}

static int read_lock(struct Reader *r, struct Arbiter *a)
{
    struct Request *q;

    if (!begins(r, KIND_LOCK, LOCK_BYTES))
        return 0;
    q = take_request(r, a, &a->locks, ADCMD_LOCK);
    if (q == NULL)
        return 0;
    q->key = (uint16_t)take(r, 2);
    q->map = take_byte(r);
    return 1;
}

static int read_cycle(struct Reader *r, struct Arbiter *a)
{
    struct Request *q;

    if (!begins(r, KIND_CYCLE, CYCLE_BYTES))
        return 0;
    q = take_request(r, a, &a->cycles, ADCMD_WAITCYCLE);
    if (q == NULL)
        return 0;
    q->key = (uint16_t)take(r, 2);
    q->map = take_byte(r);
    return 1;
}

/* "Each channel's writes", channel by channel: none stands behind one of a higher channel. */
static int read_write(struct Reader *r, struct Arbiter *a, unsigned *channel)
{
    struct Request *q;
    unsigned c;

    if (!begins(r, KIND_WRITE, WRITE_BYTES))
        return 0;
    c = take_byte(r);
    if (c < *channel || c >= a->channels)
        return 0;
    *channel = c;
    q = take_request(r, a, &a->channel[c].writes, CMD_WRITE);
    if (q == NULL)
        return 0;
    q->key = a->channel[c].key;
    q->cycles = (uint16_t)take(r, 2);
    q->period = take(r, 3);
    q->volume = take_byte(r);
    return 1;
}

static int read_open(struct Reader *r, struct Keys *open)
{
    if (!begins(r, KIND_OPEN, KEY_BYTES) || open->count == MOST_OPENS)
        return 0;
    open->key[open->count++] = (uint16_t)take(r, 2);
    return 1;
}

/* The lines from the channels on, each kind in its place. 0 at the first that may not stand there. */
static int read_state(struct Reader *r, struct Arbiter *a)
{
    unsigned channel = 0;

    next_line(r);
    for (unsigned c = 0; c < a->channels; c++, next_line(r))
        if (!read_channel(r, &a->channel[c]))
            return 0;
    for (; stands(r, KIND_WAITING); next_line(r))
        if (!read_waiting(r, a))
            return 0;
    for (; stands(r, KIND_LOCK); next_line(r))
        if (!read_lock(r, a))
            return 0;
    for (; stands(r, KIND_CYCLE); next_line(r))
        if (!read_cycle(r, a))
            return 0;
    for (; stands(r, KIND_WRITE); next_line(r))
        if (!read_write(r, a, &channel))
            return 0;
    for (; stands(r, KIND_OPEN); next_line(r))
        if (!read_open(r, &a->open))
            return 0;
    if (!begins(r, KIND_LAST, KEY_BYTES))
        return 0;
    a->last_key = (uint16_t)take(r, 2);
    return 1;
}

/* The text opens with this line. */
static int opens_with(struct Reader *r, const char *line)
{
    size_t length = strlen(line);

    r->line = 1;
    if (r->left < length || memcmp(r->text, line, length) != 0)
        return 0;
    r->text += length;
    r->left -= length;
    return 1;
}

/* Nothing stands behind the last line. */
static int ends(struct Reader *r)
{
    r->line++;
    return r->left == 0;
}

/* "Opens with the line D001." */
static int read_text(struct Reader *r, struct Arbiter *a)
{
    arbiter_fresh(a, FORM_CHANNELS);
    return opens_with(r, first_line) && read_state(r, a) && ends(r);
}

/* The line D9 of this channel: its number, its writes, the waiting requests that name it. */
static int read_shown(struct Reader *r, unsigned c, struct Display *d)
{
    next_line(r);
    if (!begins(r, KIND_SHOWN, SHOWN_BYTES) || take_byte(r) != c)
        return 0;
    d->writes[c] = take_byte(r);
    d->naming[c] = take_byte(r);
    return 1;
}

/* "The new form opens with D002, then the channel number", which is that of the board that loads. */
static int read_text2(struct Reader *r, unsigned channels, struct Arbiter *a, struct Display *d)
{
    static const struct Display none;

    arbiter_fresh(a, channels);
    *d = none;
    if (!opens_with(r, second_line))
        return 0;
    next_line(r);
    if (!begins(r, KIND_BOARD, BOARD_BYTES) || take_byte(r) != channels)
        return 0;
    if (!read_state(r, a))
        return 0;
    for (unsigned c = 0; c < channels; c++)
        if (!read_shown(r, c, d))
            return 0;
    return ends(r);
}

size_t saved_fault(const char *text, size_t length)
{
    struct Reader r = {.text = text, .left = length};
    struct Arbiter a;

    return read_text(&r, &a) ? 0 : r.line;
}

/* "Loading a saved state recounts once and sets the looks to 0." A request counts once for a channel, however many of its
   combinations name it. */
void saved_count(const struct Arbiter *a, struct Display *d)
{
    memset(d, 0, sizeof *d);
    for (unsigned c = 0; c < a->channels; c++)
        d->writes[c] = a->channel[c].writes.count;
    for (unsigned at = 0; at < a->waiting.count; at++) {
        const struct Request *q = &a->request[a->waiting.id[at]];
        unsigned named = 0;

        for (unsigned i = 0; i < q->length; i++)
            named |= q->combination[i];
        for (unsigned c = 0; c < a->channels; c++)
            d->naming[c] = (uint8_t)(d->naming[c] + (named >> c & 1));
    }
}

/* "Loading accepts exactly such texts and gives back the state that was saved; anything else is refused with 9, and the state lent
   stays as it was." It is not settled: sound is all that is asked. */
int saved_load(unsigned channels, const char *text, size_t length, struct Arbiter *a, struct Display *d)
{
    struct Reader r = {.text = text, .left = length};
    struct Arbiter read;

    if (channels != FORM_CHANNELS)
        return REFUSED_TEXT;
    if (!read_text(&r, &read))
        return REFUSED_TEXT;
    if (!arbiter_sound(&read))
        return REFUSED_TEXT;
    *a = read;
    saved_count(a, d);
    return DONE;
}

/* ---- The second form ---- */

static int is_board(unsigned channels)
{
    return channels == 4 || channels == 8;
}

size_t saved_fault2(unsigned channels, const char *text, size_t length)
{
    struct Reader r = {.text = text, .left = length};
    struct Arbiter a;
    struct Display d;

    if (!is_board(channels))
        return 1;
    return read_text2(&r, channels, &a, &d) ? 0 : r.line;
}

/* "A text that neither board's loader accepts, as when its numbers disagree with a count, gets 9." */
int saved_load2(unsigned channels, const char *text, size_t length, struct Arbiter *a, struct Display *d)
{
    struct Reader r = {.text = text, .left = length};
    struct Arbiter read;
    struct Display numbers;

    if (!is_board(channels))
        return REFUSED_TEXT;
    if (!read_text2(&r, channels, &read, &numbers))
        return REFUSED_TEXT;
    if (!arbiter_sound(&read) || !shows_count(&read, &numbers))
        return REFUSED_TEXT;
    *a = read;
    *d = numbers;
    return DONE;
}

/* "Old texts move to the new form with four channels and the numbers counted": the lines between stay, character by character. */
int saved_to_new(const char *from, size_t length, char *text, size_t room, size_t *written)
{
    struct Text t = {.length = 0};
    struct Arbiter a;
    struct Display d;
    size_t head = strlen(first_line);

    *written = 0;
    if (saved_load(FORM_CHANNELS, from, length, &a, &d) != DONE)
        return REFUSED_TEXT;
    put_text(&t, second_line, strlen(second_line));
    put_board(&t, FORM_CHANNELS);
    put_text(&t, from + head, length - head);
    put_shown(&t, FORM_CHANNELS, &d);
    return lend_out(&t, text, room, written);
}

/* "A new text with four channels moves back to the old text it came from, one with eight is refused with 10; a text that neither
   board's loader accepts ... gets 9 first, short room 12 last, and nothing is written." */
int saved_to_old(const char *from, size_t length, char *text, size_t room, size_t *written)
{
    struct Text t = {.length = 0};
    struct Arbiter a;
    struct Display d;
    size_t head = strlen(second_line) + BOARD_LINE, tail = FORM_CHANNELS * SHOWN_LINE;

    *written = 0;
    if (saved_load2(8, from, length, &a, &d) == DONE)
        return REFUSED_EIGHT;
    if (saved_load2(FORM_CHANNELS, from, length, &a, &d) != DONE)
        return REFUSED_TEXT;
    put_text(&t, first_line, strlen(first_line));
    put_text(&t, from + head, length - head - tail);
    return lend_out(&t, text, room, written);
}
