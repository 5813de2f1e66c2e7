/* Reads and writes the lines of document 01's log, in constant memory. */
#include "log.h"

#include <string.h>

static const char digits[] = "0123456789ABCDEF";

/* The digit's value, or -1: lower case is malformed too. */
static int digit_value(char c)
{
    const char *found = memchr(digits, c, 16);

    return found == NULL ? -1 : (int)(found - digits);
}

int log_decode(const char *line, size_t length, struct Frame *f)
{
    uint8_t byte[FRAME_HEAD + 255];
    size_t count = length / 2;

    if (length % 2 != 0 || count < FRAME_HEAD || count > sizeof byte)
        return 0;
    for (size_t i = 0; i < count; i++) {
        int high = digit_value(line[2 * i]), low = digit_value(line[2 * i + 1]);

        if (high < 0 || low < 0)
            return 0;
        byte[i] = (uint8_t)(16 * high + low);
    }
    if (count != FRAME_HEAD + byte[7])
        return 0;                                       /* "exactly n combination bytes" */
    f->operation = byte[0];
    f->id = byte[1];
    f->desk = (uint8_t)arbiter_desk(f->id);             /* "an id byte of 32 or more means B" */
    f->flags = byte[2];
    f->map = byte[3];
    f->precedence = (int8_t)(byte[4] < 128 ? byte[4] : byte[4] - 256);
    f->key = (uint16_t)(256 * byte[5] + byte[6]);
    f->length = byte[7];
    memcpy(f->combination, &byte[FRAME_HEAD], f->length);
    return 1;
}

/* A line longer than the longest frame is read to its end but not kept. */
enum Line log_read(FILE *in, struct Frame *f)
{
    char line[LONGEST_LINE + 1];
    size_t length = 0;
    int c;

    while ((c = getc(in)) != EOF && c != '\n')
        if (length < sizeof line)
            line[length++] = (char)c;
    if (c == EOF && length == 0)
        return LINE_NONE;                               /* "the last LF may be absent" */
    return log_decode(line, length, f) ? LINE_FRAME : LINE_MALFORMED;
}

struct Answer log_malformed(void)
{
    struct Answer made = {0, REFUSED_LINE, 0, 0, NO_ID};

    return made;
}

/* The bytes in hexadecimal, and an LF; its length. */
static size_t spell(char *line, const uint8_t *byte, size_t count)
{
    size_t length = 0;

    for (size_t i = 0; i < count; i++) {
        line[length++] = digits[byte[i] >> 4];
        line[length++] = digits[byte[i] & 15];
    }
    line[length++] = '\n';
    return length;
}

/* "C0, id, command, error, map, key" */
static size_t spell_reply(char *line, const struct Reply *reply)
{
    uint8_t byte[7] = {0xC0, 0, 0, 0, 0, 0, 0};

    byte[1] = reply->id;
    byte[2] = reply->command;
    byte[3] = (uint8_t)reply->error;
    byte[4] = reply->map;
    byte[5] = (uint8_t)(reply->key >> 8);
    byte[6] = (uint8_t)(reply->key & 255);
    return spell(line, byte, sizeof byte);
}

/* "A0 done or A1 outstanding, error, map, key, last byte" */
static size_t spell_answer(char *line, const struct Answer *answer)
{
    uint8_t byte[6] = {0xA0, 0, 0, 0, 0, 0};

    byte[0] = (uint8_t)(0xA0 + answer->outstanding);
    byte[1] = (uint8_t)answer->error;
    byte[2] = answer->map;
    byte[3] = (uint8_t)(answer->key >> 8);
    byte[4] = (uint8_t)(answer->key & 255);
    byte[5] = answer->last;
    return spell(line, byte, sizeof byte);
}

/* "A's replies are written first." */
size_t log_spell(char *text, const struct Replies *replies, const struct Answer *answer)
{
    size_t length = 0;

    for (unsigned desk = 0; desk < DESKS; desk++)
        for (size_t i = 0; i < replies->count[desk]; i++)
            length += spell_reply(text + length, &replies->record[desk * HALF + i]);
    return length + spell_answer(text + length, answer);
}

void log_write_channels(FILE *out, const struct Arbiter *a)
{
    for (unsigned c = 0; c < a->channels; c++) {
        const struct Channel *channel = &a->channel[c];
        char line[REPLY_LINE];
        uint8_t byte[7] = {0xB0, 0, 0, 0, 0, 0, 0};

        byte[1] = (uint8_t)c;
        byte[2] = (uint8_t)(channel->key >> 8);
        byte[3] = (uint8_t)(channel->key & 255);
        byte[4] = (uint8_t)channel->precedence;
        byte[5] = (uint8_t)(channel->locked + 2 * channel->stopped);
        byte[6] = channel->writes.count;
        fwrite(line, 1, spell(line, byte, sizeof byte), out);
    }
}

/* "Each channel's number of writes and the number of waiting allocations naming it", and the looks. */
static void write_numbers(FILE *out, const struct Arbiter *a, const struct Display *d)
{
    char line[2 * (1 + 2 * MOST_CHANNELS + 2) + 1];
    uint8_t byte[1 + 2 * MOST_CHANNELS + 2] = {0xE0};
    size_t count = 1;

    for (unsigned c = 0; c < a->channels; c++) {
        byte[count++] = d->writes[c];
        byte[count++] = d->naming[c];
    }
    byte[count++] = (uint8_t)(d->looks >> 8);
    byte[count++] = (uint8_t)(d->looks & 255);
    fwrite(line, 1, spell(line, byte, count), out);
}

void log_write_display(FILE *out, const struct Arbiter *a, const struct Display *d)
{
    struct Waiting record[REQUESTS];
    size_t count;

    write_numbers(out, a, d);
    arbiter_waiting(a, record, REQUESTS, &count);
    for (size_t i = 0; i < count; i++) {
        char line[ANSWER_LINE];
        uint8_t byte[5] = {0xE1, 0, 0, 0, 0};

        byte[1] = record[i].id;
        byte[2] = (uint8_t)record[i].precedence;
        byte[3] = record[i].held;
        byte[4] = record[i].desk;
        fwrite(line, 1, spell(line, byte, sizeof byte), out);
    }
}
