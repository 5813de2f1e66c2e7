/* Plays a log from standard input with the wall display's numbers kept, and counts them anew over the state after each
   line: recount CHANNELS [SEED] <LOG. From a fresh device they must be the count.

   With a SEED the numbers start anywhere, and must stay as far from the count as they were, modulo 256; and the state is
   put out of rest between the calls, as no log puts it, so that more is granted and dropped in one settling.

   The looks must be those that the replies tell of, and never above w(w+1)/2. The call without numbers must answer and
   move the same. The state must come back from its saved text, of either form, with the numbers of the count and without
   looks; and the text from the other form. Silent where all holds; else it tells the line, and ends with status 1. */
#include "chance.h"
#include "log.h"
#include "saved.h"

#include <stdio.h>
#include <stdlib.h>
#include <string.h>

static struct Arbiter state, before, plain;
static struct Reply record[REQUESTS], plain_record[REQUESTS];
static struct Replies replies = {.record = record, .capacity = REQUESTS};
static struct Replies plain_replies = {.record = plain_record, .capacity = REQUESTS};

/* ---- The numbers counted anew ---- */

static int plays_on(const struct Channel *channel, unsigned id)
{
    for (unsigned at = 0; at < channel->writes.count; at++)
        if (channel->writes.id[at] == id)
            return 1;
    return 0;
}

/* "However many of its combinations name it" the request is one. */
static int waits_for(const struct Request *q, unsigned c)
{
    for (unsigned i = 0; i < q->length; i++)
        if (q->combination[i] >> c & 1)
            return 1;
    return 0;
}

/* Request by request, by the table. */
static void count_all(const struct Arbiter *a, struct Display *d)
{
    memset(d, 0, sizeof *d);
    for (unsigned id = 0; id < REQUESTS; id++)
        for (unsigned c = 0; c < MOST_CHANNELS; c++) {
            d->writes[c] = (uint8_t)(d->writes[c] + plays_on(&a->channel[c], id));
            d->naming[c] = (uint8_t)(d->naming[c] + (a->request[id].command == ADCMD_ALLOCATE && waits_for(&a->request[id], c)));
        }
}

/* 1 if the numbers are as far from the count as off says. */
static int apart(const struct Display *d, const struct Display *off)
{
    struct Display count;

    count_all(&state, &count);
    for (unsigned c = 0; c < MOST_CHANNELS; c++)
        if ((uint8_t)(d->writes[c] - count.writes[c]) != off->writes[c]
            || (uint8_t)(d->naming[c] - count.naming[c]) != off->naming[c])
            return 0;
    return 1;
}

/* ---- The looks that the replies tell of ---- */

/* "After every call, except one answered 1 to 5, -1, -3, -4 or -5 and an OPEN answered -11", and 8, which is like 4. */
static int settles(const struct Frame *f, const struct Answer *answer)
{
    int error = answer->error;

    if (error > DONE || error == IOERR_OPENFAIL || error == IOERR_NOCMD || error == IOERR_BADLENGTH || error == IOERR_BADADDRESS)
        return 0;
    return f->operation != CALL_OPEN || error != ADIOERR_ALLOCFAILED;
}

/* Who waits when settling starts: the request of this call too, but not one that it aborts. */
static unsigned waiting_at_start(const struct Frame *f, const struct Answer *answer, uint8_t list[REQUESTS])
{
    unsigned count = 0;
    int joins = f->operation == ADCMD_ALLOCATE && answer->outstanding;

    for (unsigned at = 0; at < before.waiting.count; at++) {
        unsigned id = before.waiting.id[at];

        if (joins && before.request[id].precedence < f->precedence) {
            list[count++] = f->id;
            joins = 0;
        }
        if (f->operation != CALL_ABORT || id != f->id)
            list[count++] = (uint8_t)id;
    }
    if (joins)
        list[count++] = f->id;
    return count;
}

/* A walk goes up to the request that it grants, past those that it drops; the last one goes through all. */
static unsigned looks_told(const struct Frame *f, const struct Answer *answer, unsigned *start)
{
    uint8_t list[REQUESTS];
    unsigned count = *start = waiting_at_start(f, answer, list), looks = 0, dropped = 0;

    for (size_t i = 0; i < arbiter_replied(&replies); i++) {
        const struct Reply *r = &record[replies.made[i]];
        unsigned at = 0;

        while (at < count && list[at] != r->id)
            at++;
        if (at == count)
            continue;
        count--;
        memmove(&list[at], &list[at + 1], count - at);
        if (r->error == DONE) {
            looks += at + 1 + dropped;
            dropped = 0;
        } else {
            dropped++;
        }
    }
    return looks + count + dropped;
}

static int looks_hold(const struct Frame *f, const struct Answer *answer, unsigned old, unsigned looks)
{
    unsigned start;

    if (!settles(f, answer))
        return looks == old;
    return looks == looks_told(f, answer, &start) && looks <= start * (start + 1) / 2;
}

/* ---- The records ---- */

/* At rest nobody can be granted, so who has an eligible combination is held. */
static int eligible(const struct Request *q)
{
    for (unsigned i = 0; i < q->length; i++) {
        int fits = 1;

        for (unsigned c = 0; c < state.channels; c++)
            if ((q->combination[i] >> c & 1) != 0 && state.channel[c].key != 0 && state.channel[c].precedence >= q->precedence)
                fits = 0;
        if (fits)
            return 1;
    }
    return 0;
}

static int records_hold(int at_rest)
{
    struct Waiting w[REQUESTS + 1];
    size_t count;
    int hold;

    memset(w, 0x55, sizeof w);
    hold = arbiter_waiting(&state, w, REQUESTS, &count) == DONE && count == state.waiting.count;
    for (size_t i = 0; i < count; i++) {
        const struct Request *q = &state.request[w[i].id & 63];

        hold &= w[i].id == state.waiting.id[i] && w[i].precedence == q->precedence && w[i].desk == w[i].id / 32
            && (at_rest ? w[i].held == eligible(q) : w[i].held <= eligible(q));
    }
    for (const uint8_t *rest = (const uint8_t *)&w[count]; rest < (const uint8_t *)&w[REQUESTS + 1]; rest++)
        hold &= *rest == 0x55;
    return hold;
}

/* ---- Out of rest ---- */

/* Precedences move, and marks without a lock are gone: sound, and the numbers are no others. */
static void upset(void)
{
    unsigned c = below(state.channels), all = percent(20) ? state.channels : 1;
    int precedence = percent(50) ? -128 : (int)below(20) - 10;

    for (unsigned i = 0; i < all; i++, c = (c + 1) % state.channels) {
        int locked = 0;

        if (state.channel[c].key == 0)
            continue;
        state.channel[c].precedence = (int8_t)precedence;
        for (unsigned at = 0; at < state.locks.count; at++)
            locked |= state.request[state.locks.id[at]].map >> c & 1;
        if (!locked && percent(50))
            state.channel[c].locked = 0;
    }
}

/* ---- Saved ---- */

/* In just as much room as its text has, and in no less. Eight channels have no text. */
static int comes_back(void)
{
    static char text[SAVED_LONGEST], again[SAVED_LONGEST];
    static struct Arbiter read;
    struct Display d = {{9}, {9}, 9}, count;
    size_t length, written;

    if (state.channels == 8)
        return saved_save(&state, text, sizeof text, &length) == REFUSED_EIGHT && length == 0;
    if (saved_save(&state, text, sizeof text, &length) != DONE || saved_save(&state, again, length, &written) != DONE
        || written != length || memcmp(text, again, length) != 0 || saved_save(&state, again, length - 1, &written) != REFUSED_ROOM)
        return 0;
    count_all(&state, &count);
    return saved_load(4, text, length, &read, &d) == DONE && memcmp(&read, &state, sizeof state) == 0
        && memcmp(d.writes, count.writes, sizeof d.writes) == 0 && memcmp(d.naming, count.naming, sizeof d.naming) == 0
        && d.looks == 0;
}

/* The same of the second form, which has the numbers; those that are none of a count are refused with 1. */
static int comes_back2(const struct Display *kept)
{
    static char text[SAVED_LONGEST2], old[SAVED_LONGEST], again[SAVED_LONGEST2];
    static struct Arbiter read;
    struct Display d = {{9}, {9}, 9}, count, other;
    size_t length, written, old_length;

    count_all(&state, &count);
    count.looks = kept->looks;              /* any number: they are not saved */
    other = count;
    other.naming[below(MOST_CHANNELS)]++;
    if (saved_save2(&state, &count, text, sizeof text, &length) != DONE
        || saved_save2(&state, &count, again, length, &written) != DONE || written != length || memcmp(text, again, length) != 0
        || saved_save2(&state, &count, again, length - 1, &written) != REFUSED_ROOM || written != 0
        || saved_save2(&state, &other, again, 0, &written) != REFUSED_UNSOUND)
        return 0;
    if (saved_load2(state.channels, text, length, &read, &d) != DONE || memcmp(&read, &state, sizeof state) != 0
        || memcmp(d.writes, count.writes, sizeof d.writes) != 0 || memcmp(d.naming, count.naming, sizeof d.naming) != 0
        || d.looks != 0 || saved_load2(12 - state.channels, text, length, &read, &d) != REFUSED_TEXT)
        return 0;
    if (state.channels == 8)
        return saved_to_old(text, length, old, sizeof old, &old_length) == REFUSED_EIGHT && old_length == 0;
    return saved_to_old(text, length, old, sizeof old, &old_length) == DONE
        && saved_save(&state, again, sizeof again, &written) == DONE && written == old_length
        && memcmp(old, again, written) == 0 && saved_to_new(old, old_length, again, sizeof again, &written) == DONE
        && written == length && memcmp(again, text, length) == 0;
}

/* ---- A line ---- */

static int same_call(const struct Frame *f, const struct Answer *answer)
{
    struct Answer other = arbiter_call(&plain, f, &plain_replies);

    return memcmp(&plain, &state, sizeof state) == 0 && memcmp(plain_record, record, sizeof record) == 0
        && plain_replies.count[DESK_A] == replies.count[DESK_A] && plain_replies.count[DESK_B] == replies.count[DESK_B]
        && other.outstanding == answer->outstanding && other.error == answer->error && other.map == answer->map
        && other.key == answer->key && other.last == answer->last;
}

static const char *play(struct Display *d, const struct Display *off, const struct Frame *f, int at_rest)
{
    struct Answer answer;
    unsigned old = d->looks;

    plain = before = state;
    answer = arbiter_call_shown(&state, d, f, &replies);
    if (!apart(d, off))
        return "the numbers are not those of a count";
    if (!looks_hold(f, &answer, old, d->looks))
        return "the looks are not those that the replies tell of, or too many";
    if (!records_hold(at_rest))
        return "the records are not those of the waiting requests";
    if (!same_call(f, &answer))
        return "without the numbers the call is another";
    if (!comes_back())
        return "saved and loaded, the state is another";
    return comes_back2(d) ? NULL : "saved and loaded in the second form, the state is another";
}

int main(int count, char **argument)
{
    struct Display display = {{0}, {0}, 0}, off;
    unsigned long lines = 0;
    struct Frame frame;
    enum Line line;

    if (count < 2 || count > 3) {
        fputs("usage: recount CHANNELS [SEED] <LOG\n", stderr);
        return 2;
    }
    arbiter_fresh(&state, (unsigned)strtoul(argument[1], NULL, 10));
    if (count > 2) {
        chance_seed(strtoull(argument[2], NULL, 10));
        for (unsigned c = 0; c < MOST_CHANNELS; c++) {
            display.writes[c] = (uint8_t)below(256);
            display.naming[c] = (uint8_t)below(256);
        }
        display.looks = (uint16_t)below(65536);
    }
    off = display;                          /* a fresh device's count is 0 */
    while ((line = log_read(stdin, &frame)) != LINE_NONE) {
        const char *wrong = NULL;

        lines++;
        if (count > 2 && percent(30))
            upset();
        if (line == LINE_FRAME)
            wrong = play(&display, &off, &frame, count == 2);
        if (wrong != NULL) {
            printf("line %lu: %s\n", lines, wrong);
            return 1;
        }
    }
    return ferror(stdin);
}
