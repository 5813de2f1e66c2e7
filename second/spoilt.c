/* Damage to saved texts. Each kind is a function; the table at the end names them. */
#include "spoilt.h"

#include "chance.h"

#include <stdint.h>
#include <string.h>

#define NONE SPOILT_ROOM                    /* no place in the text */
#define LINES 512u                          /* more than a text has */

static const char digits[] = "0123456789ABCDEF";

/* ---- Places of the text ---- */

/* The bytes from here on, so many of them, become these. A text that was spoilt before may end sooner. */
static void splice(struct Spoilt *t, size_t at, size_t gone, const char *made, size_t count)
{
    if (at > t->length || gone > t->length - at || t->length - gone + count > SPOILT_ROOM)
        return;
    memmove(&t->text[at + count], &t->text[at + gone], t->length - at - gone);
    memcpy(&t->text[at], made, count);
    t->length = t->length - gone + count;
}

static void insert(struct Spoilt *t, size_t at, char c)
{
    splice(t, at, 0, &c, 1);
}

/* The length of the line that begins here, its LF counted. */
static size_t line_length(const struct Spoilt *t, size_t at)
{
    const char *end = at < t->length ? memchr(&t->text[at], '\n', t->length - at) : NULL;

    return end == NULL ? t->length - at : (size_t)(end - &t->text[at]) + 1;
}

/* Where each line begins. */
static unsigned find_lines(const struct Spoilt *t, size_t start[LINES])
{
    unsigned count = 0;

    for (size_t at = 0; at < t->length && count < LINES; at += line_length(t, at))
        start[count++] = at;
    return count;
}

/* The value of a digit; of what is none, 0. */
static unsigned value(char c)
{
    const char *found = memchr(digits, c, 16);

    return found == NULL ? 0 : (unsigned)(found - digits);
}

/* The byte of this number of the line that begins here, from 0 on; 0 where the text ends before it. */
static unsigned byte_at(const struct Spoilt *t, size_t line, unsigned number)
{
    if (line + 2 * number + 2 > t->length)
        return 0;
    return 16 * value(t->text[line + 2 * number]) + value(t->text[line + 2 * number + 1]);
}

static void set_byte(struct Spoilt *t, size_t line, unsigned number, unsigned byte)
{
    if (line + 2 * number + 2 > t->length)
        return;
    t->text[line + 2 * number] = digits[byte >> 4 & 15];
    t->text[line + 2 * number + 1] = digits[byte & 15];
}

/* The lines whose first byte is this kind and that have at least so many bytes. */
static unsigned lines_of(const struct Spoilt *t, unsigned kind, unsigned bytes, size_t found[LINES])
{
    size_t start[LINES];
    unsigned all = find_lines(t, start), count = 0;

    for (unsigned i = 0; i < all; i++)
        if (line_length(t, start[i]) > 2 * bytes && byte_at(t, start[i], 0) == kind)
            found[count++] = start[i];
    return count;
}

/* One of them, or NONE. */
static size_t line_of(const struct Spoilt *t, unsigned kind, unsigned bytes)
{
    size_t found[LINES];
    unsigned count = lines_of(t, kind, bytes, found);

    return count == 0 ? NONE : found[below(count)];
}

/* The channels of the board: 8 where the second form says so, else 4. */
static unsigned board_of(const struct Spoilt *t)
{
    size_t found[LINES];

    return lines_of(t, 0xD8, 2, found) > 0 && byte_at(t, found[0], 1) == 8 ? 8 : 4;
}

/* A line of one of the four kinds that have an id, and the number of its byte; or NONE. */
static size_t line_with_id(const struct Spoilt *t, unsigned *number)
{
    static const uint8_t kinds[4] = {0xD2, 0xD3, 0xD4, 0xD5}, bytes[4] = {7, 5, 5, 9};
    unsigned kind = below(4);
    size_t line = NONE;

    for (unsigned tries = 0; tries < 4 && line == NONE; tries++, kind = (kind + 1) % 4) {
        line = line_of(t, kinds[kind], bytes[kind]);
        *number = kinds[kind] == 0xD5 ? 2 : 1;
    }
    return line;
}

/* A place that has a digit; NONE where there is none. */
static size_t any_digit(const struct Spoilt *t)
{
    size_t at;

    if (t->length == 0)
        return NONE;
    at = below((unsigned)t->length);
    for (size_t tries = 0; tries < t->length; tries++, at = (at + 1) % t->length)
        if (memchr(digits, t->text[at], 16) != NULL)
            return at;
    return NONE;
}

/* A place that has one of A to F, or NONE: there is always the D of a line. */
static size_t any_letter(const struct Spoilt *t)
{
    size_t at = any_digit(t);

    for (size_t tries = 0; at != NONE && tries < t->length; tries++, at = (at + 1) % t->length)
        if (t->text[at] >= 'A' && t->text[at] <= 'F')
            return at;
    return NONE;
}

/* ---- Characters ---- */

static int lower_digit(struct Spoilt *t)
{
    size_t at = any_letter(t);

    if (at == NONE)
        return 0;
    t->text[at] = (char)(t->text[at] - 'A' + 'a');
    return 1;
}

static int lower_all(struct Spoilt *t)
{
    int done = 0;

    for (size_t at = 0; at < t->length; at++)
        if (t->text[at] >= 'A' && t->text[at] <= 'F') {
            t->text[at] = (char)(t->text[at] - 'A' + 'a');
            done = 1;
        }
    return done;
}

static int change_digit(struct Spoilt *t)
{
    size_t at = any_digit(t);

    if (at == NONE)
        return 0;
    t->text[at] = digits[(value(t->text[at]) + 1 + below(15)) % 16];
    return 1;
}

static int add_digit(struct Spoilt *t)
{
    size_t at = any_digit(t);
    unsigned more = 1 + below(2);

    for (unsigned i = 0; i < more && at != NONE; i++)
        insert(t, at, digits[below(16)]);
    return at != NONE;
}

static int remove_digit(struct Spoilt *t)
{
    size_t at = any_digit(t);

    if (at != NONE)
        splice(t, at, percent(50) || line_length(t, at) < 3 ? 1 : 2, "", 0);
    return at != NONE;
}

/* A character that is no digit, in a digit's place or beside it. */
static int strange(struct Spoilt *t, char c)
{
    size_t at = any_digit(t);

    if (at == NONE)
        return 0;
    if (percent(50))
        t->text[at] = c;
    else
        insert(t, at, c);
    return 1;
}

static int put_nul(struct Spoilt *t) { return strange(t, '\0'); }
static int put_high(struct Spoilt *t) { return strange(t, (char)((int)below(128) - 128)); }
static int put_strange(struct Spoilt *t) { return strange(t, "GZ@/:` \t.-xg"[below(12)]); }

static int put_cr(struct Spoilt *t)
{
    size_t start[LINES];
    unsigned count = find_lines(t, start), first = 0;

    if (count == 0)
        return 0;
    if (percent(50))
        first = count = below(count) + 1;   /* one line; else all of them, from the last on */
    else
        first = 1;
    for (unsigned i = count; i >= first; i--)
        insert(t, start[i - 1] + line_length(t, start[i - 1]) - 1, '\r');
    return 1;
}

static int any_bytes(struct Spoilt *t)
{
    t->length = below(percent(50) ? 20 : 2000);
    for (size_t i = 0; i < t->length; i++)
        t->text[i] = (char)((int)below(256) - 128);
    return 1;
}

/* ---- The end ---- */

static int drop_last_lf(struct Spoilt *t)
{
    if (t->length == 0 || t->text[t->length - 1] != '\n')
        return 0;
    t->length--;
    return 1;
}

static int put_behind(struct Spoilt *t)
{
    static const char *const behind[] = {"\n", "0", "D7", "D70000\n", "D60001\n", "D001\n", " ", "\r", "\r\n", "\n\n"};
    unsigned odds = below(12);

    if (odds < 10)
        splice(t, t->length, 0, behind[odds], strlen(behind[odds]));
    for (unsigned count = odds < 10 ? 0 : 1 + below(odds == 10 ? 1 : 300); count > 0; count--)
        insert(t, t->length, odds == 10 ? '\0' : (char)((int)below(256) - 128));
    return 1;
}

static int cut_anywhere(struct Spoilt *t)
{
    if (t->length == 0)
        return 0;
    t->length = below((unsigned)t->length);
    return 1;
}

/* Just behind a line. */
static int cut_at_line(struct Spoilt *t)
{
    size_t start[LINES];
    unsigned count = find_lines(t, start);

    if (count == 0)
        return 0;
    t->length = start[below(count)];
    return 1;
}

static int make_empty(struct Spoilt *t)
{
    t->length = 0;
    return 1;
}

/* ---- Lines ---- */

static int drop_line(struct Spoilt *t)
{
    size_t start[LINES];
    unsigned count = find_lines(t, start), i = count == 0 ? 0 : below(count);

    if (count > 0)
        splice(t, start[i], line_length(t, start[i]), "", 0);
    return count > 0;
}

/* A line comes to stand before another; the old one stays or goes. */
static void copy_line(struct Spoilt *t, size_t from, size_t to, int stays)
{
    char line[1024];
    size_t length = line_length(t, from);

    if (length > sizeof line)
        return;
    memcpy(line, &t->text[from], length);
    splice(t, to, 0, line, length);
    if (!stays)
        splice(t, to <= from ? from + length : from, length, "", 0);
}

static int double_line(struct Spoilt *t)
{
    size_t start[LINES];
    unsigned count = find_lines(t, start), i = count == 0 ? 0 : below(count);

    if (count > 0)
        copy_line(t, start[i], start[i], 1);
    return count > 0;
}

static int swap_lines(struct Spoilt *t)
{
    size_t start[LINES];
    unsigned count = find_lines(t, start), i = count < 2 ? 0 : below(count - 1);

    if (count < 2)
        return 0;
    copy_line(t, start[i + 1], start[i], 0);
    return 1;
}

static int move_line(struct Spoilt *t)
{
    size_t start[LINES];
    unsigned count = find_lines(t, start), from, to;

    if (count < 2)
        return 0;
    from = below(count);
    to = below(count);
    copy_line(t, start[from], start[to == from ? (to + 1) % count : to], 0);
    return 1;
}

static int put_blank(struct Spoilt *t)
{
    size_t start[LINES];
    unsigned count = find_lines(t, start);

    insert(t, count == 0 ? 0 : start[below(count)], '\n');
    return 1;
}

/* Two lines become one. */
static int join_lines(struct Spoilt *t)
{
    size_t start[LINES];
    unsigned count = find_lines(t, start), i = count < 2 ? 0 : 1 + below(count - 1);

    if (count < 2)
        return 0;
    splice(t, start[i] - 1, 1, "", 0);
    return 1;
}

static int make_long(struct Spoilt *t)
{
    size_t at = any_digit(t);
    unsigned more = 2 * (24 + below(300));

    for (unsigned i = 0; i < more && at != NONE; i++)
        insert(t, at, digits[below(16)]);
    return at != NONE;
}

static int change_kind(struct Spoilt *t)
{
    size_t start[LINES];
    unsigned count = find_lines(t, start), i = count == 0 ? 0 : below(count);

    if (count == 0 || line_length(t, start[i]) < 3)
        return 0;
    set_byte(t, start[i], 0, (byte_at(t, start[i], 0) & 0xF0) | ((byte_at(t, start[i], 0) + 1 + below(15)) & 15));
    return 1;
}

static int change_form(struct Spoilt *t)
{
    static const char *const forms[] = {
        "D002\n", "D00\n", "d001\n", "D0001\n", "D001 \n", "D000\n", "D003\n", "D101\n", "D011\n", "D001\r\n", "001\n", "D0\n", "\n",
        "D001\nD001\n", "D0010\n", "D00100\n", "D001\n", ""
    };
    const char *form = forms[below(sizeof forms / sizeof *forms)];

    splice(t, 0, line_length(t, 0), form, strlen(form));
    return 1;
}

/* A board of three or five channels. */
static int change_channels(struct Spoilt *t)
{
    size_t line = line_of(t, 0xD1, 12);

    if (line == NONE)
        return 0;
    if (percent(50))
        splice(t, line, line_length(t, line), "", 0);
    else
        splice(t, line, 0, "D10000000000000000000000\n", 25);
    return 1;
}

/* ---- Numbers ---- */

static int bad_mark(struct Spoilt *t)
{
    size_t line = line_of(t, 0xD2, 7);
    unsigned mark = percent(60) ? 2 : 2 + below(254), at = 4 + below(4);

    if (line != NONE && percent(40)) {
        set_byte(t, line, 5, mark);
        return 1;
    }
    line = line_of(t, 0xD1, 12);
    if (line != NONE)
        set_byte(t, line, at, mark);
    return line != NONE;
}

/* A mark that is one, and was not, or the other way round. */
static int other_mark(struct Spoilt *t)
{
    size_t line = line_of(t, 0xD1, 12);
    unsigned at = 4 + below(4);

    if (line != NONE)
        set_byte(t, line, at, byte_at(t, line, at) ^ 1);
    return line != NONE;
}

static int bad_id(struct Spoilt *t)
{
    unsigned number = 0;
    size_t line = line_with_id(t, &number);

    if (line != NONE)
        set_byte(t, line, number, percent(40) ? 64 : 64 + below(192));
    return line != NONE;
}

/* The id of one line stands in another. */
static int same_id(struct Spoilt *t)
{
    unsigned number = 0, other = 0;
    size_t line = line_with_id(t, &number);

    for (unsigned tries = 0; tries < 20 && line != NONE; tries++) {
        size_t from = line_with_id(t, &other);

        if (from != line) {
            set_byte(t, line, number, byte_at(t, from, other));
            return 1;
        }
    }
    return 0;
}

/* Any other id; mostly an idle one, and then the text is good. */
static int other_id(struct Spoilt *t)
{
    unsigned number = 0;
    size_t line = line_with_id(t, &number);

    if (line != NONE)
        set_byte(t, line, number, below(64));
    return line != NONE;
}

static void set_period(struct Spoilt *t, size_t line, unsigned number, unsigned long period)
{
    for (unsigned i = 0; i < 3; i++)
        set_byte(t, line, number + i, (unsigned)(period >> 8 * (2 - i) & 255));
}

static int bad_period(struct Spoilt *t)
{
    static const unsigned long periods[6] = {0, 123, 65537, 0xFFFFFF, 1, 131072};
    unsigned long period = periods[below(6)];
    size_t line = line_of(t, 0xD5, 9);

    if (line != NONE && percent(60)) {
        set_period(t, line, 5, period);
        return 1;
    }
    line = line_of(t, 0xD1, 12);
    if (line != NONE)                       /* without a PERVOL 0 would be right, and 124 is wrong */
        set_period(t, line, 8, period == 0 && byte_at(t, line, 7) == 0 ? 124 : period);
    return line != NONE;
}

static int bad_volume(struct Spoilt *t)
{
    size_t line = line_of(t, 0xD5, 9);
    unsigned volume = percent(50) ? 65 : 65 + below(191);

    if (line != NONE && percent(60)) {
        set_byte(t, line, 8, volume);
        return 1;
    }
    line = line_of(t, 0xD1, 12);
    if (line != NONE)
        set_byte(t, line, 11, volume);
    return line != NONE;
}

/* Other numbers of a write, in range: both ends, and endless. The text stays good. */
static int other_numbers(struct Spoilt *t)
{
    size_t line = line_of(t, 0xD5, 9);

    if (line == NONE)
        return 0;
    set_byte(t, line, 3, below(2) * 255);
    set_byte(t, line, 4, below(3));
    set_period(t, line, 5, percent(50) ? 124 : 65536);
    set_byte(t, line, 8, percent(50) ? 0 : 64);
    return 1;
}

/* A write of another channel, or of none. */
static int bad_channel(struct Spoilt *t)
{
    size_t line = line_of(t, 0xD5, 9);

    if (line != NONE)
        set_byte(t, line, 1, percent(50) ? below(board_of(t)) : percent(50) ? board_of(t) : below(256));
    return line != NONE;
}

/* Writes of two channels change places. */
static int writes_out_of_order(struct Spoilt *t)
{
    size_t found[LINES];
    unsigned count = lines_of(t, 0xD5, 9, found);

    for (unsigned i = 1; i < count; i++)
        if (byte_at(t, found[i], 1) != byte_at(t, found[i - 1], 1)) {
            copy_line(t, found[i], found[i - 1], 0);
            return 1;
        }
    return 0;
}

/* A new write for a channel: a free one where there is one. */
static int write_on_free(struct Spoilt *t)
{
    char made[] = "D5000000010000FC40\n";
    size_t channel[LINES], found[LINES];
    unsigned count = lines_of(t, 0xD1, 12, channel), c = 0;
    struct Spoilt line = {.length = sizeof made - 1};
    size_t to;

    while (c < count && (byte_at(t, channel[c], 1) != 0 || byte_at(t, channel[c], 2) != 0))
        c++;
    if (c == count)
        return 0;
    memcpy(line.text, made, sizeof made - 1);
    set_byte(&line, 0, 1, c);
    set_byte(&line, 0, 2, below(64));
    to = lines_of(t, 0xD6, 3, found) > 0 ? found[0] : line_of(t, 0xD7, 3);
    if (to == NONE)
        return 0;
    for (unsigned writes = lines_of(t, 0xD5, 9, found); writes > 0 && byte_at(t, found[writes - 1], 1) > c; writes--)
        to = found[writes - 1];
    splice(t, to, 0, line.text, line.length);
    return 1;
}

/* A channel that plays, or that somebody locked, becomes free. */
static int free_channel(struct Spoilt *t)
{
    size_t line = line_of(t, 0xD1, 12);

    if (line == NONE || (byte_at(t, line, 1) == 0 && byte_at(t, line, 2) == 0))
        return 0;
    for (unsigned number = 1; number < 12; number++)
        set_byte(t, line, number, 0);
    return 1;
}

/* A free channel that is not as free ones are. */
static int free_with_something(struct Spoilt *t)
{
    size_t found[LINES];
    unsigned count = lines_of(t, 0xD1, 12, found), c = count == 0 ? 0 : below(count);

    for (unsigned tries = 0; tries < count; tries++, c = (c + 1) % count)
        if (byte_at(t, found[c], 1) == 0 && byte_at(t, found[c], 2) == 0) {
            set_byte(t, found[c], 3 + below(3), 1);
            return 1;
        }
    return 0;
}

/* A lock over a channel that is not locked. */
static int lock_of_unlocked(struct Spoilt *t)
{
    size_t lock = line_of(t, 0xD3, 5), channel[LINES];
    unsigned count = lines_of(t, 0xD1, 12, channel);

    if (lock == NONE)
        return 0;
    for (unsigned c = 0; c < count; c++)
        if (byte_at(t, lock, 4) >> c & 1) {
            set_byte(t, channel[c], 4, 0);
            return 1;
        }
    return 0;
}

/* Key 0 on a channel, a lock or a WAITCYCLE; of a waiting request it is good. */
static int zero_key(struct Spoilt *t)
{
    static const uint8_t kinds[4] = {0xD1, 0xD2, 0xD3, 0xD4}, at[4] = {1, 2, 2, 2};
    unsigned kind = below(4);

    for (unsigned tries = 0; tries < 4; tries++, kind = (kind + 1) % 4) {
        size_t line = line_of(t, kinds[kind], 5);

        if (line == NONE || (byte_at(t, line, at[kind]) == 0 && byte_at(t, line, at[kind] + 1u) == 0))
            continue;
        set_byte(t, line, at[kind], 0);
        set_byte(t, line, at[kind] + 1u, 0);
        return 1;
    }
    return 0;
}

/* A lock or a WAITCYCLE of another key than its channels'. */
static int other_key(struct Spoilt *t)
{
    size_t line = line_of(t, percent(50) ? 0xD3 : 0xD4, 5);

    if (line != NONE)
        set_byte(t, line, 3, byte_at(t, line, 3) ^ (1 + below(255)));
    return line != NONE;
}

/* n says another number than there are. */
static int bad_count(struct Spoilt *t)
{
    size_t line = line_of(t, 0xD2, 7);

    if (line != NONE)
        set_byte(t, line, 6, percent(60) ? byte_at(t, line, 6) + (percent(50) ? 1 : 255) : below(256));
    return line != NONE;
}

/* So many combinations, and n says so. */
static int list_of(struct Spoilt *t, unsigned count)
{
    size_t line = line_of(t, 0xD2, 7);
    unsigned n;

    if (line == NONE)
        return 0;
    for (n = byte_at(t, line, 6); n < count; n++)
        splice(t, line + 14, 0, "01", 2);
    for (; n > count; n--)
        splice(t, line + 14, 2, "", 0);
    set_byte(t, line, 6, count);
    return 1;
}

static int list_of_none(struct Spoilt *t) { return list_of(t, 0); }
static int list_of_sixteen(struct Spoilt *t) { return list_of(t, 16); }
static int list_of_seventeen(struct Spoilt *t) { return list_of(t, 17 + (percent(50) ? 0 : below(100))); }

/* A map above 15: of a lock, of a WAITCYCLE, or a combination. Eight channels have no such map. */
static int bad_map(struct Spoilt *t)
{
    unsigned kind = below(3), map = percent(50) ? 16 : 16 + below(240);
    size_t line = line_of(t, 0xD2 + kind, kind == 0 ? 8 : 5);

    if (line == NONE || board_of(t) == 8)
        return 0;
    if (kind == 0)
        set_byte(t, line, 7 + below(byte_at(t, line, 6)), map);
    else
        set_byte(t, line, 4, map);
    return 1;
}

/* A lock of no channel or of others, a WAITCYCLE of none, of others or of two. */
static int other_map(struct Spoilt *t)
{
    size_t line = line_of(t, percent(50) ? 0xD3 : 0xD4, 5);

    if (line != NONE)
        set_byte(t, line, 4, percent(30) ? 0 : below(1u << board_of(t)));
    return line != NONE;
}

/* Other combinations, of this board: a text of the first form stays good; in the second the numbers may be wrong. */
static int other_list(struct Spoilt *t)
{
    size_t line = line_of(t, 0xD2, 8);

    if (line != NONE)
        set_byte(t, line, 7 + below(byte_at(t, line, 6)), below(1u << board_of(t)));
    return line != NONE;
}

/* "Waiting requests stand by precedence, highest first": at the ends of the range mostly out of order. */
static int other_precedence(struct Spoilt *t)
{
    size_t line = line_of(t, 0xD2, 7);

    if (line != NONE)
        set_byte(t, line, 4, percent(30) ? 0x7F : percent(40) ? 0x80 : below(256));
    return line != NONE;
}

/* Something remembered where nothing plays, or numbers where no PERVOL is remembered. */
static int bad_memory(struct Spoilt *t)
{
    size_t line = line_of(t, 0xD1, 12);
    unsigned odds = below(4);

    if (line == NONE)
        return 0;
    if (odds == 0)
        set_byte(t, line, 6, 1);
    else if (odds == 1)
        set_byte(t, line, 7, byte_at(t, line, 7) ^ 1);
    else if (odds == 2)
        set_byte(t, line, 11, 1 + below(64));
    else
        set_period(t, line, 8, 124 + below(1000));
    return 1;
}

static int open_zero(struct Spoilt *t)
{
    size_t line = line_of(t, 0xD6, 3);

    if (line == NONE) {
        line = line_of(t, 0xD7, 3);
        if (line == NONE)
            return 0;
        splice(t, line, 0, "D60000\n", 7);
        return 1;
    }
    set_byte(t, line, 1, 0);
    set_byte(t, line, 2, 0);
    return 1;
}

/* So many open keys in all; 32 are good. */
static int opens(struct Spoilt *t, unsigned wanted)
{
    size_t found[LINES], last = line_of(t, 0xD7, 3);

    if (last == NONE)
        return 0;
    for (unsigned count = lines_of(t, 0xD6, 3, found); count < wanted; count++)
        splice(t, last, 0, "D60005\n", 7);
    return 1;
}

static int opens_32(struct Spoilt *t) { return opens(t, 32); }
static int opens_33(struct Spoilt *t) { return opens(t, 33 + (percent(60) ? 0 : below(40))); }

/* Any last key is good. */
static int other_last(struct Spoilt *t)
{
    size_t line = line_of(t, 0xD7, 3);

    if (line == NONE)
        return 0;
    set_byte(t, line, 1, below(256));
    set_byte(t, line, 2, below(256));
    return 1;
}

/* ---- The second form ---- */

/* A board of five channels, whole: the number says so, and there is one more channel with its numbers. */
static void five_channels(struct Spoilt *t, size_t board)
{
    char shown[] = "D9040000\n";
    size_t found[LINES];

    set_byte(t, board, 1, 5);
    if (lines_of(t, 0xD9, 4, found) == 4)
        splice(t, t->length, 0, shown, sizeof shown - 1);
    if (lines_of(t, 0xD1, 12, found) == 4)
        splice(t, found[0], 0, "D10000000000000000000000\n", 25);
}

/* The number of channels: the other board's, none's, or no such line, or two. */
static int bad_board(struct Spoilt *t)
{
    static const uint8_t numbers[6] = {0, 1, 3, 5, 7, 255};
    unsigned odds = below(7), number = numbers[below(6)];
    size_t line = line_of(t, 0xD8, 2);

    if (line == NONE)
        return 0;
    if (odds == 6)
        five_channels(t, line);
    else if (odds == 0)
        splice(t, line, line_length(t, line), "", 0);
    else if (odds == 1)
        copy_line(t, line, line, 1);
    else
        set_byte(t, line, 1, odds < 4 ? byte_at(t, line, 1) ^ 12 : number);
    return 1;
}

/* A number that is not that of a count. */
static int bad_shown(struct Spoilt *t)
{
    size_t line = line_of(t, 0xD9, 4);
    unsigned number = 2 + below(2), by = percent(70) ? 1 + 254 * below(2) : 1 + below(255);

    if (line != NONE)
        set_byte(t, line, number, byte_at(t, line, number) + by);
    return line != NONE;
}

static int bad_shown_channel(struct Spoilt *t)
{
    size_t line = line_of(t, 0xD9, 4);

    if (line != NONE)
        set_byte(t, line, 1, byte_at(t, line, 1) + 1 + below(percent(50) ? 7 : 255));
    return line != NONE;
}

/* One of the lines of numbers is gone, stands twice, has its neighbour's place or stands before the last key. */
static int bad_shown_lines(struct Spoilt *t)
{
    size_t found[LINES], last = line_of(t, 0xD7, 3);
    unsigned count = lines_of(t, 0xD9, 4, found), odds = below(4), i = count < 2 ? 0 : below(count - 1);

    if (count < 2 || last == NONE)
        return 0;
    if (odds == 0)
        splice(t, found[i], line_length(t, found[i]), "", 0);
    else if (odds == 1)
        copy_line(t, found[i], found[i], 1);
    else if (odds == 2)
        copy_line(t, found[i + 1], found[i], 0);
    else
        copy_line(t, found[i], last, 0);
    return 1;
}

/* An id that no line has; 64 where there is none. */
static unsigned idle_id(const struct Spoilt *t)
{
    static const uint8_t kinds[4] = {0xD2, 0xD3, 0xD4, 0xD5};
    size_t found[LINES];
    uint8_t met[256] = {0};
    unsigned id = below(64), tries = 0;

    for (unsigned kind = 0; kind < 4; kind++)
        for (unsigned count = lines_of(t, kinds[kind], 5, found); count > 0; count--)
            met[byte_at(t, found[count - 1], kinds[kind] == 0xD5 ? 2 : 1)] = 1;
    for (; tries < 64 && met[id]; tries++)
        id = (id + 1) % 64;
    return tries < 64 ? id : 64;
}

/* One write more, at its queue's end, and the number says so: the text stays good. */
static int write_counted(struct Spoilt *t)
{
    char made[] = "D5000000010000FC40\n";
    size_t channel[LINES], shown[LINES], found[LINES], to;
    unsigned count = lines_of(t, 0xD1, 12, channel), c = count == 0 ? 0 : below(count), id = idle_id(t);

    if (count == 0 || lines_of(t, 0xD9, 4, shown) != count || id == 64
        || (byte_at(t, channel[c], 1) == 0 && byte_at(t, channel[c], 2) == 0))
        return 0;
    to = lines_of(t, 0xD6, 3, found) > 0 ? found[0] : line_of(t, 0xD7, 3);
    for (unsigned writes = lines_of(t, 0xD5, 9, found); writes > 0 && byte_at(t, found[writes - 1], 1) > c; writes--)
        to = found[writes - 1];
    set_byte(t, shown[c], 2, byte_at(t, shown[c], 2) + 1);
    splice(t, to, 0, made, sizeof made - 1);
    set_byte(t, to, 1, c);
    set_byte(t, to, 2, id);
    return 1;
}

/* ---- The kinds ---- */

static const struct {
    const char *name;
    int (*spoil)(struct Spoilt *t);
    enum Spoils gives;
} kinds[] = {
    {"lower", lower_digit, SPOILS_REFUSED},             /* a digit A to F becomes lower case */
    {"all-lower", lower_all, SPOILS_REFUSED},
    {"digit", change_digit, SPOILS_BOTH},               /* a digit becomes another */
    {"add-digit", add_digit, SPOILS_MOSTLY},            /* one or two more */
    {"remove-digit", remove_digit, SPOILS_MOSTLY},
    {"nul", put_nul, SPOILS_REFUSED},
    {"high", put_high, SPOILS_REFUSED},                 /* a byte above 127 */
    {"strange", put_strange, SPOILS_REFUSED},           /* a character that is no digit */
    {"cr", put_cr, SPOILS_REFUSED},
    {"bytes", any_bytes, SPOILS_REFUSED},
    {"last-lf", drop_last_lf, SPOILS_REFUSED},
    {"behind", put_behind, SPOILS_REFUSED},             /* bytes behind the end */
    {"cut", cut_anywhere, SPOILS_REFUSED},
    {"cut-line", cut_at_line, SPOILS_REFUSED},          /* the text ends with a line */
    {"empty", make_empty, SPOILS_REFUSED},
    {"drop", drop_line, SPOILS_BOTH},
    {"double", double_line, SPOILS_BOTH},
    {"swap", swap_lines, SPOILS_BOTH},                  /* neighbours */
    {"move", move_line, SPOILS_BOTH},
    {"blank", put_blank, SPOILS_REFUSED},               /* an empty line */
    {"join", join_lines, SPOILS_REFUSED},
    {"long", make_long, SPOILS_REFUSED},
    {"kind", change_kind, SPOILS_MOSTLY},               /* a line's first byte */
    {"form", change_form, SPOILS_REFUSED},              /* the first line */
    {"channels", change_channels, SPOILS_REFUSED},      /* three or five of them */
    {"mark", bad_mark, SPOILS_REFUSED},                 /* of 02 or more */
    {"other-mark", other_mark, SPOILS_BOTH},
    {"id", bad_id, SPOILS_REFUSED},                     /* of 64 or more */
    {"same-id", same_id, SPOILS_REFUSED},               /* in two places */
    {"other-id", other_id, SPOILS_BOTH},
    {"period", bad_period, SPOILS_REFUSED},
    {"volume", bad_volume, SPOILS_REFUSED},
    {"numbers", other_numbers, SPOILS_GOOD},            /* of a write, in range */
    {"channel", bad_channel, SPOILS_BOTH},              /* of a write */
    {"order", writes_out_of_order, SPOILS_REFUSED},
    {"free-write", write_on_free, SPOILS_REFUSED},      /* a write on a free channel */
    {"free", free_channel, SPOILS_BOTH},                /* a channel becomes free */
    {"not-free", free_with_something, SPOILS_REFUSED},  /* a free channel with a mark or a precedence */
    {"unlocked", lock_of_unlocked, SPOILS_REFUSED},
    {"zero-key", zero_key, SPOILS_BOTH},
    {"key", other_key, SPOILS_REFUSED},                 /* of a lock or a WAITCYCLE */
    {"count", bad_count, SPOILS_REFUSED},               /* n and the combinations disagree */
    {"none", list_of_none, SPOILS_REFUSED},
    {"sixteen", list_of_sixteen, SPOILS_GOOD},
    {"seventeen", list_of_seventeen, SPOILS_REFUSED},
    {"map", bad_map, SPOILS_REFUSED},                   /* above 15 */
    {"other-map", other_map, SPOILS_BOTH},
    {"list", other_list, SPOILS_GOOD},
    {"precedence", other_precedence, SPOILS_BOTH},      /* of a waiting request */
    {"memory", bad_memory, SPOILS_BOTH},                /* remembered without a write, or not and with numbers */
    {"open-zero", open_zero, SPOILS_REFUSED},
    {"opens-32", opens_32, SPOILS_GOOD},
    {"opens-33", opens_33, SPOILS_REFUSED},
    {"last-key", other_last, SPOILS_GOOD},
    {"board", bad_board, SPOILS_REFUSED},               /* from here on of the second form alone */
    {"shown", bad_shown, SPOILS_REFUSED},               /* a number that is not that of a count */
    {"shown-channel", bad_shown_channel, SPOILS_REFUSED},
    {"shown-lines", bad_shown_lines, SPOILS_REFUSED},
    {"counted", write_counted, SPOILS_GOOD}             /* a write more, and its number */
};

#define OF_SECOND_FORM 5u                   /* the last so many */

unsigned spoilt_kinds(void)
{
    return sizeof kinds / sizeof *kinds;
}

const char *spoilt_name(unsigned kind)
{
    return kinds[kind].name;
}

/* In the second form what changes the writes or who is named is refused, for the numbers are then wrong. */
enum Spoils spoilt_gives(unsigned kind, unsigned form)
{
    if (form == 2 && (kinds[kind].spoil == other_list || kinds[kind].spoil == list_of_sixteen))
        return SPOILS_BOTH;
    if (form == 2 && kinds[kind].spoil == bad_channel)
        return SPOILS_REFUSED;
    return kinds[kind].gives;
}

int spoilt_applies(unsigned kind, unsigned form, unsigned channels)
{
    if (kinds[kind].spoil == bad_map)
        return channels == 4;
    return form == 2 || kind < spoilt_kinds() - OF_SECOND_FORM;
}

int spoilt_by(unsigned kind, struct Spoilt *t)
{
    return kinds[kind].spoil(t);
}
