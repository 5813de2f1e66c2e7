/* Plays logs, each on a fresh device, and counts the answers and the replies by what
   caused them: coverage-count SHORT|LONG|EIGHT LOG... Prints a row for each, and fails if a
   row that is due was never reached. Some rows are due in LONG logs only, some on four
   channels only. coverage-count DISPLAY|DISPLAY8 LOG... prints the rows of the wall display
   alone, for logs on four channels or on eight; each of them is due. coverage-count
   SAVED|SAVED2|SAVED8 LOG... saves the state after each line in the first form, in the second,
   or in the second on eight channels, loads it back, spoils the text and loads that, and
   prints the rows of the saved texts alone; each of them is due. A text of four channels in
   the second form also goes to the first and back. */
#include "chance.h"
#include "log.h"
#include "saved.h"
#include "spoilt.h"

#include <stdio.h>
#include <string.h>

/* When a row is due. */
enum { ALWAYS, ONLY_LONG, ONLY_FOUR };

/* Rows of answers: by A0 or A1 and error. */
static struct AnswerRow {
    const char *name;
    int outstanding, error, due;
    unsigned long count;
} answer_rows[] = {
    {"A0   0 done", 0, DONE, 0, 0},
    {"A1   0 outstanding", 1, DONE, 0, 0},
    {"A0  -1 OPENFAIL", 0, IOERR_OPENFAIL, 0, 0},
    {"A0  -3 NOCMD", 0, IOERR_NOCMD, 0, 0},
    {"A0  -4 BADLENGTH", 0, IOERR_BADLENGTH, 0, 0},
    {"A0  -5 BADADDRESS", 0, IOERR_BADADDRESS, ONLY_FOUR, 0},
    {"A0 -10 NOALLOCATION", 0, ADIOERR_NOALLOCATION, 0, 0},
    {"A0 -11 ALLOCFAILED", 0, ADIOERR_ALLOCFAILED, 0, 0},
    {"A0   2 nothing open", 0, REFUSED_CLOSED, 0, 0},
    {"A0   3 id outstanding", 0, REFUSED_OUTSTANDING, 0, 0},
    {"A0   4 id above 63", 0, REFUSED_ID, 0, 0},
    {"A0   7 malformed", 0, REFUSED_LINE, 0, 0}
};

/* What a reply comes from. A call's number stands for itself. */
enum { OWN = 256, SETTLING, STEAL, CUT_BY_ABORT };
#define ANY (-1)

/* Rows of replies: by command, error and cause. ANY leaves a column open. */
static struct ReplyRow {
    const char *name;
    int command, error, cause;
    unsigned long count;
} reply_rows[] = {
    {"ALLOCATE   0, own: granted at once", ADCMD_ALLOCATE, DONE, OWN, 0},
    {"ALLOCATE   0, settling: granted later", ADCMD_ALLOCATE, DONE, SETTLING, 0},
    {"ALLOCATE -11, own: NOWAIT fails", ADCMD_ALLOCATE, ADIOERR_ALLOCFAILED, OWN, 0},
    {"ALLOCATE -11, settling: held one dropped", ADCMD_ALLOCATE, ADIOERR_ALLOCFAILED, SETTLING, 0},
    {"ALLOCATE  -2, ABORT", ADCMD_ALLOCATE, IOERR_ABORTED, CALL_ABORT, 0},
    {"ALLOCATE  -4, own", ADCMD_ALLOCATE, IOERR_BADLENGTH, OWN, 0},
    {"ALLOCATE  -5, own", ADCMD_ALLOCATE, IOERR_BADADDRESS, OWN, 0},
    {"LOCK   0, FREE emptied it", ADCMD_LOCK, DONE, ADCMD_FREE, 0},
    {"LOCK   0, CLOSE emptied it", ADCMD_LOCK, DONE, CALL_CLOSE, 0},
    {"LOCK   0, own: map 0", ADCMD_LOCK, DONE, OWN, 0},
    {"LOCK -10, own: mismatch", ADCMD_LOCK, ADIOERR_NOALLOCATION, OWN, 0},
    {"LOCK -12, settling: stolen", ADCMD_LOCK, ADIOERR_CHANNELSTOLEN, SETTLING, 0},
    {"WRITE   0, F3: the last cycle", CMD_WRITE, DONE, CALL_CYCLE_ENDED, 0},
    {"WRITE  -2, F3: a remembered FINISH", CMD_WRITE, IOERR_ABORTED, CALL_CYCLE_ENDED, 0},
    {"WRITE  -2, F4", CMD_WRITE, IOERR_ABORTED, CALL_GAVE_UP, 0},
    {"WRITE  -2, stolen", CMD_WRITE, IOERR_ABORTED, STEAL, 0},
    {"WRITE  -2, FREE", CMD_WRITE, IOERR_ABORTED, ADCMD_FREE, 0},
    {"WRITE  -2, CLOSE", CMD_WRITE, IOERR_ABORTED, CALL_CLOSE, 0},
    {"WRITE  -2, RESET", CMD_WRITE, IOERR_ABORTED, CMD_RESET, 0},
    {"WRITE  -2, FLUSH", CMD_WRITE, IOERR_ABORTED, CMD_FLUSH, 0},
    {"WRITE  -2, ABORT", CMD_WRITE, IOERR_ABORTED, CALL_ABORT, 0},
    {"WRITE  -2, FINISH", CMD_WRITE, IOERR_ABORTED, ADCMD_FINISH, 0},
    {"WRITE -10, own", CMD_WRITE, ADIOERR_NOALLOCATION, OWN, 0},
    {"WRITE  -4, own: numbers", CMD_WRITE, IOERR_BADLENGTH, OWN, 0},
    {"WAITCYCLE   0, F3", ADCMD_WAITCYCLE, DONE, CALL_CYCLE_ENDED, 0},
    {"WAITCYCLE  -2, F4", ADCMD_WAITCYCLE, IOERR_ABORTED, CALL_GAVE_UP, 0},
    {"WAITCYCLE   0, own: done at once", ADCMD_WAITCYCLE, DONE, OWN, 0},
    {"WAITCYCLE -10, own", ADCMD_WAITCYCLE, ADIOERR_NOALLOCATION, OWN, 0},
    {"WAITCYCLE  -2, stolen", ADCMD_WAITCYCLE, IOERR_ABORTED, STEAL, 0},
    {"WAITCYCLE  -2, FREE", ADCMD_WAITCYCLE, IOERR_ABORTED, ADCMD_FREE, 0},
    {"WAITCYCLE  -2, CLOSE", ADCMD_WAITCYCLE, IOERR_ABORTED, CALL_CLOSE, 0},
    {"WAITCYCLE  -2, RESET", ADCMD_WAITCYCLE, IOERR_ABORTED, CMD_RESET, 0},
    {"WAITCYCLE  -2, FLUSH", ADCMD_WAITCYCLE, IOERR_ABORTED, CMD_FLUSH, 0},
    {"WAITCYCLE  -2, FINISH", ADCMD_WAITCYCLE, IOERR_ABORTED, ADCMD_FINISH, 0},
    {"WAITCYCLE  -2, ABORT", ADCMD_WAITCYCLE, IOERR_ABORTED, CALL_ABORT, 0},
    {"WAITCYCLE  -2, ABORT of the front write", ADCMD_WAITCYCLE, IOERR_ABORTED, CUT_BY_ABORT, 0},
    {"FINISH   0, own", ADCMD_FINISH, DONE, OWN, 0},
    {"FINISH -10, own", ADCMD_FINISH, ADIOERR_NOALLOCATION, OWN, 0},
    {"PERVOL   0, own", ADCMD_PERVOL, DONE, OWN, 0},
    {"PERVOL -10, own", ADCMD_PERVOL, ADIOERR_NOALLOCATION, OWN, 0},
    {"PERVOL  -4, own: numbers", ADCMD_PERVOL, IOERR_BADLENGTH, OWN, 0},
    {"READ   0, own", CMD_READ, DONE, OWN, 0},
    {"READ -10, own", CMD_READ, ADIOERR_NOALLOCATION, OWN, 0},
    {"RESET   0, own", CMD_RESET, DONE, OWN, 0},
    {"RESET -10, own", CMD_RESET, ADIOERR_NOALLOCATION, OWN, 0},
    {"UPDATE   0, own", CMD_UPDATE, DONE, OWN, 0},
    {"UPDATE -10, own", CMD_UPDATE, ADIOERR_NOALLOCATION, OWN, 0},
    {"CLEAR   0, own", CMD_CLEAR, DONE, OWN, 0},
    {"CLEAR -10, own", CMD_CLEAR, ADIOERR_NOALLOCATION, OWN, 0},
    {"STOP   0, own", CMD_STOP, DONE, OWN, 0},
    {"STOP -10, own", CMD_STOP, ADIOERR_NOALLOCATION, OWN, 0},
    {"START   0, own", CMD_START, DONE, OWN, 0},
    {"START -10, own", CMD_START, ADIOERR_NOALLOCATION, OWN, 0},
    {"FLUSH   0, own", CMD_FLUSH, DONE, OWN, 0},
    {"FLUSH -10, own", CMD_FLUSH, ADIOERR_NOALLOCATION, OWN, 0},
    {"FREE   0, own", ADCMD_FREE, DONE, OWN, 0},
    {"FREE -10, own", ADCMD_FREE, ADIOERR_NOALLOCATION, OWN, 0},
    {"SETPREC   0, own", ADCMD_SETPREC, DONE, OWN, 0},
    {"SETPREC -10, own", ADCMD_SETPREC, ADIOERR_NOALLOCATION, OWN, 0},
    {"other commands  -5, own", ANY, IOERR_BADADDRESS, OWN, 0},
    {"unlisted command  -3, own", ANY, IOERR_NOCMD, OWN, 0}
};

/* What a row of answers does not tell apart. */
static struct CallRow {
    const char *name;
    int due;
    unsigned long count;
} call_rows[] = {
    {"OPEN 0 with combinations", 0, 0},
    {"OPEN 0 without", 0, 0},
    {"OPEN -11", 0, 0},
    {"OPEN 0, the 32nd entry", 0, 0},
    {"CLOSE 0", 0, 0},
    {"CLOSE 0, another entry of its key remains", 0, 0},
    {"CLOSE 2, the device open for others", 0, 0},
    {"ABORT 0, aborted", 0, 0},
    {"ABORT 0, not aborted", 0, 0},
    {"READ 0 with an id", 0, 0},
    {"READ 0 with 255", 0, 0},
    {"ALLOCATE held, outstanding", 0, 0},
    {"ALLOCATE held with NOWAIT", 0, 0},
    {"lock freed in part", 0, 0},
    {"grant of more than one request in a call", 0, 0},
    {"fewer stolen beat an earlier combination", 0, 0},
    {"the same by a waiting request, held", 0, 0},
    {"equal in both costs: the earliest", 0, 0},
    {"full list of sixteen accepted", 0, 0},
    {"seventeen entries, one of them 10", 0, 0},
    {"ten replies or more in a call", 0, 0},
    {"more than 60 outstanding", 0, 0},
    {"new key passes over keys in use", 0, 0},
    {"keys come round", ONLY_LONG, 0},
    {"keys come round over keys in use", ONLY_LONG, 0},
    {"new key passes over one of an opener alone", 0, 0},
    {"keys come round over such a key", ONLY_LONG, 0},
    {"FINISH remembered", 0, 0},
    {"FINISH, plain, on a stopped channel", 0, 0},
    {"FINISH, synced, on a stopped channel", 0, 0},
    {"FINISH of the front of two writes", 0, 0},
    {"PERVOL at once", 0, 0},
    {"PERVOL remembered", 0, 0},
    {"PERVOL remembered over another", 0, 0},
    {"PERVOL at once beside a remembered one", 0, 0},
    {"two waiters or more cut, of two channels", 0, 0},
    {"ABORT of the first of two writes, waited for", 0, 0},
    {"ABORT of a write behind one waited for", 0, 0},
    {"STOP of a channel waited for", 0, 0},
    {"WAITCYCLE done on a stopped channel", 0, 0},
    {"WRITE endless", 0, 0},
    {"WRITE with period 124 or 65,536", 0, 0},
    {"F3: the write goes on, waiters answered", 0, 0},
    {"F3: two waiters or more answered", 0, 0},
    {"F3: no end of an endless write", 0, 0},
    {"F3: counted down, more than 1 left", 0, 0},
    {"F3: counted down to 1", 0, 0},
    {"F3: counted down from 256", 0, 0},
    {"F3: the last cycle, waiters answered", 0, 0},
    {"F3: the last cycle, a write behind it", 0, 0},
    {"F3: PERVOL applied, counted down", 0, 0},
    {"F3: PERVOL applied, endless", 0, 0},
    {"F3: PERVOL remembered in the last cycle", 0, 0},
    {"F3: FINISH, cycles left", 0, 0},
    {"F3: FINISH, endless", 0, 0},
    {"F3: FINISH in the last cycle", 0, 0},
    {"F3: FINISH and PERVOL remembered", 0, 0},
    {"F3: FINISH, waiters answered", 0, 0},
    {"F3: FINISH, a write behind it", 0, 0},
    {"F3 on a stopped channel with a write", 0, 0},
    {"F3, stopped, waiters there", 0, 0},
    {"F3, stopped, something remembered", 0, 0},
    {"F3 on a channel without a write", 0, 0},
    {"F3 on a free channel", 0, 0},
    {"F3 of map 0", 0, 0},
    {"F3 above the highest map: -5", ONLY_FOUR, 0},
    {"F3 reads the lowest of several bits", 0, 0},
    {"F3 met a write, nothing open", 0, 0},
    {"F3, nothing open, map 0", 0, 0},
    {"F4 of a write alone", 0, 0},
    {"F4, a write behind it", 0, 0},
    {"F4, waiters ended", 0, 0},
    {"F4, two waiters or more ended", 0, 0},
    {"F4, waiters of another channel stay", 0, 0},
    {"F4, something remembered", 0, 0},
    {"F4 of an endless write", 0, 0},
    {"F4 on a stopped channel with a write", 0, 0},
    {"F4 on a channel without a write", 0, 0},
    {"F4 on a free channel", 0, 0},
    {"F4 of map 0", 0, 0},
    {"F4 above the highest map: -5", ONLY_FOUR, 0},
    {"F4 reads the lowest of several bits", 0, 0},
    {"F4 met a write, nothing open", 0, 0},
    {"F4, nothing open, map 0", 0, 0},
    {"READ 255: A asks, the write is B's", 0, 0},
    {"READ 255: B asks, the write is A's", 0, 0},
    {"READ 255: the other's before its own", 0, 0},
    {"READ with its own, the other's behind it", 0, 0},
    {"replies to both desks", 0, 0},
    {"to both, some of B's made first: RESET", 0, 0},
    {"to both, some of B's made first: FLUSH", 0, 0},
    {"to both, some of B's made first: FREE", 0, 0},
    {"to both, some of B's made first: FINISH", 0, 0},
    {"to both, some of B's made first: SETPREC", 0, 0},
    {"to both, some of B's made first: ALLOCATE", 0, 0},
    {"to both, some of B's made first: OPEN", 0, 0},
    {"to both, some of B's made first: CLOSE", 0, 0},
    {"to both, some of B's made first: ABORT", 0, 0},
    {"to both, some of B's made first: F3", 0, 0},
    {"to both, some of B's made first: F4", 0, 0},
    {"its own reply to A, made behind one to B", 0, 0},
    {"its own reply to B, made behind one to A", 0, 0},
    {"A calls, only B is replied", 0, 0},
    {"B calls, only A is replied", 0, 0},
    {"five replies or more to each desk", 0, 0},
    {"locks of both stolen, B's the older", 0, 0},
    {"waiters of both ended, B's the older", 0, 0},
    {"requests of both granted, B's first", 0, 0},
    {"WRITE behind the other's", 0, 0},
    {"WAITCYCLE on the other's write", 0, 0},
    {"PERVOL of the other's write", 0, 0},
    {"FINISH of the other's write", 0, 0},
    {"LOCK over a channel that the other locked", 0, 0},
    {"ABORT by A", 0, 0},
    {"ABORT by B", 0, 0},
    {"id 31 is A's", 0, 0},
    {"id 32 is B's", 0, 0},
    {"id 63 is B's", 0, 0}
};
enum {
    OPEN_LIST, OPEN_PLAIN, OPEN_FAILED, OPEN_LAST, CLOSED, CLOSED_ONE, CLOSE_FOREIGN, ABORTED, NOT_ABORTED,
    READ_ID, READ_NONE, HELD, HELD_NOWAIT, PARTIAL, MANY_GRANTS, FEWER, FEWER_HELD, TIED,
    SIXTEEN, SEVENTEEN, TEN_REPLIES, NEARLY_FULL, PASSES, ROUND, ROUND_PASSES,
    PASSES_OPENER, ROUND_PASSES_OPENER,
    FINISH_LATER, FINISH_STOPPED, FINISH_LATER_STOPPED, FINISH_OF_TWO, PERVOL_NOW, PERVOL_LATER, PERVOL_AGAIN, PERVOL_BESIDE,
    TWO_CUT, ABORT_FIRST, ABORT_BEHIND, STOP_WAITED, WAIT_STOPPED, ENDLESS, LONG_PERIODS,
    CYCLE_ANSWERED, CYCLE_TWO, CYCLE_ENDLESS, CYCLE_LEFT, CYCLE_TO_ONE, CYCLE_FROM_256, CYCLE_LAST_ANSWERED, CYCLE_LAST_BEHIND,
    CYCLE_PERVOL, CYCLE_PERVOL_ENDLESS, CYCLE_PERVOL_LAST,
    CYCLE_FINISH, CYCLE_FINISH_ENDLESS, CYCLE_FINISH_LAST, CYCLE_BOTH, CYCLE_FINISH_ANSWERED, CYCLE_FINISH_BEHIND,
    CYCLE_STOPPED, CYCLE_STOPPED_WAITED, CYCLE_STOPPED_REMEMBERED, CYCLE_EMPTY, CYCLE_FREE, CYCLE_NOTHING, CYCLE_BEYOND,
    CYCLE_LOWEST, CYCLE_CLOSED, CYCLE_CLOSED_NOTHING,
    GAVE_UP_ALONE, GAVE_UP_BEHIND, GAVE_UP_WAITED, GAVE_UP_TWO, GAVE_UP_OTHERS, GAVE_UP_REMEMBERED, GAVE_UP_ENDLESS,
    GAVE_UP_STOPPED, GAVE_UP_EMPTY, GAVE_UP_FREE, GAVE_UP_NOTHING, GAVE_UP_BEYOND, GAVE_UP_LOWEST, GAVE_UP_CLOSED,
    GAVE_UP_CLOSED_NOTHING,
    READ_A, READ_B, READ_OTHER_FIRST, READ_OWN_FIRST, TO_BOTH,
    B_FIRST, B_FIRST_END = B_FIRST + 10, OWN_A, OWN_B, ONLY_B, ONLY_A, FIVE_EACH, LOCKS_OF_BOTH, WAITERS_OF_BOTH, GRANTS_OF_BOTH,
    WRITE_BEHIND, WAIT_OTHER, PERVOL_OTHER, FINISH_OTHER, LOCK_OTHER, ABORT_A, ABORT_B, LAST_OF_A, FIRST_OF_B, LAST_OF_B
};
/* The calls of the rows from B_FIRST on. */
static const uint8_t crossing[B_FIRST_END - B_FIRST + 1] = {
    CMD_RESET, CMD_FLUSH, ADCMD_FREE, ADCMD_FINISH, ADCMD_SETPREC, ADCMD_ALLOCATE, CALL_OPEN, CALL_CLOSE, CALL_ABORT,
    CALL_CYCLE_ENDED, CALL_GAVE_UP
};

/* Request #110: what the wall display shows. */
static struct DisplayRow {
    const char *name;
    unsigned long count;
} display_rows[] = {
    {"looks 0: settled with nobody waiting", 0},
    {"the same after looks above 0", 0},
    {"looks of all who wait, no grant", 0},
    {"looks above w", 0},
    {"looks above 64", 0},
    {"looks w(w+1)/2, w above 1", 0},
    {"looks left by a call that does not settle", 0},
    {"left above 0: 2", 0},
    {"left above 0: 3", 0},
    {"left above 0: 4", 0},
    {"left above 0: -3", 0},
    {"left above 0: -4", 0},
    {"left above 0: OPEN answered -11", 0},
    {"left above 0: malformed", 0},
    {"after -10: looks above 0", 0},
    {"after ALLOCATE's -11: looks above 0", 0},
    {"after \"not aborted\": looks above 0", 0},
    {"a grant, then looks from the head", 0},
    {"three grants or more in a settling", 0},
    {"a grant not at the head", 0},
    {"a request dropped", 0},
    {"dropped, while a held one stays", 0},
    {"dropped and granted in a settling", 0},
    {"a waiting request aborted", 0},
    {"named twice by a request, counted once", 0},
    {"naming of 32 or more", 0},
    {"naming of all channels, above 0", 0},
    {"writes of 4 or more", 0},
    {"writes of a stopped channel", 0},
    {"several writes of a channel end in a call", 0},
    {"writes and naming both change in a call", 0},
    {"held and not held in one list", 0},
    {"a held one behind one not held", 0},
    {"held no more, and waiting", 0},
    {"held now, and not before", 0},
    {"both desks in one list", 0},
    {"A's and B's at one precedence, B's first", 0},
    {"a list of 32 of one desk", 0},
    {"a list of 64", 0},
    {"a list of none, after one", 0}
};
enum {
    NOBODY, NOBODY_AGAIN, NO_GRANT, ABOVE_W, ABOVE_64, AT_BOUND, LEFT, LEFT_2, LEFT_3, LEFT_4, LEFT_NOCMD, LEFT_LENGTH,
    LEFT_OPEN, LEFT_MALFORMED, AFTER_MISMATCH, AFTER_FAILED, AFTER_NOT_ABORTED, FROM_HEAD, THREE_GRANTS, NOT_AT_HEAD,
    DROPPED, DROPPED_BESIDE_HELD, DROPPED_GRANTED, WAITING_ABORTED, NAMED_TWICE, NAMING_32, NAMING_ALL, WRITES_4,
    WRITES_STOPPED, WRITES_END, BOTH_NUMBERS, HELD_AND_NOT, HELD_BEHIND, HELD_NO_MORE, HELD_NOW, BOTH_DESKS, B_BEFORE_A,
    HALF_LIST, FULL_LIST, LIST_GONE
};

/* Request #106: what the saved texts hold. */
static struct SavedRow {
    const char *name;
    unsigned long count;
} saved_rows[] = {
    {"waiting requests", 0},
    {"a waiting request of sixteen combinations", 0},
    {"a waiting request of key 0", 0},
    {"a waiting request with NOWAIT", 0},
    {"a waiting request of precedence below 0", 0},
    {"locks", 0},
    {"several locks", 0},
    {"several locks, an older one of a higher id", 0},
    {"a lock of several channels", 0},
    {"two locks over one channel", 0},
    {"WAITCYCLEs", 0},
    {"several WAITCYCLEs of one channel", 0},
    {"an older WAITCYCLE of a higher id", 0},
    {"an older WAITCYCLE of a higher channel", 0},
    {"a WAITCYCLE of a stopped channel", 0},
    {"writes", 0},
    {"writes of every channel", 0},
    {"several writes of a channel", 0},
    {"several writes, the front of a higher id", 0},
    {"an endless write", 0},
    {"a write of 256 cycles or more left", 0},
    {"a write with period 65,536", 0},
    {"FINISH remembered", 0},
    {"PERVOL remembered", 0},
    {"both remembered on one channel", 0},
    {"remembered on a stopped channel", 0},
    {"a locked channel that no lock names", 0},
    {"a channel of precedence 127", 0},
    {"a free channel", 0},
    {"no open key", 0},
    {"32 open keys", 0},
    {"an open key twice", 0},
    {"every kind of line in one text", 0},
    {"all 64 ids outstanding", 0},
    {"of more than 1,000 bytes", 0},
    {"of more than 2,000 bytes", 0},
    {"of more than 3,000 bytes", 0}
};
enum {
    WAITING_LINES, WAITING_SIXTEEN, WAITING_NO_KEY, WAITING_NOWAIT, WAITING_BELOW, LOCK_LINES, LOCKS_SEVERAL, LOCKS_AGE, LOCK_WIDE,
    LOCKS_OVER_ONE, CYCLE_LINES, CYCLES_SEVERAL, CYCLES_AGE, CYCLES_CHANNEL_AGE, CYCLES_STOPPED, WRITE_LINES, WRITES_ALL, WRITES_SEVERAL,
    WRITES_AGE, WRITES_ENDLESS, WRITES_MANY_LEFT, WRITES_PERIOD, FINISH_KEPT, PERVOL_KEPT, BOTH_KEPT, KEPT_STOPPED, LOCKED_ALONE,
    HIGHEST, FREE_CHANNEL, NO_OPEN, OPENS_32, OPEN_TWICE, EVERY_KIND, ALL_IDS, BYTES_1000, BYTES_2000, BYTES_3000
};
#define MOST_KINDS 128u
static unsigned long spoilt_refused[MOST_KINDS], spoilt_accepted[MOST_KINDS], texts;
static unsigned form = 1;                   /* of the saved texts */

#define COUNT_OF(array) (sizeof (array) / sizeof *(array))

static unsigned long lines, unexpected;

/* The reply that was made so many after the first. */
static const struct Reply *reply_at(const struct Replies *replies, size_t i)
{
    return &replies->record[replies->made[i]];
}

static void count_answer(const struct Answer *answer)
{
    for (size_t i = 0; i < COUNT_OF(answer_rows); i++)
        if (answer_rows[i].outstanding == answer->outstanding
            && answer_rows[i].error == answer->error) {
            answer_rows[i].count++;
            return;
        }
    unexpected++;
}

static void count_reply(const struct Reply *reply, int cause)
{
    for (size_t i = 0; i < COUNT_OF(reply_rows); i++) {
        struct ReplyRow *row = &reply_rows[i];

        if ((row->command == ANY || row->command == reply->command)
            && row->error == reply->error && row->cause == cause) {
            row->count++;
            return;
        }
    }
    printf("unexpected reply: command %d, error %d, cause %d\n",
           reply->command, reply->error, cause);
    unexpected++;
}

/* The channel that had this write, in the state before the call. */
static unsigned channel_of(const struct Arbiter *before, unsigned id)
{
    for (unsigned c = 0; c < MOST_CHANNELS; c++)
        for (unsigned at = 0; at < before->channel[c].writes.count; at++)
            if (before->channel[c].writes.id[at] == id)
                return c;
    return 0;
}

static unsigned lowest_of(unsigned map)
{
    unsigned c = 0;

    while (c < MOST_CHANNELS - 1 && (map >> c & 1) == 0)
        c++;
    return c;
}

static int cause_of(const struct Arbiter *before, const struct Frame *f,
                    const struct Answer *answer, const struct Reply *reply)
{
    const struct Request *was = &before->request[reply->id];
    unsigned c;

    if (was->command == 0 && !answer->outstanding)
        return OWN;
    if (reply->error == ADIOERR_CHANNELSTOLEN)
        return SETTLING;
    if (reply->command == ADCMD_ALLOCATE)
        return reply->error == IOERR_ABORTED ? CALL_ABORT : SETTLING;
    if (reply->error != IOERR_ABORTED)
        return f->operation;
    /* A call aborts by itself only writes of its own key on its own channels, and who waits for them. */
    c = reply->command == ADCMD_WAITCYCLE ? lowest_of(was->map) : channel_of(before, reply->id);
    if (reply->command == ADCMD_WAITCYCLE && f->operation == CALL_ABORT && before->channel[c].writes.id[0] == f->id
        && before->channel[c].writes.count > 0)
        return CUT_BY_ABORT;
    switch (f->operation) {
    case CMD_RESET: case CMD_FLUSH: case ADCMD_FREE: case ADCMD_FINISH:
        return was->key == f->key && (f->map >> c & 1) ? f->operation : STEAL;
    case CALL_CLOSE:
        return was->key == f->key ? CALL_CLOSE : STEAL;
    case CALL_ABORT:
        return reply->id == f->id ? CALL_ABORT : STEAL;
    case CALL_CYCLE_ENDED: case CALL_GAVE_UP:
        return c == lowest_of(f->map) ? f->operation : STEAL;
    default:
        return STEAL;
    }
}

/* How many allocated channels a combination names; in highest their highest precedence,
   -129 where there are none. */
static unsigned weighed(const struct Arbiter *a, unsigned map, int *highest)
{
    unsigned allocated = 0;

    *highest = -129;
    for (unsigned c = 0; c < a->channels; c++)
        if ((map >> c & 1) != 0 && a->channel[c].key != 0) {
            allocated++;
            if (a->channel[c].precedence > *highest)
                *highest = a->channel[c].precedence;
        }
    return allocated;
}

/* How the chosen combination won: FEWER where one before it in the list has the same
   highest precedence, so that its number of channels decided; TIED where another behind
   it is equal in both; else -1. */
static int how_won(const struct Arbiter *a, const uint8_t *list, unsigned length, unsigned chosen)
{
    int highest, other, won = -1;
    unsigned stolen = weighed(a, chosen, &highest), place = 0;

    while (place < length && list[place] != chosen)
        place++;
    for (unsigned i = 0; i < length && stolen > 0; i++) {
        unsigned count = weighed(a, list[i], &other);

        if (i < place && other == highest)
            return FEWER;
        if (i > place && other == highest && count == stolen && list[i] != chosen)
            won = TIED;
    }
    return won;
}

static int has_entry(const struct Arbiter *a, unsigned key)
{
    for (unsigned at = 0; at < a->open.count; at++)
        if (a->open.key[at] == key)
            return 1;
    return 0;
}

/* The table of open keys has it, and no channel and no waiting request. */
static int of_opener_alone(const struct Arbiter *a, unsigned key)
{
    for (unsigned c = 0; c < a->channels; c++)
        if (a->channel[c].key == key)
            return 0;
    for (unsigned at = 0; at < a->waiting.count; at++)
        if (a->request[a->waiting.id[at]].key == key)
            return 0;
    return has_entry(a, key);
}

static void count_new_key(const struct Arbiter *before, unsigned key)
{
    int round = key < before->last_key, openers = 0;

    for (unsigned k = 1 + before->last_key % LAST_OF_KEYS; k != key; k = 1 + k % LAST_OF_KEYS)
        openers += of_opener_alone(before, k);
    call_rows[PASSES].count += !round && key > before->last_key + 1u;
    call_rows[ROUND].count += round;
    call_rows[ROUND_PASSES].count += round && (before->last_key < LAST_OF_KEYS || key > 1);
    call_rows[PASSES_OPENER].count += openers > 0;
    call_rows[ROUND_PASSES_OPENER].count += round && openers > 0;
}

static unsigned waiters_on(const struct Arbiter *a, unsigned c)
{
    unsigned count = 0;

    for (unsigned at = 0; at < a->cycles.count; at++)
        count += a->request[a->cycles.id[at]].map == 1u << c;
    return count;
}

/* FINISH and PERVOL, channel by channel. */
static void count_front(const struct Frame *f, const struct Channel *was, const struct Channel *is)
{
    int synced = (f->flags & ADIOF_SYNCCYCLE) != 0, plays = was->writes.count > 0 && !was->stopped;

    if (f->operation == ADCMD_FINISH) {
        call_rows[FINISH_LATER].count += synced && plays && is->finish;
        call_rows[FINISH_STOPPED].count += !synced && was->stopped && was->writes.count > 0;
        call_rows[FINISH_LATER_STOPPED].count += synced && was->stopped && was->writes.count > 0;
        call_rows[FINISH_OF_TWO].count += !synced && plays && was->writes.count > 1;
    } else {
        call_rows[PERVOL_NOW].count += !synced && plays;
        call_rows[PERVOL_LATER].count += synced && plays && !was->pervol;
        call_rows[PERVOL_AGAIN].count += synced && plays && was->pervol;
        call_rows[PERVOL_BESIDE].count += !synced && plays && was->pervol && is->pervol;
    }
}

/* Request #101: clean cuts. */
static void count_cuts(const struct Arbiter *before, const struct Arbiter *after, const struct Frame *f,
                       const struct Answer *answer, const struct Replies *replies)
{
    unsigned cut = 0, places = 0, c = lowest_of(f->map);

    for (size_t i = 0; i < arbiter_replied(replies); i++) {
        const struct Reply *r = reply_at(replies, i);

        if (r->command == ADCMD_WAITCYCLE && r->error == IOERR_ABORTED) {
            cut++;
            places |= before->request[r->id].map;
        }
    }
    call_rows[TWO_CUT].count += cut > 1 && (places & (places - 1)) != 0;
    if (f->operation == ADCMD_FINISH || f->operation == ADCMD_PERVOL)
        for (unsigned k = 0; k < before->channels; k++)
            if (answer->map >> k & 1)
                count_front(f, &before->channel[k], &after->channel[k]);
    if (f->operation == CALL_ABORT && answer->last == 1 && before->request[f->id].command == CMD_WRITE) {
        unsigned k = channel_of(before, f->id);
        int first = before->channel[k].writes.id[0] == f->id;

        call_rows[ABORT_FIRST].count += first && before->channel[k].writes.count > 1 && waiters_on(before, k) > 0;
        call_rows[ABORT_BEHIND].count += !first && waiters_on(before, k) > 0;
    }
    if (f->operation == CMD_STOP)
        for (unsigned k = 0; k < before->channels; k++)
            call_rows[STOP_WAITED].count += (answer->map >> k & 1) && waiters_on(before, k) > 0;
    if (f->operation == ADCMD_WAITCYCLE && answer->error == DONE && !answer->outstanding)
        call_rows[WAIT_STOPPED].count += before->channel[c].stopped && before->channel[c].writes.count > 0;
    if (f->operation == CMD_WRITE && answer->outstanding) {
        call_rows[ENDLESS].count += after->request[f->id].command == CMD_WRITE && after->request[f->id].cycles == 0;
        call_rows[LONG_PERIODS].count += f->length == 6
            && (after->request[f->id].period == LEAST_PERIOD || after->request[f->id].period == MOST_PERIOD);
    }
}

/* F3 with a write in progress, by the state before it. */
static void count_cycle(const struct Channel *was, unsigned cycles, unsigned waiters)
{
    int endless = cycles == 0, last = cycles == 1, behind = was->writes.count > 1;

    call_rows[CYCLE_TWO].count += waiters > 1;
    if (was->finish) {
        call_rows[CYCLE_FINISH].count += cycles > 1;
        call_rows[CYCLE_FINISH_ENDLESS].count += endless;
        call_rows[CYCLE_FINISH_LAST].count += last;
        call_rows[CYCLE_BOTH].count += was->pervol;
        call_rows[CYCLE_FINISH_ANSWERED].count += waiters > 0;
        call_rows[CYCLE_FINISH_BEHIND].count += behind;
        return;
    }
    call_rows[CYCLE_ANSWERED].count += !last && waiters > 0;
    call_rows[CYCLE_ENDLESS].count += endless;
    call_rows[CYCLE_LEFT].count += cycles > 2;
    call_rows[CYCLE_TO_ONE].count += cycles == 2;
    call_rows[CYCLE_FROM_256].count += cycles == 256;
    call_rows[CYCLE_LAST_ANSWERED].count += last && waiters > 0;
    call_rows[CYCLE_LAST_BEHIND].count += last && behind;
    call_rows[CYCLE_PERVOL].count += was->pervol && cycles > 1;
    call_rows[CYCLE_PERVOL_ENDLESS].count += was->pervol && endless;
    call_rows[CYCLE_PERVOL_LAST].count += was->pervol && last;
}

/* F4 with a write in progress. */
static void count_given_up(const struct Channel *was, unsigned cycles, unsigned waiters, unsigned others)
{
    call_rows[GAVE_UP_ALONE].count += was->writes.count == 1;
    call_rows[GAVE_UP_BEHIND].count += was->writes.count > 1;
    call_rows[GAVE_UP_WAITED].count += waiters > 0;
    call_rows[GAVE_UP_TWO].count += waiters > 1;
    call_rows[GAVE_UP_OTHERS].count += others > 0;
    call_rows[GAVE_UP_REMEMBERED].count += was->finish || was->pervol;
    call_rows[GAVE_UP_ENDLESS].count += cycles == 0;
}

/* Request #102: the two events. */
static void count_event(const struct Arbiter *before, const struct Frame *f, const struct Answer *answer)
{
    unsigned c = lowest_of(f->map), waiters = waiters_on(before, c);
    const struct Channel *was = &before->channel[c];
    int cycle = f->operation == CALL_CYCLE_ENDED, written = was->writes.count > 0;

    if (answer->error == IOERR_BADADDRESS) {
        call_rows[cycle ? CYCLE_BEYOND : GAVE_UP_BEYOND].count++;
        return;
    }
    if (answer->map != 0) {
        unsigned cycles = before->request[was->writes.id[0]].cycles;

        call_rows[cycle ? CYCLE_LOWEST : GAVE_UP_LOWEST].count += f->map != answer->map;
        call_rows[cycle ? CYCLE_CLOSED : GAVE_UP_CLOSED].count += before->open.count == 0;
        if (cycle)
            count_cycle(was, cycles, waiters);
        else
            count_given_up(was, cycles, waiters, before->cycles.count - waiters);
        return;
    }
    call_rows[cycle ? CYCLE_CLOSED_NOTHING : GAVE_UP_CLOSED_NOTHING].count += before->open.count == 0;
    call_rows[cycle ? CYCLE_NOTHING : GAVE_UP_NOTHING].count += f->map == 0;
    if (f->map == 0)
        return;
    call_rows[cycle ? CYCLE_FREE : GAVE_UP_FREE].count += was->key == 0;
    call_rows[cycle ? CYCLE_EMPTY : GAVE_UP_EMPTY].count += was->key != 0 && !written;
    call_rows[cycle ? CYCLE_STOPPED : GAVE_UP_STOPPED].count += written;
    if (cycle) {
        call_rows[CYCLE_STOPPED_WAITED].count += waiters > 0;
        call_rows[CYCLE_STOPPED_REMEMBERED].count += was->finish || was->pervol;
    }
}

/* A reply to B was made before one to A; of this command and error alone, where it is not ANY. */
static int b_first(const struct Replies *replies, int command, int error)
{
    int to_b = 0;

    for (size_t i = 0; i < arbiter_replied(replies); i++) {
        const struct Reply *r = reply_at(replies, i);

        if (command != ANY && (r->command != command || r->error != error))
            continue;
        if (arbiter_desk(r->id) == DESK_B)
            to_b = 1;
        else if (to_b)
            return 1;
    }
    return 0;
}

/* Its own reply was made, and so many to the other desk before it. */
static unsigned before_own(const struct Replies *replies, const struct Frame *f, const struct Answer *answer)
{
    unsigned others = 0;

    for (size_t i = 0; i < arbiter_replied(replies); i++) {
        const struct Reply *r = reply_at(replies, i);

        if (r->id == f->id)
            return answer->outstanding || f->operation >= CALL_OPEN ? 0 : others;
        others += arbiter_desk(r->id) != f->desk;
    }
    return 0;
}

/* What a command does to a write, or reads of it, where the other desk sent it. */
static void count_others(const struct Arbiter *before, const struct Frame *f, const struct Answer *answer)
{
    const struct Channel *was = &before->channel[lowest_of(f->map)];
    unsigned writes = was->writes.count, front = arbiter_desk(was->writes.id[0]);
    int others = writes > 0 && front != f->desk, plays = others && !was->stopped;

    switch (f->operation) {
    case CMD_READ:
        call_rows[f->desk == DESK_A ? READ_A : READ_B].count += plays;
        for (unsigned at = 1; at < writes && !was->stopped; at++)
            if (arbiter_desk(was->writes.id[at]) != front) {
                call_rows[plays ? READ_OTHER_FIRST : READ_OWN_FIRST].count++;
                break;
            }
        break;
    case CMD_WRITE:
        call_rows[WRITE_BEHIND].count += others;
        break;
    case ADCMD_WAITCYCLE:
        call_rows[WAIT_OTHER].count += answer->outstanding && plays;
        break;
    case ADCMD_PERVOL:
        call_rows[PERVOL_OTHER].count += plays;
        break;
    case ADCMD_FINISH:
        call_rows[FINISH_OTHER].count += plays;
        break;
    case ADCMD_LOCK:
        for (unsigned at = 0; at < before->locks.count && answer->outstanding; at++)
            call_rows[LOCK_OTHER].count += arbiter_desk(before->locks.id[at]) != f->desk
                && (before->request[before->locks.id[at]].map & f->map) != 0;
        break;
    default:
        break;
    }
}

/* Request #109: the second desk. */
static void count_desks(const struct Arbiter *before, const struct Frame *f, const struct Answer *answer,
                        const struct Replies *replies)
{
    size_t to_a = replies->count[DESK_A], to_b = replies->count[DESK_B];
    int of_desk = f->operation != CALL_CYCLE_ENDED && f->operation != CALL_GAVE_UP, by_a = of_desk && f->desk == DESK_A;
    int named = of_desk && f->operation != CALL_OPEN && f->operation != CALL_CLOSE && answer->error <= DONE;

    call_rows[TO_BOTH].count += to_a > 0 && to_b > 0;
    call_rows[FIVE_EACH].count += to_a >= 5 && to_b >= 5;
    call_rows[ONLY_B].count += by_a && to_a == 0 && to_b > 0;
    call_rows[ONLY_A].count += of_desk && !by_a && to_a > 0 && to_b == 0;
    for (size_t i = 0; i < COUNT_OF(crossing); i++)
        call_rows[B_FIRST + i].count += f->operation == crossing[i] && b_first(replies, ANY, DONE);
    call_rows[f->desk == DESK_A ? OWN_A : OWN_B].count += before_own(replies, f, answer) > 0;
    call_rows[LOCKS_OF_BOTH].count += b_first(replies, ADCMD_LOCK, ADIOERR_CHANNELSTOLEN);
    call_rows[WAITERS_OF_BOTH].count += b_first(replies, ADCMD_WAITCYCLE, IOERR_ABORTED);
    call_rows[GRANTS_OF_BOTH].count += b_first(replies, ADCMD_ALLOCATE, DONE);
    if (!named)
        return;
    call_rows[ABORT_A].count += f->operation == CALL_ABORT && answer->last == 1 && by_a;
    call_rows[ABORT_B].count += f->operation == CALL_ABORT && answer->last == 1 && !by_a;
    call_rows[LAST_OF_A].count += f->id == HALF - 1;
    call_rows[FIRST_OF_B].count += f->id == HALF;
    call_rows[LAST_OF_B].count += f->id == REQUESTS - 1;
    if (answer->error == DONE)
        count_others(before, f, answer);
}

static void count_call(const struct Arbiter *before, const struct Arbiter *after,
                       const struct Frame *f, const struct Answer *answer,
                       const struct Replies *replies)
{
    int done = answer->error == DONE;
    unsigned outstanding = 0, grants = 0, sixteens = 0;
    uint8_t chosen;

    switch (f->operation) {
    case CALL_OPEN:
        call_rows[OPEN_LIST].count += done && f->length > 0;
        call_rows[OPEN_PLAIN].count += done && f->length == 0;
        call_rows[OPEN_FAILED].count += answer->error == ADIOERR_ALLOCFAILED;
        call_rows[OPEN_LAST].count += done && after->open.count == MOST_OPENS;
        break;
    case CALL_CLOSE:
        call_rows[CLOSED].count += done;
        call_rows[CLOSED_ONE].count += done && has_entry(after, f->key);
        call_rows[CLOSE_FOREIGN].count += answer->error == REFUSED_CLOSED && before->open.count > 0;
        break;
    case CALL_ABORT:
        call_rows[ABORTED].count += done && answer->last == 1;
        call_rows[NOT_ABORTED].count += done && answer->last == 0;
        break;
    case CMD_READ:
        call_rows[READ_ID].count += done && answer->last != NO_ID;
        call_rows[READ_NONE].count += done && answer->last == NO_ID;
        break;
    case ADCMD_ALLOCATE:
        if (answer->outstanding && arbiter_look(before, f->precedence, f->combination,
                                                f->length, &chosen) == LOOK_HELD) {
            call_rows[HELD].count++;
            call_rows[HELD_NOWAIT].count += (f->flags & ADIOF_NOWAIT) != 0;
        }
        break;
    default:
        break;
    }
    if (f->operation == CALL_OPEN || f->operation == ADCMD_ALLOCATE) {
        for (unsigned i = 0; i < f->length; i++)
            sixteens += f->combination[i] == 0x10;
        call_rows[SIXTEEN].count += f->length == COMBINATIONS && answer->error <= 0
            && answer->error != IOERR_BADADDRESS;
        call_rows[SEVENTEEN].count += f->length == 17 && sixteens > 0
            && answer->error == IOERR_BADLENGTH;
        if (done && !answer->outstanding) {
            int won = how_won(before, f->combination, f->length, answer->map);

            if (won >= 0)
                call_rows[won].count++;
        }
    }
    for (unsigned at = 0; at < after->waiting.count; at++) {
        const struct Request *q = &after->request[after->waiting.id[at]];

        if (arbiter_look(after, q->precedence, q->combination, q->length, &chosen) == LOOK_HELD)
            call_rows[FEWER_HELD].count += how_won(after, q->combination, q->length, chosen) == FEWER;
    }
    for (unsigned id = 0; id < REQUESTS; id++) {
        outstanding += after->request[id].command != 0;
        if (after->request[id].command == ADCMD_LOCK
            && before->request[id].command == ADCMD_LOCK
            && after->request[id].map != before->request[id].map)
            call_rows[PARTIAL].count++;
    }
    for (size_t i = 0; i < arbiter_replied(replies); i++) {
        const struct Reply *r = reply_at(replies, i);

        grants += r->command == ADCMD_ALLOCATE && r->error == DONE
            && before->request[r->id].command == ADCMD_ALLOCATE;
    }
    call_rows[MANY_GRANTS].count += grants > 1;
    call_rows[TEN_REPLIES].count += arbiter_replied(replies) >= 10;
    call_rows[NEARLY_FULL].count += outstanding > 60;
    if (done && !answer->outstanding && f->key == 0
        && (f->operation == CALL_OPEN || f->operation == ADCMD_ALLOCATE))
        count_new_key(before, answer->key);
}

/* ---- The wall display: request #110 ---- */

struct Shown {
    struct Display display;
    struct Waiting record[REQUESTS];
    size_t count;
};

/* The call has not settled: the looks are those of before. */
static void count_left(const struct Frame *f, const struct Answer *answer, unsigned looks)
{
    display_rows[LEFT].count++;
    if (looks == 0)
        return;
    display_rows[LEFT_2].count += answer->error == REFUSED_CLOSED;
    display_rows[LEFT_3].count += answer->error == REFUSED_OUTSTANDING;
    display_rows[LEFT_4].count += answer->error == REFUSED_ID;
    display_rows[LEFT_NOCMD].count += answer->error == IOERR_NOCMD;
    display_rows[LEFT_LENGTH].count += answer->error == IOERR_BADLENGTH;
    display_rows[LEFT_OPEN].count += f->operation == CALL_OPEN && answer->error == ADIOERR_ALLOCFAILED;
}

/* The call has settled: the replies tell what that granted and dropped. */
static void count_settled(const struct Arbiter *before, const struct Frame *f, const struct Answer *answer,
                          const struct Replies *replies, const struct Shown *was, const struct Shown *is)
{
    unsigned looks = is->display.looks, grants = 0, drops = 0, behind = 0, start, held = 0;

    for (size_t i = 0; i < arbiter_replied(replies); i++) {
        const struct Reply *r = reply_at(replies, i);

        if (r->command != ADCMD_ALLOCATE || (r->id == f->id && !answer->outstanding && f->operation == ADCMD_ALLOCATE))
            continue;
        grants += r->error == DONE;
        drops += r->error == ADIOERR_ALLOCFAILED;
        behind += r->error == DONE && before->waiting.count > 0 && r->id != before->waiting.id[0] && grants == 1;
    }
    start = (unsigned)is->count + grants + drops;
    for (size_t i = 0; i < is->count; i++)
        held += is->record[i].held;
    display_rows[NOBODY].count += start == 0;
    display_rows[NOBODY_AGAIN].count += start == 0 && was->display.looks > 0;
    display_rows[NO_GRANT].count += grants == 0 && drops == 0 && start > 1 && looks == start;
    display_rows[ABOVE_W].count += looks > start;
    display_rows[ABOVE_64].count += looks > REQUESTS;
    display_rows[AT_BOUND].count += start > 1 && looks == start * (start + 1) / 2;
    display_rows[AFTER_MISMATCH].count += looks > 0 && answer->error == ADIOERR_NOALLOCATION;
    display_rows[AFTER_FAILED].count += looks > 0 && answer->error == ADIOERR_ALLOCFAILED;
    display_rows[AFTER_NOT_ABORTED].count += looks > 0 && f->operation == CALL_ABORT && answer->last == 0;
    display_rows[FROM_HEAD].count += grants > 0 && is->count > 0;
    display_rows[THREE_GRANTS].count += grants >= 3;
    display_rows[NOT_AT_HEAD].count += behind > 0;
    display_rows[DROPPED].count += drops > 0;
    display_rows[DROPPED_BESIDE_HELD].count += drops > 0 && held > 0;
    display_rows[DROPPED_GRANTED].count += drops > 0 && grants > 0;
}

/* How many of its combinations name the channel. */
static unsigned times_named(const struct Request *q, unsigned c)
{
    unsigned times = 0;

    for (unsigned i = 0; i < q->length; i++)
        times += q->combination[i] >> c & 1;
    return times;
}

/* The two numbers of each channel. */
static void count_numbers(const struct Arbiter *after, const struct Frame *f, const struct Answer *answer,
                          const struct Shown *was, const struct Shown *is)
{
    unsigned all = 0, moved = 0, named = 0;

    for (unsigned c = 0; c < after->channels; c++) {
        display_rows[NAMING_32].count += is->display.naming[c] >= 32;
        display_rows[WRITES_4].count += is->display.writes[c] >= 4;
        display_rows[WRITES_STOPPED].count += is->display.writes[c] > 0 && after->channel[c].stopped;
        display_rows[WRITES_END].count += is->display.writes[c] + 1 < was->display.writes[c];
        all += is->display.naming[c] > 0;
        moved += is->display.writes[c] != was->display.writes[c];
        named += is->display.naming[c] != was->display.naming[c];
        if (f->operation == ADCMD_ALLOCATE && answer->outstanding && times_named(&after->request[f->id], c) > 1)
            display_rows[NAMED_TWICE].count += is->display.naming[c] == was->display.naming[c] + 1;
    }
    display_rows[NAMING_ALL].count += all == after->channels;
    display_rows[BOTH_NUMBERS].count += moved > 0 && named > 0;
}

static const struct Waiting *record_of(const struct Shown *s, unsigned id)
{
    for (size_t i = 0; i < s->count; i++)
        if (s->record[i].id == id)
            return &s->record[i];
    return NULL;
}

/* The list of records. */
static void count_records(const struct Shown *was, const struct Shown *is)
{
    unsigned held = 0, of_b = 0, behind = 0, b_before_a = 0;

    for (size_t i = 0; i < is->count; i++) {
        const struct Waiting *w = &is->record[i], *old = record_of(was, w->id);

        held += w->held;
        of_b += w->desk == DESK_B;
        behind += i > 0 && w->held && !w[-1].held;
        b_before_a += i > 0 && w->desk == DESK_A && w[-1].desk == DESK_B && w[-1].precedence == w->precedence;
        display_rows[HELD_NO_MORE].count += old != NULL && old->held && !w->held;
        display_rows[HELD_NOW].count += old != NULL && !old->held && w->held;
    }
    display_rows[HELD_AND_NOT].count += held > 0 && held < is->count;
    display_rows[HELD_BEHIND].count += behind > 0;
    display_rows[BOTH_DESKS].count += of_b > 0 && of_b < is->count;
    display_rows[B_BEFORE_A].count += b_before_a > 0;
    display_rows[HALF_LIST].count += of_b == HALF || is->count - of_b == HALF;
    display_rows[FULL_LIST].count += is->count == REQUESTS;
    display_rows[LIST_GONE].count += is->count == 0 && was->count > 0;
}

/* "After every call, except one answered 1 to 5, -1, -3, -4 or -5 and an OPEN answered -11." */
static int settled(const struct Frame *f, const struct Answer *answer)
{
    switch (answer->error) {
    case DONE: case ADIOERR_NOALLOCATION: return 1;
    case ADIOERR_ALLOCFAILED: return f->operation != CALL_OPEN;
    default: return 0;
    }
}

static void count_display(const struct Arbiter *before, const struct Arbiter *after, const struct Frame *f,
                          const struct Answer *answer, const struct Replies *replies, const struct Shown *was,
                          const struct Shown *is)
{
    if (settled(f, answer))
        count_settled(before, f, answer, replies, was, is);
    else
        count_left(f, answer, is->display.looks);
    display_rows[WAITING_ABORTED].count += f->operation == CALL_ABORT && answer->last == 1 && record_of(was, f->id) != NULL;
    count_numbers(after, f, answer, was, is);
    count_records(was, is);
}

/* ---- Saved texts ---- */

static void count_saved_waiting(const struct Arbiter *a)
{
    unsigned sixteen = 0, no_key = 0, nowait = 0, negative = 0;

    for (unsigned at = 0; at < a->waiting.count; at++) {
        const struct Request *q = &a->request[a->waiting.id[at]];

        sixteen += q->length == COMBINATIONS;
        no_key += q->key == 0;
        nowait += q->nowait;
        negative += q->precedence < 0;
    }
    saved_rows[WAITING_LINES].count += a->waiting.count > 0;
    saved_rows[WAITING_SIXTEEN].count += sixteen > 0;
    saved_rows[WAITING_NO_KEY].count += no_key > 0;
    saved_rows[WAITING_NOWAIT].count += nowait > 0;
    saved_rows[WAITING_BELOW].count += negative > 0;
}

static void count_saved_holders(const struct Arbiter *a)
{
    unsigned age = 0, wide = 0, over = 0, met = 0, several = 0, channel_age = 0, stopped = 0, alone = 0, highest = 0, unheld = 0;

    for (unsigned at = 0; at < a->locks.count; at++) {
        unsigned map = a->request[a->locks.id[at]].map;

        age += at > 0 && a->locks.id[at - 1] > a->locks.id[at];
        wide += (map & (map - 1)) != 0;
        over += (map & met) != 0;
        met |= map;
    }
    saved_rows[LOCK_LINES].count += a->locks.count > 0;
    saved_rows[LOCKS_SEVERAL].count += a->locks.count > 1;
    saved_rows[LOCKS_AGE].count += age > 0;
    saved_rows[LOCK_WIDE].count += wide > 0;
    saved_rows[LOCKS_OVER_ONE].count += over > 0;
    for (unsigned c = 0; c < a->channels; c++) {
        alone += a->channel[c].locked && (met >> c & 1) == 0;
        highest += a->channel[c].precedence == 127;
        unheld += a->channel[c].key == 0;
    }
    saved_rows[LOCKED_ALONE].count += alone > 0;
    saved_rows[HIGHEST].count += highest > 0;
    saved_rows[FREE_CHANNEL].count += unheld > 0;
    met = age = 0;
    for (unsigned at = 0; at < a->cycles.count; at++) {
        unsigned bit = a->request[a->cycles.id[at]].map;

        age += at > 0 && a->cycles.id[at - 1] > a->cycles.id[at];
        channel_age += at > 0 && a->request[a->cycles.id[at - 1]].map > bit;
        several += (bit & met) != 0;
        met |= bit;
        for (unsigned c = 0; c < a->channels; c++)
            stopped += (bit >> c & 1) && a->channel[c].stopped;
    }
    saved_rows[CYCLE_LINES].count += a->cycles.count > 0;
    saved_rows[CYCLES_SEVERAL].count += several > 0;
    saved_rows[CYCLES_AGE].count += age > 0;
    saved_rows[CYCLES_CHANNEL_AGE].count += channel_age > 0;
    saved_rows[CYCLES_STOPPED].count += stopped > 0;
}

static void count_saved_writes(const struct Arbiter *a)
{
    unsigned playing = 0, several = 0, age = 0, endless = 0, many = 0, period = 0, finish = 0, pervol = 0, both = 0, stopped = 0;

    for (unsigned c = 0; c < a->channels; c++) {
        const struct Channel *channel = &a->channel[c];

        playing += channel->writes.count > 0;
        several += channel->writes.count > 1;
        age += channel->writes.count > 1 && channel->writes.id[0] > channel->writes.id[1];
        finish += channel->finish;
        pervol += channel->pervol;
        both += channel->finish && channel->pervol;
        stopped += channel->stopped && (channel->finish || channel->pervol);
        for (unsigned at = 0; at < channel->writes.count; at++) {
            const struct Request *q = &a->request[channel->writes.id[at]];

            endless += q->cycles == 0;
            many += q->cycles >= 256;
            period += q->period == MOST_PERIOD;
        }
    }
    saved_rows[WRITE_LINES].count += playing > 0;
    saved_rows[WRITES_ALL].count += playing == a->channels;
    saved_rows[WRITES_SEVERAL].count += several > 0;
    saved_rows[WRITES_AGE].count += age > 0;
    saved_rows[WRITES_ENDLESS].count += endless > 0;
    saved_rows[WRITES_MANY_LEFT].count += many > 0;
    saved_rows[WRITES_PERIOD].count += period > 0;
    saved_rows[FINISH_KEPT].count += finish > 0;
    saved_rows[PERVOL_KEPT].count += pervol > 0;
    saved_rows[BOTH_KEPT].count += both > 0;
    saved_rows[KEPT_STOPPED].count += stopped > 0;
}

static void count_saved_whole(const struct Arbiter *a, size_t length)
{
    unsigned twice = 0, writes = 0;

    for (unsigned at = 1; at < a->open.count; at++)
        for (unsigned before = 0; before < at; before++)
            twice += a->open.key[before] == a->open.key[at];
    for (unsigned c = 0; c < a->channels; c++)
        writes += a->channel[c].writes.count;
    saved_rows[NO_OPEN].count += a->open.count == 0;
    saved_rows[OPENS_32].count += a->open.count == MOST_OPENS;
    saved_rows[OPEN_TWICE].count += twice > 0;
    saved_rows[EVERY_KIND].count += a->waiting.count > 0 && a->locks.count > 0 && a->cycles.count > 0 && a->open.count > 0;
    saved_rows[ALL_IDS].count += writes + a->waiting.count + a->locks.count + a->cycles.count == REQUESTS;
    saved_rows[BYTES_1000].count += length > 1000;
    saved_rows[BYTES_2000].count += length > 2000;
    saved_rows[BYTES_3000].count += length > 3000;
}

/* One kind of spoiling after the other. A kind that may not give a good text, or gives nothing else, must keep its word; and what is
   accepted must be what is saved of it: "every sound state has one spelling". */
static void count_spoilt(unsigned channels, const char *text, size_t length)
{
    static struct Spoilt t;
    static char again[SAVED_LONGEST2];
    struct Arbiter read;
    struct Display display;
    size_t written;
    unsigned kind = (unsigned)(texts % spoilt_kinds());
    enum Spoils gives = spoilt_gives(kind, form);
    int refused;

    memcpy(t.text, text, length);
    t.length = length;
    if (!spoilt_by(kind, &t) || (t.length == length && memcmp(t.text, text, length) == 0))
        return;
    refused = (form == 1 ? saved_load : saved_load2)(channels, t.text, t.length, &read, &display) != DONE;
    spoilt_refused[kind] += (unsigned)refused;
    spoilt_accepted[kind] += (unsigned)!refused;
    unexpected += refused ? gives == SPOILS_GOOD : gives == SPOILS_REFUSED;
    if (refused)
        return;
    if (form == 1)
        saved_save(&read, again, sizeof again, &written);
    else
        saved_save2(&read, &display, again, sizeof again, &written);
    unexpected += written != t.length || memcmp(again, t.text, written) != 0;
}

/* "There and back leaves an old text as it was, byte for byte." Eight channels have no old text. */
static int goes_back(const struct Arbiter *a, const char *text, size_t length)
{
    static char old[SAVED_LONGEST], again[SAVED_LONGEST2];
    size_t old_length, again_length;

    if (a->channels == 8)
        return saved_to_old(text, length, old, sizeof old, &old_length) == REFUSED_EIGHT;
    return saved_to_old(text, length, old, sizeof old, &old_length) == DONE
        && saved_save(a, again, sizeof again, &again_length) == DONE
        && old_length == again_length && memcmp(old, again, old_length) == 0
        && saved_to_new(old, old_length, again, sizeof again, &again_length) == DONE
        && again_length == length && memcmp(again, text, length) == 0;
}

/* The state is saved and comes back, with the numbers of the display that stands beside it. */
static void count_saved(const struct Arbiter *a, const struct Display *d)
{
    static char text[SAVED_LONGEST2];
    static struct Arbiter read;
    struct Display display;
    size_t length;
    int result = form == 1 ? saved_save(a, text, sizeof text, &length) : saved_save2(a, d, text, sizeof text, &length);

    if (result != DONE || (form == 1 ? saved_load : saved_load2)(a->channels, text, length, &read, &display) != DONE
        || (form == 2 && !goes_back(a, text, length)) || memcmp(a, &read, sizeof read) != 0 || memcmp(d->writes, display.writes, sizeof d->writes) != 0
        || memcmp(d->naming, display.naming, sizeof d->naming) != 0 || display.looks != 0) {
        unexpected++;
        return;
    }
    count_saved_waiting(a);
    count_saved_holders(a);
    count_saved_writes(a);
    count_saved_whole(a, length);
    count_spoilt(a->channels, text, length);
    texts++;
}

static int is_long, is_eight, is_display, is_saved;     /* what the logs are */

/* One row, per thousand lines; 1 if it is due and was never reached. */
static int print_row(const char *name, unsigned long count, int due)
{
    printf("| %-42s | %8lu | %8.2f |\n", name, count, 1000.0 * (double)count / (double)lines);
    return count == 0 && (due == ALWAYS || (due == ONLY_LONG && is_long) || (due == ONLY_FOUR && !is_eight));
}

static void play(FILE *log, unsigned channels)
{
    static struct Arbiter state, before;
    static struct Reply record[REQUESTS];
    struct Replies replies = {.record = record, .capacity = REQUESTS};
    struct Shown is = {.count = 0}, was;
    struct Frame frame;
    enum Line line;

    arbiter_fresh(&state, channels);
    while ((line = log_read(log, &frame)) != LINE_NONE) {
        struct Answer answer = log_malformed();

        lines++;
        if (line == LINE_FRAME) {
            before = state;
            was = is;
            answer = arbiter_call_shown(&state, &is.display, &frame, &replies);
            arbiter_waiting(&state, is.record, REQUESTS, &is.count);
            for (size_t i = 0; i < arbiter_replied(&replies); i++) {
                const struct Reply *reply = reply_at(&replies, i);

                count_reply(reply, cause_of(&before, &frame, &answer, reply));
            }
            count_call(&before, &state, &frame, &answer, &replies);
            count_cuts(&before, &state, &frame, &answer, &replies);
            count_desks(&before, &frame, &answer, &replies);
            count_display(&before, &state, &frame, &answer, &replies, &was, &is);
            if (frame.operation == CALL_CYCLE_ENDED || frame.operation == CALL_GAVE_UP)
                count_event(&before, &frame, &answer);
        } else {
            display_rows[LEFT_MALFORMED].count += is.display.looks > 0;
        }
        count_answer(&answer);
        if (is_saved)
            count_saved(&state, &is.display);
    }
}

/* What came of each kind of spoiling: one row for those refused, one for those that gave a good text. */
static int print_spoilt(void)
{
    int missing = 0;

    for (unsigned kind = 0; kind < spoilt_kinds(); kind++) {
        enum Spoils gives = spoilt_gives(kind, form);
        char name[64];

        if (!spoilt_applies(kind, form, is_eight ? 8 : 4))
            continue;
        sprintf(name, "spoilt by %s: refused", spoilt_name(kind));
        if (gives != SPOILS_GOOD)
            missing += print_row(name, spoilt_refused[kind], ALWAYS);
        sprintf(name, "spoilt by %s: good", spoilt_name(kind));
        if (gives == SPOILS_GOOD || gives == SPOILS_BOTH)
            missing += print_row(name, spoilt_accepted[kind], ALWAYS);
    }
    return missing;
}

int main(int count, char **argument)
{
    int missing = 0;

    is_long = count > 1 && strcmp(argument[1], "LONG") == 0;
    is_eight = count > 1 && (strcmp(argument[1], "EIGHT") == 0 || strcmp(argument[1], "DISPLAY8") == 0
                             || strcmp(argument[1], "SAVED8") == 0);
    is_display = count > 1 && strncmp(argument[1], "DISPLAY", 7) == 0;
    is_saved = count > 1 && strncmp(argument[1], "SAVED", 5) == 0;
    form = count > 1 && (strcmp(argument[1], "SAVED2") == 0 || is_eight) ? 2 : 1;
    chance_seed(1);
    for (int i = 2; i < count; i++) {
        FILE *log = fopen(argument[i], "rb");

        if (log == NULL) {
            fprintf(stderr, "coverage-count: cannot read %s\n", argument[i]);
            return 2;
        }
        play(log, is_eight ? 8 : 4);
        fclose(log);
    }
    if (lines == 0) {
        fputs("usage: coverage-count SHORT|LONG|EIGHT|DISPLAY|DISPLAY8|SAVED|SAVED2|SAVED8 LOG...\n", stderr);
        return 2;
    }
    printf("| %-42s | %8s | %8s |\n", "", "count", "per 1000");
    printf("|--------------------------------------------|----------|----------|\n");
    for (size_t i = 0; i < COUNT_OF(display_rows) && is_display; i++)
        missing += print_row(display_rows[i].name, display_rows[i].count, ALWAYS);
    for (size_t i = 0; i < COUNT_OF(saved_rows) && is_saved; i++)
        missing += print_row(saved_rows[i].name, saved_rows[i].count, i == WRITES_ALL ? ONLY_FOUR : ALWAYS);
    if (is_saved)
        missing += print_spoilt();
    is_display |= is_saved;
    for (size_t i = 0; i < COUNT_OF(answer_rows) && !is_display; i++)
        missing += print_row(answer_rows[i].name, answer_rows[i].count, answer_rows[i].due);
    /* "Maps above 255 can't occur, so -5 isn't given there." */
    for (size_t i = 0; i < COUNT_OF(reply_rows) && !is_display; i++)
        missing += print_row(reply_rows[i].name, reply_rows[i].count,
                             reply_rows[i].error == IOERR_BADADDRESS ? ONLY_FOUR : ALWAYS);
    for (size_t i = 0; i < COUNT_OF(call_rows) && !is_display; i++)
        missing += print_row(call_rows[i].name, call_rows[i].count, call_rows[i].due);
    printf("\n%lu lines, %d rows missing, %lu unexpected\n", lines, missing, unexpected);
    return missing != 0 || unexpected != 0;
}
