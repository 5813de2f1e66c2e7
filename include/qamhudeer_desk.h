/* qamhudeer_desk.h: a desk in ten lines, over qamhudeer.h. C99 and C++11; every function is static inline.
 *
 * A device is one struct: the memory that the arbiter borrows at each call. A request says who asks, under which id and key; each
 * function is a word of the Amiga's, makes one call and returns its answer. The replies that the call has made stay in the device
 * until the next one; qamhudeer_desk_reply walks over them, each desk over its own. Nothing is allocated and nothing is kept
 * elsewhere. A device must not be null, and no list may lie in it; a list of length 0 may be NULL.
 *
 * What the arbiter answers is in qamhudeer.h and docs/desk.md. This header adds no rule but one: a precedence outside
 * ADALLOC_MINPREC to ADALLOC_MAXPREC is not made to fit but refused, with QAMHUDEER_DESK_BADPREC. These functions are tested beside
 * the plain call (tests/desk.c), not proved.
 */
#ifndef QAMHUDEER_DESK_H
#define QAMHUDEER_DESK_H

#include "qamhudeer.h"

#ifdef __cplusplus
extern "C" {
#endif

/* An error of this header's own: the precedence is no signed byte. The arbiter was not called; there are no replies, and no byte of
 * state, table and display has changed. */
#define QAMHUDEER_DESK_BADPREC 100

/* State, table and display are the device, and are kept from call to call; replies and answer are those of the last call. */
struct qamhudeer_device {
    uint8_t state[QAMHUDEER_STATE_SIZE];
    uint8_t table[QAMHUDEER_TABLE_SIZE];
    uint8_t display[QAMHUDEER_DISPLAY_SIZE];
    uint8_t replies[QAMHUDEER_REPLIES_SIZE];
    uint8_t answer[QAMHUDEER_ANSWER_SIZE];
};

/* What every command reads. A command that reads no map takes any. */
struct qamhudeer_request {
    uint8_t desk;  /* QAMHUDEER_DESK_A, with the ids 0 to 31, or QAMHUDEER_DESK_B, with 32 to 63 */
    uint8_t id;    /* taken from the call until its reply */
    uint8_t flags; /* IOF_QUICK, ADIOF_NOWAIT, ADIOF_SYNCCYCLE */
    uint8_t map;   /* a bit for each channel that is meant */
    uint16_t key;
};

struct qamhudeer_answer {
    int outstanding;    /* 1: a reply will come, from this call or a later one; 0: done, and the error says how */
    int error;          /* qamhudeer_error_name names it */
    uint8_t map;        /* the channels that were taken, changed or read */
    uint16_t key;       /* the one given, or a new one */
    uint8_t extra;      /* CMD_READ's id; ABORT: 1 aborted, 0 not; else 255 */
    uint8_t replies[2]; /* how many this call has made, to desk A and to desk B */
};

struct qamhudeer_reply {
    uint8_t id;
    uint8_t command;
    int error;
    uint8_t map;
    uint16_t key;
};

/* ---- the device */

/* 1 where the library has the sizes and offsets of these headers and the first number of their version. To be asked once, at the
 * start: with another library nothing else here may be used. */
static inline int qamhudeer_desk_fits(void)
{
    return qamhudeer_version() / 10000 == QAMHUDEER_VERSION_MAJOR
        && qamhudeer_state_size() == QAMHUDEER_STATE_SIZE && qamhudeer_table_size() == QAMHUDEER_TABLE_SIZE
        && qamhudeer_display_size() == QAMHUDEER_DISPLAY_SIZE && qamhudeer_replies_size() == QAMHUDEER_REPLIES_SIZE
        && qamhudeer_answer_size() == QAMHUDEER_ANSWER_SIZE && qamhudeer_records_size() == QAMHUDEER_RECORDS_SIZE
        && qamhudeer_channel_size() == QAMHUDEER_CHANNEL_SIZE && qamhudeer_port_size() == QAMHUDEER_PORT_SIZE
        && qamhudeer_room_size() == QAMHUDEER_ROOM_SIZE && qamhudeer_text_size() == QAMHUDEER_TEXT_SIZE
        && qamhudeer_text2_size() == QAMHUDEER_TEXT2_SIZE && qamhudeer_offset_of_locks() == QAMHUDEER_OFFSET_OF_LOCKS
        && qamhudeer_offset_of_waiters() == QAMHUDEER_OFFSET_OF_WAITERS
        && qamhudeer_offset_of_waiting() == QAMHUDEER_OFFSET_OF_WAITING
        && qamhudeer_offset_of_opens() == QAMHUDEER_OFFSET_OF_OPENS && qamhudeer_offset_of_last() == QAMHUDEER_OFFSET_OF_LAST
        && qamhudeer_offset_of_channels() == QAMHUDEER_OFFSET_OF_CHANNELS;
}

/* The answer is done with this error, map 0 and the key given; there are no replies. */
static inline void qamhudeer_desk_put_error(struct qamhudeer_device *device, int error, uint16_t key)
{
    device->answer[QAMHUDEER_ANSWER_OUTSTANDING] = 0;
    device->answer[QAMHUDEER_ANSWER_ERROR] = (uint8_t)error;
    device->answer[QAMHUDEER_ANSWER_MAP] = 0;
    device->answer[QAMHUDEER_ANSWER_KEY] = (uint8_t)(key >> 8);
    device->answer[QAMHUDEER_ANSWER_KEY + 1] = (uint8_t)(key & 255);
    device->answer[QAMHUDEER_ANSWER_EXTRA] = 255;
    device->answer[QAMHUDEER_ANSWER_REPLIES_A] = 0;
    device->answer[QAMHUDEER_ANSWER_REPLIES_B] = 0;
}

/* A fresh device on a board of 4 or 8 channels: returns 0. Another number: returns 1, and state, table and display are as before. */
static inline int qamhudeer_desk_fresh(struct qamhudeer_device *device, unsigned channels)
{
    qamhudeer_desk_put_error(device, 0, 0);
    return qamhudeer_fresh((uint8_t)(channels < 256 ? channels : 0), device->state, sizeof device->state,
                           device->table, sizeof device->table, device->display, sizeof device->display);
}

/* How many channels the board has. */
static inline unsigned qamhudeer_desk_channels(const struct qamhudeer_device *device)
{
    return device->state[QAMHUDEER_OFFSET_OF_CHANNELS];
}

/* ---- a call */

/* The answer of the last call. */
static inline struct qamhudeer_answer qamhudeer_desk_answer(const struct qamhudeer_device *device)
{
    const uint8_t *bytes = device->answer;
    struct qamhudeer_answer answer;

    answer.outstanding = bytes[QAMHUDEER_ANSWER_OUTSTANDING];
    answer.error = QAMHUDEER_ERROR(bytes[QAMHUDEER_ANSWER_ERROR]);
    answer.map = bytes[QAMHUDEER_ANSWER_MAP];
    answer.key = (uint16_t)(bytes[QAMHUDEER_ANSWER_KEY] << 8 | bytes[QAMHUDEER_ANSWER_KEY + 1]);
    answer.extra = bytes[QAMHUDEER_ANSWER_EXTRA];
    answer.replies[QAMHUDEER_DESK_A] = bytes[QAMHUDEER_ANSWER_REPLIES_A];
    answer.replies[QAMHUDEER_DESK_B] = bytes[QAMHUDEER_ANSWER_REPLIES_B];
    return answer;
}

/* Any operation, with all that one can read: the functions below hand over what theirs does. A library of another size answers
 * nothing: then QAMHUDEER_UNSOUND stands. */
static inline struct qamhudeer_answer qamhudeer_desk_call(struct qamhudeer_device *device, uint8_t op,
                                                          const struct qamhudeer_request *request, int prec,
                                                          const uint8_t *list, size_t length)
{
    const uint8_t none[1] = {0};

    if (prec < ADALLOC_MINPREC || prec > ADALLOC_MAXPREC) {
        qamhudeer_desk_put_error(device, QAMHUDEER_DESK_BADPREC, request->key);
        return qamhudeer_desk_answer(device);
    }
    qamhudeer_desk_put_error(device, QAMHUDEER_UNSOUND, request->key);
    qamhudeer_call(request->desk, op, request->id, request->flags, request->map, (uint8_t)(prec & 255), request->key,
                   length > 0 ? list : none, length, device->state, sizeof device->state, device->table, sizeof device->table,
                   device->display, sizeof device->display, device->replies, sizeof device->replies,
                   device->answer, sizeof device->answer);
    return qamhudeer_desk_answer(device);
}

/* A command that reads nothing but the request. */
static inline struct qamhudeer_answer qamhudeer_desk_command(struct qamhudeer_device *device, uint8_t command,
                                                             const struct qamhudeer_request *request)
{
    return qamhudeer_desk_call(device, command, request, 0, NULL, 0);
}

/* What is the same from any desk and needs no id. */
static inline struct qamhudeer_answer qamhudeer_desk_without_id(struct qamhudeer_device *device, uint8_t op, uint8_t map, uint16_t key,
                                                                int prec, const uint8_t *list, size_t length)
{
    struct qamhudeer_request request;

    request.desk = QAMHUDEER_DESK_A;
    request.id = 0;
    request.flags = 0;
    request.map = map;
    request.key = key;
    return qamhudeer_desk_call(device, op, &request, prec, list, length);
}

/* CMD_WRITE and ADCMD_PERVOL, with their numbers. What six bytes cannot spell is handed over as one byte, which is refused as every
 * other number out of range is: IOERR_BADLENGTH. */
static inline struct qamhudeer_answer qamhudeer_desk_numbers(struct qamhudeer_device *device, uint8_t command,
                                                             const struct qamhudeer_request *request, unsigned long cycles,
                                                             unsigned long period, unsigned long volume)
{
    uint8_t numbers[QAMHUDEER_NUMBERS_SIZE];

    numbers[QAMHUDEER_NUMBERS_CYCLES] = (uint8_t)(cycles >> 8 & 255);
    numbers[QAMHUDEER_NUMBERS_CYCLES + 1] = (uint8_t)(cycles & 255);
    numbers[QAMHUDEER_NUMBERS_PERIOD] = (uint8_t)(period >> 16 & 255);
    numbers[QAMHUDEER_NUMBERS_PERIOD + 1] = (uint8_t)(period >> 8 & 255);
    numbers[QAMHUDEER_NUMBERS_PERIOD + 2] = (uint8_t)(period & 255);
    numbers[QAMHUDEER_NUMBERS_VOLUME] = (uint8_t)(volume & 255);
    return qamhudeer_desk_call(device, command, request, 0, numbers,
                               cycles > 65535 || period > 16777215 || volume > 255 ? 1 : sizeof numbers);
}

/* ---- the Amiga's words */

/* Opens under a key, 0 for a new one. With combinations it also takes the channels of one of them, at this precedence, or fails. */
static inline struct qamhudeer_answer qamhudeer_desk_open(struct qamhudeer_device *device, uint16_t key, int prec,
                                                          const uint8_t *combos, size_t length)
{
    return qamhudeer_desk_without_id(device, QAMHUDEER_OPEN, 0, key, prec, combos, length);
}

static inline struct qamhudeer_answer qamhudeer_desk_close(struct qamhudeer_device *device, uint16_t key)
{
    return qamhudeer_desk_without_id(device, QAMHUDEER_CLOSE, 0, key, 0, NULL, 0);
}

/* The driver's two events, on the lowest channel of the map. */
static inline struct qamhudeer_answer qamhudeer_desk_cycle_ended(struct qamhudeer_device *device, uint8_t map)
{
    return qamhudeer_desk_without_id(device, QAMHUDEER_CYCLE_ENDED, map, 0, 0, NULL, 0);
}

static inline struct qamhudeer_answer qamhudeer_desk_gave_up(struct qamhudeer_device *device, uint8_t map)
{
    return qamhudeer_desk_without_id(device, QAMHUDEER_GAVE_UP, map, 0, 0, NULL, 0);
}

/* Cancels the outstanding request of this id: the answer's extra is 1, or 0 where it was a lock or idle. */
static inline struct qamhudeer_answer qamhudeer_desk_abort(struct qamhudeer_device *device, const struct qamhudeer_request *request)
{
    return qamhudeer_desk_command(device, QAMHUDEER_ABORT, request);
}

static inline struct qamhudeer_answer qamhudeer_desk_allocate(struct qamhudeer_device *device, const struct qamhudeer_request *request,
                                                              int prec, const uint8_t *combos, size_t length)
{
    return qamhudeer_desk_call(device, ADCMD_ALLOCATE, request, prec, combos, length);
}

static inline struct qamhudeer_answer qamhudeer_desk_free(struct qamhudeer_device *device, const struct qamhudeer_request *request)
{
    return qamhudeer_desk_command(device, ADCMD_FREE, request);
}

static inline struct qamhudeer_answer qamhudeer_desk_setprec(struct qamhudeer_device *device, const struct qamhudeer_request *request,
                                                             int prec)
{
    return qamhudeer_desk_call(device, ADCMD_SETPREC, request, prec, NULL, 0);
}

static inline struct qamhudeer_answer qamhudeer_desk_lock(struct qamhudeer_device *device, const struct qamhudeer_request *request)
{
    return qamhudeer_desk_command(device, ADCMD_LOCK, request);
}

/* cycles: 0 to 65,535, 0 being without end; period: 124 to 65,536; volume: 0 to 64. */
static inline struct qamhudeer_answer qamhudeer_desk_write(struct qamhudeer_device *device, const struct qamhudeer_request *request,
                                                           unsigned long cycles, unsigned long period, unsigned long volume)
{
    return qamhudeer_desk_numbers(device, CMD_WRITE, request, cycles, period, volume);
}

static inline struct qamhudeer_answer qamhudeer_desk_pervol(struct qamhudeer_device *device, const struct qamhudeer_request *request,
                                                            unsigned long period, unsigned long volume)
{
    return qamhudeer_desk_numbers(device, ADCMD_PERVOL, request, 0, period, volume);
}

static inline struct qamhudeer_answer qamhudeer_desk_finish(struct qamhudeer_device *device, const struct qamhudeer_request *request)
{
    return qamhudeer_desk_command(device, ADCMD_FINISH, request);
}

static inline struct qamhudeer_answer qamhudeer_desk_waitcycle(struct qamhudeer_device *device, const struct qamhudeer_request *request)
{
    return qamhudeer_desk_command(device, ADCMD_WAITCYCLE, request);
}

/* The answer's extra is the id of the write in progress, or 255. */
static inline struct qamhudeer_answer qamhudeer_desk_read(struct qamhudeer_device *device, const struct qamhudeer_request *request)
{
    return qamhudeer_desk_command(device, CMD_READ, request);
}

static inline struct qamhudeer_answer qamhudeer_desk_stop(struct qamhudeer_device *device, const struct qamhudeer_request *request)
{
    return qamhudeer_desk_command(device, CMD_STOP, request);
}

static inline struct qamhudeer_answer qamhudeer_desk_start(struct qamhudeer_device *device, const struct qamhudeer_request *request)
{
    return qamhudeer_desk_command(device, CMD_START, request);
}

static inline struct qamhudeer_answer qamhudeer_desk_flush(struct qamhudeer_device *device, const struct qamhudeer_request *request)
{
    return qamhudeer_desk_command(device, CMD_FLUSH, request);
}

static inline struct qamhudeer_answer qamhudeer_desk_reset(struct qamhudeer_device *device, const struct qamhudeer_request *request)
{
    return qamhudeer_desk_command(device, CMD_RESET, request);
}

static inline struct qamhudeer_answer qamhudeer_desk_update(struct qamhudeer_device *device, const struct qamhudeer_request *request)
{
    return qamhudeer_desk_command(device, CMD_UPDATE, request);
}

static inline struct qamhudeer_answer qamhudeer_desk_clear(struct qamhudeer_device *device, const struct qamhudeer_request *request)
{
    return qamhudeer_desk_command(device, CMD_CLEAR, request);
}

/* ---- replies */

/* Reply n, from 0, of those that the last call has made to this desk: returns 1, and it stands in *reply. Where there is none such:
 * returns 0, and *reply is as before. So a desk walks over its own until it gets 0. */
static inline int qamhudeer_desk_reply(const struct qamhudeer_device *device, uint8_t desk, size_t n, struct qamhudeer_reply *reply)
{
    const uint8_t *bytes = device->replies;

    if (desk > QAMHUDEER_DESK_B || n >= device->answer[QAMHUDEER_ANSWER_REPLIES_A + desk])
        return 0;
    bytes += (desk == QAMHUDEER_DESK_B ? QAMHUDEER_FIRST_OF_B + n : n) * QAMHUDEER_REPLY_SIZE;
    reply->id = bytes[QAMHUDEER_REPLY_ID];
    reply->command = bytes[QAMHUDEER_REPLY_COMMAND];
    reply->error = QAMHUDEER_ERROR(bytes[QAMHUDEER_REPLY_ERROR]);
    reply->map = bytes[QAMHUDEER_REPLY_MAP];
    reply->key = (uint16_t)(bytes[QAMHUDEER_REPLY_KEY] << 8 | bytes[QAMHUDEER_REPLY_KEY + 1]);
    return 1;
}

/* The name of an error, as the headers have it; that of 0 is "done", and a number that is no error's has the name "unknown". */
static inline const char *qamhudeer_error_name(int error)
{
    switch (error) {
    case 0: return "done";
    case IOERR_OPENFAIL: return "IOERR_OPENFAIL";
    case IOERR_ABORTED: return "IOERR_ABORTED";
    case IOERR_NOCMD: return "IOERR_NOCMD";
    case IOERR_BADLENGTH: return "IOERR_BADLENGTH";
    case IOERR_BADADDRESS: return "IOERR_BADADDRESS";
    case ADIOERR_NOALLOCATION: return "ADIOERR_NOALLOCATION";
    case ADIOERR_ALLOCFAILED: return "ADIOERR_ALLOCFAILED";
    case ADIOERR_CHANNELSTOLEN: return "ADIOERR_CHANNELSTOLEN";
    case QAMHUDEER_UNSOUND: return "QAMHUDEER_UNSOUND";
    case QAMHUDEER_NOTOPEN: return "QAMHUDEER_NOTOPEN";
    case QAMHUDEER_INUSE: return "QAMHUDEER_INUSE";
    case QAMHUDEER_BADID: return "QAMHUDEER_BADID";
    case QAMHUDEER_NOROOM: return "QAMHUDEER_NOROOM";
    case QAMHUDEER_OTHERDESK: return "QAMHUDEER_OTHERDESK";
    case QAMHUDEER_BADTEXT: return "QAMHUDEER_BADTEXT";
    case QAMHUDEER_EIGHT: return "QAMHUDEER_EIGHT";
    case QAMHUDEER_BADWISH: return "QAMHUDEER_BADWISH";
    case QAMHUDEER_TOOSMALL: return "QAMHUDEER_TOOSMALL";
    case QAMHUDEER_DESK_BADPREC: return "QAMHUDEER_DESK_BADPREC";
    case QAMHUDEER_UNANSWERED: return "QAMHUDEER_UNANSWERED";
    default: return "unknown";
    }
}

#ifdef __cplusplus
}
#endif

#endif
