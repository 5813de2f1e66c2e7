/* qamhudeer.h: the audio.device arbiter for firmware in C.
 *
 * Two desks, A and B, share one board, its channels and its waiting list. A has the request ids 0 to 31, B has 32 to 63.
 *
 * The arbiter keeps nothing. The caller lends five pieces of memory to each call, as a pointer and a length:
 *   state    QAMHUDEER_STATE_SIZE bytes, kept from call to call
 *   table    QAMHUDEER_TABLE_SIZE bytes, the 64 request blocks, kept from call to call
 *   display  QAMHUDEER_DISPLAY_SIZE bytes, the numbers of the wall display, kept from call to call
 *   replies  QAMHUDEER_REPLIES_SIZE bytes, room for 64 replies, 32 for each desk
 *   answer   QAMHUDEER_ANSWER_SIZE bytes
 * A call also reads a list of combinations, or a write's numbers. No two of these six overlap, nobody else writes to them
 * during the call, and no pointer is null, also where its length is 0. There is no other duty: whatever the bytes are and
 * whatever the numbers, each function returns, and each comment below says what every byte that was lent holds afterwards.
 * That is proved of the code (crates/qamhudeer).
 *
 * Threads, interrupts, ABI. The library has no variables of its own, allocates nothing, waits for nothing and calls nothing but memcpy
 * and memset. So calls on two devices may run at once, in two threads, in a thread and an interrupt; calls on one device may not,
 * and the caller sees to that. A call that is cut off, by a reset or a longjmp, leaves its memory half written: go back to a saved
 * copy. A handler needs the stack that docs/desk.md tells, and whoever interrupts must keep the vector registers, which the code
 * uses as any compiled code does. That a call ends is proved, not how long it takes. The functions are plain C functions of the
 * System V ABI for x86-64: numbers of the widths below, pointers and lengths by value, a result in a register; no structure crosses,
 * no exception, no signal, no errno, no thread-local data. Within one first number of the version a program that was linked before
 * goes on to run with a newer library.
 */
#ifndef QAMHUDEER_H
#define QAMHUDEER_H

#include <stddef.h>
#include <stdint.h>

#ifdef __cplusplus
extern "C" {
#endif

/* ---- the version: the first number moves where a desk's source may have to change (CHANGELOG.md says what). It stands here
 * alone; the package and the programs take it from this line. */

#define QAMHUDEER_VERSION "7.3.0"

/* The same in numbers, for #if; tests/header.c holds them to the line above. qamhudeer_version() is the library's own. */
#define QAMHUDEER_VERSION_MAJOR 7
#define QAMHUDEER_VERSION_MINOR 3
#define QAMHUDEER_VERSION_PATCH 0
#define QAMHUDEER_VERSION_NUMBER (QAMHUDEER_VERSION_MAJOR * 10000 + QAMHUDEER_VERSION_MINOR * 100 + QAMHUDEER_VERSION_PATCH)

/* ---- what is asked of the pointers, for compilers that can be told. Both names are undefined at the end. */

#if defined(__GNUC__) || defined(__clang__)
#define QAMHUDEER_NONNULL __attribute__((__nonnull__))
#define QAMHUDEER_RESTRICT __restrict__
#elif defined(_MSC_VER)
#define QAMHUDEER_NONNULL
#define QAMHUDEER_RESTRICT __restrict
#elif !defined(__cplusplus) && defined(__STDC_VERSION__) && __STDC_VERSION__ >= 199901L
#define QAMHUDEER_NONNULL
#define QAMHUDEER_RESTRICT restrict
#else
#define QAMHUDEER_NONNULL
#define QAMHUDEER_RESTRICT
#endif

/* ---- sizes in bytes */

#define QAMHUDEER_STATE_SIZE 823 /* of either board */
#define QAMHUDEER_TABLE_SIZE 1472
#define QAMHUDEER_DISPLAY_SIZE 18
#define QAMHUDEER_RECORDS_SIZE 256 /* 64 records of the waiting requests */
#define QAMHUDEER_RECORD_SIZE 4
#define QAMHUDEER_REPLIES_SIZE 384
#define QAMHUDEER_ANSWER_SIZE 8
#define QAMHUDEER_REPLY_SIZE 6
#define QAMHUDEER_CHANNEL_SIZE 70
#define QAMHUDEER_PORT_SIZE 529
#define QAMHUDEER_ROOM_SIZE 973 /* what one line of a log may bring: 64 replies and an answer */
#define QAMHUDEER_TEXT_SIZE 3344 /* no saved text of the first form is longer */
#define QAMHUDEER_TEXT2_SIZE 3521 /* nor one of the second form, of either board */

/* ---- what a caller may read of a state. Numbers of two bytes have the high one first. */

/* How many channels the board has, 4 or 8, stands in a byte of its own. Channel c, of 0 to 7, begins at
 * c * QAMHUDEER_CHANNEL_SIZE: its key (two bytes; 0: the channel is free), its precedence plus 128, its lock mark, its stop mark
 * (each 0 or 1), then its queue of writes. A board of four keeps channels 4 to 7 free. */
#define QAMHUDEER_CHANNEL_KEY 0
#define QAMHUDEER_CHANNEL_PRECEDENCE 2
#define QAMHUDEER_CHANNEL_LOCKED 3
#define QAMHUDEER_CHANNEL_STOPPED 4
#define QAMHUDEER_CHANNEL_WRITES 5
/* A queue is its count, then 64 request ids, front first, with zeros behind them. */
#define QAMHUDEER_OFFSET_OF_LOCKS 560
#define QAMHUDEER_OFFSET_OF_WAITERS 625 /* ADCMD_WAITCYCLEs, oldest first */
#define QAMHUDEER_OFFSET_OF_WAITING 690 /* waiting requests */
/* The open keys: how many there are, at most QAMHUDEER_OPENS, then so many keys of two bytes in order of opening, with zeros
 * behind them. */
#define QAMHUDEER_OPENS 32
#define QAMHUDEER_OFFSET_OF_OPENS 755
#define QAMHUDEER_OFFSET_OF_LAST 820
#define QAMHUDEER_OFFSET_OF_CHANNELS 822

/* ---- the wall display: for the duty managers, and no part of what a desk sees. Of channel c, of 0 to 7, the number of its writes
 * and the number of waiting requests that name it stand at 2 * c and 2 * c + 1; then how many waiting requests the last settling
 * looked at, at most 2,080. A call corrects the numbers by what it changed and never counts them anew, modulo 256; no call is
 * refused for them. Where they agreed with a count before a call they agree after it, and on a fresh device all are 0. */

#define QAMHUDEER_DISPLAY_WRITES(c) (2 * (c))
#define QAMHUDEER_DISPLAY_NAMING(c) (2 * (c) + 1)
#define QAMHUDEER_DISPLAY_LOOKS 16 /* two bytes */

/* A record of a waiting request: record n begins at n * QAMHUDEER_RECORD_SIZE. */
#define QAMHUDEER_RECORD_ID 0
#define QAMHUDEER_RECORD_PRECEDENCE 1 /* in two's complement */
#define QAMHUDEER_RECORD_HELD 2       /* 1: what it chooses now names a locked channel; else 0 */
#define QAMHUDEER_RECORD_DESK 3

/* ---- a port: what stands of a line that has not ended. All 0 is a fresh one. */

#define QAMHUDEER_PORT_STARTED 0 /* how many characters stand, at most 527 (two bytes) */
#define QAMHUDEER_PORT_LINE 2    /* the characters; those behind the started ones mean nothing */

/* ---- desks: any other number is no desk, and has no ids. OPEN, CLOSE and the events are the same from any desk. */

#define QAMHUDEER_DESK_A 0
#define QAMHUDEER_DESK_B 1
#define QAMHUDEER_FIRST_OF_B 32 /* the first id of desk B, and the first record of the replies to it */

/* ---- an answer */

#define QAMHUDEER_ANSWER_OUTSTANDING 0 /* 1: replied when it ends; 0: done */
#define QAMHUDEER_ANSWER_ERROR 1
#define QAMHUDEER_ANSWER_MAP 2
#define QAMHUDEER_ANSWER_KEY 3       /* two bytes */
#define QAMHUDEER_ANSWER_EXTRA 5     /* CMD_READ's id, 255 for the other desk's write; ABORT: 1 aborted, 0 not; else 255 */
#define QAMHUDEER_ANSWER_REPLIES_A 6 /* how many replies this call has made to desk A */
#define QAMHUDEER_ANSWER_REPLIES_B 7 /* and to desk B */

/* ---- a reply: record n begins at n * QAMHUDEER_REPLY_SIZE. Those to desk A stand from record 0 on, those to desk B from record
 * QAMHUDEER_FIRST_OF_B on, each in the order in which they were made; the answer says how many each desk has. Its id says whose
 * a reply is, and not who called. */

#define QAMHUDEER_REPLY_ID 0
#define QAMHUDEER_REPLY_COMMAND 1
#define QAMHUDEER_REPLY_ERROR 2
#define QAMHUDEER_REPLY_MAP 3
#define QAMHUDEER_REPLY_KEY 4 /* two bytes */

/* An error byte as a number: the errors below are negative, the refusals are not. */
#define QAMHUDEER_ERROR(byte) ((byte) > 127 ? (int)(byte)-256 : (int)(byte))

/* ---- operations: these, or the number of a command */

#define QAMHUDEER_OPEN 0xF0
#define QAMHUDEER_CLOSE 0xF1
#define QAMHUDEER_ABORT 0xF2

/* The driver's two events, on the lowest channel of the map. Where that channel is stopped or has no write, nothing happens and
 * the answer's map is 0; otherwise it is the channel's bit, whether or not the write has ended. They need no id and no open key.
 *
 * A cycle has ended: the channel's ADCMD_WAITCYCLEs are replied 0, oldest first. Then what is remembered is done: a FINISH ends
 * the write with IOERR_ABORTED, and that is all; a PERVOL replaces its period and volume. Then the cycles are counted down, and
 * the last of them ends the write with 0. An endless write is not counted down. */
#define QAMHUDEER_CYCLE_ENDED 0xF3
/* The driver gave up: the front write ends with IOERR_ABORTED, then the channel's ADCMD_WAITCYCLEs do, oldest first. The next
 * write moves up. */
#define QAMHUDEER_GAVE_UP 0xF4

/* exec/io.h */
#ifndef CMD_RESET
#define CMD_RESET 1
#define CMD_READ 2
#define CMD_WRITE 3
#define CMD_UPDATE 4
#define CMD_CLEAR 5
#define CMD_STOP 6
#define CMD_START 7
#define CMD_FLUSH 8
#endif
#ifndef CMD_INVALID
#define CMD_INVALID 0 /* no command: IOERR_NOCMD */
#endif
#ifndef CMD_NONSTD
#define CMD_NONSTD 9 /* the first command of the device's own */
#endif
#ifndef IOB_QUICK
#define IOB_QUICK 0
#endif
#ifndef IOF_QUICK
#define IOF_QUICK 1
#endif

/* devices/audio.h */
#ifndef ADCMD_ALLOCATE
#define ADCMD_FREE 9
#define ADCMD_SETPREC 10
#define ADCMD_FINISH 11
#define ADCMD_PERVOL 12
#define ADCMD_LOCK 13
#define ADCMD_WAITCYCLE 14
#define ADCMD_ALLOCATE 32
#endif
#ifndef ADIOF_NOWAIT
#define ADIOF_SYNCCYCLE 32 /* ADCMD_FINISH and ADCMD_PERVOL: at the end of the cycle */
#define ADIOF_NOWAIT 64
#endif
#ifndef ADIOB_PERVOL
#define ADIOB_PERVOL 4
#endif
#ifndef ADIOF_PERVOL
#define ADIOF_PERVOL 16 /* CMD_WRITE reads over it: a write has its numbers, or those of none */
#endif
#ifndef ADIOB_SYNCCYCLE
#define ADIOB_SYNCCYCLE 5
#endif
#ifndef ADIOB_NOWAIT
#define ADIOB_NOWAIT 6
#endif
#ifndef ADIOB_WRITEMESSAGE
#define ADIOB_WRITEMESSAGE 7
#endif
#ifndef ADIOF_WRITEMESSAGE
#define ADIOF_WRITEMESSAGE 128 /* read over: a driver's matter */
#endif
#ifndef ADALLOC_MINPREC
#define ADALLOC_MINPREC (-128)
#endif
#ifndef ADALLOC_MAXPREC
#define ADALLOC_MAXPREC 127
#endif

/* ---- what CMD_WRITE and ADCMD_PERVOL are handed in place of combinations: six bytes, or none for cycles 1, period 124, volume
 * 64. Numbers have the high byte first. ADCMD_PERVOL reads over its cycles. Another length, a period outside 124 to 65,536 or a
 * volume above 64: IOERR_BADLENGTH. */

#define QAMHUDEER_NUMBERS_SIZE 6
#define QAMHUDEER_NUMBERS_CYCLES 0 /* two bytes; 0: endless */
#define QAMHUDEER_NUMBERS_PERIOD 2 /* three bytes */
#define QAMHUDEER_NUMBERS_VOLUME 5

/* ---- errors */

/* exec/errors.h */
#ifndef IOERR_OPENFAIL
#define IOERR_OPENFAIL (-1)
#define IOERR_ABORTED (-2)
#define IOERR_NOCMD (-3)
#define IOERR_BADLENGTH (-4)
#endif
#ifndef IOERR_BADADDRESS
#define IOERR_BADADDRESS (-5)
#endif

/* devices/audio.h */
#ifndef ADIOERR_NOALLOCATION
#define ADIOERR_NOALLOCATION (-10)
#define ADIOERR_ALLOCFAILED (-11)
#define ADIOERR_CHANNELSTOLEN (-12)
#endif

/* Where another header has given such a name first, it must have given the Amiga's number. */
#if CMD_INVALID != 0 || CMD_RESET != 1 || CMD_READ != 2 || CMD_WRITE != 3 || CMD_UPDATE != 4 || CMD_CLEAR != 5 || CMD_STOP != 6 \
    || CMD_START != 7 || CMD_FLUSH != 8 || CMD_NONSTD != 9 || ADCMD_FREE != 9 || ADCMD_SETPREC != 10 || ADCMD_FINISH != 11 \
    || ADCMD_PERVOL != 12 || ADCMD_LOCK != 13 || ADCMD_WAITCYCLE != 14 || ADCMD_ALLOCATE != 32
#error "a command of exec/io.h or devices/audio.h has another number than the Amiga's"
#endif
#if IOB_QUICK != 0 || IOF_QUICK != 1 || ADIOB_PERVOL != 4 || ADIOF_PERVOL != 16 || ADIOB_SYNCCYCLE != 5 || ADIOF_SYNCCYCLE != 32 \
    || ADIOB_NOWAIT != 6 || ADIOF_NOWAIT != 64 || ADIOB_WRITEMESSAGE != 7 || ADIOF_WRITEMESSAGE != 128 \
    || ADALLOC_MINPREC != -128 || ADALLOC_MAXPREC != 127
#error "a flag or a precedence of exec/io.h or devices/audio.h has another number than the Amiga's"
#endif
#if IOERR_OPENFAIL != -1 || IOERR_ABORTED != -2 || IOERR_NOCMD != -3 || IOERR_BADLENGTH != -4 || IOERR_BADADDRESS != -5 \
    || ADIOERR_NOALLOCATION != -10 || ADIOERR_ALLOCFAILED != -11 || ADIOERR_CHANNELSTOLEN != -12
#error "an error of exec/errors.h or devices/audio.h has another number than the Amiga's"
#endif

/* Refusals of the arbiter's own; the state is as before. */
#define QAMHUDEER_UNSOUND 1   /* the state and the table that were lent are not sound */
#define QAMHUDEER_NOTOPEN 2   /* a command where no key is open; CLOSE where its key is not */
#define QAMHUDEER_INUSE 3     /* the id is outstanding */
#define QAMHUDEER_BADID 4     /* an id above 63 */
#define QAMHUDEER_NOROOM 5    /* the reply list has room for fewer than 64 replies, the list of records for fewer than 64 */
#define QAMHUDEER_OTHERDESK 8 /* an id of the other desk's half; from a caller that is no desk, any id */

/* Refusals of saved states, of the maker of stereo lists, and of a port. */
#define QAMHUDEER_BADTEXT 9   /* no text that was saved of a sound state of this board */
#define QAMHUDEER_EIGHT 10    /* eight channels, which have no text of the first form: a state to save, a text to move back */
#define QAMHUDEER_BADWISH 11  /* a number above 2 */
#define QAMHUDEER_TOOSMALL 12 /* room for fewer maps than QAMHUDEER_STEREO_ROOM, less room than QAMHUDEER_ROOM_SIZE, or than a text has */
#define QAMHUDEER_STEREO_ROOM 4

/* The result of a call whose answer or display has another size. */
#define QAMHUDEER_UNANSWERED 255

/* ---- functions */

/* A fresh device on a board of 4 or 8 channels. Where channels is one of these, state_len is QAMHUDEER_STATE_SIZE, table_len is
 * QAMHUDEER_TABLE_SIZE and display_len is QAMHUDEER_DISPLAY_SIZE: returns 0, the state is that of a fresh device, and each byte of
 * the table and of the display is 0. Otherwise: returns 1, and no byte has changed. */
uint8_t qamhudeer_fresh(uint8_t channels,
                        uint8_t *QAMHUDEER_RESTRICT state, size_t state_len,
                        uint8_t *QAMHUDEER_RESTRICT table, size_t table_len,
                        uint8_t *QAMHUDEER_RESTRICT display, size_t display_len) QAMHUDEER_NONNULL;

/* One call of a desk. The precedence is in two's complement, so that -128 to 127 are handed over as they are.
 *
 * Where answer_len is not QAMHUDEER_ANSWER_SIZE, or display_len not QAMHUDEER_DISPLAY_SIZE: returns QAMHUDEER_UNANSWERED, and no
 * byte has changed.
 *
 * Otherwise the answer holds eight new bytes, and the result is the number of replies to both desks, at most 64. Of the reply
 * list the records of those to A, at most 32 from the first on, and of those to B, at most 32 from QAMHUDEER_FIRST_OF_B on, are
 * new; no other byte of it has changed.
 *
 * Where the state's bytes hold no state (another length, or a mark that is neither 0 nor 1), and where state and table are not
 * sound: the answer is done, QAMHUDEER_UNSOUND, map 0, the key given, 255, 0, 0; there are no replies; no other byte has changed.
 *
 * Where they are sound: answer, replies, state, table and display are those of the rules, and state and table are sound again.
 * After a refusal (1 to 5, 8, -1, -3, -4, -5) no byte of state, table and display has changed. */
size_t qamhudeer_call(uint8_t desk, uint8_t op, uint8_t id, uint8_t flags, uint8_t map, uint8_t prec, uint16_t key,
                      const uint8_t *QAMHUDEER_RESTRICT combos, size_t combos_len,
                      uint8_t *QAMHUDEER_RESTRICT state, size_t state_len,
                      uint8_t *QAMHUDEER_RESTRICT table, size_t table_len,
                      uint8_t *QAMHUDEER_RESTRICT display, size_t display_len,
                      uint8_t *QAMHUDEER_RESTRICT replies, size_t replies_len,
                      uint8_t *QAMHUDEER_RESTRICT answer, size_t answer_len) QAMHUDEER_NONNULL;

/* Who waits: a record for each waiting request, in the order in which they are looked at, at the front of `records`. Returns 0, and
 * *count is their number, at most 64. Where state and table are not sound: returns QAMHUDEER_UNSOUND. Then records_len below
 * QAMHUDEER_RECORDS_SIZE: returns QAMHUDEER_NOROOM. After a refusal *count is 0. No byte of `records` changes but those of the
 * records counted. */
uint8_t qamhudeer_waiting(const uint8_t *QAMHUDEER_RESTRICT state, size_t state_len,
                          const uint8_t *QAMHUDEER_RESTRICT table, size_t table_len,
                          uint8_t *QAMHUDEER_RESTRICT records, size_t records_len,
                          size_t *QAMHUDEER_RESTRICT count) QAMHUDEER_NONNULL;

/* A log that comes in fragments, of any length and some of them empty: the lines of frames that docs/desk.md shows, as a
 * service port delivers them. A frame with an id of 32 or more is desk B's, any other A's. The port keeps what stands of a line;
 * state, table and display are those of the calls.
 *
 * qamhudeer_feed takes the fragment up to its first LF, or all of it, and *used is how many bytes that are. Where a line has
 * ended it is answered: its replies, those to A first, and its answer, a line each, stand at the front of `out`, and *written is
 * their length; otherwise *written is 0. Call it again with the rest of the fragment until all is used. qamhudeer_feed_end says
 * that the log has ended: what stands of a last line is answered as a line, and the port is then as fresh; where nothing stands,
 * nothing is written.
 *
 * Both return 0; and before anything is taken QAMHUDEER_UNSOUND where port_len is not QAMHUDEER_PORT_SIZE, more than 527 characters
 * are said to stand in it or display_len is not QAMHUDEER_DISPLAY_SIZE, then QAMHUDEER_TOOSMALL where out_len is below
 * QAMHUDEER_ROOM_SIZE. After a refusal *used and *written are 0, and no byte has changed. Otherwise no byte of `out` has changed but
 * those written, and no byte of the port but its length and the characters put behind those that stood.
 *
 * A line of more than 526 characters is malformed however it was cut, and so answered. On a state that is not sound each frame
 * is answered QAMHUDEER_UNSOUND, and state, table and display stay as they are. */
uint8_t qamhudeer_feed(const uint8_t *QAMHUDEER_RESTRICT fragment, size_t fragment_len,
                       uint8_t *QAMHUDEER_RESTRICT port, size_t port_len,
                       uint8_t *QAMHUDEER_RESTRICT state, size_t state_len,
                       uint8_t *QAMHUDEER_RESTRICT table, size_t table_len,
                       uint8_t *QAMHUDEER_RESTRICT display, size_t display_len,
                       uint8_t *QAMHUDEER_RESTRICT out, size_t out_len,
                       size_t *QAMHUDEER_RESTRICT used, size_t *QAMHUDEER_RESTRICT written) QAMHUDEER_NONNULL;
uint8_t qamhudeer_feed_end(uint8_t *QAMHUDEER_RESTRICT port, size_t port_len,
                           uint8_t *QAMHUDEER_RESTRICT state, size_t state_len,
                           uint8_t *QAMHUDEER_RESTRICT table, size_t table_len,
                           uint8_t *QAMHUDEER_RESTRICT display, size_t display_len,
                           uint8_t *QAMHUDEER_RESTRICT out, size_t out_len,
                           size_t *QAMHUDEER_RESTRICT written) QAMHUDEER_NONNULL;

/* A state carried from one board to another, as a text of hexadecimal lines (docs/saved.md has them), for the four-channel board.
 *
 * qamhudeer_save writes the text of the state at the front of `text`: returns 0, and *written is its length, 112 for a fresh device
 * and at most QAMHUDEER_TEXT_SIZE. Where state and table are not sound: returns QAMHUDEER_UNSOUND. Then a board of eight channels:
 * QAMHUDEER_EIGHT. Then a text_len below the text's length: QAMHUDEER_TOOSMALL. After a refusal *written is 0. No byte of `text`
 * changes but those of the text.
 *
 * qamhudeer_load takes exactly such texts, for channels 4: returns 0, and state and table are byte for byte those that were saved;
 * the display's numbers are counted once, and its looks are 0. Where state_len, table_len or display_len is another than its size:
 * returns QAMHUDEER_UNSOUND. Then any other text, or any other number of channels: QAMHUDEER_BADTEXT. After a refusal no byte has
 * changed. The state lent may hold anything before. A load replaces history: what a desk was promised of its calls begins anew. */
uint8_t qamhudeer_save(const uint8_t *QAMHUDEER_RESTRICT state, size_t state_len,
                       const uint8_t *QAMHUDEER_RESTRICT table, size_t table_len,
                       uint8_t *QAMHUDEER_RESTRICT text, size_t text_len,
                       size_t *QAMHUDEER_RESTRICT written) QAMHUDEER_NONNULL;
uint8_t qamhudeer_load(uint8_t channels,
                       const uint8_t *QAMHUDEER_RESTRICT text, size_t text_len,
                       uint8_t *QAMHUDEER_RESTRICT state, size_t state_len,
                       uint8_t *QAMHUDEER_RESTRICT table, size_t table_len,
                       uint8_t *QAMHUDEER_RESTRICT display, size_t display_len) QAMHUDEER_NONNULL;

/* The second form of a saved text, for both boards: it has the number of channels and the display's numbers too.
 *
 * qamhudeer_save2 is as qamhudeer_save, for 4 and 8 channels. Where state and table are not sound, display_len is not
 * QAMHUDEER_DISPLAY_SIZE, or a number of the display is not that of a count: returns QAMHUDEER_UNSOUND. Then a text_len below the
 * text's length: QAMHUDEER_TOOSMALL. The looks are not saved. qamhudeer_load2 is as qamhudeer_load, for channels 4 and 8: it takes
 * exactly the second form's texts of that board. Neither loader takes the other's form.
 *
 * qamhudeer_to_new writes the second form of a text of the first at the front of `text`, with four channels and the numbers counted;
 * qamhudeer_to_old writes the first form of one of the second. Each returns 0, and *written is the length. Where the text is none
 * that the loader takes, of either board for qamhudeer_to_old: QAMHUDEER_BADTEXT. Then eight channels, which do not move back:
 * QAMHUDEER_EIGHT. Then a text_len that is too short: QAMHUDEER_TOOSMALL. After a refusal *written is 0, and nothing is written. There
 * and back leaves an old text as it was, byte for byte. */
uint8_t qamhudeer_save2(const uint8_t *QAMHUDEER_RESTRICT state, size_t state_len,
                        const uint8_t *QAMHUDEER_RESTRICT table, size_t table_len,
                        const uint8_t *QAMHUDEER_RESTRICT display, size_t display_len,
                        uint8_t *QAMHUDEER_RESTRICT text, size_t text_len,
                        size_t *QAMHUDEER_RESTRICT written) QAMHUDEER_NONNULL;
uint8_t qamhudeer_load2(uint8_t channels,
                        const uint8_t *QAMHUDEER_RESTRICT text, size_t text_len,
                        uint8_t *QAMHUDEER_RESTRICT state, size_t state_len,
                        uint8_t *QAMHUDEER_RESTRICT table, size_t table_len,
                        uint8_t *QAMHUDEER_RESTRICT display, size_t display_len) QAMHUDEER_NONNULL;
uint8_t qamhudeer_to_new(const uint8_t *QAMHUDEER_RESTRICT from, size_t from_len,
                         uint8_t *QAMHUDEER_RESTRICT text, size_t text_len,
                         size_t *QAMHUDEER_RESTRICT written) QAMHUDEER_NONNULL;
uint8_t qamhudeer_to_old(const uint8_t *QAMHUDEER_RESTRICT from, size_t from_len,
                         uint8_t *QAMHUDEER_RESTRICT text, size_t text_len,
                         size_t *QAMHUDEER_RESTRICT written) QAMHUDEER_NONNULL;

/* Lists for stereo, on the four-channel board alone: channels 0 and 3 sound left, 1 and 2 right.
 *
 * All maps with `left` left and `right` right channels, 0 to 2 each, in ascending order at the front of `maps`: returns 0, and
 * *count is their number, 1, 2 or 4. A number above 2: returns QAMHUDEER_BADWISH. Then maps_len below QAMHUDEER_STEREO_ROOM:
 * returns QAMHUDEER_TOOSMALL. After a refusal *count is 0. No byte of `maps` changes but those counted. */
uint8_t qamhudeer_stereo(uint8_t left, uint8_t right,
                         uint8_t *QAMHUDEER_RESTRICT maps, size_t maps_len,
                         size_t *QAMHUDEER_RESTRICT count) QAMHUDEER_NONNULL;

/* 1 where the list holds each of these maps once, in any order, and nothing else; otherwise, and for a number above 2, 0. */
uint8_t qamhudeer_stereo_accepts(uint8_t left, uint8_t right, const uint8_t *QAMHUDEER_RESTRICT maps, size_t maps_len) QAMHUDEER_NONNULL;

/* The library's version: QAMHUDEER_VERSION_NUMBER of the header that it was built beside. A program may compare the two where it
 * starts. */
uint32_t qamhudeer_version(void);

/* The sizes and offsets above, as the library has them: each returns the number of its name. */
size_t qamhudeer_state_size(void);
size_t qamhudeer_table_size(void);
size_t qamhudeer_display_size(void);
size_t qamhudeer_records_size(void);
size_t qamhudeer_replies_size(void);
size_t qamhudeer_answer_size(void);
size_t qamhudeer_channel_size(void);
size_t qamhudeer_port_size(void);
size_t qamhudeer_room_size(void);
size_t qamhudeer_text_size(void);
size_t qamhudeer_text2_size(void);
size_t qamhudeer_offset_of_locks(void);
size_t qamhudeer_offset_of_waiters(void);
size_t qamhudeer_offset_of_waiting(void);
size_t qamhudeer_offset_of_opens(void);
size_t qamhudeer_offset_of_last(void);
size_t qamhudeer_offset_of_channels(void);

#undef QAMHUDEER_NONNULL
#undef QAMHUDEER_RESTRICT

#ifdef __cplusplus
}
#endif

#endif
