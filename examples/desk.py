#!/usr/bin/env python3
"""The desk of desk.c in Python, over ctypes: python3 desk.py LIBRARY, where LIBRARY is lib/libqamhudeer.so.N of the package.
It writes what desk.c writes, desk.out. The sizes are asked of the library; the other numbers are those of qamhudeer.h."""
import ctypes
import sys

OPEN, CLOSE, CYCLE_ENDED = 0xF0, 0xF1, 0xF3
CMD_WRITE, ADCMD_FREE, ADCMD_LOCK, ADCMD_ALLOCATE = 3, 9, 13, 32
IOF_QUICK = 1
FIRST_OF_B = 32  # the first id of desk B, and the first record of the replies to it
REPLY_SIZE = 6

library = ctypes.CDLL(sys.argv[1])
library.qamhudeer_fresh.restype = ctypes.c_uint8
library.qamhudeer_call.restype = ctypes.c_size_t
for name in ("state_size", "table_size", "display_size", "replies_size", "answer_size", "channel_size", "offset_of_opens"):
    getattr(library, "qamhudeer_" + name).restype = ctypes.c_size_t

# All that the arbiter needs, kept here from call to call.
state = ctypes.create_string_buffer(library.qamhudeer_state_size())
table = ctypes.create_string_buffer(library.qamhudeer_table_size())
display = ctypes.create_string_buffer(library.qamhudeer_display_size())
replies = ctypes.create_string_buffer(library.qamhudeer_replies_size())
answer = ctypes.create_string_buffer(library.qamhudeer_answer_size())


def lent(*pieces):
    """Each piece as C takes it: its address, then its length."""
    return [word for piece in pieces for word in (piece, ctypes.c_size_t(len(piece)))]


def signed(byte):
    return byte - 256 if byte > 127 else byte


def key_in(pair):
    return 256 * pair[0] + pair[1]


def call(what, op, id=0, flags=0, map=0, prec=0, key=0, combos=b""):
    """One call of the desk that has the id, told line by line; its key is returned."""
    bytes_of_the_call = [ctypes.c_uint8(byte) for byte in (id >= FIRST_OF_B, op, id, flags, map, prec)]
    library.qamhudeer_call(*bytes_of_the_call, ctypes.c_uint16(key), *lent(combos, state, table, display, replies, answer))
    outstanding, error, channels, high, low, _, to_a, to_b = answer.raw
    print(what)
    for at in [*range(to_a), *range(FIRST_OF_B, FIRST_OF_B + to_b)]:
        r = replies.raw[at * REPLY_SIZE:(at + 1) * REPLY_SIZE]
        print(f"  reply to {r[0]}: command {r[1]}, error {signed(r[2])}, map {r[3]}, key {key_in(r[4:6])}")
    print(f"  {'outstanding' if outstanding else 'done'}: error {signed(error)}, map {channels}, key {key_in((high, low))}")
    return key_in((high, low))


def key_of(channel):
    at = channel * library.qamhudeer_channel_size()
    return key_in(state.raw[at:at + 2])


if library.qamhudeer_fresh(ctypes.c_uint8(4), *lent(state, table, display)) != 0:
    sys.exit(1)
mine = call("open", OPEN)
call("allocate a pair at 10", ADCMD_ALLOCATE, id=1, flags=IOF_QUICK, prec=10, key=mine, combos=bytes([3, 12]))
call("lock channel 0", ADCMD_LOCK, id=2, map=1, key=mine)
call("write to channel 1", CMD_WRITE, id=3, map=2, key=mine)
call("its write ends", CYCLE_ENDED, map=2)
call("write to channel 0", CMD_WRITE, id=4, map=1, key=mine)
call("the other desk allocates channel 0 at 20", ADCMD_ALLOCATE, id=32, prec=20, combos=bytes([1]))
call("free channel 0", ADCMD_FREE, id=6, flags=IOF_QUICK, map=1, key=mine)
print(f"channel 0 has key {key_of(0)}, channel 1 has key {key_of(1)}")
call("free channels 0 and 1", ADCMD_FREE, id=7, flags=IOF_QUICK, map=3, key=mine)
call("close", CLOSE, key=mine)
print(f"open keys: {state.raw[library.qamhudeer_offset_of_opens()]}")
