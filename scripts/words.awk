# The words and the numbers that ./explain and ./wall share: the names of calls, errors and refusals, and what stands at which place
# of a line. Before it 'board' is set, how many channels there are. A channel and a key may have names, in hall[c] and key_name[key].
# POSIX awk.

BEGIN {
    names("OPEN 240 CLOSE 241 ABORT 242 cycle-end 243 give-up 244 CMD_RESET 1 CMD_READ 2 CMD_WRITE 3 CMD_UPDATE 4 CMD_CLEAR 5 " \
          "CMD_STOP 6 CMD_START 7 CMD_FLUSH 8 ADCMD_FREE 9 ADCMD_SETPREC 10 ADCMD_FINISH 11 ADCMD_PERVOL 12 " \
          "ADCMD_LOCK 13 ADCMD_WAITCYCLE 14 ADCMD_ALLOCATE 32")

    error[0] = "done"
    error[-1] = "IOERR_OPENFAIL"
    error[-2] = "IOERR_ABORTED"
    error[-3] = "IOERR_NOCMD"
    error[-4] = "IOERR_BADLENGTH"
    error[-5] = "IOERR_BADADDRESS"
    error[-10] = "ADIOERR_NOALLOCATION"
    error[-11] = "ADIOERR_ALLOCFAILED"
    error[-12] = "ADIOERR_CHANNELSTOLEN"
    # These have no name in the include files.
    error[1] = "refused with 1"
    error[2] = "refused with 2"
    error[3] = "refused with 3"
    error[4] = "refused with 4"
    error[5] = "refused with 5"
    error[7] = "refused with 7"

    reason[-1] = "32 keys are open"
    reason[-3] = "there is no such command"
    reason[-4] = "more than 16 combinations"
    highest = board == 8 ? 255 : 15
    reason[-5] = "a map or a combination is above " highest
    reason[-10] = "a channel is free or has another key"
    reason[-11] = "no combination can be had now"
    reason[1] = "the state is not sound"
    reason[2] = "no key is open"
    not_closed = "the key is not open"
    reason[3] = "the id is outstanding"
    reason[4] = "the id is above 63"
    reason[5] = "the reply list is too short"
    reason[7] = "the line is malformed"
}

# The desk of an id: A has 0 to 31, B all others.
function desk(id) {
    return id < 32 ? "A" : "B"
}

# ---- Numbers

function names(list,    word, count, i) {
    count = split(list, word, " ")
    for (i = 1; i < count; i += 2)
        name[word[i + 1]] = word[i]
}

# The byte at this place of a line, the first being 0.
function byte(text, at) {
    return 16 * index("123456789ABCDEF", substr(text, 2 * at + 1, 1)) + index("123456789ABCDEF", substr(text, 2 * at + 2, 1))
}

function signed(number) {
    return number < 128 ? number : number - 256
}

function pair(text, at) {
    return 256 * byte(text, at) + byte(text, at + 1)
}

function flag(text, mark) {
    return int(byte(text, 2) / mark) % 2 == 1
}

# Whether a map names a channel. Some awks have no powers.
function names_channel(map, c) {
    for (; c > 0; c--)
        map = int(map / 2)
    return map % 2 == 1
}

# WRITE and PERVOL carry numbers: cycles in two bytes, a period in three, a volume in one. No bytes mean 1, 124 and 64.
function carries(op) {
    return op == 3 || op == 12
}

function cycles(text) {
    return byte(text, 7) == 0 ? 1 : pair(text, 8)
}

function period(text) {
    return byte(text, 7) == 0 ? 124 : 256 * pair(text, 10) + byte(text, 12)
}

function volume(text) {
    return byte(text, 7) == 0 ? 64 : byte(text, 13)
}

# ---- Words

function call_name(number) {
    return number in name ? name[number] : "command " number
}

function channels(map,    c, text) {
    if (map > highest)
        return map " (above " highest ")"
    for (c = 0; c < board; c++) {
        if (map % 2 == 1)
            text = text (text == "" ? "" : "+") (c in hall ? hall[c] : c)
        map = int(map / 2)
    }
    return text == "" ? "none" : text
}

# A map that names one channel.
function single(map,    bit) {
    for (bit = 1; bit < map; bit *= 2)
        ;
    return bit == map
}

# Whether each channel that a map names has a name.
function all_named(map,    c) {
    for (c = 0; c < board; c++)
        if (names_channel(map, c) && !(c in hall))
            return 0
    return 1
}

function on_channels(map) {
    if (map == 0)
        return "no channel"
    return (map > highest ? "map " : all_named(map) ? "" : single(map) ? "channel " : "channels ") channels(map)
}

function key_words(key) {
    return key == 0 ? "no key" : "key " key (key in key_name ? " (" key_name[key] ")" : "")
}

function tone_words(text) {
    return "period " period(text) ", volume " volume(text)
}

function cycle_words(count) {
    return count == 0 ? "endless" : count == 1 ? "1 cycle" : count " cycles"
}

# ---- Refusals

# Why the line is malformed, or nothing if it is a frame.
function fault(text,    count) {
    count = length(text)
    if (count == 0)
        return "an empty line"
    if (text ~ /[^0-9A-F]/)
        return "a character that is not 0-9 or A-F"
    if (count % 2 == 1)
        return "an odd number of digits"
    if (count < 16)
        return "fewer than 8 bytes"
    if (count != 16 + 2 * byte(text, 7))
        return byte(text, 7) " " (carries(byte(text, 0)) ? "bytes" : "combinations") " said and " (count / 2 - 8) " there"
    return ""
}

# Why a command got -4, of the rules for its kind.
function length_words(call,    op) {
    op = byte(call, 0)
    if (!carries(op))
        return reason[-4]
    if (byte(call, 7) != 0 && byte(call, 7) != 6)
        return "neither 0 nor 6 bytes"
    return period(call) < 124 || period(call) > 65536 ? "the period is not 124 to 65536" : "the volume is above 64"
}

function refusal_words(number, call) {
    if (number == 2 && byte(call, 0) == 241)
        return not_closed
    return number == -4 ? length_words(call) : reason[number]
}
