# A call, its answer and a reply as sentences for the wall, where ./explain has the names of the include files. Refusals are told in
# the words of words.awk. ./wall runs it, behind words.awk and queues.awk. POSIX awk.

BEGIN {
    verb[1] = "resets"
    verb[4] = "updates"
    verb[5] = "clears"
    verb[6] = "stops"
    verb[7] = "starts"
    verb[8] = "drops the writes of"
    verb[9] = "gives back"
}

function who(key) {
    return key == 0 ? "A desk without a key" : key in key_name ? key_name[key] : "Key " key
}

# The channel that a write, a read or an event is about: the lowest.
function one_channel(map) {
    if (map == 0 || map > highest)
        return on_channels(map)
    map = lowest(map)
    return map in hall ? hall[map] : "channel " map
}

# At most four combinations are told.
function wish(text,    count, few, i, told) {
    count = byte(text, 7)
    few = count > 4 ? 3 : count
    for (i = 0; i < few; i++)
        told = told (i == 0 ? "" : " or ") channels(byte(text, 8 + i))
    if (few < count)
        told = told " or " (count - few) " more"
    return (count == 0 ? "nothing" : told) " at precedence " signed(byte(text, 4))
}

function synced(text) {
    return flag(text, 32) ? " at the cycle's end" : ""
}

# WRITE and PERVOL may carry a wrong number of bytes; then there is nothing to tell of them.
function write_words(text) {
    return byte(text, 7) != 0 && byte(text, 7) != 6 || cycles(text) == 1 ? "" : ", " cycle_words(cycles(text))
}

function tone(text) {
    return byte(text, 7) != 0 && byte(text, 7) != 6 ? "a tone" : tone_words(text)
}

function call_sentence(text,    op, id, map, key) {
    op = byte(text, 0)
    id = byte(text, 1)
    map = byte(text, 3)
    key = pair(text, 5)
    if (op == 240)
        return "Desk " desk(id) " opens the device" (byte(text, 7) == 0 ? "" : " and asks for " wish(text)) \
               (key == 0 ? "" : " with " key_words(key))
    if (op == 241)
        return who(key) " closes the device"
    if (op == 242)
        return "Desk " desk(id) " cancels request " id
    if (op == 243)
        return "A cycle ends on " one_channel(map)
    if (op == 244)
        return "The driver gives up on " one_channel(map)
    if (op == 32)
        return desk(id) "'s request " id " asks for " wish(text) (key == 0 ? "" : " with " key_words(key)) \
               (flag(text, 64) ? ", without waiting" : "")
    if (op == 2)
        return who(key) " asks what plays on " one_channel(map)
    if (op == 3)
        return who(key) " sends write " id " to " one_channel(map) write_words(text)
    if (op == 10)
        return who(key) " sets " on_channels(map) " to precedence " signed(byte(text, 4))
    if (op == 11)
        return who(key) " cuts what plays on " on_channels(map) synced(text)
    if (op == 12)
        return who(key) " sets " on_channels(map) " to " tone(text) synced(text)
    if (op == 13)
        return who(key) " asks for lock " id " on " on_channels(map)
    if (op == 14)
        return desk(id) "'s request " id " waits for a cycle's end on " one_channel(map)
    if (op in verb)
        return who(key) " " verb[op] " " on_channels(map)
    return desk(id) "'s request " id " has the unknown command " op
}

# What an event has done to the front write of its channel, before the queues are followed further.
function event_sentence(op,    id, count) {
    id = "write " front[1]
    count = left[front[1]]
    if (op == 244)
        return id " is cut off"
    if (finished != "")
        return "FINISH cuts off " id
    return (tuned == "" ? "" : "PERVOL is applied; ") \
           id (count == 0 ? " is endless" : count == 1 ? " has ended" : " has " cycle_words(count - 1) " left")
}

# A0 done or A1 outstanding, error, map, key, last byte
function answer_sentence(text, call,    op, number, map, last) {
    op = byte(call, 0)
    number = signed(byte(text, 1))
    map = byte(text, 2)
    last = byte(text, 5)
    if (text ~ /^A1/)
        return op == 32 ? "it waits" : op == 3 ? "queued" : op == 13 ? "locked" : "outstanding"
    if (number == -10)
        return "not done: " reason[-10] (map == 0 ? "" : "; done on " on_channels(map))
    if (number == -11)
        return "nothing granted: " reason[-11]
    if (number != 0)
        return "refused: " refusal_words(number, call)
    if (op == 32 || op == 240 && byte(call, 7) != 0)
        return "granted " on_channels(map) ", " key_words(pair(text, 3))
    if (op == 240)
        return "done, " key_words(pair(text, 3))
    if (op == 242)
        return last == 1 ? "cancelled" : "there was nothing to cancel"
    if (op == 243 || op == 244)
        return map == 0 ? "no write plays" : event_sentence(op)
    if (op == 2)
        return last == 255 ? "no write of " desk(byte(call, 1)) "'s plays" : "write " last " plays"
    return op == 14 ? "no write plays" : "done"
}

# C0, id, command, error, map, key
function reply_sentence(text,    id, op, number, map) {
    id = byte(text, 1)
    op = byte(text, 2)
    number = signed(byte(text, 3))
    map = byte(text, 4)
    if (number == -12)
        return "Lock " id " is in the way: " on_channels(map) (single(map) ? " is" : " are") " wanted"
    if (op == 32)
        return desk(id) "'s request " id (number == 0 ? " is granted " on_channels(map) ", " key_words(pair(text, 5)) : \
                                          number == -2 ? " is cancelled" : " gives up: " reason[-11])
    if (op == 3)
        return "Write " id (number == 0 ? " has ended on " on_channels(map) : " is cut off")
    if (op == 14)
        return desk(id) "'s request " id (number == 0 ? " is told that a cycle ended on " on_channels(map) : " waits for no cycle any more")
    return (op == 13 ? "Lock " : desk(id) "'s request ") id " has ended"
}

# The writes of a channel, front first, who waits there for a cycle, and what is remembered; nothing where there is none.
function queue_sentence(c, stopped,    id, count, i, told, waits, at) {
    count = split(writes[c], id, " ")
    if (count == 0)
        return ""
    told = (stopped ? "next " : "plays ") id[1] (left[id[1]] == 0 ? ", endless" : left[id[1]] == 1 ? "" : ", " left[id[1]] " cycles")
    for (i = 2; i <= count; i++)
        told = told (i == 2 ? "; then " : " ") id[i]
    count = split(waiters, id, " ")
    for (i = 1; i <= count; i++)
        if (awaited[id[i]] == c)
            waits = waits " " id[i]
    return told (waits == "" ? "" : "; cycle awaited by" waits) (finish[c] == "" ? "" : "; FINISH is remembered") \
           (pervol[c] == "" ? "" : "; PERVOL is remembered")
}
