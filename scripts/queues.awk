# What the program does not show: which write stands in which queue, how many cycles it has left, who waits for a cycle, and what is
# remembered. It is followed from the calls and the replies, from a fresh device on or from a saved text. ./explain and ./wall run it,
# behind words.awk. POSIX awk.

# Requests stand in one text, oldest first, with a space around each.
function joins(list, id) {
    return (list == "" ? " " : list) id " "
}

function leaves(list, id,    at) {
    at = index(list, " " id " ")
    return at == 0 ? list : substr(list, 1, at) substr(list, at + length(id) + 2)
}

function lowest(map,    c) {
    for (c = 0; c < board && map % 2 == 0; c++)
        map /= 2
    return c
}

# A reply: the request has left its list, and with a front write goes what was remembered.
function follow_reply(text,    id, c) {
    id = byte(text, 1)
    ended[id] = byte(text, 2)
    if (byte(text, 2) == 14)
        waiters = leaves(waiters, id)
    if (byte(text, 2) == 3)
        for (c = 0; c < board; c++) {
            if (index(writes[c], " " id " ") == 1)
                finish[c] = pervol[c] = ""
            writes[c] = leaves(writes[c], id)
        }
}

# Before a call's replies: the front write of an event's channel, and what is remembered there, which they take away.
function before_call(call,    c) {
    split("", ended)
    if (byte(call, 0) != 243 && byte(call, 0) != 244)
        return
    c = lowest(byte(call, 3))
    split(writes[c], front, " ")
    finished = finish[c]
    tuned = pervol[c]
}

# A cycle's end of a write that goes on: PERVOL has been applied, and the cycle is counted.
function follow_cycle(map, call) {
    if (byte(call, 0) != 243 || map == 0 || finished != "" || left[front[1]] == 1)
        return
    pervol[lowest(map)] = ""
    if (left[front[1]] > 0)
        left[front[1]]--
}

# An answer: a write or a WAITCYCLE that is outstanding has joined its list, on the lowest channel of its map. From a state that is not
# at rest the walk of its own call may have ended it: then it has its reply already.
function follow_answer(text, call,    id, c) {
    id = byte(call, 1)
    if (byte(text, 0) != 161 || id in ended && ended[id] == byte(call, 0))
        return
    c = lowest(byte(call, 3))
    if (byte(call, 0) == 3) {
        writes[c] = joins(writes[c], id)
        left[id] = cycles(call)
    }
    if (byte(call, 0) == 14) {
        waiters = joins(waiters, id)
        awaited[id] = c
    }
}

# A synced FINISH or PERVOL is remembered where a write is in progress, and where the answer's map names the channel.
function follow_synced(map, call, c, marks) {
    if (!flag(call, 32) || !names_channel(map, c) || marks >= 2 || writes[c] !~ /[0-9]/)
        return
    if (byte(call, 0) == 11)
        finish[c] = "FINISH"
    if (byte(call, 0) == 12)
        pervol[c] = "PERVOL with period " period(call) " and volume " volume(call)
}

# Where a log goes on from a saved text, what this text has of it, and nothing else: docs/saved.md says what stands where.
function begin_saved(file,    text, c, id) {
    for (c = 0; c < board; c++)
        writes[c] = finish[c] = pervol[c] = ""
    waiters = ""
    c = 0
    while ((getline text < file) > 0)
        if (text ~ /^D1/) {
            if (byte(text, 6) == 1)
                finish[c] = "FINISH"
            if (byte(text, 7) == 1)
                pervol[c] = "PERVOL with period " (65536 * byte(text, 8) + pair(text, 9)) " and volume " byte(text, 11)
            c++
        } else if (text ~ /^D4/) {
            id = byte(text, 1)
            waiters = joins(waiters, id)
            awaited[id] = lowest(byte(text, 4))
        } else if (text ~ /^D5/) {
            id = byte(text, 2)
            writes[byte(text, 1)] = joins(writes[byte(text, 1)], id)
            left[id] = pair(text, 3)
        }
    close(file)
}
