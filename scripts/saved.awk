# Reads a saved text that was accepted, of a board of so many channels, and writes the state in words. docs/saved.md says what stands
# where. The numbers of a text of the second form agree with a count, or it is not accepted: both forms are counted here. ./saved runs it,
# behind words.awk and say.awk. POSIX awk.

function plural(count, one) {
    return count " " one (count == 1 ? "" : "s")
}

function id_words(id) {
    return "id " id " of desk " desk(id)
}

# D1, key, precedence, locked, stopped, FINISH remembered, PERVOL remembered, its period and volume
function channel_words(text) {
    if (pair(text, 1) == 0)
        return "free"
    return "key " pair(text, 1) ", precedence " signed(byte(text, 3)) (byte(text, 4) == 1 ? ", locked" : "") (byte(text, 5) == 1 ? ", stopped" : "")
}

function remembered_words(text,    finish) {
    finish = byte(text, 6) == 1 ? "FINISH" : ""
    if (byte(text, 7) == 0)
        return finish
    return finish (finish == "" ? "" : ", ") "PERVOL with period " (256 * pair(text, 8) + byte(text, 10)) " and volume " byte(text, 11)
}

# D5, channel, id, cycles left, period, volume
function write_words(text,    count) {
    count = pair(text, 3)
    return id_words(byte(text, 2)) ", " (count == 0 ? "endless" : cycle_words(count) " left") ", period " (256 * pair(text, 5) + byte(text, 7)) \
           ", volume " byte(text, 8)
}

# D2, id, key, precedence, NOWAIT, the number of combinations, the combinations
function say_waiting(text,    count, i) {
    count = byte(text, 6)
    words = ""
    add(id_words(byte(text, 1)) " at " signed(byte(text, 4)))
    add(key_words(pair(text, 2)))
    if (byte(text, 5) == 1)
        add("NOWAIT")
    if (count == 0)
        add("no combination")
    for (i = 0; i < count; i++)
        add((i > 0 ? "" : count == 1 ? "combination " : count " combinations: ") channels(byte(text, 7 + i)))
    say("waiting", words)
}

# How many waiting requests name a channel, each once.
function count_naming(text,    i, c, named) {
    for (c = 0; c < board; c++) {
        named = 0
        for (i = 0; i < byte(text, 6); i++)
            named += names_channel(byte(text, 7 + i), c)
        if (named > 0)
            naming[c]++
    }
}

# D3 and D4, id, key, map
function say_span(head, text) {
    say(head, id_words(byte(text, 1)) ", " key_words(pair(text, 2)) ", " on_channels(byte(text, 4)))
}

/^D1/ { channel[seen++] = $0 }
/^D2/ {
    waiting[waitings++] = $0
    count_naming($0)
}
/^D3/ { lock[locks++] = $0 }
/^D4/ { waiter[waiters++] = $0 }
/^D5/ { write[byte($0, 1), writes[byte($0, 1)]++] = $0 }
/^D6/ { open_keys = open_keys (open_keys == "" ? "" : ", ") pair($0, 1) }
/^D7/ { last_key = pair($0, 1) }

END {
    say("form", form ", " board " channels")
    for (c = 0; c < board; c++) {
        say("channel " c, channel_words(channel[c]) (writes[c] > 0 ? ", " plural(writes[c], "write") : "") \
            (naming[c] > 0 ? ", wanted by " naming[c] : ""))
        for (i = 0; i < writes[c]; i++)
            say("  write", write_words(write[c, i]))
        if (remembered_words(channel[c]) != "")
            say("  remembered", remembered_words(channel[c]))
    }
    for (i = 0; i < waitings; i++)
        say_waiting(waiting[i])
    for (i = 0; i < locks; i++)
        say_span("lock", lock[i])
    for (i = 0; i < waiters; i++)
        say_span("waiter", waiter[i])
    say("open keys", open_keys == "" ? "none" : open_keys)
    say("last key", last_key == 0 ? "none" : last_key)
}
