# Reads a log of two desks, and beside it the file 'output', what the program wrote for it with '--show --display', on a board of so many
# channels; from the state of the text 'saved' on, if there is one. Writes the same in words: of all calls, or of those that only_id,
# only_key, only_channel and 'only' choose; with 'brief' a line for each. 'before' is how many calls came before, 'progress', where it
# is to be told, how many there are. ./explain runs it, behind words.awk, say.awk and queues.awk. POSIX awk.

BEGIN {
    if (saved != "")
        begin_saved(saved)
}

# ---- The call

function add_list(text,    count, i, shown) {
    count = byte(text, 7)
    shown = count > 20 ? 17 : count
    if (count == 0)
        add("no combination")
    for (i = 0; i < shown; i++)
        add((i > 0 ? "" : count == 1 ? "combination " : count " combinations: ") channels(byte(text, 8 + i)))
    if (shown < count)
        add((count - shown) " more")
}

function add_numbers(text, op) {
    if (byte(text, 7) != 0 && byte(text, 7) != 6)
        add(byte(text, 7) " bytes")
    else
        add((op == 3 ? cycle_words(cycles(text)) ", " : "") tone_words(text))
}

# The desk, and the fields that the call reads. The events are no desk's.
function say_call(text,    op) {
    op = byte(text, 0)
    words = ""
    if (op != 243 && op != 244)
        add("desk " desk(byte(text, 1)))
    if (op < 240 || op > 244 || op == 242)
        add("id " byte(text, 1))
    if (op < 240 || op > 244) {
        if (flag(text, 1))
            add("QUICK")
        if (op == 32 && flag(text, 64))
            add("NOWAIT")
        if ((op == 11 || op == 12) && flag(text, 32))
            add("SYNCCYCLE")
    }
    if (op == 240 || op == 10 || op == 32)
        add("precedence " signed(byte(text, 4)))
    add(key_words(pair(text, 5)))
    if (op == 240 || op == 32)
        add_list(text)
    else if (op != 241 && op != 242)
        add(on_channels(byte(text, 3)))
    if (carries(op))
        add_numbers(text, op)
    say(sprintf("%5d  %s", number, call_name(op)), words)
}

# At most 24 characters of it: it may have any length.
function say_malformed(text, why,    shown) {
    shown = length(text) > 24 ? "\"" substr(text, 1, 24) "\".. of " length(text) " characters" : "\"" text "\""
    printf "%-" margin "s%s\n", sprintf("%5d  malformed", number), why (text == "" ? "" : ": " shown)
}

function say_waiters(    id, count, i) {
    words = ""
    count = split(waiters, id, " ")
    for (i = 1; i <= count; i++)
        add("id " id[i] " on channel " awaited[id[i]])
    if (count > 0)
        say("         waiters", words)
}

function say_remembered(    c) {
    words = ""
    for (c = 0; c < board; c++)
        if (finish[c] pervol[c] != "")
            words = words (words == "" ? "" : "; ") c ": " finish[c] (finish[c] == "" || pervol[c] == "" ? "" : ", ") pervol[c]
    if (words != "")
        say("         remembered", words)
}

# ---- What the program wrote

# C0, id, command, error, map, key
function say_reply(text,    number) {
    number = signed(byte(text, 3))
    words = ""
    add("to " desk(byte(text, 1)) ", id " byte(text, 1) " " call_name(byte(text, 2)) ": " error[number])
    if (byte(text, 4) != 0)
        add(on_channels(byte(text, 4)))
    add(key_words(pair(text, 5)))
    say("         reply", words)
}

# What an event has done to the front write of its channel.
function add_event(op, map,    id, count) {
    id = "id " front[1]
    count = left[front[1]]
    add((op == 243 ? "a cycle ended on " : "the driver gave up on ") on_channels(map))
    if (op == 244)
        add(id " ends")
    else if (finished != "")
        add("FINISH ends " id)
    else {
        if (tuned != "")
            add(tuned " is applied to " id)
        add(count == 0 ? id " is endless" : count == 1 ? "the last cycle of " id : id " has " cycle_words(count - 1) " left")
    }
}

# A0 done or A1 outstanding, error, map, key, last byte.
function answer_words(text, call,    op, number, map, last) {
    op = byte(call, 0)
    number = signed(byte(text, 1))
    map = byte(text, 2)
    last = byte(text, 5)
    words = ""
    if (byte(text, 0) == 161)
        add("outstanding")
    else if (number != 0)
        add(error[number] (number in reason ? ": " refusal_words(number, call) : ""))
    else if (op == 242)
        add(last == 1 ? "aborted" : "not aborted")
    else if ((op == 243 || op == 244) && map == 0)
        add("no write plays")
    else if (op == 243 || op == 244)
        add_event(op, map)
    else
        add("done")
    if (map != 0 && op != 243 && op != 244)
        add(on_channels(map))
    if (op == 2 && number == 0)
        add(last == 255 ? "no write of " desk(byte(call, 1)) "'s plays" : "the write of id " last " plays")
    if (op == 14 && number == 0 && byte(text, 0) == 160)
        add("no write plays")
    if (number != 7)
        add(key_words(pair(text, 3)))
    return words
}

# B0, channel, key, precedence, marks (1 locked, 2 stopped), number of writes
function channel_words(text,    key, marks, count) {
    key = pair(text, 2)
    marks = byte(text, 5)
    count = byte(text, 6)
    if (key == 0)
        return "free"
    return "key " key ", precedence " signed(byte(text, 4)) (marks % 2 == 1 ? ", locked" : "") (marks >= 2 ? ", stopped" : "") \
           (count == 0 ? "" : count == 1 ? ", 1 write" : ", " count " writes")
}

# Channels of which the same is to be said stand together.
function say_channels(said,    c, d, phrase) {
    words = ""
    for (c = 0; c < board; c++)
        if (said[c] != "") {
            phrase = c
            for (d = c + 1; d < board; d++)
                if (said[d] == said[c]) {
                    phrase = phrase " " d
                    said[d] = ""
                }
            words = words (words == "" ? "" : "; ") phrase ": " said[c]
        }
    say("         channels", words)
}

# E0, for each channel its writes and the waiting requests that name it, then the looks of the last settling
function add_naming(said, text,    c, naming) {
    for (c = 0; c < board; c++) {
        naming = byte(text, 2 * c + 2)
        if (naming > 0)
            said[c] = said[c] ", wanted by " naming
    }
}

# E1, id, precedence, held or not, desk
function waiting_words(text) {
    return "id " byte(text, 1) " of desk " (byte(text, 4) == 0 ? "A" : "B") " at " signed(byte(text, 2)) \
           (byte(text, 3) == 1 ? ", held" : "")
}

function say_waiting(    i) {
    words = ""
    for (i = 1; i <= waiting; i++)
        words = words (words == "" ? "" : "; ") waiting_words(waits[i])
    if (words != "")
        say("         waiting", words)
}

# ---- What is chosen

# A frame that is no call names nothing.
function about_id(call, id,    i) {
    if (why == "" && byte(call, 1) == id && (byte(call, 0) < 240 || byte(call, 0) > 244 || byte(call, 0) == 242))
        return 1
    for (i = 1; i <= replies; i++)
        if (byte(reply[i], 1) == id)
            return 1
    return 0
}

function about_key(call, key,    i) {
    if (why == "" && (pair(call, 5) == key || pair(answer, 3) == key))
        return 1
    for (i = 1; i <= replies; i++)
        if (pair(reply[i], 5) == key)
            return 1
    return 0
}

function about_channel(call, c,    op, i) {
    op = byte(call, 0)
    if (why == "" && op != 240 && op != 241 && op != 242 && op != 32 && names_channel(byte(call, 3), c))
        return 1
    for (i = 0; (op == 240 || op == 32) && i < byte(call, 7); i++)
        if (names_channel(byte(call, 8 + i), c))
            return 1
    for (i = 1; i <= replies; i++)
        if (names_channel(byte(reply[i], 4), c))
            return 1
    return names_channel(byte(answer, 2), c)
}

function chosen(call) {
    return (only_id == "" || about_id(call, only_id)) && (only_key == "" || about_key(call, only_key)) && \
           (only_channel == "" || about_channel(call, only_channel)) && \
           (only == "" || only == "refused" && byte(answer, 1) != 0 || only == "replies" && replies > 0 || \
            only == "waiting" && waiting > 0)
}

# ---- A line for a call

# The reply that only says the answer once more is left out.
function brief_replies(call,    i, count, told) {
    for (i = 1; i <= replies; i++)
        if (byte(reply[i], 1) != byte(call, 1) || byte(reply[i], 2) != byte(call, 0) || answer ~ /^A1/) {
            count++
            told = "; to " desk(byte(reply[i], 1)) ", id " byte(reply[i], 1) " " call_name(byte(reply[i], 2)) ": " \
                   error[signed(byte(reply[i], 3))]
        }
    return count > 1 ? "; " count " replies" : told
}

function say_brief(call,    op, who, told) {
    op = byte(call, 0)
    who = why != "" || op == 243 || op == 244 ? "" : desk(byte(call, 1)) (op == 240 || op == 241 ? "" : " " byte(call, 1))
    told = (why == "" ? answer_words(answer, call) : why) brief_replies(call)
    if (waiting > 0)
        told = told "; " waiting (waiting == 1 ? " waits" : " wait")
    printf "%7d  %-16s %-5s %s\n", number, why == "" ? call_name(op) : "malformed", who, told
}

function say_all(call,    i) {
    if (why == "")
        say_call($0)
    else
        say_malformed($0, why)
    for (i = 1; i <= replies; i++)
        say_reply(reply[i])
    say("         answer", answer_words(answer, call))
}

# ---- The log

# The program's next line stands in 'text'. Nothing says how many lines E1 there are: the line behind them is kept for the next call.
function next_line() {
    if (ahead == "")
        return (getline text < output) > 0
    text = ahead
    ahead = ""
    return 1
}

# What the program wrote for one line: replies, answer, channels, display, who waits. It is 1 where all of it is there.
function take_output(    seen) {
    seen = replies = waiting = 0
    while (seen <= board && next_line())
        if (text ~ /^C0/)
            reply[++replies] = text
        else if (text ~ /^A/)
            answer = text
        else if (text ~ /^B0/)
            shown[seen++] = text
        else if (text ~ /^E0/) {
            seen++
            display = text
        }
    while (next_line()) {
        if (text !~ /^E1/) {
            ahead = text
            break
        }
        waits[++waiting] = text
    }
    return seen > board
}

# The program's own message, if it has one, is enough.
function ends_early() {
    if (number > before + 1)
        print "explain: the program's output ends at line " number " of the log" | "cat 1>&2"
    failed = 1
    exit 3
}

function say_rest(    c, said) {
    for (c = 0; c < board; c++)
        said[c] = channel_words(shown[c])
    add_naming(said, display)
    say_channels(said)
    say_waiting()
    say_waiters()
    say_remembered()
}

{
    number = NR + before
    why = fault($0)
    # A malformed line is no call. It stands here as a frame of command 0, of which nothing is followed.
    call = why == "" ? $0 : "0000000000000000"
    if (!take_output())
        ends_early()
    before_call(call)
    tells = chosen(call)
    if (tells && brief)
        say_brief(call)
    else if (tells)
        say_all(call)
    for (i = 1; i <= replies; i++)
        follow_reply(reply[i])
    follow_answer(answer, call)
    follow_cycle(byte(answer, 2), call)
    for (c = 0; c < board; c++)
        follow_synced(byte(answer, 2), call, c, byte(shown[c], 5))
    if (tells && !brief)
        say_rest()
    tell_progress(NR)
}

END {
    tell_progress(-1)
}
