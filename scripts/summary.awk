# Reads a log of two desks, and beside it the file 'output', what the program wrote for it, on a board of so many channels; from the
# state of the text 'saved' on, if there is one. Counts: the calls, the refusals by number, the channels that were stolen, the longest
# wait of an ALLOCATE and the longest queue. Who has which channel is followed from grants, FREE and CLOSE. 'before' is how many
# calls came before. ./explain runs it, behind words.awk, say.awk and queues.awk. POSIX awk.

BEGIN {
    if (saved != "")
        begin_counts(saved)
}

# The state before the first line: docs/saved.md says what stands where.
function begin_counts(file,    text, c) {
    while ((getline text < file) > 0)
        if (text ~ /^D1/)
            holder[c++] = pair(text, 1)
        else if (text ~ /^D2/) {
            began[byte(text, 1)] = before
            asked[byte(text, 1)] = signed(byte(text, 4))
        } else if (text ~ /^D5/)
            joins_queue(byte(text, 2), byte(text, 1))
    close(file)
}

# ---- Queues

function joins_queue(id, c) {
    place[id] = c
    if (++queue[c] > longest) {
        longest = queue[c]
        longest_at = NR + before
        longest_on = c
    }
}

function leaves_queue(id) {
    if (id in place) {
        queue[place[id]]--
        delete place[id]
    }
}

# ---- Channels

# A channel that its holder does not give back in this call, and that another key gets, is stolen.
function grant(map, key,    c) {
    for (c = 0; c < board; c++)
        if (names_channel(map, c)) {
            if (holder[c] != 0 && holder[c] != key)
                stolen++
            holder[c] = key
        }
}

function gives_back(op, key, map,    c) {
    for (c = 0; c < board; c++)
        if (op == 9 ? names_channel(map, c) : holder[c] == key)
            holder[c] = 0
}

# ---- Waiting

# A wait from the call 'began' to this one. A request that stood in the saved text waits since before it.
function ends_wait(id, how) {
    if (!(id in began))
        return
    if (number - began[id] > wait) {
        wait = number - began[id]
        wait_from = began[id]
        wait_to = number
        wait_words = "id " id " of desk " desk(id) " at " asked[id] ", " how
    }
    delete began[id]
}

# ---- The log

function take_reply(text,    id, op, number) {
    id = byte(text, 1)
    op = byte(text, 2)
    number = signed(byte(text, 3))
    ended[id] = op
    if (op == 3)
        leaves_queue(id)
    if (op == 13 && number == -12)
        locks_told++
    if (op == 32 && number == 0 && (id in began || id == own))
        grant(byte(text, 4), pair(text, 5))
    if (op == 32)
        ends_wait(id, number == 0 ? "then granted" : number == -2 ? "then cancelled" : "then in vain")
}

# What comes of the call itself comes before what settling grants.
function take_call(call, answer,    op, id) {
    op = byte(call, 0)
    id = byte(call, 1)
    own = answer ~ /^A1/ ? id : -1
    if (byte(answer, 1) == 0 || signed(byte(answer, 1)) == -10) {
        if (op == 9 || op == 241)
            gives_back(op, pair(call, 5), byte(answer, 2))
        if ((op == 32 || op == 240) && answer ~ /^A0/)
            grant(byte(answer, 2), pair(answer, 3))
    }
    if (byte(answer, 1) != 0) {
        refused++
        refusals[signed(byte(answer, 1))]++
    }
}

# What is outstanding, and has not ended in the walk of its own call.
function begins(call, answer,    op, id) {
    op = byte(call, 0)
    id = byte(call, 1)
    if (answer !~ /^A1/ || id in ended && ended[id] == op)
        return
    if (op == 3)
        joins_queue(id, lowest(byte(call, 3)))
    if (op == 32) {
        began[id] = number
        asked[id] = signed(byte(call, 4))
    }
}

{
    number = NR + before
    call = fault($0) == "" ? $0 : "0000000000000000"
    split("", ended)
    for (replies = 0; (got = (getline text < output)) > 0 && text !~ /^A/;)
        reply[++replies] = text
    if (got <= 0) {
        if (NR > 1)
            print "explain: the program's output ends at line " number " of the log" | "cat 1>&2"
        failed = 1
        exit 3
    }
    take_call(call, text)
    for (i = 1; i <= replies; i++)
        take_reply(reply[i])
    begins(call, text)
    tell_progress(NR)
}

# ---- The words

# By number, from above: 7 to 1, then -1 to -12. What has no name has its reason.
function refusal_list(    n, told) {
    for (n = 7; n >= -12; n--)
        if (n in refusals)
            told = told (told == "" ? "" : "; ") refusals[n] " " error[n] (n in reason ? " (" short_reason(n) ")" : "")
    return told
}

# A number may have several reasons, by the call: then none is told.
function short_reason(n) {
    return n == -4 ? "a wrong length" : n == 2 ? "no key is open, or not this one" : reason[n]
}

function plural(count, one) {
    return count + 0 " " one (count == 1 ? "" : "s")
}

END {
    tell_progress(-1)
    if (failed)
        exit 3
    for (id = 0; id < 64; id++)
        ends_wait(id, "and waits still")
    say("calls", NR == 0 ? "none" : before + 1 " to " (NR + before) ", " NR " in all")
    say("refused", refused == 0 ? "none" : refused "; " refusal_list())
    say("steals", plural(stolen, "channel") "; " plural(locks_told, "lock") " told")
    say("longest wait", wait == 0 ? "none" : plural(wait, "call") "; " \
        (wait_from == before ? "since before call " (before + 1) : "since call " wait_from) " to " wait_to "; " wait_words)
    say("longest queue", longest == 0 ? "none" : plural(longest, "write") "; channel " longest_on ", " \
        (longest_at == before ? "at first" : "after call " longest_at))
}
