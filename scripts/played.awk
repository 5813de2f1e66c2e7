# Reads a log, and beside it the file 'output', what the program wrote for it with '--show --display' on a board of so many channels.
# After each line of the log it calls shown(), which is the view's: wall.awk draws on a terminal, page.awk writes the page. With 'grow'
# it follows a log: follow() below. names_file is a file of names, 'alarm' the least precedence of a request whose waiting is an alarm.
# What shown() finds:
#
#   call                        the number of the line
#   mark, title, words, answer  the call. Mark: d done, o outstanding, r refused or failed, m malformed
#   raw                         the answer as the program wrote it
#   replies; reply[i], reply_mark[i], reply_words[i]
#                               from 1 on, as the program wrote them. Mark: e ended well, x cancelled, s a lock told that it is in
#                               the way, r failed, a the call's own answer once more
#   key[c], precedence[c], marks[c], queued[c], naming[c], queue[c]
#                               a channel. Marks: 1 locked, 2 stopped. The number of its writes and of the waiting requests that
#                               name it, as the program counts them; its writes in words
#   waiting; order[i], level[id], held[id], named[id], since[id]
#                               the waiting requests in order, from 1 on: id, precedence, whether held. The channels that one
#                               names, as 023, and the call since which it waits are those of its ALLOCATE in the log
#   alarms, alarm_words         how many waiting requests are an alarm; of the first of them, who waits since when, for what, and what
#                               is in its way
#   holding, list               how many of them are held; the lines of all of them, to see whether anything has changed
#   looks                       how many requests the last settling looked at
#
# ./wall runs it, behind words.awk, queues.awk and sentences.awk. POSIX awk.

BEGIN {
    frame = "0000000000000000"      # what a malformed line stands as: command 0, of which nothing is followed
    take_names()
}

# Lines 'hall 0 Departures' and 'key 7 Harbour office', which names.awk has tested.
function take_names(    line, word, text) {
    while ((getline line < names_file) > 0)
        if (line !~ /^ *#/ && split(line, word, " ") > 2) {
            text = line
            sub(/^ *[^ ]+ +[^ ]+ +/, "", text)
            sub(/ +$/, "", text)
            if (word[1] == "hall")
                hall[word[2] + 0] = text
            else
                key_name[word[2] + 0] = text
            named_any = 1
        }
    close(names_file)
}

function fail(told) {
    print "wall: line " call " of the log: " told | "cat 1>&2"
    failed = 1
    exit 3
}

# The program's next line stands in 'ahead' until it is taken: a call's last lines, E1, end where another kind begins.
function next_line() {
    if ((getline ahead < output) <= 0)
        ahead = ""
}

# What a request asks for: its combinations, whose number stands at this place of its line; the channels that they name, a digit each.
function take_wish(id, text, at,    i, c, met) {
    combinations[id] = byte(text, at)
    for (i = 1; i <= combinations[id]; i++) {
        combination[id, i] = byte(text, at + i)
        for (c = 0; c < board; c++)
            if (names_channel(combination[id, i], c))
                met[c] = 1
    }
    named[id] = ""
    for (c = 0; c < board; c++)
        if (c in met)
            named[id] = named[id] c
}

function take_replies() {
    for (replies = 0; ahead ~ /^C0/; next_line()) {
        reply[++replies] = ahead
        follow_reply(ahead)
    }
}

# At most 24 characters of a malformed line: it may have any length.
function take_answer(text, why,    number) {
    if (ahead !~ /^A/)
        fail("the program's output ends there")
    raw = ahead
    number = byte(raw, 1)
    mark = why != "" ? "m" : raw ~ /^A1/ ? "o" : number ? "r" : "d"
    title = why != "" ? "malformed" : call_name(byte(text, 0))
    sub(/^(AD)?CMD_/, "", title)
    if (why == "") {
        words = call_sentence(text)
        answer = answer_sentence(raw, text)
    } else {
        words = length($0) > 24 ? "\"" substr($0, 1, 24) "\".. of " length($0) " characters" : "\"" $0 "\""
        answer = "no call: " why
    }
    follow_answer(raw, text)
    follow_cycle(byte(raw, 2), text)
    if (mark == "o" && byte(text, 0) == 32) {
        take_wish(byte(text, 1), text, 7)
        since[byte(text, 1)] = call
    }
    next_line()
}

function name_replies(text,    i, number, own) {
    for (i = 1; i <= replies; i++) {
        number = signed(byte(reply[i], 3))
        own = mark != "o" && mark != "m" && byte(text, 0) == byte(reply[i], 2) && byte(text, 1) == byte(reply[i], 1)
        reply_mark[i] = own ? "a" : number == 0 ? "e" : number == -2 ? "x" : number == -12 ? "s" : "r"
        reply_words[i] = own ? desk(byte(text, 1)) "'s request " byte(text, 1) " has this answer as its reply" : reply_sentence(reply[i])
    }
}

# B0, channel, key, precedence, marks, number of writes
function take_channels(text,    c) {
    for (c = 0; c < board && ahead ~ /^B0/; c++) {
        key[c] = pair(ahead, 2)
        precedence[c] = signed(byte(ahead, 4))
        marks[c] = byte(ahead, 5)
        follow_synced(byte(raw, 2), text, c, marks[c])
        queue[c] = queue_sentence(c, marks[c] >= 2)
        next_line()
    }
    if (c < board || ahead !~ /^E0/)
        fail("the program shows no channels there, or no display")
}

# E0, for each channel writes and naming, then the looks; E1, id, precedence, held, desk.
function take_display(    c, id) {
    for (c = 0; c < board; c++) {
        queued[c] = byte(ahead, 1 + 2 * c)
        naming[c] = byte(ahead, 2 + 2 * c)
    }
    looks = pair(ahead, 1 + 2 * board)
    next_line()
    list = ""
    for (waiting = holding = 0; ahead ~ /^E1/; next_line()) {
        list = list ahead
        id = byte(ahead, 1)
        order[++waiting] = id
        level[id] = signed(byte(ahead, 2))
        held[id] = byte(ahead, 3)
        holding += held[id]
    }
}

function take_line(    why, text) {
    call++
    why = fault($0)
    text = why == "" ? $0 : frame
    before_call(text)
    take_replies()
    take_answer(text, why)
    name_replies(text)
    take_channels(text)
    take_display()
    find_alarm()
    shown()
}

# ---- The alarm

# The combination that a request would get, by document 01 and #104: the first of free channels alone; else the one of the least
# highest precedence, of the fewest channels taken, the earliest.
function choice(id,    i, c, map, taken, cost, best, best_cost, best_taken) {
    for (i = 1; i <= combinations[id]; i++) {
        map = combination[id, i]
        taken = 0
        cost = -129
        for (c = 0; c < board; c++)
            if (names_channel(map, c) && key[c] != 0) {
                taken++
                if (precedence[c] > cost)
                    cost = precedence[c]
            }
        if (taken == 0)
            return map
        if (cost < level[id] && (best == "" || cost < best_cost || cost == best_cost && taken < best_taken)) {
            best = map
            best_cost = cost
            best_taken = taken
        }
    }
    return best
}

# A held request waits for locks on what it would get. Any other fails at channels of its own precedence or above.
function blocks(id, c, map) {
    return held[id] ? names_channel(map, c) && marks[c] % 2 == 1 : index(named[id], c) && key[c] != 0 && precedence[c] >= level[id]
}

# Channels of one key and one precedence stand together.
function in_the_way(id,    c, d, bit, map, met, together, told) {
    map = held[id] ? choice(id) : 0
    for (c = 0; c < board; c++)
        if (!(c in met) && blocks(id, c, map)) {
            together = 0
            bit = 1
            for (d = 0; d < board; d++) {
                if (blocks(id, d, map) && key[d] == key[c] && precedence[d] == precedence[c]) {
                    together += bit
                    met[d] = 1
                }
                bit *= 2
            }
            told = told (told == "" ? "" : "; ") \
                   (held[id] ? "the lock of " key_words(key[c]) : key_words(key[c]) " at " precedence[c]) " on " on_channels(together)
        }
    return told == "" ? "nothing" : told
}

function wished(id,    i, told) {
    for (i = 1; i <= combinations[id] && i <= 4; i++)
        told = told (i == 1 ? on_channels(combination[id, i]) : " or " (i == 4 && combinations[id] > 4 ? combinations[id] - 3 " more" : \
               channels(combination[id, i])))
    return told
}

function find_alarm(    i, id) {
    alarm_words = ""
    for (alarms = 0; alarms < waiting && level[order[alarms + 1]] >= alarm;)
        alarms++
    if (alarms == 0)
        return
    id = order[1]
    alarm_words = desk(id) "'s request " id " waits since call " since[id] " for " wished(id) " at precedence " level[id] \
                  (held[id] ? ", held" : "") (alarms == 1 ? "" : ", and " (alarms - 1) " more") ". In its way: " in_the_way(id)
}

# ---- A log that grows

# 'grow' is a command, scripts/grown, that waits for new lines and plays them; its files stand in the folder 'work'. The lines that
# stand at first are hidden but for their last; so are many that come at once. After each wait ticked() is called, which is the view's.
function follow(    first, got, after) {
    output = work "/output"
    for (first = 1; system(grow) == 0; first = 0) {
        read_news()
        if (news["skipped"] > 0)
            skip(news["skipped"])
        got = (getline after < (work "/lines"))
        if (got > 0)
            next_line()
        while (got > 0) {
            $0 = after
            got = (getline after < (work "/lines"))
            hidden = (first || news["skipped"] > 0) && got > 0
            take_line()
        }
        close(work "/lines")
        close(output)
        ticked()
    }
    exit
}

function read_news(    line, at) {
    split("", news)
    while ((getline line < (work "/news")) > 0) {
        at = index(line, " ")
        news[substr(line, 1, at - 1)] = substr(line, at + 1)
    }
    close(work "/news")
}

# Lines were played without the view. What it follows from call to call is in the saved state, and since when each request waits was read
# from the answers.
function skip(count,    file, line, word) {
    call += count
    file = work "/before"
    begin_saved(file)
    while ((getline line < file) > 0)
        if (line ~ /^D2/)
            take_wish(byte(line, 1), line, 6)
    close(file)
    while ((getline line < (work "/since")) > 0)
        if (split(line, word, " ") == 2 && word[1] != "lines")
            since[byte(word[1], 0)] = word[2]
    close(work "/since")
}

# How long ago, from so many seconds.
function ago(seconds) {
    if (seconds < 120)
        return seconds " s"
    return seconds < 7200 ? int(seconds / 60) " min" : int(seconds / 3600) " h " int(seconds % 3600 / 60) " min"
}

# When the last call came, or that there has been no news for a minute; what was to be told of the log, for a minute.
function clock_words(    age) {
    if (!("called" in news))
        return "no call yet"
    age = news["now"] - news["called"]
    if (age < 0)
        age = 0
    return age < 60 ? "last call " ago(age) " ago" : "NO NEWS FOR " ago(age)
}

function notice_words(    at) {
    if ("away" in news)
        return "THE LOG IS AWAY SINCE " news["away"]
    at = index(news["notice"], " ")
    return at > 0 && news["now"] - substr(news["notice"], 1, at - 1) < 60 ? substr(news["notice"], at + 1) : ""
}
