# Writes a played log as one page: the file 'page' with, in the place of its line @PLAYED@, these lines, in fields with a tab between
# them. B, W and A stand only where something has changed. ./wall runs it, behind played.awk. POSIX awk.
#
#   P precedence                            the least one whose waiting is an alarm
#   H channel name, K key name              names, where there are some
#   O number                                the call that the page opens at, where it is not 1
#   L first written called notice           a live page: the number of its first call; when it was written, and when the last call
#                                           came, in seconds since 1970; what is to be told of the log
#   C mark title words answer raw looks     a call
#   R mark raw words                        a reply of that call
#   B channel key precedence marks writes naming words    a channel after that call
#   W change ..                             how the waiting requests change, one change after another. A place counts from 0:
#                                           -PLACE it leaves; +PLACE:id:precedence:held:channels:since it joins; *PLACE held or no more
#   A words                                 the alarm after that call; no words: none
#
# No byte of a log can end the text or begin an element: & and < are spelled out.
#
# With 'grow' the page is live: its lines are kept for the last 'keep' calls, and it is written to the file that the environment calls
# WALL_PART, and renamed to WALL_PAGE, at most once a second and at least every ten.

BEGIN {
    part = ENVIRON["WALL_PART"]
    oldest = 1
    if (grow != "")
        follow()
    write_head("/dev/stdout")
    if (only > 0)
        print "O\t" only
}

function spelled(text) {
    gsub(/&/, "\\&amp;", text)
    gsub(/</, "\\&lt;", text)
    return text
}

# ---- The page around the lines. A live one may have itself in a frame, to see what is new.

function write_head(file,    line, c, k) {
    while ((getline line < page) > 0 && line != "@PLAYED@") {
        if (grow != "" && line ~ /Content-Security-Policy/)
            sub(/default-src 'none';/, "& frame-src 'self' file:;", line)
        print line > file
    }
    print "P\t" alarm > file
    for (c = 0; c < board; c++)
        if (c in hall)
            print "H\t" c "\t" spelled(hall[c]) > file
    for (k in key_name)
        print "K\t" k "\t" spelled(key_name[k]) > file
}

function write_end(file,    line) {
    while ((getline line < page) > 0)
        print line > file
    close(page)
}

# ---- A call

function channel_line(c) {
    return "B\t" c "\t" key[c] "\t" precedence[c] "\t" marks[c] "\t" queued[c] "\t" naming[c] "\t" queue[c]
}

function joins_line(place, id) {
    return "\t+" place ":" id ":" level[id] ":" held[id] ":" named[id] ":" since[id]
}

# From the list before, in 'old' from 1 on, to the new one: those that are gone leave, those that have come join.
function waiting_line(    i, j, id, now, was, line) {
    for (j = 1; j <= waiting; j++)
        now[order[j]] = 1
    for (i = 1; i <= olds; i++)
        was[old[i]] = 1
    i = j = 1
    while (i <= olds || j <= waiting) {
        id = order[j]
        if (i <= olds && j <= waiting && old[i] == id && old_since[id] == since[id]) {
            if (old_held[id] != held[id])
                line = line "\t*" (j - 1)
            i++
            j++
        } else if (i <= olds && (!(old[i] in now) || j > waiting || id in was)) {
            line = line "\t-" (j - 1)
            delete was[old[i++]]
        } else {
            line = line joins_line(j - 1, id)
            j++
        }
    }
    olds = waiting
    for (j = 1; j <= waiting; j++) {
        old[j] = order[j]
        old_held[order[j]] = held[order[j]]
        old_since[order[j]] = since[order[j]]
    }
    return "W" line
}

# What has changed since the call before.
function changes(    c, line, told) {
    for (c = 0; c < board; c++) {
        line = channel_line(c)
        if (line != said[c])
            told = told line "\n"
        said[c] = line
    }
    if (list != old_list)
        told = told waiting_line() "\n"
    if (alarm_words != old_alarm)
        told = told "A\t" spelled(alarm_words) "\n"
    old_list = list
    old_alarm = alarm_words
    return told
}

# All that is so after a call, for a page that begins there.
function whole(    c, i, told) {
    for (c = 0; c < board; c++)
        told = told channel_line(c) "\n"
    for (i = 1; i <= waiting; i++)
        told = told (i == 1 ? "W" : "") joins_line(i - 1, order[i]) (i == waiting ? "\n" : "")
    return told (alarm_words == "" ? "" : "A\t" spelled(alarm_words) "\n")
}

function shown(    i, told) {
    told = "C\t" mark "\t" title "\t" spelled(words) "\t" spelled(answer) "\t" raw "\t" looks "\n"
    for (i = 1; i <= replies; i++)
        told = told "R\t" reply_mark[i] "\t" reply[i] "\t" spelled(reply_words[i]) "\n"
    if (grow == "") {
        printf "%s%s", told, changes()
        return
    }
    if (news["skipped"] > 0 && oldest <= call - news["skipped"])
        begin_at(call)
    call_lines[call] = told
    call_changes[call] = changes()
    call_whole[call] = whole()
    if (call - oldest >= keep)
        forget(oldest++)
}

# ---- A live page

function forget(at) {
    delete call_lines[at]
    delete call_changes[at]
    delete call_whole[at]
}

# Calls were skipped: those before them are no longer shown.
function begin_at(first) {
    while (oldest < first)
        forget(oldest++)
}

function write_live(    at) {
    write_head(part)
    print "L\t" oldest "\t" news["now"] "\t" news["called"] "\t" spelled(notice_words()) > part
    for (at = oldest; at <= call; at++)
        printf "%s%s", call_lines[at], (at == oldest ? call_whole[at] : call_changes[at]) > part
    write_end(part)
    if (close(part) != 0 || system("mv -f -- \"$WALL_PART\" \"$WALL_PAGE\"") != 0)
        exit 1
}

# Something is new, or ten seconds are over: a page that is not written any more must not look like a quiet log.
function ticked(    now) {
    now = call " " notice_words()
    if (news["now"] == written || now == was_written && news["now"] - written < 10)
        return
    write_live()
    written = news["now"]
    was_written = now
}

{
    if (NR == 1)
        next_line()
    take_line()
}

END {
    if (failed)
        exit 3
    if (grow == "")
        write_end("/dev/stdout")
}
