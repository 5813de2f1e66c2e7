# Draws a played log as pictures of 79 columns and 24 lines; on a larger terminal they use the room. ./wall runs it, behind played.awk.
# POSIX awk.
#
#   only      the number of the one call that is drawn; 0: each
#   drawn     how many pictures there are before
#   moving    1: a terminal, where a picture takes the place of the one before, so many seconds later as 'pause' says
#   styled    1: with bold and quiet words and, where 'plain' is empty, in colours, which only repeat what signs and words say
#   grow      in the place of a log: a command, scripts/grown, that waits for lines of a log that grows: follow() of played.awk
#
# A terminal's last line is left free, so that nothing that comes behind a picture moves its head away.
# A lane shows the last calls: . free, - has a key (whose last digit stands where it begins), # locked, = stopped, % both.

BEGIN {
    most = 20           # replies that are kept
    cell = 39           # columns of a waiting request
    lay_out(80, 24)
    sign["d"] = "."; sign["o"] = "o"; sign["r"] = "x"; sign["m"] = "?"
    sign["e"] = "*"; sign["x"] = "-"; sign["s"] = "!"
}

# ---- The room

# Some terminals break a line that fills the last column.
function lay_out(wide, high) {
    width = wide - 1
    height = high
    reach = width - (named_any ? 70 : 52)   # calls in a lane
    columns = int(width / cell)             # of waiting requests
    latest = 3 + int((height - 23) / 3)     # replies
    if (latest > most)
        latest = most
}

# A terminal may have grown or shrunk since the last picture. Where it does not tell, it is one of 80 columns and 24 lines.
function measure(    ask, said, size) {
    if (!styled)
        return
    ask = "stty size </dev/tty 2>/dev/null"
    ask | getline said
    close(ask)
    if (split(said, size, " ") != 2 || size[1] * size[2] == 0)
        split("24 80", size, " ")
    small = size[1] < 24 || size[2] < 80
    if (small)
        small = "The terminal has " size[2] " columns and " size[1] " lines: a picture needs 80 and 24."
    else
        lay_out(size[2], size[1] - 1)
}

# ---- The picture, line by line

# Styles: b bold, q quiet, w a warning, r a refusal, a the alarm, over the whole width, or none.
function code_of(style) {
    return style == "a" ? "1;7" : style == "b" ? "1" : plain != "" ? (style == "q" || style == "" ? "" : "1") : \
           style == "q" ? "2" : style == "w" ? "1;33" : style == "r" ? "1;31" : ""
}

function line(text, style,    code) {
    text = style == "a" && styled ? sprintf("%-" width "." width "s", text) : substr(text, 1, width)
    code = styled && text != "" ? code_of(style) : ""
    if (code != "")
        text = "\033[" code "m" text "\033[0m"
    print text (moving ? "\033[K" : "")
    rows++
}

function named_row(c) {
    return sprintf("%3d %-14.14s %14.14s %4s %6d %6d  %-6s %-7s  %" reach "s", c, hall[c], \
                   key[c] == 0 ? "free" : key[c] in key_name ? key_name[key[c]] : key[c], key[c] == 0 ? "" : precedence[c], \
                   queued[c], naming[c], marks[c] % 2 == 1 ? "locked" : "", marks[c] >= 2 ? "stopped" : "", lane_of(c))
}

function channel_row(c) {
    if (named_any)
        return named_row(c)
    return sprintf("%3d %6s %6s %7d %7d  %-6s %-7s  %" reach "s", c, key[c] == 0 ? "free" : key[c], key[c] == 0 ? "" : precedence[c], \
                   queued[c], naming[c], marks[c] % 2 == 1 ? "locked" : "", marks[c] >= 2 ? "stopped" : "", lane_of(c))
}

function lane_of(c) {
    return length(lane[c]) > reach ? substr(lane[c], length(lane[c]) - reach + 1) : lane[c]
}

# The channels that a waiting request names, each at its place.
function places(digits,    c, text) {
    for (c = 0; c < board; c++)
        text = text (index(digits, c) ? c : ".")
    return text
}

function request_cell(id) {
    return sprintf("%s %2d %4d %-4s %s since %d%s", desk(id), id, level[id], held[id] ? "held" : "", places(named[id]), since[id], \
                   level[id] >= alarm ? " !" : "")
}

# The waiting requests in columns, each read downward. Where they do not all fit, the last place says how many more there are.
function draw_waiting(room,    row, column, i, text, fit) {
    fit = waiting > room * columns ? room * columns - 1 : waiting
    for (row = 1; row <= room; row++) {
        text = ""
        for (column = 0; column < columns; column++) {
            i = column * room + row
            text = text sprintf("%-" cell "s", i <= fit ? request_cell(order[i]) : i == fit + 1 && i <= waiting ? \
                                         "and " (waiting - fit) " more" : "")
        }
        sub(/ +$/, "", text)
        line(text, "")
    }
}

# Words over at most so many lines, broken at a space; what is longer is cut.
function draw_words(head, text, style, many,    room, cut) {
    room = width - length(head)
    for (; many > 1 && length(text) > room; many--) {
        for (cut = room + 1; cut > room / 2 && substr(text, cut, 1) != " "; cut--)
            ;
        line(head substr(text, 1, cut - 1), style)
        text = substr(text, cut + 1)
        head = sprintf("%" length(head) "s", "")
    }
    draw_line(head, text, style)
}

function draw_line(head, text, style,    room) {
    room = width - length(head)
    line(head (length(text) > room ? substr(text, 1, room - 2) ".." : text), style)
}

function draw_said(    i) {
    line(grow == "" || !moving ? "" : notice_words(), "w")
    if (length(words) <= width - 14)
        line("", "")
    draw_words(sprintf("call %-6d %s ", call, sign[mark]), words, "b", 2)
    draw_line(sprintf("%14s", ""), answer (replies > 1 ? "; " replies " replies" : ""), mark == "r" || mark == "m" ? "r" : "b")
    for (i = told + 0; i > told - latest; i--)
        if (i > 0)
            draw_line(sprintf("call %-6d %s ", said_at[i % most], sign[said_mark[i % most]]), said_words[i % most], \
                      said_mark[i % most] == "s" ? "w" : said_mark[i % most] == "r" ? "r" : "")
        else
            line("", "")
}

# A log that is followed on a terminal has a clock in the place of the looks.
function draw_head(    text, clock) {
    text = sprintf("%-20s%s", "AFTER CALL " call, waiting " waiting, " holding " held")
    if (grow == "" || !moving)
        return line(text "; the last settling looked at " looks, "b")
    clock = clock_words()
    line(sprintf("%s%" (width - length(text)) "s", text, clock), clock ~ /^NO/ ? "a" : "b")
}

# Up to three lines over the whole width. The bell rings once for each request.
function draw_alarm(    i, ring) {
    if (alarms == 0)
        return
    for (i = 1; i <= alarms; i++) {
        ring = ring || rung[order[i]] != since[order[i]]
        rung[order[i]] = since[order[i]]
    }
    if (ring && styled)
        printf "\a"
    draw_words("ALARM: ", alarm_words, "a", 3)
}

function draw_board(    c) {
    if (named_any)
        line(sprintf("%3s %-14s %14s %4s %6s %6s  %-14s  %s", "ch", "hall", "key", "prec", "queued", "wanted", "marks", "calls"), "q")
    else
        line(" ch    key   prec  queued  wanted  marks           the last " reach " calls", "q")
    for (c = 0; c < board; c++)
        line(channel_row(c), changed[c] == call ? "b" : "")
    line(sprintf("%-" (width - 28) "s%s", " messages queued; wanted by so many requests", ". free # lock = stop % both"), "q")
}

function draw() {
    rows = 0
    measure()
    if (drawn++ > 0 && !moving)
        print ""
    if (moving)
        printf "\033[H"
    if (small)
        line(small, "w")
    else {
        draw_head()
        draw_alarm()
        draw_board()
        line(waiting ? "WAITING: desk, id, precedence, held or not, channels named, since which call" : "WAITING: nobody", "q")
        draw_waiting(height - rows - latest - 4)
        draw_said()
    }
    if (moving)
        printf "\033[J"
    if (fflush("/dev/stdout") != 0)     # so that a write that fails is seen
        exit 1
    # An interrupt ends the pause, and with it all.
    if (moving && grow == "" && system("sleep " pause) != 0)
        exit
}

# ---- What is kept from call to call

function step_lanes(    c, sort, now) {
    for (c = 0; c < board; c++) {
        sort = key[c] == 0 ? "." : key[c] != holder[c] ? key[c] % 10 : substr("-#=%", marks[c] + 1, 1)
        holder[c] = key[c]
        lane[c] = lane[c] sort
        if (length(lane[c]) > 400)      # no terminal is wider
            lane[c] = substr(lane[c], 2)
        now = key[c] " " precedence[c] " " marks[c] " " queued[c] " " naming[c]
        if (now != before[c])
            changed[c] = call
        before[c] = now
    }
}

function keep_replies(    i) {
    for (i = 1; i <= replies; i++)
        if (reply_mark[i] != "a") {
            told++
            said_at[told % most] = call
            said_mark[told % most] = reply_mark[i]
            said_words[told % most] = reply_words[i]
        }
}

function shown() {
    step_lanes()
    keep_replies()
    if (only == 0 && !hidden || call == only)
        draw()
    if (call == only)
        exit
}

# ---- The log

BEGIN {
    if (grow != "")
        follow()
}

# The clock goes on where no call comes. Where there is no terminal, what a manager has to know is told on standard error, once.
function ticked(    clock, notice) {
    clock = clock_words()
    notice = notice_words()
    if (moving && call > 0)
        draw()
    else if (moving) {
        printf "\033[H"
        line("The log has no calls yet.", "b")
        line(notice, "w")
    }
    if (!moving && clock ~ /^NO/ && last_clock !~ /^NO/)
        print "wall: " clock | "cat 1>&2"
    if (!moving && notice != "" && notice != last_notice)
        print "wall: " notice | "cat 1>&2"
    close("cat 1>&2")
    last_clock = clock
    last_notice = notice
}

{
    if (NR == 1)
        next_line()
    take_line()
}

END {
    if (failed)
        exit 3
    if (grow == "" && call == 0)
        print "The log has no calls."
}
