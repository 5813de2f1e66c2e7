# What the program wrote with --show --display, as tests/wall.sh compares it: for each call
#
#   call N looks L
#   channel C key K precedence P locked 0|1 stopped 0|1 writes W naming M
#   waits A|B ID PRECEDENCE held 0|1 since CALL      since it stands there without a break
#   more N               where there are more than 'room': the last place is taken by their number
#   reply C0.., answer A0..     with said=1
#
# 'board' is the number of channels; only=N: this call alone.
function byte(text, at) {
    return 16 * index("123456789ABCDEF", substr(text, 2 * at + 1, 1)) + index("123456789ABCDEF", substr(text, 2 * at + 2, 1))
}
function signed(number) { return number < 128 ? number : number - 256 }
function say(text) { if (!only || call == only) print text }
function end(    i) {
    if (!call)
        return
    for (i = 1; i <= waits && (i < room || waits <= room); i++)
        say(waiting[i])
    if (waits > room)
        say("more " (waits - room + 1))
}
/^(C|A)/ { if (!open) { end(); call++; channel = waits = 0; open = 1 } }
/^(C0|A)/ { if (said) say((/^C0/ ? "reply " : "answer ") $0) }
/^B0/ { shown[channel++] = $0 }
/^E0/ {
    open = 0
    say("call " call " looks " 256 * byte($0, 1 + 2 * board) + byte($0, 2 + 2 * board))
    for (c = 0; c < channel; c++) {
        key = 256 * byte(shown[c], 2) + byte(shown[c], 3)
        marks = byte(shown[c], 5)
        say("channel " byte(shown[c], 1) " key " (key ? key : "free") " precedence " (key ? signed(byte(shown[c], 4)) : "") \
            " locked " marks % 2 " stopped " int(marks / 2) " writes " byte($0, 1 + 2 * c) " naming " byte($0, 2 + 2 * c))
    }
}
/^E1/ {
    id = byte($0, 1)
    if (stood[id] != call - 1)
        since[id] = call
    stood[id] = call
    waiting[++waits] = "waits " (byte($0, 4) ? "B" : "A") " " id " " signed(byte($0, 2)) " held " byte($0, 3) " since " since[id]
}
END { end() }
