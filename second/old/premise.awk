# Reads a log and writes those of its lines that an old log may have: no F4, none of the commands 11, 12 and 14, and every WRITE
# with n 0. Since request #109 a log is two desks': its commands and ABORTs name ids of one half only, that of the first of them;
# ids above 63 are refused in any case. A malformed line is no call, whatever it begins with.
function frame(text) {
    return text ~ /^[0-9A-F]+$/ && length(text) >= 16 && length(text) == 16 + 2 * byte(text, 7)
}
function byte(text, at) {
    return 16 * digit(substr(text, 2 * at + 1, 1)) + digit(substr(text, 2 * at + 2, 1))
}
function digit(character) {
    return index("123456789ABCDEF", character)
}
# Commands and ABORT: OPEN, CLOSE and the events carry no id.
function names_id(text) {
    return text !~ /^F[0134]/ && byte(text, 1) < 64
}
function one_half(text) {
    if (half == "")
        half = byte(text, 1) < 32 ? "A" : "B"
    return half == (byte(text, 1) < 32 ? "A" : "B")
}
!frame($0) || ($0 !~ /^(F4|0B|0C|0E)/ && ($0 !~ /^03/ || byte($0, 7) == 0) && (!names_id($0) || one_half($0)))
