# The pictures of ./wall as program.awk writes what the program wrote. What is read are the places that people read.
function field(from, width,    text) {
    text = substr($0, from, width)
    gsub(/ /, "", text)
    return text
}
function cell(text,    part, count, at) {
    count = split(text, part, " ")
    if (part[1] == "and")
        return "more " part[2]
    at = index(text, " since ")
    return "waits " part[1] " " part[2] " " part[3] " held " (part[4] == "held" ? 1 : 0) " since " (substr(text, at + 7) + 0)
}
function end(    column, row) {
    for (column = 0; column < 2; column++)
        for (row = 1; row <= rows; row++)
            if (substr(cells[row], 39 * column + 1, 39) ~ /[^ ]/)
                print cell(substr(cells[row], 39 * column + 1, 39))
    rows = waits = 0
}
/^AFTER CALL / { print "call " $3 " looks " $NF }
/^  [0-7] / {
    print "channel " field(1, 3) " key " field(5, 6) " precedence " field(12, 6) " locked " (field(36, 6) == "locked") \
          " stopped " (field(43, 7) == "stopped") " writes " field(19, 7) " naming " field(27, 7)
}
/^call / { if (waits) end() }
waits { cells[++rows] = $0 }
/^WAITING/ { waits = 1 }
