# What rt says of its work, as lines that tell how far it is, and how long the rest will take at this pace:
# awk -f progress.awk [-v terminal=1] [-v crates=N] [-v edits=M] [-v clock=COMMAND]. The clock is date +%s; another is for tests.
# On a terminal one line is written over; elsewhere each crate and each edit has its line. What rt says of failures passes as
# it is. POSIX awk.

BEGIN {
    if (clock == "")
        clock = "date +%s"
    began = seconds()
}

# Behind the names of what was proved, the prover's own counts and its notes on how a proof could be quicker tell a reader nothing here;
# nor does what rt says of its own ways.
/^(library|logic|linked|axioms|statements) / || /^(fn|struct|enum|impl) .*: proved$/ || /^checked .*, [0-9]+ of [0-9]+$/ { next }
/^empty contracts: 0 found; / || /^only=[0-9]+ proved=/ || /^== [a-z0-9_]+(: its tests)?$/ || /^[^ ]+:[0-9]+:[0-9]+: note: / { next }
/^rt: chose --jobs / || /^rt: [a-z0-9_]+: (begins with what|trying its must-fail edits)/ || /^rt: (nothing has changed|running out\/)/ { next }

# rt ci says of each crate that it is proved, or kept from an earlier run. Where it proves for one crate, a crate ends with its counts.
/^crate [a-z0-9_]+: modules/ { checked = substr($2, 1, length($2) - 1); next }
/^logic=proved/ {
    if (checked)
        tell(sprintf("crate %d of %s: %s", ++proved, crates ? crates : "?", checked), "")
    checked = ""
    next
}
/^rt: [a-z0-9_]+ proved/ {
    tell(sprintf("crate %d of %s: %s", ++proved, crates ? crates : "?", $2), $0)
    next
}
/^rt: [a-z0-9_]+ is kept: / {
    tell(sprintf("crate %d of %s: %s", ++proved, crates ? crates : "?", $2), "(unchanged")
    next
}

/^rt: must-fail [^ ]+ refused/ {
    place = $0
    sub(/^.*refused, as it must be(: )?/, "", place)
    tell(sprintf("edit %d of %s: %s is refused", ++tried, edits ? edits : "?", substr($3, 1, length($3) - 1)), place ? "(" place ")" : "")
    next
}

{
    clear()
    print
    fflush()
}

END {
    clear()
}

# tell(WHAT, LINE): with what is left; then what the line has in brackets: the place of a refusal's first error.
function tell(what, line) {
    sub(/^[^(]*/, "", line)
    if (line ~ /^\(unchanged/)
        line = "(as before)"
    else
        line = rest(++worked) line
    sub(/ +$/, "", line)
    if (line != "")
        what = what " " line
    if (terminal) {
        printf "\r%-78.78s", what
        shown = 1
    } else
        print what
    fflush()
}

function seconds(    now) {
    clock | getline now
    close(clock)
    return now + 0
}

# rest(WORKED): what is left, where so many crates and edits took all the time until now. The first say too little.
function rest(worked,    left, minutes) {
    left = crates + edits - proved - tried
    if (!crates || worked < 5 || left <= 0)
        return ""
    minutes = int((seconds() - began) / worked * left / 60 + 0.5)
    return minutes == 0 ? "[less than a minute left] " : "[about " minutes " minute" (minutes == 1 ? "" : "s") " left] "
}

function clear() {
    if (shown)
        printf "\r%78s\r", ""
    shown = 0
}
