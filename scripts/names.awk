# Tests a file of names for ./wall, of a board of so many channels: writes what is wrong with the first line that is none. POSIX awk.

function wrong(text) {
    print "line " NR ": " text
    exit
}

/^ *(#|$)/ { next }
$1 != "hall" && $1 != "key" { wrong("it begins with neither 'hall' nor 'key'") }
$2 !~ /^[0-9]+$/ || length($2) > 5 { wrong("no number stands behind '" $1 "'") }
$1 == "hall" && $2 >= board { wrong("a board of " board " channels has no hall " $2) }
$1 == "key" && ($2 < 1 || $2 > 65535) { wrong("a key is a number from 1 to 65535") }
NF < 3 { wrong("there is no name") }
