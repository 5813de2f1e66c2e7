# Reads what the program wrote for lines of a log, and beside it the lines, from the command 'source'; writes for each id, in two
# digits, since which call it waits: the last ALLOCATE of the id that is outstanding; and first how many lines there were. 'before' is
# how many calls came before.
# scripts/grown runs it. POSIX awk.

/^A/ {
    call++
    source | getline line
    if (/^A1/ && line ~ /^20/)
        since[substr(line, 3, 2)] = call
}

END {
    print "lines", call + 0
    for (id in since)
        print id, since[id] + before
}
