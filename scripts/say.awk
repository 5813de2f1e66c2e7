# Lines of words behind a head, broken where they would be too long, and how far a long log is. ./explain and ./saved run it, behind
# words.awk. POSIX awk.

BEGIN {
    width = 98          # columns of a line, where words can be broken so
    margin = margin ? margin : 23   # where the words behind a head begin
}

# Adds a phrase to the words of the line at hand.
function add(phrase) {
    words = words (words == "" ? "" : ", ") phrase
}

# Writes the words behind their head. A line that would be too long is broken after a comma or a semicolon.
function say(head, words,    line, end, part, count, i) {
    end = index(words, ";") ? ";" : ","
    count = split(words, part, end " ")
    line = sprintf("%-" margin "s%s", head, part[1])
    for (i = 2; i <= count; i++)
        if (length(line) + length(part[i]) + 3 > width) {
            print line end
            line = sprintf("%" margin "s%s", "", part[i])
        } else
            line = line end " " part[i]
    print line
}

# Of 'progress' lines so many are done; -1: the line that said so goes. A log of few lines says nothing.
function tell_progress(done) {
    if (!progress || (done < 0 ? !progress_told : done % 20000 != 0))
        return
    progress_told = done >= 0
    printf "%s", (done < 0 ? "\r\033[K" : "\r" done " of " progress " calls, " int(100 * done / progress) " %") | "cat 1>&2"
    if (done < 0)
        close("cat 1>&2")
    else
        fflush("cat 1>&2")
}
