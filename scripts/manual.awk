# What a command's --help says, as a page for man: awk -v name=NAME -v version=VERSION -f manual.awk. POSIX awk.
# The first sentence is the name's; all else stands as it is, line for line.

function escaped(text) {
    gsub(/\\/, "\\e", text)
    gsub(/-/, "\\-", text)
    return text ~ /^[.']/ ? "\\\&" text : text
}

{ line[NR] = $0 }

END {
    first = line[1]
    for (k = 2; first !~ /[.:]( |$)/ && k <= NR; k++)
        first = first " " line[k]
    sub(/[.:]( .*)?$/, "", first)
    first = tolower(substr(first, 1, 1)) substr(first, 2)
    printf ".TH %s 1 \"\" \"Qamhudeer %s\" \"Qamhudeer\"\n", toupper(name), version
    printf ".SH NAME\n%s \\- %s\n", escaped(name), escaped(first)
    print ".SH DESCRIPTION\n.nf"
    for (k = 1; k <= NR; k++)
        print escaped(line[k])
    print ".fi\n.SH SEE ALSO\nPROVED.md and saved.md in share/doc/qamhudeer\\-tools."
}
