# The prototypes of the functions for C, one in a line, from either side: those that include/qamhudeer.h declares, and those that
# crates/qamhudeer_c/src/lib.rt exports. Both are written as C spells them, with the names of their parameters, so that 'sort' and 'diff'
# tell where they differ. A slice is a pointer and a length. A type that is not known here is written as it stands, and so differs.
#
#   awk -f tests/prototypes.awk include/qamhudeer.h
#   awk -f tests/prototypes.awk crates/qamhudeer_c/src/lib.rt
BEGIN {
    spelt["u8"] = "uint8_t"; spelt["u16"] = "uint16_t"; spelt["u32"] = "uint32_t"; spelt["usize"] = "size_t"
}

function type(name) {
    return name in spelt ? spelt[name] : name
}

function tidy(text) {
    gsub(/[ \t]+/, " ", text)
    sub(/^ /, "", text)
    sub(/ $/, "", text)
    return text
}

# parameter TEXT: 'name: type' of Rattle, as C has it.
function parameter(text,    at, name, kind, constant) {
    at = index(text, ":")
    name = tidy(substr(text, 1, at - 1))
    kind = tidy(substr(text, at + 1))
    if (kind !~ /^&/)
        return type(kind) " " name
    constant = kind ~ /^&mut / ? "" : "const "
    sub(/^&(mut )?/, "", kind)
    if (kind ~ /^\[[a-z0-9]+\]$/)
        return constant type(substr(kind, 2, length(kind) - 2)) " *" name ", size_t " name "_len"
    return constant type(kind) " *" name
}

function exported(text,    name, words, result, n, part, i, list) {
    sub(/.*extern "C" fn /, "", text)
    name = tidy(substr(text, 1, index(text, "(") - 1))
    words = substr(text, index(text, "(") + 1, index(text, ")") - index(text, "(") - 1)
    result = substr(text, index(text, ")") + 1)
    result = sub(/^ *-> */, "", result) ? type(tidy(result)) : "void"
    n = split(words, part, ",")
    for (i = 1; i <= n; i++)
        if (tidy(part[i]) != "")
            list = list (list == "" ? "" : ", ") parameter(part[i])
    print result " " name "(" (list == "" ? "void" : list) ")"
}

# ---- Rattle: behind #[unsafe(no_mangle)], up to what the function ensures or its body

FILENAME ~ /\.rt$/ {
    sub(/^ *\/\/.*/, "")
    if (/^#\[unsafe\(no_mangle\)\]/) {
        marked = 1
    } else if (marked && /^pub extern "C" fn/) {
        text = ""
        reading = 1
        marked = 0
    }
    if (reading) {
        ends = match($0, /^ *(ensures|requires)|\{/)
        text = text " " (ends ? substr($0, 1, RSTART - 1) : $0)
        if (ends) {
            exported(text)
            reading = 0
        }
    }
    next
}

# ---- C: without comments, the preprocessor's lines and what the compiler is told of pointers, up to each semicolon

{
    line = $0
    if (comment && !sub(/^.*\*\//, "", line))
        next
    comment = 0
    gsub(/\/\*([^*]|\*[^\/])*\*\//, "", line)
    comment = sub(/\/\*.*/, "", line)
    directive = continued || line ~ /^#/
    continued = directive && line ~ /\\$/
    if (directive || line ~ /^extern "C"|^}$/)
        next
    gsub(/QAMHUDEER_(RESTRICT|NONNULL)/, "", line)
    text = tidy(text " " line)
    while (at = index(text, ";")) {
        declared = tidy(substr(text, 1, at - 1))
        text = tidy(substr(text, at + 1))
        gsub(/\* /, "*", declared)
        gsub(/\( /, "(", declared)
        print declared
    }
}
