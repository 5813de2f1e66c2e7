#!/bin/sh
# The package of the tools, as somebody has it who has no kit: it is built, unpacked in a folder with a space in its name that nobody may
# write to, and run there with a PATH that has no rt, by a link, with CDPATH set, and as another user. It plays the sample, draws a picture
# and the page, tells a log in words, saves, loads and moves; its pages name no page that is missing. Then packages with one mistake, which
# must be found. The last line is 'N passed, M failed'. What cannot be run here is told by a line 'NOT RUN: ..', and counts as neither.
. "$(dirname "$0")/begin.sh"
unset PACKAGE_CHECKED PACKAGE_DIST
number=$(version)
documents=share/doc/qamhudeer-tools
sample=$root/second/sample.log
commands='arbiter-log explain wall saved stereo'

# A PATH with the usual programs, and no rt.
mkdir "$work/usual" || exit 2
for folder in /usr/bin /bin; do
    for program in sh awk mawk gawk sed grep cat head tail tr cut sort cmp cp mv rm mkdir mktemp mkfifo chmod stat readlink dirname basename \
        expr printf sync sleep env uname date wc touch ls test find kill tee timeout setsid dd od id true false; do
        [ ! -x "$folder/$program" ] || ln -sf "$folder/$program" "$work/usual/$program"
    done
done

# tool NAME WORDS..: it is run in another folder, with nothing of this tree in its environment.
tool() {
    command=$1
    shift
    (cd "$work/elsewhere" && env -i PATH="$work/usual" HOME="$work/elsewhere" TMPDIR="$work/elsewhere" $as "$place/bin/$command" "$@")
}

built() {
    PACKAGE_DIST=$work/$1 ./package tools && mv "$work/$1/qamhudeer-tools-$number-x86_64.tar.gz" "$work/$1.tar.gz"
}

# unpack FOLDER: the package there, in a folder that nobody may write to.
unpack() {
    mkdir "$1" && tar -xzf "$work/one.tar.gz" -C "$1" && [ "$(ls "$1")" = "qamhudeer-tools-$number" ] && chmod -R a-w "$1"
}

# ---- What each must do

plays() { tool arbiter-log <"$sample" >"$work/out" && cmp "$work/out" second/sample.out; }
tells() { tool explain <"$sample" >"$work/out" && cmp "$work/out" scripts/explained/sample.txt; }
draws() { tool wall --call 4 <"$sample" >"$work/out" && cmp "$work/out" tests/wall/sample-4.txt; }
makes_page() { tool wall --html <"$sample" >"$work/out" && ./wall --html <"$sample" | sed 's,\./explain,explain,' | cmp - "$work/out"; }
makes_list() { [ "$(tool stereo 1 1)" = 03050A0C ]; }
has_version() { [ "$(tool arbiter-log --version)" = "arbiter-log $number" ]; }

carries() {
    rm -f "$work/elsewhere/text" "$work/elsewhere/again"
    head -n 3 "$sample" | tool arbiter-log --save text >"$work/out" &&
        tail -n +4 "$sample" | tool arbiter-log --load text --save again >>"$work/out" && cmp "$work/out" second/sample.out &&
        ./arbiter-log --save "$work/whole" <"$sample" >/dev/null && cmp "$work/whole" "$work/elsewhere/again"
}

moves() {
    tool saved new <"$work/elsewhere/again" >"$work/new" && tool saved old <"$work/new" | cmp - "$work/elsewhere/again" &&
        tool saved show <"$work/new" >"$work/out" && grep -q 'channel 0' "$work/out"
}

# helps: each command explains itself, by its own name, and has a page for man that says the same.
helps() {
    for each in $commands; do
        tool $each --help >"$work/help" && grep -q -e "^ *$each" "$work/help" && ! grep -e "\./$each" "$work/help" || return
        sed -e 's/\\&//; s/\\-/-/g; s/\\e/\\/g' "$place/share/man/man1/$each.1" >"$work/plain" || return
        while IFS= read -r line; do
            grep -q -x -F -e "$line" "$work/plain" || { echo "not in the page: $line"; return 1; }
        done <"$work/help"
    done
}

# plain_pages: the pages for who runs the tools call the commands by name too, and the logs that they speak of stand beside them.
plain_pages() {
    (cd "$place/$documents" && ! grep -E '\./(arbiter-log|explain|wall|saved|stereo)|(second|examples)/[a-z]+\.' tools.md log.md wall.md saved.md) &&
        grep -q -e ' arbiter-log --save FILE' "$place/$documents/saved.md"
}

# draws_ferry: what the wall's page says is done as it says it, in the folder of the pages.
draws_ferry() {
    line=$(sed -n 's/^    wall --html \(.*\) > wall.html$/\1/p' "$place/$documents/wall.md")
    [ "$line" = '--names ferry.names < ferry.log' ] &&
        (cd "$place/$documents" && env -i PATH="$work/usual" "$place/bin/wall" --html --names ferry.names <ferry.log) >"$work/out" &&
        ./wall --html --names examples/ferry.names <examples/ferry.log | sed 's,\./explain,explain,' | cmp - "$work/out"
}

# man_reads: where there is a man, it reads the pages without a warning.
man_reads() {
    for each in $commands; do
        MANWIDTH=120 man --warnings -l "$place/share/man/man1/$each.1" >"$work/out" 2>"$work/err" </dev/null &&
            grep -q "$each - " "$work/out" && [ ! -s "$work/err" ] || return
    done
}

by_link() {
    rm -f "$work/elsewhere/bin/arbiter-log" "$work/elsewhere/playing"
    mkdir -p "$work/elsewhere/bin" && ln -s "$place/bin/arbiter-log" "$work/elsewhere/playing" &&
        ln -s ../playing "$work/elsewhere/bin/play" &&
        (cd "$work/elsewhere" && env -i PATH="$work/usual" bin/play <"$sample") | cmp - second/sample.out &&
        (cd "$work/elsewhere/bin" && env -i PATH="$work/elsewhere/bin:$work/usual" play <"$sample") | cmp - second/sample.out
    status=$?
    rm -f "$work/elsewhere/bin/play" "$work/elsewhere/playing"
    return $status
}

# CDPATH has a folder with a bin of its own, and cd tells where it went.
by_cdpath() {
    mkdir -p "$work/elsewhere/bin" "$work/elsewhere/libexec"
    (cd "$place" && env -i PATH="$work/usual" CDPATH="$work/elsewhere:/" sh bin/arbiter-log <"$sample") | cmp - second/sample.out &&
        (cd "$place/bin" && env -i PATH="$work/usual" CDPATH="$work/elsewhere:/" ./wall --call 4 <"$sample") | cmp - tests/wall/sample-4.txt
}

# as_nobody: by a user who owns nothing of it. It takes root to become one.
as_nobody() {
    as='setpriv --reuid=65534 --regid=65534 --clear-groups'
    ln -sf "$(command -v setpriv)" "$work/usual/setpriv" && plays && tells && draws
    status=$?
    as=
    return $status
}

# in_the_tree: the commands of the sources, called from elsewhere with CDPATH set.
in_the_tree() {
    mkdir -p "$work/elsewhere/tools"
    (cd "$root/.." && CDPATH="$work/elsewhere:/" "${root##*/}/arbiter-log" <"$sample") | cmp - second/sample.out
}

tidy() { [ -z "$(ls -A "$work/elsewhere" | grep -v -x -e bin -e libexec -e tools -e text -e again)" ]; }
sums() {
    for program in "$place"/libexec/qamhudeer/programs/*; do
        grep -q "$(sha256sum <"$program" | cut -d ' ' -f 1)" "$place/$documents/PROVED.md" || return
    done
    grep -q "| $(rt version) |" "$place/$documents/PROVED.md"
}
closes() { sh tests/closed "$place/$documents"; }

as=
mkdir "$work/elsewhere" && chmod 777 "$work/elsewhere" && chmod 755 "$work" || exit 2
check "the package is built" built one
[ -s "$work/one.tar.gz" ] || finish
check "and built again, to the same bytes" sh -c 'PACKAGE_DIST=$1/two ./package tools && cmp "$1/one.tar.gz" "$1"/two/*.tar.gz' sh "$work"
check "it unpacks to one folder" unpack "$work/a folder"
place="$work/a folder/qamhudeer-tools-$number"
if [ "$(uname -m)" != x86_64 ]; then
    leave "the tools of the package: they are for x86-64"
    finish
fi
check "it plays the sample" plays
check "it tells the sample" tells
check "it draws a picture" draws
check "it makes the page" makes_page
check "it saves and loads" carries
check "it moves and tells a text" moves
check "it makes a list for stereo" makes_list
check "it has the version" has_version
check "every command explains itself, and has a page for man" helps
check "the pages call them by name" plain_pages
check "the wall of the page on it is drawn as it says" draws_ferry
! command -v man >/dev/null || check "man reads the pages" man_reads
check "by a link to a link, and by the PATH" by_link
check "with CDPATH set" by_cdpath
check "with CDPATH set, in the sources" in_the_tree
if [ "$(id -u)" -eq 0 ] && command -v setpriv >/dev/null; then
    check "as another user" as_nobody
else
    leave "the tools as another user: that takes root, and setpriv"
fi
check "it leaves nothing behind" tidy
check "PROVED.md has the kit and the programs' sums" sums
check "every page that a page names is there" closes

# ---- Packages with a mistake

not() { ! "$@"; }

# wrong CHECK COMMAND..: a copy of the package is changed by the command, run at its top; then the check fails.
wrong() {
    tried=$1
    shift
    rm -rf "$work/wrong" && cp -R "$work/a folder/qamhudeer-tools-$number" "$work/wrong" && chmod -R u+w "$work/wrong" &&
        (cd "$work/wrong" && "$@") || die "no mistake can be made by: $*"
    place=$work/wrong
    check "found by '$tried': $*" not $tried
    place="$work/a folder/qamhudeer-tools-$number"
}

wrong plays rm libexec/qamhudeer/programs/arbiter_log
wrong plays rm libexec/qamhudeer/scripts/memory.sh
wrong plays chmod 644 libexec/qamhudeer/programs/arbiter_log
wrong tells rm libexec/qamhudeer/scripts/queues.awk
wrong draws rm libexec/qamhudeer/scripts/wall.awk
wrong makes_page rm libexec/qamhudeer/scripts/wall.html
wrong carries rm libexec/qamhudeer/programs/text_program
wrong moves rm libexec/qamhudeer/programs/saved_program
wrong makes_list rm libexec/qamhudeer/programs/stereo_program
wrong has_version rm libexec/qamhudeer/include/qamhudeer.h
wrong helps sed -i '/load FILE/d' share/man/man1/explain.1
wrong helps sed -i 's,  stereo LEFT,  ./stereo LEFT,' libexec/qamhudeer/stereo
wrong plain_pages cp "$root/docs/saved.md" $documents/saved.md
wrong plain_pages cp "$root/docs/log.md" $documents/log.md
wrong draws_ferry rm $documents/ferry.names
wrong draws_ferry rm $documents/wall.md
wrong by_link sed -i 's/readlink -f --/printf %s/' bin/arbiter-log
wrong by_cdpath sed -i 's/^self=.*/self=$(cd "$(dirname "$0")" \&\& pwd)\/${0##*\/}/' bin/arbiter-log
[ "$(id -u)" -ne 0 ] || ! command -v setpriv >/dev/null || wrong as_nobody chmod 700 libexec/qamhudeer/scripts/words.awk
wrong sums sh -c 'echo >>libexec/qamhudeer/programs/text_program'
wrong closes rm $documents/inspector.md
finish
