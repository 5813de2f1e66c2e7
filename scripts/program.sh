# The proved log program, for the scripts at the top of the tree. POSIX sh; it is read by '.', with root set to the top.
#
#   proved_program NAME  the program of this crate, proved and built where it is missing or older than what it is made from
#   ready       the same of the log program. Where nothing has changed both are quick
#   watched FILE WORD CRATE  runs rt with this word in the crate's folder; all that it says goes to FILE, and how far it is to standard
#               error
#   newer FILE  something of what is proved is newer than the file
#   take_program NAME  puts the program that rt has built in its place, target/bin/NAME
#   alone WHAT COMMAND  runs a command that runs rt; another script that does so in this tree waits, and says so
#   log_options WORDS  the log program's options, checked; in log_words as the program takes them, with log_load, log_save, log_form
#   carry       plays the log with what log_options has read, from a saved text or to one where it says so, and ends with the status: 1
#               where reading or writing failed
#   help        what a script's own head says of its use
#   version     the version, as the header has it
#   play WORDS  runs the program with these arguments, through the kit's emulator where the machine is not x86-64
#   how         words before the program's: exec, or timeout 60
#
# ARBITER_LOG=PROGRAM takes another program, one that this machine runs as it is. It is for trials.
#
# In a package the proved programs stand in $root/programs, and nothing is built.
how=
emulator=
. "$root/scripts/memory.sh"

complain() {
    printf '%s: %s\n' "${0##*/}" "$*" >&2
}

help() {
    sed -n '2,/^[^#]/s/^#\( \|$\)//p' "$0"
}

version() {
    sed -n 's/^#define QAMHUDEER_VERSION "\([0-9.]*\)"$/\1/p' "$root/include/qamhudeer.h"
}

# The program's first word is the number of channels; in a second one c shows them, d the wall display, l goes on from the text on
# descriptor 3, s saves to descriptor 4, and t says that both are of the second form. log_form is the form, and log_texts is the word for
# the program that tests texts.
log_options() {
    log_words=4 log_channels= log_display= log_load= log_save= log_form= log_two=
    while [ $# -gt 0 ]; do
        case $1 in
        --channels)
            case ${2:-} in
            4 | 8) log_words=$2 ;;
            *) complain "--channels takes 4 or 8; --help tells more"; return 2 ;;
            esac
            shift
            ;;
        --form)
            case ${2:-} in
            1 | 2) log_form=$2 ;;
            *) complain "--form takes 1 or 2; --help tells more"; return 2 ;;
            esac
            shift
            ;;
        --show) log_channels=c ;;
        --display) log_display=d ;;
        --load | --save)
            [ -n "${2:-}" ] || { complain "$1 takes a file; --help tells more"; return 2; }
            if [ "$1" = --load ]; then log_load=$2; else log_save=$2; fi
            shift
            ;;
        --help) help; exit 0 ;;
        --version) echo "${0##*/} $(version)"; exit 0 ;;
        *) complain "there is no option '$1'; --help tells more"; return 2 ;;
        esac
        shift
    done
    case $log_words$log_form in
    81) complain "the first form of saved texts is the four-channel board's alone: eight channels have the second"; return 2 ;;
    4 | 41) log_form=1 log_texts=1 ;;
    *) log_form=2 log_texts=$log_words log_two=t ;;
    esac
    log_words="$log_words $log_channels$log_display${log_load:+l}${log_save:+s}$log_two"
    tell_terminal "the log"
}

# tell_terminal WHAT: it is about to be typed, which is seldom meant.
tell_terminal() {
    [ ! -t 0 ] || complain "$1 is read from the terminal, up to Ctrl-D; '${0##*/} .. <FILE' reads a file"
}

has_kit() {
    command -v rt >/dev/null && return
    complain "the Rattle kit is missing: there is no rt on the PATH. README.md, \"Set-up\", says which kit"
    return 1
}

# In crates.txt a crate's name ends at its colon, or at a space before the word staticlib.
listed() {
    grep -q "^$1[ :]" "$root/crates.txt"
}

# A folder counts too: its time is that of the last file added to it or taken away. Not a crate's own, in which rt puts its out/.
newer() {
    [ -n "$(cd "$root" && find crates.txt crates \( -name must-fail -o -name out \) -prune -o \
        \( ! -path 'crates/*' -o -path 'crates/*/*' -o -type f \) -newer "$1" -print | head -n 1)" ]
}

stale() {
    [ -x "$program" ] || return 0
    newer "$program"
}

# How many crates of this repository rt proves for one: itself and those that it stands on. A line names what its crate uses itself.
crates_of() {
    awk -v name="$1" '
        function take(crate,    part, n, i) {
            if (!(crate in line) || crate in taken)
                return
            taken[crate] = ++count
            n = split(line[crate], part, /[ :]+/)
            for (i = 2; i <= n; i++)
                take(part[i])
        }
        NF { crate = $1; sub(/:$/, "", crate); line[crate] = $0 }
        END { take(name); print count + 0 }' "$root/crates.txt"
}

# rt_says WORD: what rt says under it. Under 'run' its lines go to standard error, and what the program writes to standard output.
rt_says() {
    if [ "$1" = run ]; then rt run 2>&1 >/dev/null; else rt "$1" 2>&1; fi
}

# rt's status is handed on through a file: a pipe has only its last command's.
watched() {
    said_to=$1
    shift
    on_terminal=0
    [ ! -t 2 ] || on_terminal=1
    {
        (! in_memory || { TMPDIR=/dev/shm && export TMPDIR; }; cd "$root/crates/$2" && rt_says "$1") </dev/null
        echo $? >"$said_to.status"
    } | tee "$said_to" | awk -v terminal=$on_terminal -v crates="$(crates_of "$2")" -f "$root/scripts/progress.awk" >&2
    read -r rt_status <"$said_to.status"
    rm -f "$said_to.status"
    return "$rt_status"
}

# Two rt in one tree fail each other. The lock ends with the last process that has it, however it ends.
alone() {
    what=$1
    shift
    mkdir -p "$root/target" || return
    (
        ! command -v flock >/dev/null || flock -n 9 || {
            complain "$what: another command proves here at this moment; this one waits for it"
            flock 9
        }
        "$@"
    ) 9>"$root/target/alone"
}

# take_program NAME: the program that rt has left in the crate's out/, in its place here.
take_program() {
    mkdir -p "$root/target/bin" && cp "$root/crates/$1/out/$1" "$root/target/bin/$1.new" && mv -f "$root/target/bin/$1.new" "$root/target/bin/$1"
}

# The program's time becomes that of the build's start. rt leaves an unchanged program as it is, whose own time may be
# older than its sources'; and what is edited while rt runs must count as newer. Whoever has waited may find it built.
build() {
    stale || return 0
    if [ -x "$program" ]; then
        complain "the sources are newer than the program: it is proved and built again, which may take minutes:"
    else
        complain "the first use proves and builds the program, which takes minutes:"
    fi
    began=$(mktemp "$root/target/began.XXXXXX") && said=$root/target/said-$1.log || return
    watched "$said" run "$1" && take_program "$1"
    built=$?
    if [ $built -eq 0 ]; then
        touch -r "$began" "$program"
    else
        complain "the program is not proved, so it is not run; target/said-$1.log has all that was said"
    fi
    rm -f "$began"
    return $built
}

# Programs are for x86-64. Elsewhere the kit has an emulator beside its compiler, and rt runs programs so: emulator,
# loader, the C library beside it. 'rt doc' names a file of the kit, hence its folder.
find_emulator() {
    [ "$(uname -m)" != x86_64 ] || return 0
    has_kit || return
    kit=$(rt doc) || return
    kit=${kit%/*}/on/$(uname -m)/toolchain
    emulator=$kit/bin/qemu-x86_64
    loader=$kit/lib/ld-linux-x86-64.so.2
    if [ ! -x "$emulator" ] || [ ! -x "$loader" ]; then
        complain "the program is for x86-64, and the kit has no emulator for this machine, $(uname -m)"
        return 1
    fi
    # Words for the emulator in the caller's environment would change the run.
    for word in $(env | sed -n 's/^\(QEMU_[A-Za-z0-9_]*\)=.*/\1/p'); do
        unset "$word"
    done
}

proved_program() {
    program=$root/programs/$1
    if [ -d "$root/programs" ]; then
        [ "$(uname -m)" = x86_64 ] && [ -x "$program" ] && return
        complain "the program $1 is for x86-64, and this machine is $(uname -m), or the package is not whole"
        return 1
    fi
    program=$root/target/bin/$1
    if ! listed "$1"; then
        complain "crates.txt does not list the program $1"
        return 1
    fi
    if stale; then
        if ! has_kit; then
            [ ! -x "$program" ] || complain "the sources are newer than the program; ARBITER_LOG=$program runs it as it is"
            return 1
        fi
        alone "$1" build "$1" || return
    fi
    find_emulator
}

ready() {
    if [ -n "${ARBITER_LOG:-}" ]; then
        case $ARBITER_LOG in
        /*) program=$ARBITER_LOG ;;
        *) program=$PWD/$ARBITER_LOG ;;
        esac
        [ -f "$program" ] && [ -x "$program" ] && return
        complain "ARBITER_LOG names no program: $ARBITER_LOG"
        return 1
    fi
    proved_program arbiter_log
}

play() {
    if [ -n "$emulator" ]; then
        $how "$emulator" "$loader" --library-path "${loader%/*}" "$program" "$@"
    else
        $how "$program" "$@"
    fi
}

# ---- Saved texts

# judged TEXT WORD: what the proved program says of a text: 'accepted', 'line N' or 'no sound state'. The word is 1 for the first form, or
# the number of channels for the second.
judged() {
    (proved_program text_program && how= && play "$2" <"$1")
}

# kind TEXT: the word of the form that accepts it; none where no form does.
kind() {
    for its_word in 1 4 8; do
        [ "$(judged "$1" $its_word)" != accepted ] || { echo $its_word; return; }
    done
}

# spelling TEXT: how a text that no form accepts would be one that is accepted, where that is known.
spelling() {
    [ "$(tr -d '\ra-f' <"$1" | wc -c)" -ne "$(wc -c <"$1")" ] || return 0
    tr -d '\r' <"$1" >"$1.no-cr"
    tr a-f A-F <"$1" >"$1.upper"
    tr a-f A-F <"$1.no-cr" >"$1.both"
    if [ -n "$(kind "$1.no-cr")" ]; then
        complain "it has a CR before the LF: tr -d '\r' takes them away"
    elif [ -n "$(kind "$1.upper")" ]; then
        complain "it has digits in lower case: tr a-f A-F makes them upper case"
    elif [ -n "$(kind "$1.both")" ]; then
        complain "it has a CR before the LF, and digits in lower case: tr -d '\r' | tr a-f A-F mends both"
    fi
}

# cure TEXT WORD: how a text that was refused as one of this word would be accepted, where that is known.
cure() {
    case $(kind "$1")$2 in
    14) complain "it is of the first form, of four channels: --form 1 takes it; './saved new' moves it to the second form" ;;
    18) complain "it is of the first form, of four channels: it is taken without --channels 8" ;;
    41) complain "it is of the second form, of four channels: --form 2 takes it; './saved old' moves it to the first form" ;;
    48) complain "it is of four channels: it is taken with --form 2, without --channels 8" ;;
    8?) complain "it is of eight channels: --channels 8 takes it" ;;
    *) spelling "$1" ;;
    esac
}

# The text is copied, so that the one that is tested is the one that is loaded. No saved text is nearly as long as what is read of it.
load_text() {
    if [ -d "$log_load" ]; then
        complain "$log_load is a folder"
        return 2
    fi
    if [ ! -r "$log_load" ] || ! head -c 65536 <"$log_load" >"$carried/text"; then
        complain "$log_load cannot be read"
        return 2
    fi
    verdict=$(judged "$carried/text" $log_texts) || return 2
    case $verdict in
    accepted) return ;;
    'line '*) complain "$log_load: $verdict is no frame of its kind" ;;
    'no sound state') complain "$log_load: every line is a frame, and the whole is no sound state" ;;
    *) complain "the program that tests texts said '$verdict'" ;;
    esac
    cure "$carried/text" $log_texts
    return 2
}

# The new file is made before the log is read, beside the one that it is to replace, by a name that is nobody's. Where FILE is a link,
# what it points to is replaced; the mode stays, and the owner, where that may be done.
begin_save() {
    target=$(readlink -f -- "$log_save") && [ -n "$target" ] || target=$log_save
    if [ -e "$target" ] && [ ! -f "$target" ]; then
        complain "$log_save is no file"
        return 2
    fi
    part=$(mktemp "$target.part.XXXXXX" 2>/dev/null) || part=
    if [ -z "$part" ]; then
        complain "no file can be made beside $log_save"
        return 2
    fi
    if mode=$(stat -c %a -- "$target" 2>/dev/null); then
        chown "$(stat -c %u:%g -- "$target")" "$part" 2>/dev/null
    else
        mode=$(printf '%o' $((0666 & ~0$(umask))))
    fi
    chmod "$mode" "$part"
}

# The program saves only where all was read and written. A text that is not whole is not accepted.
end_save() {
    if [ "$(judged "$part" $log_texts)" = accepted ] && { sync "$part" 2>/dev/null || sync; } && mv -f -- "$part" "$target"; then
        part=
        return
    fi
    complain "$log_save is not saved, and is as it was"
    return 1
}

# ---- The log, played

# tell_log: a log in a file of whose lines most are malformed for their CR or their lower case. It is read anew, so that nobody's place in
# it moves.
tell_log() {
    [ -f /dev/stdin ] && [ -z "$log_display" ] || return 0
    head -c 65536 /dev/stdin 2>/dev/null | tr -c '0-9A-Fa-f\r\n' '?' | LC_ALL=C awk '
        { cr = sub(/\r$/, "") }
        !/^[0-9A-Fa-f]+$/ { next }
        cr { crs++ }
        /[a-f]/ { small++ }
        cr || /[a-f]/ { wrong++ }
        END { exit 2 * wrong <= NR ? 1 : crs && small ? 4 : crs ? 2 : 3 }'
    case $? in
    2) complain "lines of the log have a CR before the LF, and are malformed for it: tr -d '\r' takes them away" ;;
    3) complain "lines of the log have digits in lower case, and are malformed for it: tr a-f A-F makes them upper case" ;;
    4) complain "lines of the log have a CR before the LF or digits in lower case: tr -d '\r' | tr a-f A-F mends both" ;;
    esac
}

# On the way out nothing is left but what was saved.
leave_carry() {
    [ -z "$player" ] || kill "$player" 2>/dev/null
    rm -rf "$carried"
    [ -z "$part" ] || rm -f -- "$part"
}

# The program tells a failure on standard error, and its status says nothing of it: so what it says is looked at. It runs in the
# background, so that a signal to this script is heard at once; there its standard input must be handed over.
run_program() {
    exec 6<&0
    (how=exec && play $log_words) <&6 6<&- 3<"$carried/text" 4>"${part:-/dev/null}" 2>"$carried/said" &
    player=$!
    wait "$player"
    run=$?
    player=
    if [ -s "$carried/said" ]; then
        sed -e "s/^write: /the output could not be written: /; s/^read: /the log could not be read: /; s/^/${0##*/}: /" "$carried/said" >&2
        run=1
    fi
    return $run
}

carry() {
    part= player=
    if [ ! -e /dev/fd/0 ] && [ -e /dev/fd/2 ]; then
        complain "the log could not be read: standard input is closed"
        exit 1
    fi
    carried=$(mktemp -d) || exit 2
    trap leave_carry EXIT
    trap 'exit 2' HUP INT TERM
    [ -z "$log_load" ] || load_text || exit 2
    : >>"$carried/text"
    [ -z "$log_save" ] || judged "$carried/text" $log_texts >/dev/null || exit 2
    ready || exit 2
    [ -z "$log_save" ] || begin_save || exit 2
    run_program || exit
    [ -z "$log_save" ] || end_save || exit
    tell_log
    exit 0
}
