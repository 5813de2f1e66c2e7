# The library for C, for the scripts that link it. POSIX sh; it is read by '.' behind program.sh, with root set to the top.
#
#   library                  the archive
#   library_ready [again]    proves and builds it where it is missing or older than what it is made from; again: in any case
#   install_packages WORDS   installs packages of Debian, where that may be done
#   linker_ready             finds a C compiler for x86-64, which the library is for. On another machine that is Debian's
#                            gcc-x86-64-linux-gnu, installed where it is missing and may be, and the kit's emulator runs programs
#   link_c OUT FILES         compiles files in C99 and links them with the library
#   run_c WORDS              runs a program so made, with its arguments
#   altered FILE OLD NEW     writes the file with NEW in the place of OLD, which must stand there once
#   not_run WHAT             says loudly that something is not run. A script that says so ends with the status $skipped,
#                            unless something failed
#
# CC is the compiler on x86-64, CC_X86_64 the one on another machine.
library=$root/target/staticlib/libqamhudeer.a
linker=
skipped=77

not_run() {
    echo "NOT RUN: $*"
}

install_packages() {
    as=
    [ "$(id -u)" -eq 0 ] || as='sudo -n'
    command -v apt-get >/dev/null || return
    { $as apt-get update && $as env DEBIAN_FRONTEND=noninteractive apt-get install -y "$@"; } >/dev/null 2>&1 </dev/null
}

old_library() {
    [ -f "$library" ] || return 0
    newer "$library"
}

# The crate qamhudeer_c exports what the crate qamhudeer has. The archive that rt makes of it has the crate's name; here it has the library's.
take_library() {
    mkdir -p "$root/target/staticlib" && cp "$root/crates/qamhudeer_c/out/libqamhudeer_c.a" "$library.new" && mv -f "$library.new" "$library"
}

# over_ci: the archive, as rt lib would have it built, over the libraries that rt ci has left in the crates' out/: where the gate's rt ci has
# passed (target/proved has the time at which it began) and no source is newer. rt lib would prove each of them once more.
over_ci() (
    [ -f "$root/target/proved" ] && ! newer "$root/target/proved" || return
    kit=$(rt doc) && kit=${kit%/*} && cd "$root/crates/qamhudeer_c" && mkdir -p out || return
    set -- "$kit/bin/rattle" build --crate-name qamhudeer_c src/lib.rt --extern "std=$kit/rlibs/std.rlib" -L "dependency=$kit/rlibs"
    for crate in $(sed -n 's/^qamhudeer_c staticlib://p' "$root/crates.txt"); do
        set -- "$@" --extern "$crate=$root/crates/$crate/out/rlib/$crate.rlib"
    done
    for folder in "$root"/crates/*/out/rlib; do
        set -- "$@" -L "dependency=$folder"
    done
    set -- "$@" --antt-project "$kit/rattle/logic/antt-project.json" --logic-built "$kit/logic_built" --jobs 2 --links qamhudeer_c=
    "$@" --crate-type staticlib --toolchain "$kit/toolchain" --backend llvm -o out/libqamhudeer_c.a
)

# The archive's time becomes that of the build's start, so that what is edited while rt runs counts as newer. Whoever has waited may
# find it built.
build_library() {
    [ "$1" = again ] || old_library || return 0
    complain "the library is proved and built, which may take minutes:"
    began=$(mktemp "$root/target/began.XXXXXX") || return
    said=$root/target/said-qamhudeer.log
    { over_ci >"$said" 2>&1 || watched "$said" lib qamhudeer_c; } && take_library
    built=$?
    if [ $built -eq 0 ]; then
        touch -r "$began" "$library"
    else
        complain "the library is not proved; target/said-qamhudeer.log has all that was said"
    fi
    rm -f "$began"
    return $built
}

library_ready() {
    [ "${1:-}" = again ] || old_library || return 0
    has_kit || return
    alone "the library" build_library "${1:-}"
}

# works COMPILER WORDS..: it makes a program.
works() {
    command -v "$1" >/dev/null || return
    program_made=$(mktemp) || return
    echo 'int main(void) { return 0; }' | "$@" -x c -o "$program_made" - >/dev/null 2>&1
    status=$?
    rm -f "$program_made"
    return $status
}

linker_ready() {
    if [ "$(uname -m)" = x86_64 ]; then
        linker=${CC:-cc}
        works $linker
        return
    fi
    linker="${CC_X86_64:-x86_64-linux-gnu-gcc} -static"
    works $linker || { install_packages gcc-x86-64-linux-gnu libc6-dev-amd64-cross && works $linker; } && find_emulator
}

link_c() {
    $linker -std=c99 -O2 -Wall -Wextra -pedantic -Werror -I"$root/include" -o "$@" "$library"
}

altered() {
    OLD=$2 NEW=$3 awk '
        at = index($0, ENVIRON["OLD"]) {
            found++
            $0 = substr($0, 1, at - 1) ENVIRON["NEW"] substr($0, at + length(ENVIRON["OLD"]))
        }
        { print }
        END { exit found != 1 }' "$1"
}

run_c() {
    $how ${emulator:+"$emulator"} "$@"
}
