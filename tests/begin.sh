# What every test here begins with: the top as root and as the folder, the library's functions, a folder for its work, what it
# counts. POSIX sh; it is read by '.'.
#
#   die WORDS               the test cannot go on
#   check NAME COMMAND..    one test; what the command says is shown where it fails
#   leave WHAT              something cannot be run here; left is then 1
#   finish                  the last line, 'N passed, M failed', and the status
#   find_cxx                a C++ compiler for x86-64 in cxx, as linker_ready finds one for C
set -u
LC_ALL=C
export LC_ALL
root=$(CDPATH= cd "$(dirname "$0")/.." && pwd -P) || exit 2
. "$root/scripts/program.sh"
. "$root/scripts/library.sh"
work=$(mktemp -d) || exit 2
trap 'rm -rf "$work"' EXIT
trap 'exit 2' HUP INT TERM
cd "$root" || exit 2
passed=0
failed=0
left=0

die() {
    complain "$*"
    exit 2
}

check() {
    name=$1
    shift
    if "$@" >"$work/said" 2>&1; then
        passed=$((passed + 1))
    else
        failed=$((failed + 1))
        tail -n 20 "$work/said"
        echo "FAILED: $name"
    fi
}

leave() {
    left=1
    not_run "$*"
}

finish() {
    echo "$passed passed, $failed failed"
    [ $failed -eq 0 ] || exit 1
    [ $left -eq 0 ] || exit $skipped
    exit 0
}

find_cxx() {
    if [ "$(uname -m)" = x86_64 ]; then
        set -- ${CXX:-} g++ c++ clang++
    else
        set -- "${CXX_X86_64:-x86_64-linux-gnu-g++} -static"
    fi
    for cxx; do
        echo 'int main() { return 0; }' | $cxx -std=c++11 -x c++ -o "$work/try" - >/dev/null 2>&1 && return
    done
    cxx=
    return 1
}
