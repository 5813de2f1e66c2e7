#!/bin/sh
# What a customer takes home: the package is built twice to the same bytes, unpacked, and installed under a prefix; a program in
# another folder is built against each by pkg-config alone, in C and in C++, and run; a desk in Python runs over the shared library;
# every page that a page names is there; the version is one; every command at the top explains itself and refuses a wrong option.
# tests/tools.sh has the package of the tools. The last line is 'N passed, M failed'. What cannot be run here is told by a line
# 'NOT RUN: ..', and counts as neither. scripts/library.sh says which compilers are used.
. "$(dirname "$0")/begin.sh"
. "$root/scripts/commit.sh"

unset PACKAGE_CHECKED PACKAGE_DIST
number=$(version)
documents=share/doc/qamhudeer

# ---- The commands at the top

# explains COMMAND: --help tells something, and no more than that.
explains() {
    "$1" --help >"$work/out" 2>"$work/error" </dev/null && [ -s "$work/out" ] && [ ! -s "$work/error" ] && grep -q -e "$1" "$work/out"
}

# refuses COMMAND WORDS..: a message, status 2, and nothing else is done.
refuses() {
    "$@" >"$work/out" 2>"$work/error" </dev/null
    [ $? -eq 2 ] && [ ! -s "$work/out" ] && [ -s "$work/error" ]
}

# names_it COMMAND: the message names the option.
names_it() {
    refuses "$1" --no-such-option && grep -q -e "^${1##*/}: " "$work/error" && grep -q -e --no-such-option "$work/error"
}

# Every file at the top that can be run is a command.
for command in ./* bench/run; do
    if [ -f "$command" ] && [ -x "$command" ]; then
        check "$command --help" explains "$command"
        check "$command refuses --no-such-option" names_it "$command"
    fi
done
check "./package refuses a word" refuses ./package unpack
check "./package refuses an install to nowhere" refuses ./package install
check "./package refuses an option for a prefix" refuses ./package install --prefix
check "./package refuses two prefixes" refuses ./package install "$work/one" "$work/two"
check "./package refuses a word behind tools" refuses ./package tools "$work/one"
check "./trials refuses an option behind its words" refuses ./trials 1 --no-such-option
check "./trials gate refuses an option" refuses ./trials gate --no-such-option
check "bench/run refuses an option behind its words" refuses bench/run 1000 --no-such-option
check "bench/run refuses an --against of no program" refuses bench/run --against
check "bench/run refuses an --against of no library" refuses bench/run --against second/arbiter2 "$work/none.a"

# ---- The package

# built NAME: the package, kept by this name. What stands in dist is left alone.
built() {
    PACKAGE_DIST=$work/$1 ./package && mv "$work/$1/qamhudeer-$number.tar.gz" "$work/$1.tar.gz"
}

# plain_entries: names in order, one owner, two modes, the commit's time; nothing of the day or of this machine.
plain_entries() {
    TZ=UTC tar --numeric-owner --full-time -tvzf "$work/one.tar.gz" >"$work/entries" || return
    time=$(TZ=UTC date -d "@$(commit_time)" '+%Y-%m-%d %H:%M:%S')
    [ -s "$work/entries" ] && ! grep -v -E "^(-rw-r--r--|drwxr-xr-x) 0/0 +[0-9]+ $time qamhudeer-$number/" "$work/entries" &&
        sed "s,.* qamhudeer-,qamhudeer-," "$work/entries" >"$work/names" && sort -c "$work/names"
}

unpacked() {
    mkdir "$work/unpacked" && tar -xzf "$work/one.tar.gz" -C "$work/unpacked" && [ "$(ls "$work/unpacked")" = "qamhudeer-$number" ]
}

# has_all: every file that a customer is promised, each as it stands here.
has_all() {
    cmp target/staticlib/libqamhudeer.a "$tree/lib/libqamhudeer.a" && cmp include/qamhudeer.h "$tree/include/qamhudeer.h" &&
        cmp include/qamhudeer_desk.h "$tree/include/qamhudeer_desk.h" &&
        [ -s "$tree/lib/pkgconfig/qamhudeer.pc" ] && cmp CHANGELOG.md "$tree/$documents/CHANGELOG.md" || return
    for page in desk saved inspector bench PROMISES; do
        cmp "docs/$page.md" "$tree/$documents/$page.md" || return
    done
    for example in examples/*.c examples/*.py examples/*.out; do
        cmp "$example" "$tree/$documents/$example" || return
    done
}

# ---- The shared library

shared=lib/libqamhudeer.so.${number%%.*}

# exports SHARED: every function of the archive, and no other; its name is its file's.
exports() {
    nm -g --defined-only target/staticlib/libqamhudeer.a | awk '$2 == "T" { print $3 }' | sort >"$work/in-archive" &&
        nm -D --defined-only "$1" | awk '$2 == "T" { print $3 }' | sort >"$work/in-shared" && [ -s "$work/in-archive" ] &&
        diff "$work/in-archive" "$work/in-shared" && objdump -p "$1" | grep -q "SONAME *${shared##*/}\$"
}

# in_python SHARED: the desk in Python writes what the one in C does.
in_python() {
    python3 "$tree/$documents/examples/desk.py" "$1" >"$work/out" && cmp "$work/out" examples/desk.out
}

not() {
    ! "$@"
}

# says WORDS: the page of the installed package has them.
says() {
    grep -F -e "$1" "$prefix/$documents/PROVED.md"
}

# page_of CHECKED: the page, where the gate has left this file.
page_of() {
    rm -rf "$work/page" && PACKAGE_CHECKED=$1 ./package install "$work/page" >"$work/out" && prefix=$work/page
}

quotes() {
    page_of "$1" && says "$2" && ! says 'not run on this tree'
}

owns_up() {
    page_of "$1" && says '**The checks were not run on this tree.**' && ! says "$2"
}

# left_by COMMIT KIT LINE: a file as the gate leaves it.
left_by() {
    printf '%s\n' "$@" >"$work/checked"
}

# ---- A program of a customer's

# PKG_CONFIG_LIBDIR: no package of this machine's is meant.
flags() {
    PKG_CONFIG_LIBDIR=$prefix/lib/pkgconfig pkg-config "$@" qamhudeer
}

# gives NAME: the program in the other folder ends well, and writes just this.
gives() {
    run_c "$away/$1" </dev/null >"$work/out" && cmp "$work/out" tests/customer.out
}

made_c() {
    words=$(flags --cflags --libs) && (cd "$away" && $linker -std=c99 -O2 -Wall -Wextra -pedantic -Werror -o in-c program.c $words) && gives in-c
}

made_cxx() {
    words=$(flags --cflags --libs) &&
        (cd "$away" && $cxx -std=c++11 -O2 -Wall -Wextra -pedantic -Werror -o in-c++ program.cc $words) && gives in-c++
}

cxx_ready() {
    find_cxx && return
    if [ "$(uname -m)" = x86_64 ]; then
        install_packages g++
    else
        install_packages g++-x86-64-linux-gnu
    fi
    find_cxx
}

# program_built WHERE: against $prefix, with no file of this tree in reach but the program.
program_built() {
    away=$work/away
    rm -rf "$away" && mkdir "$away" && cp tests/customer.c "$away/program.c" && cp tests/customer.c "$away/program.cc"
    check "a program in C, against the $1 package" made_c
    [ -z "$cxx" ] || check "a program in C++, against the $1 package" made_cxx
}

check "the package is built" built one
[ -s "$work/one.tar.gz" ] || finish
rm -rf target/staticlib
check "and built again, its library too" built two
check "both have the same bytes" cmp "$work/one.tar.gz" "$work/two.tar.gz"
check "names in order, one owner, the commit's time" plain_entries
check "it unpacks to one folder" unpacked
tree=$work/unpacked/qamhudeer-$number
check "it has all that it should" has_all
check "every page that a page names is there" sh tests/closed "$tree/$documents"
check "the shared library has the archive's functions" exports "$tree/$shared"
command -v python3 >/dev/null || install_packages python3
if [ "$(uname -m)" = x86_64 ] && command -v python3 >/dev/null; then
    check "a desk in Python" in_python "$tree/$shared"
    sed 's/, error {signed(r\[2\])}/, error {r[2]}/' examples/desk.py >"$work/desk.py"
    wrong_python() { python3 "$work/desk.py" "$tree/$shared" | cmp - examples/desk.out; }
    check "a desk in Python that reads errors wrongly is found" not wrong_python
else
    leave "a desk in Python: the machine is not x86-64, or no python3 is here, and none could be installed"
fi

# Wrong packages, which must be found: a page is missing, a page names another, a function is missing.
for page in saved inspector two-runs; do
    rm -rf "$work/short" && cp -R "$tree/$documents" "$work/short" && rm "$work/short/$page.md"
    check "a package without $page.md is found" not sh tests/closed "$work/short"
done
rm -rf "$work/short" && cp -R "$tree/$documents" "$work/short" && echo 'See docs/elsewhere.md.' >>"$work/short/bench.md"
check "a page that names another is found" not sh tests/closed "$work/short"
echo 'unsigned char qamhudeer_fresh(void) { return 0; }' >"$work/few.c"
if linker_ready && ${linker% -static} -shared -Wl,-soname,"${shared##*/}" -o "$work/few.so" "$work/few.c"; then
    check "a shared library without the calls is found" not exports "$work/few.so"
fi
prefix=$work/prefix
check "it is installed" ./package install "$prefix"
check "what is installed is what is packed" diff -r "$tree" "$prefix"

here=$(commit)
kit=$(rt version)
check "the page says which commit" says "| $here |"
check "the page says which kit" says "| $kit |"
check "the page has the library's sum" says "$(sha256sum <target/staticlib/libqamhudeer.a | cut -d ' ' -f 1)"
check "and the shared library's" says "$(sha256sum <"$tree/$shared" | cut -d ' ' -f 1)"
left_by "$here" "$kit" '12345 passed, 0 failed'
case $here in
*' '*) check "a tree with changes was not checked, whatever was left" owns_up "$work/checked" '12345 passed' ;;
*) check "the page quotes the checks of this commit" quotes "$work/checked" '12345 passed, 0 failed' ;;
esac
left_by 0123456789012345678901234567890123456789 "$kit" '12345 passed, 0 failed'
check "and none of another commit" owns_up "$work/checked" '12345 passed'
left_by "$here" "another $kit" '12345 passed, 0 failed'
check "and none by another kit" owns_up "$work/checked" '12345 passed'
check "and owns up where there were none" owns_up "$work/nothing" 'passed'

# ---- The version

# one_version NAME COMMAND..: what the command writes ends in the version.
one_version() {
    name=$1
    shift
    check "the version of $name" test "$("$@" 2>/dev/null | sed -n '1s/.* //p')" = "$number"
}

first_of_changelog() {
    sed -n 's/^## \([0-9.]*\) .*/version \1/p' CHANGELOG.md
}

prefix=$work/prefix
check "the version has three numbers" sh -c "echo '$number' | grep -q -E '^[0-9]+\.[0-9]+\.[0-9]+$'"
one_version "./arbiter-log" ./arbiter-log --version
one_version "./explain" ./explain --version
one_version "./wall" ./wall --version
check "the second program is built" make -C second -s ${CC:+CC="$CC"} arbiter2
one_version "the second program" second/arbiter2 --version
one_version "CHANGELOG.md" first_of_changelog
one_version "the packed header" sed -n 's/^#define QAMHUDEER_VERSION "\(.*\)"/version \1/p' "$tree/include/qamhudeer.h"
if command -v pkg-config >/dev/null || { install_packages pkg-config && command -v pkg-config >/dev/null; }; then
    pkg_version() { echo "version $(flags --modversion)"; }
    one_version "pkg-config" pkg_version
    if linker_ready; then
        cxx_ready || leave "a program in C++ with the package: no C++ compiler is here, and none could be installed"
        program_built installed
        prefix=$work/moved
        mv "$tree" "$prefix"
        program_built "unpacked and moved"
    else
        leave "a program with the package: it is for x86-64, and no $linker or no emulator is here, and none could be installed"
    fi
else
    leave "a program with the package: no pkg-config is here, and none could be installed"
fi

finish
