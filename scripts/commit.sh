# Which commit this tree is, for the gate and for ./package. POSIX sh; it is read by '.', with root set to the top.
#
#   commit        the commit's hash, with ' with changes' behind it where a file differs from it or is not in it; or 'no commit'
#   commit_time   its time, in seconds since 1970; 0 where there is none
#   checked       the file in which the gate leaves the commit, the kit, its own last line, and what it has not run, a line each
checked=$root/target/checked

commit() {
    if ! hash=$(git -C "$root" rev-parse --verify HEAD 2>/dev/null) || ! changes=$(git -C "$root" status --porcelain 2>/dev/null); then
        echo 'no commit'
    elif [ -n "$changes" ]; then
        echo "$hash with changes"
    else
        echo "$hash"
    fi
}

commit_time() {
    git -C "$root" log -1 --format=%ct 2>/dev/null || echo 0
}
