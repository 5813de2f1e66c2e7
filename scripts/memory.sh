# Where the prover works, for the scripts that run rt. POSIX sh; it is read by '.'.
#
#   in_memory   whether /dev/shm has room for it, and a program may run there. The prover writes many small files for each crate and
#               each edit, and in memory that costs less. A TMPDIR that is set already is left as it is
in_memory() {
    [ -z "${TMPDIR:-}" ] && [ "$(df -Pk /dev/shm 2>/dev/null | awk 'NR == 2 { print $4 }')" -gt 4000000 ] 2>/dev/null || return
    tried=$(mktemp /dev/shm/try.XXXXXX) || return
    printf '#!/bin/sh\n' >"$tried" && chmod +x "$tried" && "$tried"
    runs=$?
    rm -f "$tried"
    return $runs
}
