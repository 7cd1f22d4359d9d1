# scratch.sh: a place in memory for what rt writes while it proves, hundreds of megabytes for a crate that it removes again. build.sh takes
# it in.
# shellcheck shell=sh disable=SC2015

# Sets `scratch` to a folder in memory, or to nothing: where somebody has set TMPDIR, where memory is short, or where no program can be started in
# memory (rt runs a program that it built, as another user, in a folder there). Who takes it removes it.
make_scratch() {
    scratch=
    [ -z "${TMPDIR:-}" ] || return 0
    spare=$(sed -n 's/^MemAvailable: *\([0-9]*\) kB$/\1/p' /proc/meminfo 2>/dev/null)
    free=$(df -Pk /dev/shm 2>/dev/null | awk 'NR == 2 { print $4 }')
    [ "${spare:-0}" -ge 16000000 ] && [ "${free:-0}" -ge 8000000 ] || return 0
    scratch=$(mktemp -d /dev/shm/build-XXXXXX 2>/dev/null) || { scratch=; return 0; }
    if ! { chmod 711 "$scratch" && echo '#!/bin/sh' >"$scratch/trial" && chmod 755 "$scratch/trial" && "$scratch/trial"; } 2>/dev/null; then
        rm -rf "$scratch"
        scratch=
    fi
}
