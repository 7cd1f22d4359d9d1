# build.sh: what ./run, hosts/run, bench/bench and package/make share: whether something is proved as its source stands now, and if not, its
# building. It is taken in after start.sh, with `root` set to the checkout's folder.
# shellcheck shell=sh disable=SC2015,SC2154

. "$root/scripts/scratch.sh"

# Finds the toolchain: `tools` is its folder, `lib` has its C library, and `kit`, where both stand, the line that names it.
find_tools() {
    command -v rt >/dev/null || fail "rt, the Rattle toolchain, is not found by PATH, which is $PATH"
    machine=$(uname -m)
    [ "$machine" = x86_64 ] || fail "programs are for x86-64, and this machine is $machine"
    # (rt doc says where it is, too, and takes longer than all the rest here)
    kit=$(dirname "$(dirname "$(readlink -f -- "$(command -v rt)")")")
    [ -f "$kit/KIT-ID" ] || kit=$(dirname "$(rt doc)")
    [ -f "$kit/KIT-ID" ] || fail "rt doc does not say where the toolchain is"
    tools=$kit/toolchain
    # shellcheck disable=SC2034
    lib=$tools/lib
}

# Leaves nothing behind at the end, also when a signal comes: no temporary folder (`scratch` in memory; a script may have one of
# its own, `stage`, and a file, `unfinished`), nobody who waits for the lock, and no build going on. (What builds is the head of a session of its
# own, and all that it started is ended with it; a moment after its start it is not yet.)
scratch='' stage='' unfinished='' waiter='' builder=''
clean() {
    [ -z "$waiter" ] || kill -s TERM "$waiter" 2>/dev/null
    [ -z "$builder" ] || kill -s TERM -- "-$builder" 2>/dev/null || kill -s TERM "$builder" 2>/dev/null
    [ -z "$scratch$stage$unfinished" ] ||
        rm -rf ${scratch:+"$scratch"} ${stage:+"$stage"} ${unfinished:+"$unfinished"}
    scratch='' stage='' unfinished='' waiter='' builder=''
}
stop() { # SIGNAL
    clean
    trap - "$1" EXIT
    kill -s "$1" "$$"
}
trap clean EXIT
for signal in HUP INT QUIT TERM; do
    # shellcheck disable=SC2064
    trap "stop $signal" "$signal"
done

# Reads what a crate is now. Sets `parts`, the crates that it stands on, lowest first, and itself, and `stamp`, a sum of all that is proved and
# built of them: their sources, definitions and proofs, their lines of crates.txt, and the line that names the toolchain.
read_stamp() { # CRATE
    lines=$(CRATE=$1 awk '
        { sub(/#.*/, "") }
        split($0, side, ":") == 2 { split(side[1], head, " "); line[head[1]] = $0; used[head[1]] = side[2] }
        function visit(crate, n, i, names) {
            if (seen[crate]++ || !(crate in line)) return
            n = split(used[crate], names, " ")
            for (i = 1; i <= n; i++) visit(names[i])
            print line[crate]
        }
        END { visit(ENVIRON["CRATE"]) }' "$root/crates.txt")
    parts=$(printf '%s\n' "$lines" | sed -e 's/:.*//' -e 's/ *staticlib.*//' | tr '\n' ' ')
    stamp=$(
        cd "$root/crates" && {
            cat "$kit/KIT-ID"
            printf '%s\n' "$lines"
            for part in $parts; do
                find "$part/src" "$part/specs" "$part/proofs" -type f -print0 2>/dev/null
            done | LC_ALL=C sort -z | xargs -0 sha256sum 2>&1
        } | sha256sum | cut -d ' ' -f 1
    )
    [ -n "$stamp" ] || fail "what $1 is made of cannot be read"
}

# Takes the lock of building, by descriptor 7, and says so if it has to wait. The lock is on the checkout's folder, since target/ may be
# removed. What builds has it too: a build that outlives its script keeps others waiting.
take_lock() {
    command -v flock >/dev/null || fail "flock, by which builds wait for each other, is not on this machine"
    exec 7<"$root"
    flock -n 7 && return
    say "another build is going on in this checkout; waiting for it"
    # (a signal ends the waiting of a shell, but not what it waits for in the foreground)
    flock 7 &
    waiter=$!
    wait "$waiter" || fail "the lock of building cannot be had"
    waiter=
}

# Says why a crate cannot be built, where target/ cannot be written.
need_target() { # WHAT
    trouble=$(mkdir -p "$root/target/run" 2>&1 && trial=$(mktemp "$root/target/run/trial-XXXXXX" 2>&1) && rm -f "$trial" || echo "${trial:-}")
    [ -z "$trouble" ] || fail "$1 has to be built, since $why, and the checkout cannot be written: $trouble"
}

# Says what has come since it last looked: crates that are proved, and which is being proved now; that again after half a minute.
tell_progress() {
    now=$(($(date +%s) - began))
    clock=$((now / 60)):$(printf %02d $((now % 60)))
    for crate in $(sed -n 's/^== proved //p' "$log" | tail -n +$((count + 1))); do
        count=$((count + 1))
        say "$clock $crate is proved, $count of $total"
    done
    at_work=$(sed -n 's/^== prov/prov/p' "$log" | tail -n 1)
    case $at_work in
    'proving '*) ;;
    *) return ;;
    esac
    if [ "$at_work" != "$shown" ] || [ "$now" -ge "$again" ]; then
        say "$clock $at_work"
        again=$((now + 30))
    fi
    shown=$at_work
}

# Proves the crates of `parts` and builds the last, and says meanwhile how far it is, as the log has it.
build_last() { # NAME
    log=$root/target/run/$1.log
    shown='' again=0 count=0 total=0
    for crate in $parts; do total=$((total + 1)); done
    began=$(date +%s)
    make_scratch
    : >"$log"
    # shellcheck disable=SC2086
    ({ [ -z "$scratch" ] || { TMPDIR=$scratch && export TMPDIR; }; } && exec setsid sh "$root/scripts/prove.sh" "$root" $parts) </dev/null >"$log" 2>&1 &
    builder=$!
    while kill -s 0 "$builder" 2>/dev/null; do
        sleep 1
        tell_progress
    done
    wait "$builder"
    ended_with=$?
    builder=
    [ -z "$scratch" ] || rm -rf "$scratch"
    scratch=
    tell_progress
    [ "$ended_with" -eq 0 ] || {
        tail -n 20 "$log" >&2
        fail "building failed; all that rt said is in $log"
    }
}

# Takes what was built, crates/CRATE/out/FILE, to its place, if the crate is still what was built. rt may write the file anew at any time: of a
# program it has the sum, beside it.
place() { # CRATE FILE PLACE
    built=$root/crates/$1/out/$2 copy=$root/target/run/new-$2-$$ built_from=$stamp
    cp "$built" "$copy" 2>/dev/null && sum=$(sha256sum <"$copy" | cut -d ' ' -f 1) || sum=
    read_stamp "$1"
    if [ -z "$sum" ] || [ "$stamp" != "$built_from" ] || { [ -f "$built.stamp" ] && ! grep -q "$sum" "$built.stamp"; }; then
        rm -f "$copy"
        fail "$1 was changed while it was built: start it again"
    fi
    chmod 755 "$copy" && mv -f "$copy" "$3" || fail "$3 cannot be written"
    rm -f "$root/target/run/new-$2"-*
}

# Builds a program if it is not current, and sets `program` to the file to start: a copy of what rt built, under its stamp. Older copies go.
need_program() { # NAME
    read_stamp "$1"
    program=$root/target/run/$1-$stamp
    [ ! -x "$program" ] || return 0
    why="it was not built here yet"
    for copy in "$root/target/run/$1"-*; do [ ! -x "$copy" ] || why="its source or the toolchain has changed"; done
    need_target "$1"
    take_lock
    read_stamp "$1"
    program=$root/target/run/$1-$stamp
    if [ ! -x "$program" ]; then
        say "building $1, since $why: it is proved first, which can take some minutes"
        build_last "$1"
        place "$1" "$1" "$program"
        for copy in "$root/target/run/$1"-*; do [ "$copy" = "$program" ] || rm -f "$copy"; done
    fi
    exec 7<&-
}

# Whether the static library is current: beside it stand the stamp of its crate and the archive's sum.
library_is_current() {
    read_stamp host
    [ -f "$archive" ] && [ "$(cat "$archive.stamp" 2>/dev/null)" = "$stamp $(sha256sum <"$archive")" ]
}

# Builds the static library if it is not current, and sets `archive`.
need_library() {
    archive=$root/target/staticlib/libhost.a
    library_is_current && return
    why="its source or the toolchain has changed"
    [ -f "$archive" ] || why="it was not built here yet"
    need_target "the library"
    take_lock
    if ! library_is_current; then
        say "building the library, since $why: it is proved first, which can take some minutes"
        mkdir -p "$root/target/staticlib" && rm -f "$archive.stamp"
        build_last host
        place host libhost.a "$archive"
        echo "$stamp $(sha256sum <"$archive")" >"$archive.stamp"
    fi
    exec 7<&-
}
