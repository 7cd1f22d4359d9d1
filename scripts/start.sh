# start.sh: how a program is started. ./run and the package's run take it in; both set `me`, the name that their messages begin with. A
# program tells its exit status as the last thing it does, by a number and a line feed that it writes to descriptor 9; a program that told
# nothing did not come to its end.
# shellcheck shell=sh disable=SC2094

# Says something on standard error, and fails with it.
say() { printf '%s: %s\n' "${me:?}" "$*" >&2; }
fail() { say "$*"; exit 1; }

# A file over its limit is found by a failed write, here and in all that is started: so it is told, and what was begun is cleared away.
trap '' XFSZ

# Goes on if NAME is one of the programs. Else it says how `run` is called, and ends with 2. What was named is shown, not sent: all that no
# program's name could have stands as a question mark.
need_known() { # NAME PROGRAMS..
    name=$1
    shift
    for program; do [ "$program" != "$name" ] || return 0; done
    case $name in
    '' | --help | -h) ;;
    *) say "there is no program '$(printf %s "$name" | LC_ALL=C tr -c ' -~' '?')'" ;;
    esac
    {
        echo "usage: ./run NAME [ARGS]; the programs:"
        printf '  %s\n' "$@"
    } >&2
    exit 2
}

# Refuses a closed standard input or output: the next file that the program opened would take its place. A closed standard error is as good
# as one that nobody reads.
need_descriptors() {
    true 3>&2 || exec 2>/dev/null
    closed=
    { true 3<&0; } 2>/dev/null || closed="standard input"
    { true 3>&1; } 2>/dev/null || closed="${closed:+$closed and }standard output"
    [ -z "$closed" ] || fail "closed: $closed (</dev/null is an empty input, and >/dev/null is an output for nobody)"
}

# What a signal does while a program runs: it ends the program, always by TERM, since a shell starts what it does not wait for at once with
# INT and QUIT ignored.
pass_on() { # SIGNAL
    caught=$1
    [ -z "$running" ] || kill -s TERM "$running" 2>/dev/null
}

# Runs a command on the standard input, output and error of the caller, and ends as the program NAME told; or as the command ended, if that
# was not with 0; or by the signal that came meanwhile. Descriptors 3, 8 and 9 are its own: what the caller has there is not the program's.
start_program() { # NAME COMMAND [ARGS]
    note=$(mktemp) || fail "$1 was not started: no temporary file can be made"
    # The empty line stands for nothing told. It also takes its room on the disk now, so that a full disk is found before the program runs.
    # A shell gives an empty input to what it does not wait for at once, unless the input is named: descriptor 3 is the caller's.
    echo >"$note" && start_noted "$@" 3<&0 8<"$note" 9<>"$note"
    rm -f "$note"
    fail "$1 was not started: its temporary file cannot be written and opened"
}

# Does that, on the descriptors that it is given, and does not come back. PIPE is ignored, so that a program finds a closed pipe by a failed
# write and can still clean up.
start_noted() { # NAME COMMAND [ARGS]
    name=$1
    shift
    rm -f "$note"
    # what is told is read by one descriptor more
    true <&8 || fail "$name was not started: too few descriptors are allowed"
    running='' caught=''
    for signal in HUP INT QUIT TERM; do
        # shellcheck disable=SC2064
        trap "pass_on $signal" "$signal"
    done
    # What the program makes is its user's alone until the program says otherwise: feed's new memory is nobody else's for a moment.
    (
        trap '' PIPE
        umask 077
        exec "$@"
    ) <&3 3<&- 8<&- 9>&9 &
    running=$!
    [ -z "$caught" ] || pass_on "$caught"
    wait "$running"
    status=$?
    if [ -n "$caught" ]; then
        # The signal ended the first wait, and a second signal may end the next. (A shell would say that the program was ended.)
        while kill -s 0 "$running"; do wait "$running"; done 2>/dev/null
        trap - "$caught"
        kill -s "$caught" "$$"
        exit "$status" # 128 + n, where the shell itself does not die of the signal
    fi
    [ "$status" -eq 0 ] || exit "$status"
    told=
    IFS= read -r told <&8
    case $told in
    0 | 1 | 2 | 141) exit "$told" ;;
    *) fail "$name ended and did not tell whether all went well" ;;
    esac
}
