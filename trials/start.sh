# Trials of `run` itself, of the exit statuses that it gives, and of `duel`; trials/run reads them.
# shellcheck shell=sh disable=SC2154

home=$(dirname "$run")

# ---- exit statuses, output and signals

trial_statuses() { # each program ends with 0 where all went well, 1 where something failed, 2 for wrong usage, 141 for a closed pipe
    printf 'reset\n' >good
    echo wriet >bad
    open_closed_pipe
    while read -r expected input words; do
        # shellcheck disable=SC2086
        start $words <"$input"
        status_is "$expected"
        [ "$expected" -ne 0 ] || silent
        [ "$expected" -eq 0 ] || [ -s said ] || wrong message 'a reason' none
    done <<LIST
0 $tape feed
1 $tape feed missing
2 $tape feed a b
0 /dev/null lesson good
1 /dev/null lesson bad
1 /dev/null lesson missing.lesson
2 /dev/null lesson
2 /dev/null duel
2 /dev/null duel --help
2 /dev/null duel -x
LIST
    for words in 'feed' 'lesson good' "duel $root/charts/1-examples.chart"; do
        asked="./run $words (into a closed pipe)"
        # shellcheck disable=SC2086
        timeout "$limit" "$run" $words <"$tape" >&6 2>said
        status=$?
        status_is 141
        silent
    done
    asked='./run feed, into a closed pipe, by a caller who ignores PIPE'
    (
        trap '' PIPE
        exec "$run" feed <"$tape" >&6 2>said
    )
    status=$?
    status_is 141
    silent
}

trial_statuses_unheard() { # the exit status is right where the message cannot be written
    echo wriet >bad
    for words in 'feed missing' 'feed a b' 'lesson bad' 'lesson --help'; do
        asked="./run $words 2>/dev/full"
        # shellcheck disable=SC2086
        "$run" $words <"$tape" >out 2>/dev/full
        status=$?
        : >said
        case $words in 'feed missing' | 'lesson bad') status_is 1 ;; *) status_is 2 ;; esac
        wrote_nothing
    done
}

trial_duel() { # duel ends with 0 only if its last line has all zeros, and tells a write that fails, the last one too
    start duel "$root"/charts/*.chart
    status_is 0
    silent
    expect 'the last line' 'files not read: 0, bad lines: 0, charts failed: 0, differences: 0' "$(tail -n 1 out)"
    printf 'chart OUT0 does not rise here\nwrite 13 10\nwrite 10 03\nadvance 1 = out 100 rises 1\n' >wrong.chart
    start duel wrong.chart
    status_is 1
    expect 'the last line' 'files not read: 0, bad lines: 0, charts failed: 1, differences: 0' "$(tail -n 1 out)"
    printf 'chart bad\nwrite 13\n' >bad.chart
    start duel missing.chart bad.chart
    status_is 1
    says_of missing.chart 'No such file or directory'
    says_of bad.chart:2:9: 'expected the byte to write'
    asked='./run duel >/dev/full'
    timeout "$limit" "$run" duel "$root/charts/1-examples.chart" >/dev/full 2>said
    status=$?
    status_is 1
    says 'No space left on device'
    cp "$root/charts/1-examples.chart" .
    fails_at -1 duel 1-examples.chart
}

trial_duel_arguments() { # --help after charts and an empty argument: the usage, and nothing is run; a name's control characters are shown
    start duel "$root"/charts/*.chart --help
    usage
    start duel ''
    usage
    name=$(printf 'a\033[31mb.chart')
    start duel "$name"
    status_is 1
    says_of 'a\x1B[31mb.chart' 'No such file or directory'
    sends_nothing
    printf 'chart a\033[31mb\nwrite 13\n' >"$name"
    start duel "$name"
    status_is 1
    says_of 'a\x1B[31mb.chart:2:9:'
    sends_nothing
    ! grep -q "$(printf '\033')" out || wrong 'standard output' 'no control character' "$(head -n 2 out)"
}

trial_duel_name_not_text() { # a chart file whose name is not UTF-8 is told, counted among the files not read, with status 1
    name=$(printf 'a\377.chart')
    printf 'chart b\nreset\n' >"$name"
    start duel "$name"
    status_is 1
    says_of "$name" 'the name is not UTF-8'
}

# bad_chart TEXT PLACE MESSAGE: a chart file, as printf writes it, whose one bad line gets that message; its chart `a` is not run, and `b` is.
bad_chart() {
    # shellcheck disable=SC2059
    printf "$1" >x.chart
    printf 'chart b\nreset\n' >b.chart
    start duel x.chart b.chart
    asked="./run duel, of '$(head -n 3 x.chart | head -c 60)'"
    status_is 1
    expect message "x.chart:$2 $3" "$(cat said)"
    expect 'what was run' 'chart 1 a: not run, a line of it does not read; chart 2 b: ok, 1 records' "$(grep '^chart ' out | paste -sd ';' | sed 's/;/; /')"
    expect 'the last line' 'files not read: 0, bad lines: 1, charts failed: 1, differences: 0' "$(tail -n 1 out)"
}

trial_duel_bad_lines() { # a line that no chart can have is told by file, line and column; its chart is not run and has failed, and those after it are run
    bad_chart 'chart a\nreset = ?\n' 2:1: 'in the duel nobody is asked for a guess; write the answer after the ='
    bad_chart 'chart a\nrepeat 2 cycle 41\n' 2:1: 'in the duel no record is repeated; write it as often as it comes'
    bad_chart 'chart a\ncycle "AB"\n' 2:1: 'in the duel a cycle has no text; write a cycle for each byte'
    bad_chart 'chart a\nreset\nexpect int 0\n' 3:1: "in the duel a chart has no 'expect'; write the answer of each record after its ="
    bad_chart 'chart a\nreset\nexpect memory 0 00\n' 3:1: "in the duel a chart has no 'expect'; write the answer of each record after its ="
    bad_chart 'chart a\nmemory 0 41\nreset\n' 2:1: "in the duel a chart has no 'memory'; all its bytes are 00 at first"
    bad_chart 'chart a\nshow\nreset\n' 2:1: "in the duel a chart has no 'show'; delete the line"
    bad_chart 'chart a\nreset = done\nguess 00: no\n' 3:1: "in the duel a chart has no 'guess'; delete the line"
    bad_chart "chart a\n$(for i in 1 2 3 4 5; do printf 'reset\\n%.0s' 1 2 3 4 5 6 7 8 9 10 11 12 13; done)" 66:1: 'in the duel a chart has at most 64 records'
    bad_chart 'chart a\nlend 257\nreset\n' 2:1: 'a chart has at most 256 bytes of memory'
    bad_chart 'chart a\nreset\nlend 3\n' 3:1: 'memory and lend stand before the first record'
    bad_chart 'chart a\nreset\nchart\n' 3:6: "expected the chart's name, at most 64 characters"
    bad_chart 'chart a\nreset\nreset' 3:6: 'expected a line feed at the end of the last line; the file may be cut short'
    bad_chart 'chart a\nread 10 = 100\n' 2:11: 'expected what the answer is to be: ? alone, or done, refused, a byte, call, out, int, rises, nothing, grant, leave, unit, end, free, outside, upper'
    printf 'reset\nchart a\n' >first.chart
    printf '# nothing\n' >none.chart
    { printf 'chart c\nreset\nchart d\nshow\n'; yes wriet | head -n 12; printf 'chart e\nreset\n'; } >many.chart
    start duel first.chart none.chart many.chart
    status_is 1
    says_of first.chart:1:1: "a record or 'lend' before the first chart; a line 'chart NAME' opens one"
    says_of none.chart: 'there is no chart in it'
    expect 'messages of many bad lines' 10 "$(grep -c '^many.chart:[0-9]*:1: ' said)"
    says_of many.chart: 'bad lines: 10, and there may be more, since the rest was not read'
    expect 'what was run' 'chart 1 a: not run, it has no record;chart 2 c: ok, 1 records;chart 3 d: not run, a line of it does not read' "$(grep '^chart ' out | paste -sd ';')"
    expect 'the last line' 'files not read: 1, bad lines: 11, charts failed: 2, differences: 0' "$(tail -n 1 out)"
}

trial_output_whole() { # standard output goes through as it is: every byte, from a file, from a pipe, into a file, into a pipe
    i=0
    while [ $i -lt 9 ]; do cat "$tape" "$tape" "$tape" "$tape" >>tapes; i=$((i + 1)); done
    cat tapes tapes tapes tapes tapes tapes tapes tapes tapes tapes >many
    start feed <many
    status_is 0
    expect 'bytes of answers' $(($(wc -c <many) * 2)) "$(($(wc -c <out)))"
    cp out from_file
    # shellcheck disable=SC2002
    cat many | "$run" feed | cat >out
    wrote from_file
}

trial_output_as_it_comes() { # the first answer arrives while the tape is still being written
    mkfifo in out.pipe
    for words in feed 'lesson list'; do
        # shellcheck disable=SC2086
        "$run" $words <in >out.pipe 2>said &
        exec 7>in 8<out.pipe
        asked="./run $words"
        head -c 8 "$tape" >&7
        case $words in
        feed) first=$(timeout 10 head -c 16 <&8 | od -An -tx1 | tr -d ' \n') && expect 'the first answer' 00010000000000000000000000000000 "$first" ;;
        *) first=$(timeout 10 head -n 1 <&8) && expect 'the first line' 'write 00 13' "$first" ;;
        esac
        exec 7>&- 8<&-
        wait $!
    done
}

trial_pipefail() { # a bad lesson in a pipeline leaves the memory as it was, and the pipeline fails; a good one goes through three programs
    cp "$work/before" m
    seen=$(look m)
    { yes 'read 10' | head -n 9000; echo wriet; } >bad
    for lesson in bad missing.lesson; do
        asked="set -o pipefail; ./run lesson assemble $lesson | ./run feed m"
        bash -c 'set -o pipefail; "$0" lesson assemble "$1" | "$0" feed m' "$run" "$lesson" >out 2>said
        status=$?
        [ "$status" -ne 0 ] || wrong 'exit status' 'not 0' 0
        wrote_nothing
        stays m "$seen"
        no_left_over m
    done
    asked='set -o pipefail; ./run lesson assemble <bad | ./run feed m'
    bash -c '"$0" lesson assemble <bad | "$0" feed m; echo "${PIPESTATUS[0]}" >first' "$run" >out 2>said
    expect 'the status of assemble' 1 "$(cat first)"
    wrote_nothing
    stays m "$seen"
    head -c 65536 /dev/zero >m
    bash -c 'set -o pipefail; "$0" lesson assemble <"$1" | "$0" feed m | "$0" lesson explain' "$run" "$lessons/tour.lesson" >out 2>said
    status=$?
    asked='./run lesson assemble | ./run feed m | ./run lesson explain'
    status_is 0
    silent
    [ "$(($(wc -l <out)))" -gt 20 ] || wrong 'lines' 'more than 20' "$(($(wc -l <out)))"
    ! head -c 65536 /dev/zero | cmp -s - m || wrong m 'memory that the lesson wrote' 'zeros'
}

trial_kill() { # killing ./run ends the program too, and the status is the signal's
    cp "$work/before" m
    for pair in TERM:143 HUP:129; do
        hold feed m
        head -c 8 "$tape" >&7
        until_is 'the first answer comes' has_bytes held.out 16
        kill -s "${pair%:*}" "$held"
        wait "$held"
        expect "exit status after ${pair%:*}" "${pair#*:}" $?
        nobody_reads || wrong "after ${pair%:*}" 'a program that has ended' 'one that still reads its input'
        exec 7>&-
        same m "$work/before"
        rm -f m.new
    done
    # a terminal's interrupt, which a shell's background does not take
    rm -f in
    mkfifo in
    exec 8<>in 7>in
    asked='./run feed, interrupted'
    timeout --foreground --preserve-status -k 5 -s INT 1 "$run" feed <in >out 2>said 7>&- 8>&-
    status=$?
    exec 8>&-
    status_is 130
    nobody_reads || wrong 'after INT' 'a program that has ended' 'one that still reads its input'
}

trial_program_killed() { # a program that a signal ended gives that signal's status
    # XCPU, after a second of the processor's time
    asked='./run feed </dev/zero, with a limit of time'
    (
        ulimit -S -t 1
        exec timeout "$limit" "$run" feed </dev/zero >/dev/null 2>said
    )
    status=$?
    status_is 152
}

trial_background() { # in the background it runs as in the foreground
    cp "$work/before" m
    asked='./run feed m &'
    "$run" feed m <"$tape" >out 2>said &
    wait $!
    status=$?
    status_is 0
    silent
    wrote "$answers"
    same m "$work/after"
}

trial_closed_descriptors() { # closed standard input, output or error: no file that the program opens takes their place, and nothing is lost
    cp "$work/before" m
    seen=$(look m)
    asked='./run feed m <&-'
    timeout "$limit" "$run" feed m <&- >out 2>said
    status=$?
    status_is 1
    says 'standard input'
    wrote_nothing
    stays m "$seen"
    no_left_over m
    asked='./run feed m >&-'
    timeout "$limit" "$run" feed m <"$tape" >&- 2>said
    status=$?
    status_is 1
    says 'standard output'
    stays m "$seen"
    no_left_over m
    printf 'reset\n' >good
    cp good kept
    asked='./run lesson good >&-'
    timeout "$limit" "$run" lesson good >&- 2>said
    status=$?
    status_is 1
    says 'standard output'
    same good kept
    # a message that finds standard error closed must not go into a file
    { cat "$tape"; printf '\001'; } >cut
    asked='./run feed m 2>&- <a cut tape'
    timeout "$limit" "$run" feed m <cut >out 2>&-
    status=$?
    : >said
    status_is 1
    if ! cmp -s m "$work/after" && ! cmp -s m "$work/before"; then wrong m 'the memory before or after' "$(od -c m | head -n 3)"; fi
    no_left_over m
}

trial_other_descriptors() { # descriptors that the caller has open stay the caller's
    for number in 3 4 5 8 9; do
        : >mine
        asked="./run feed $number>mine"
        eval "timeout $limit \"\$run\" feed <\"\$tape\" >out 2>said $number>mine"
        status=$?
        status_is 0
        [ ! -s mine ] || wrong "a file on descriptor $number" 'nothing written' "$(cat mine)"
    done
}

trial_few_descriptors() { # where few descriptors are allowed the program runs, or it is told that it does not, and nothing is run
    for number in 13 14 15 16 20; do
        for words in '' '3<"$tape" 8<"$tape" 9<"$tape"'; do
            cp "$work/before" m
            asked="./run feed m $words, with $number descriptors allowed"
            eval "timeout $limit prlimit --nofile=$number:$number \"\$run\" feed m <\"\$tape\" >out 2>said $words"
            status=$?
            if [ "$status" -eq 0 ]; then
                silent
                wrote "$answers"
                same m "$work/after"
            else
                status_is 1
                [ -s said ] || wrong message 'a reason' none
                wrote_nothing
                same m "$work/before"
            fi
            no_left_over m
        done
    done
    expect 'the status with 20' 0 "$status"
}

# ---- the script `run`

trial_run_usage() { # no program, --help, and what is no program: the usage with the programs, and status 2
    for word in --help -h nosuch board lesson/../feed ./feed ../crates/feed FEED feed/ '*' 'feed lesson' .. . 'fe.d'; do
        asked="./run $word"
        start "$word"
        usage
        for program in feed lesson duel; do grep -qw "$program" said || wrong message "the program $program" "$(what_it_said)"; done
    done
    start ''
    usage
    start
    usage
    # what a terminal would obey is shown, not sent
    start "$(printf 'a\033[31m\302\233b')"
    usage
    says "no program 'a?[31m??b'"
    sends_nothing
}

# answers_right COMMAND..: it is `run` by some way, and feeds the tape right, without a word.
answers_right() {
    asked="$* feed"
    timeout "$limit" "$@" feed <"$tape" >"$work/out" 2>"$work/said"
    status=$?
    (
        cd "$work" || exit
        status_is 0
        silent
        wrote "$work/no_memory"
    )
}

trial_run_links() { # through links, relative ones and chains of them, by PATH, from any folder, with CDPATH set
    "$run" feed <"$tape" >"$work/no_memory" 2>/dev/null
    ln -s "$run" r
    answers_right ./r
    answers_right "$PWD/r"
    answers_right sh r
    mkdir -p 'd e/f'
    ln -s ../r 'd e/second'
    ln -s 'd e/second' third
    ln -s ../../third 'd e/f/-fourth'
    answers_right ./third
    answers_right 'd e/f/-fourth'
    ln -s "$home" 'd e/checkout'
    answers_right 'd e/checkout/run'
    cd 'd e/f' || return
    answers_right ./-fourth
    answers_right ../second
    PATH=$PWD/../..:$PATH
    answers_right r
    # a folder of the same name, where a cd by CDPATH would lead
    name=$(basename "$home")
    mkdir -p "$work/decoy/$name"
    cd "$home/.." || return
    asked="CDPATH=.. $name/run feed"
    CDPATH=$work/decoy:$work
    export CDPATH
    answers_right "$name/run"
    cd "$home" || return
    answers_right ./run
    unset CDPATH
    rm -r "$work/decoy"
}

trial_run_callers_folder() { # the program runs in the caller's folder
    mkdir d
    ln -s "$run" d/r
    printf 'reset\n' >mine.lesson
    asked='d/r lesson mine.lesson'
    d/r lesson mine.lesson >out 2>said
    status=$?
    status_is 0
    expect 'the title' mine.lesson "$(head -n 1 out)"
}

trial_run_arguments() { # arguments go through as they are
    name='a  b*?$HOME"'\''\
c'
    start lesson "$name" ' ' 'x.y z'
    status_is 1
    says_of 'a  b*?$HOME"'\''\\x0Ac' 'No such file'
    says_of ' : No such file'
}

# copy_home FOLDER: what is needed of the checkout, or of the package, to start programs.
copy_home() {
    mkdir -p -- "$1/target" || return
    if [ -f "$home/crates.txt" ]; then
        for part in run scripts crates.txt; do [ ! -e "$home/$part" ] || cp -a "$home/$part" "$1/" || return; done
        # (without what rt keeps of its proofs)
        tar -C "$home" --exclude='crates/*/out' -cf - crates | tar -C "$1" -xf - || return
        [ ! -e "$home/target/run" ] || cp -a "$home/target/run" "$1/target/" || return
    else
        rmdir "$1/target"
        cp -a "$home/." "$1/"
    fi
}

trial_run_odd_paths() { # a checkout whose path has blanks, quotes, stars or a dash in it
    "$run" feed <"$tape" >"$work/no_memory" 2>/dev/null
    for name in 'a  b' "it's \"\$HOME\"" 'star*[a]?:' ./-x\\ 'two
lines'; do
        copy_home "$name" || wrong 'a copy' made failed
        answers_right "$name/run"
        (cd -- "$name" && answers_right ./run)
        rm -rf -- "$name"
    done
}

trial_run_read_only() { # on a checkout that cannot be written a built program runs
    be_ordinary
    "$run" feed <"$tape" >"$work/no_memory" 2>/dev/null
    copy_home checkout
    [ -z "$as" ] || chown -R 0:0 checkout
    chmod -R a-w checkout
    chmod -R a+rX checkout
    # shellcheck disable=SC2086
    answers_right $as checkout/run
}

trial_run_old_read_only() { # on a checkout that cannot be written an old program says why it is not built, and is not run
    [ -f "$home/crates.txt" ] || skip "a package has no sources"
    be_ordinary
    copy_home checkout
    # changed, with a time long before the program's
    echo '// changed' >>checkout/crates/feed/src/main.rt
    touch -d 2001-01-01 checkout/crates/feed/src/main.rt
    [ -z "$as" ] || chown -R 0:0 checkout
    chmod -R a-w checkout
    chmod -R a+rX checkout
    asked='checkout/run feed'
    # shellcheck disable=SC2086
    timeout "$limit" $as checkout/run feed <"$tape" >out 2>said
    status=$?
    status_is 1
    wrote_nothing
    says_of run:
    says_one_of 'written|write|writable|read-only'
}

trial_run_not_by_times() { # a program is not old because of a file's time
    [ -f "$home/crates.txt" ] || skip "a package has no sources"
    "$run" feed <"$tape" >"$work/no_memory" 2>/dev/null
    copy_home checkout
    find checkout/crates -type f -exec touch {} +
    limit=10
    answers_right checkout/run
}

trial_run_many_at_once() { # many at once, with nothing to build, do not disturb each other
    printf 'reset\nread 2B\n' >l
    "$run" lesson l >expected
    for i in 1 2 3 4 5 6; do
        "$run" lesson l >"out$i" 2>"said$i" &
        eval "p$i=$!"
    done
    for i in 1 2 3 4 5 6; do
        eval "wait \$p$i"
        status=$?
        cp "out$i" out
        cp "said$i" said
        asked="./run lesson, number $i of 6"
        status_is 0
        silent
        wrote expected
    done
}

trial_run_no_toolchain() { # where PATH does not lead to the toolchain it says so, with status 1
    [ -f "$home/crates.txt" ] || skip "a package needs no toolchain"
    ! (PATH=/usr/bin:/bin && command -v rt >/dev/null) || skip "the toolchain is among the system's own programs"
    asked='./run feed, with no rt in PATH'
    PATH=/usr/bin:/bin timeout "$limit" "$run" feed <"$tape" >out 2>said
    status=$?
    status_is 1
    says_of run: PATH
    wrote_nothing
}

trial_run_no_temporary_folder() { # where no temporary file can be made it says so, or does without
    "$run" feed <"$tape" >no_memory 2>/dev/null
    asked='TMPDIR=/nowhere ./run feed'
    TMPDIR=/nowhere "$run" feed <"$tape" >out 2>said
    status=$?
    if [ "$status" -eq 0 ]; then
        silent
        wrote no_memory
    else
        status_is 1
        says_of run:
        wrote_nothing
    fi
}

trial_run_temporary_files_not_written() { # where temporary files cannot be written it says so, and neither builds nor runs anything
    asked='./run feed, with files of no byte'
    { (ulimit -f 0; exec timeout "$limit" "$run" feed <"$tape" 2>&1 >/dev/full); echo $? >&5; } 5>ended | cat >said
    status=$(cat ended)
    : >out
    status_is 1
    says_of run: temporary
    ! grep -q building said || wrong message 'no word of a build' "$(what_it_said)"
}

# small_checkout: a checkout of one small program in the folder `small`. It says hello, and tells its exit status as the programs do: 0 without an
# argument, nothing at all with one, nonsense with two.
small_checkout() {
    [ -f "$home/crates.txt" ] || skip "a package builds nothing"
    command -v rt >/dev/null || skip "the toolchain is not on this machine"
    mkdir -p small/crates/hello/src
    cp -a "$home/run" "$home/scripts" small/
    echo 'hello: io' >small/crates.txt
    echo hello >small/crates/hello/stdout
    cat >small/crates/hello/src/main.rt <<'PROGRAM'
#![tactic(auto)]

use std::rt::Env;

fn main(rt: HostRuntime) {
    let mut word = [0u8; 16];
    let one = rt.arg(1, &mut word).is_ok();
    let two = rt.arg(2, &mut word).is_ok();
    io::write_all(1, b"hello\n");
    if !one {
        io::write_all(9, b"0\n");
    }
    if two {
        io::write_all(9, b"nonsense\n");
    }
}
PROGRAM
}
small() { # WORDS..
    asked="small/run $*"
    timeout -k 5 60 small/run "$@" >out 2>said
    status=$?
}

trial_run_builds() { # of two at once one builds and the other waits; it says how far it is; only what changed is built anew, whatever its time
    small_checkout
    echo hello >expected
    for i in 1 2; do
        timeout -k 5 90 small/run hello >"out$i" 2>"said$i" &
        eval "p$i=$!"
    done
    for i in 1 2; do
        eval "wait \$p$i"
        status=$?
        cp "out$i" out
        cp "said$i" said
        asked="small/run hello, number $i of 2"
        status_is 0
        wrote expected
    done
    cat said1 said2 >said
    asked='both'
    expect 'those that wait' 1 "$(grep -l waiting said1 said2 | wc -l)"
    expect 'those that build' 1 "$(grep -l building said1 said2 | wc -l)"
    grep -qE '^run: [0-9]+:[0-9][0-9] .*hello' said || wrong message 'the time, and what it is at' "$(what_it_said)"
    small hello
    status_is 0
    silent
    wrote expected
    # a program that tells no status, or none that there is, did not end as it should
    for words in 'hello 1' 'hello 1 2'; do
        # shellcheck disable=SC2086
        small $words
        status_is 1
        wrote expected
        says_of run: hello
    done
    find small/crates small/crates.txt -exec touch {} +
    small hello
    status_is 0
    silent
    # a change that cannot be proved, in a file that is older than the program
    echo 'fn wrong( {' >>small/crates/hello/src/main.rt
    find small/crates small/crates.txt -exec touch -d 2001-01-01 {} +
    small hello
    status_is 1
    wrote_nothing
    says_of run: failed
    log=$(sed -n 's/^run: .* in \(.*[.]log\)$/\1/p' said)
    [ -s "$log" ] || wrong 'the log' 'its path in the message' "$(tail -n 1 said)"
    # a file is named where it is
    grep -q '^crates/hello/src/main.rt:' "$log" || wrong 'the log' 'the file at fault, from the checkout on' "$(cat "$log")"
}

trial_run_waiting_killed() { # a ./run that waits for another build ends at once when it is killed
    small_checkout
    (exec 7<small && flock 7 && exec sleep 15) &
    building=$!
    until_is 'the lock is taken' eval '! flock -n small true'
    small/run hello >out 2>said &
    waiting=$!
    until_is 'it says that it waits' grep -q waiting said
    kill -s TERM "$waiting"
    wait "$waiting"
    status=$?
    asked='small/run hello, killed while it waits'
    status_is 143
    ! flock -n small true || wrong 'after TERM' 'an end before the lock is free' 'it waited for the lock'
    kill "$building"
    wait "$building" || :
}

trial_package_names() { # package/make replaces a regular file and nothing else: what is none is refused before anything is built
    [ -f "$home/crates.txt" ] || skip "a package makes none"
    mkfifo fifo
    mkdir folder
    ln -s fifo link
    ln -s nothing dangling
    set -- fifo folder link dangling
    [ "$(id -u)" -ne 0 ] || ! mknod device c 1 3 || set -- "$@" device
    for name; do
        seen=$(look "$name")
        asked="package/make $name"
        timeout "$limit" "$home/package/make" "$name" >out 2>said
        status=$?
        status_is 1
        says_of "package/make: $name"
        wrote_nothing
        stays "$name" "$seen"
    done
    [ ! -e nothing ] || wrong nothing 'no such file' "$(look nothing)"
    [ -z "$(ls -A folder)" ] || wrong folder 'an empty folder' "$(ls -A folder)"
}

trial_package() { # package/make makes a package, whose pages lead to nothing that is not in it
    [ -f "$home/crates.txt" ] || skip "a package makes none"
    asked='package/make made.tar'
    # (it may have to build the library first, which takes as long as it takes)
    "$home/package/make" made.tar >out 2>said
    status=$?
    status_is 0
    [ -s made.tar ] || wrong made.tar 'a package' none
}
