# Trials of `feed` and its memory file; trials/run reads them.
# shellcheck shell=sh disable=SC2154

# refuses MEMORY [WORDS]: feed names MEMORY and says why, begins with nothing, and leaves MEMORY as it is.
refuses() {
    seen=$(look "$1")
    start feed "$1" <"$tape"
    status_is 1
    wrote_nothing
    says_of "$1"
    [ $# -eq 1 ] || says "$2"
    stays "$1" "$seen"
    no_left_over "$1"
}
# takes MEMORY [FILE]: feed runs the tape over MEMORY, and the memory is then in FILE, MEMORY itself where none is named.
takes() {
    start feed "$1" <"$tape"
    status_is 0
    silent
    wrote "$answers"
    same "${2:-$1}" "$work/after"
    no_left_over "$1" "${2:-$1}"
}

# The bytes of the units that the answers of the last run have past the end of memory.
units_outside() { od -An -v -tx1 -w16 out | awk '$1 == "00" && $2 == "06" && $5 == "02" && $13 == "01" { printf "%s ", $3 }'; }

trial_feed_answers() { # the answers of a small tape and its memory are right, byte for byte
    cp "$work/before" m
    takes m
    start feed <"$tape"
    status_is 0
    silent
    # without memory the records that read it answer otherwise, but each has its answer
    expect 'bytes of answers' $(($(wc -c <"$tape") * 2)) "$(($(wc -c <out)))"
    # its units, two to memory and four from there, are past its end, by byte 12; with three bytes of memory those at the address 3 are
    expect 'units past the end of memory' '41 42 ff ff ff ff ' "$(units_outside)"
    printf abc >m
    start feed m <"$tape"
    status_is 0
    expect 'units past the end of memory' '42 ff ' "$(units_outside)"
    expect 'memory' abA "$(cat m)"
    # three records, in bytes: counter 0 in mode 0 with the count 1, two pulses; OUT0 rises once
    printf '\001\023\020\0\0\0\0\0\001\020\001\0\0\0\0\0\005\0\0\0\002\0\0\0' >three
    start feed <three
    status_is 0
    expect 'the answers' ' 00 01 00 00 00 00 00 00 00 00 00 00 00 00 00 00
 00 01 00 00 00 00 00 00 00 00 00 00 00 00 00 00
 00 05 00 01 01 00 00 00 00 00 00 00 00 00 00 00' "$(od -An -v -tx1 -w16 out)"
}

trial_feed_words() { # a word of which the memory has one byte writes and reads that one; byte 12 of its answer is 1, as where the memory has none, and byte 13 is the upper byte
    printf 'write %s\n' '20 02' '2A 85' '22 01' '2F 0E' >x
    printf 'requests 01\ncycle\ncycle 41 42\ncycle 43 44\n' >>x
    printf 'write %s\n' '2A 89' '22 01' '23 00' '24 00' '2F 0E' >>x
    printf 'cycle\ncycle\ncycle\n' >>x
    start lesson assemble x
    status_is 0
    cp out words
    while IFS='|' read -r before after units; do
        printf %s "$before" >m
        start feed m <words
        status_is 0
        expect 'memory' "$after" "$(cat m)"
        expect 'lower byte, upper byte and byte 12' "$units" \
            "$(od -An -v -tx1 -w16 out | awk '$2 == "06" && $5 == "02" { printf "%s%s %s %s", comma, $3, $14, $13; comma = ", " }')"
    done <<END
||41 42 01, 43 44 01, ff ff 01, ff ff 01
a|A|41 42 01, 43 44 01, 41 ff 01, ff ff 01
ab|AB|41 42 00, 43 44 01, 41 42 00, ff ff 01
abc|ABC|41 42 00, 43 44 01, 41 42 00, 43 ff 01
abcd|ABCD|41 42 00, 43 44 00, 41 42 00, 43 44 00
END
}

trial_feed_folder_as_memory() { # a folder as MEMORY is refused before the run
    mkdir d
    refuses d
    refuses .
    refuses /
}

trial_feed_fifo() { # a fifo as MEMORY is refused before the run, and stays a fifo
    mkfifo p
    limit=5
    refuses p
    # one that has a writer, so that whoever opens it to read does not wait
    exec 5<>p
    printf abcd >&5
    refuses p
}

trial_feed_device() { # a device node as MEMORY is refused before the run, and stays one
    be_root
    mknod null c 1 3 || skip "no device node can be made here"
    refuses null
    ln -s null link
    refuses link
    [ -c null ] || wrong null 'a device node' "$(look null)"
}

trial_feed_machine_devices() { # the machine's own devices as MEMORY are refused before the run
    # as an ordinary user alone: root could replace them
    be_ordinary
    limit=5
    for device in /dev/null /dev/zero /dev/full /dev/urandom; do refuses "$device"; done
}

trial_feed_socket() { # a socket as MEMORY is refused before the run
    perl -MSocket -e 'socket(S, PF_UNIX, SOCK_STREAM, 0) && bind(S, sockaddr_un("s")) or exit 1' 2>/dev/null || skip "no perl to make a socket with"
    refuses s
}

trial_feed_links_to_no_file() { # links to a folder, a fifo and a device as MEMORY are refused before the run
    be_ordinary
    limit=5
    mkdir d
    mkfifo p
    for end in d p /dev/null; do
        ln -s "$end" link
        ln -s link chain
        refuses link
        refuses chain
        rm link chain
    done
    [ -p p ] || wrong p 'a fifo' "$(look p)"
}

trial_feed_link() { # through a link the file behind it gets the memory, and the link stays a link
    mkdir here there
    for form in there/m ../there/m "$PWD/there/m"; do
        cp "$work/before" there/m
        case $form in ../*) link=here/link ;; *) link='link' ;; esac
        ln -sf "$form" "$link"
        seen=$(look "$link" | sed 1q)
        takes "$link" there/m
        expect "$link afterwards" "$seen" "$(look "$link" | sed 1q)"
        expect 'where it leads' "$form" "$(readlink "$link")"
    done
}

trial_feed_chain_of_links() { # through a chain of links over several folders the file at its end gets the memory
    mkdir -p a/b c
    cp "$work/before" c/m
    ln -s ../../c/m a/b/third
    ln -s b/third a/second
    ln -s "$PWD/a/second" first
    takes first c/m
    no_left_over a/second a/b/third
    [ -L first ] && [ -L a/second ] && [ -L a/b/third ] || wrong 'the links' 'links still' "$(ls -l first a/second a/b/third)"
    # a folder on the way may be a link as well
    ln -s c folder
    cp "$work/before" c/m
    takes folder/m c/m
    cp "$work/before" c/m
    ln -s m c/beside
    takes folder/beside c/m
    # .. counts from the folder that the link is in, not from the name by which one came there
    mkdir -p deep/er
    ln -s deep/er way
    ln -s ../../c/m deep/er/up
    cp "$work/before" c/m
    takes way/up c/m
}

trial_feed_dangling_link() { # a link to nothing is refused, and nothing is made behind it
    ln -s nothing link
    refuses link
    [ ! -e nothing ] || wrong nothing 'no such file' "$(look nothing)"
    refuses missing 'No such file or directory'
}

trial_feed_loop_of_links() { # links in a circle are refused
    ln -s b a
    ln -s a b
    ln -s self self
    refuses a
    refuses self
}

trial_feed_many_links() { # a chain of 40 links, the most that the system follows, is followed, and one of 41 is refused
    cp "$work/before" m
    ln -s m link1
    i=1
    while [ $i -le 40 ]; do
        ln -s link$i link$((i + 1))
        i=$((i + 1))
    done
    takes link40 m
    memory=$(look m)
    refuses link41 'Too many levels of symbolic links'
    stays m "$memory"
    no_left_over m
}

trial_feed_mode() { # the file's mode stays, whatever the umask
    be_ordinary
    for pair in 600:000 600:022 640:022 640:077 666:077 755:022; do
        mode=${pair%:*} mask=${pair#*:}
        cp "$work/before" m
        [ -z "$as" ] || chown 65534:65534 m
        chmod "$mode" m
        umask "$mask"
        start feed m <"$tape"
        umask 022
        status_is 0
        same m "$work/after"
        expect "mode of a file of $mode, umask $mask" "$mode" "$(stat -c %a m)"
        rm -f m
    done
}

trial_feed_unreadable() { # a file that its user may not read, or not write, is refused before the run
    be_ordinary
    for mode in 444 400 200 000; do
        cp "$work/before" m
        [ -z "$as" ] || chown 65534:65534 m
        chmod "$mode" m
        refuses m 'Permission denied'
        rm -f m
    done
}

trial_feed_owner() { # root feeds another's private file: owner, group and mode stay
    be_root
    for mode in 600 640 444; do
        cp "$work/before" m
        chown 65534:65533 m
        chmod "$mode" m
        takes m
        expect 'owner and mode' "65534:65533 $mode" "$(stat -c '%u:%g %a' m)"
        rm -f m
    done
}

trial_feed_another_owner() { # a user who may write a file and cannot keep its owner is refused before the run
    be_root
    be_ordinary
    cp "$work/before" m
    chown 0:0 m
    chmod 666 m
    refuses m
    same m "$work/before"
}

trial_feed_folder_closed() { # a file in a folder that its user may not write is refused before the run
    be_ordinary
    mkdir d
    cp "$work/before" d/m
    [ -z "$as" ] || chown -R 65534:65534 d
    chmod 555 d
    refuses d/m 'Permission denied'
}

# locked: feed m, with m.new there already: told with what to do, nothing run, both as they were.
locked() { # MEMORY LOCK
    seen=$(look "$1")
    lock=$(look "$2")
    start feed "$1" <"$tape"
    status_is 1
    wrote_nothing
    says "$2"
    says_one_of 'remove|delete'
    stays "$1" "$seen"
    stays "$2" "$lock"
}

trial_feed_left_over() { # MEMORY.new is there already: a message before the run with what to do, and both files stay as they are
    cp "$work/before" m
    echo mine >m.new
    locked m m.new
    ln -s m link
    locked link m.new
    rm m.new
    : >m.new
    locked m m.new
    rm m.new
    mkdir m.new
    locked m m.new
    rmdir m.new
    ln -s elsewhere m.new
    locked m m.new
    [ ! -e elsewhere ] || wrong elsewhere 'no such file' "$(look elsewhere)"
    rm m.new
    takes m
}

trial_feed_two_at_once() { # a second feed on the same file, by its name or by a link, is told before anything runs; the first is not disturbed
    cp "$work/before" m
    mkdir d
    ln -s ../m d/link
    hold feed m
    until_is 'm.new is made at the start' test -e m.new
    head -c 100 "$tape" >&7
    locked m m.new
    locked d/link m.new
    tail -c +101 "$tape" >&7
    let_go
    asked='the first feed'
    status_is 0
    silent
    wrote "$answers"
    same m "$work/after"
    no_left_over m
}

trial_feed_lock_removed() { # a feed whose lock was taken away says so and saves nothing, with status 1, and leaves the lock of the next one alone
    cp "$work/before" m
    seen=$(look m)
    gone='was removed while this feed ran, and the memory was not saved'
    hold feed m
    until_is 'm.new is made at the start' test -e m.new
    rm -f m.new
    cat "$tape" >&7
    let_go
    status_is 1
    says_of m.new "$gone"
    stays m "$seen"
    no_left_over m
    # another one begins meanwhile, on the same file, and makes a lock of its own
    hold feed m
    until_is 'm.new is made at the start' test -e m.new
    rm -f m.new
    mkfifo other.in
    timeout -k 5 "$limit" "$run" feed m <other.in >other.out 2>other.said 7>&- &
    other=$!
    exec 8>other.in
    until_is 'the other feed makes m.new' test -e m.new
    lock=$(look m.new)
    cat "$tape" >&7
    let_go
    asked='the first feed'
    status_is 1
    says_of m.new "$gone"
    stays m "$seen"
    stays m.new "$lock"
    cat "$tape" >&8
    exec 8>&-
    wait "$other"
    status=$?
    cp other.out out
    cp other.said said
    asked='the other feed'
    status_is 0
    silent
    wrote "$answers"
    same m "$work/after"
    no_left_over m
}

trial_feed_output_is_memory() { # standard output that is the memory's own file, by its name or another, is refused before the run
    cp "$work/before" m
    ln -s m link
    ln m beside
    seen=$(look m)
    for output in m link beside; do
        asked="./run feed m >>$output"
        timeout -k 5 "$limit" "$run" feed m <"$tape" >>"$output" 2>said
        status=$?
        status_is 1
        says_of m
        stays m "$seen"
        no_left_over m
    done
}

trial_feed_killed() { # a killed feed leaves the memory as it was and a left-over that the next one names; without that the next one runs
    cp "$work/before" m
    hold feed m
    until_is 'm.new is made at the start' test -e m.new
    head -c 100 "$tape" >&7
    until_is 'the first answers come' has_bytes held.out 192
    kill -KILL "-$held"
    exec 7>&-
    wait "$held"
    same m "$work/before"
    locked m m.new
    rm -f m.new
    takes m
}

trial_feed_usage() { # no name, two names, --help and -h: the usage, or what is wrong, and status 2
    cp "$work/before" a
    cp "$work/before" b
    for words in 'a b' '--help' '-h' 'a --help' 'a b c'; do
        # shellcheck disable=SC2086
        start feed $words <"$tape"
        usage
    done
    same a "$work/before"
    same b "$work/before"
    start feed '' <"$tape"
    status_is 2
    wrote_nothing
    says_one_of 'empty|no name'
    ! grep -q Success said || wrong message 'what is wrong' "$(what_it_said)"
}

trial_feed_sizes() { # memory of no byte, of one, and of 1,048,576 is taken; one byte more is refused before the run
    : >m
    start feed m <"$tape"
    status_is 0
    silent
    expect 'bytes of memory' 0 "$(stat -c %s m)"
    head -c 1048576 /dev/zero >m
    { printf '\0\0AB'; head -c 1048572 /dev/zero; } >after
    start feed m <"$tape"
    status_is 0
    same m after
    no_left_over m
    head -c 1048577 /dev/zero >m
    refuses m '1,048,576'
    # a file with nothing behind its length, as long as a disk
    rm m
    truncate -s 8T m 2>/dev/null || truncate -s 8G m
    limit=10
    start feed m <"$tape"
    status_is 1
    wrote_nothing
    says '1,048,576'
    rm m
}

trial_feed_full_disk() { # answers to a full disk: a message, status 1, memory as it was and nothing left over
    cp "$work/before" m
    seen=$(look m)
    asked='./run feed m >/dev/full'
    "$run" feed m <"$tape" >/dev/full 2>said
    status=$?
    status_is 1
    says 'No space left on device'
    stays m "$seen"
    no_left_over m
    # it fails at the last byte too
    for room in 0 1 639; do
        start_into "$room" feed m <"$tape"
        status_is 1
        says 'File too large'
        stays m "$seen"
        no_left_over m
    done
    start_into 640 feed m <"$tape"
    status_is 0
    same m "$work/after"
}

trial_feed_closed_pipe() { # nobody reads the answers: status 141, memory as it was, nothing left over
    cp "$work/before" m
    seen=$(look m)
    open_closed_pipe
    asked='./run feed m (into a closed pipe)'
    "$run" feed m <"$tape" >&6 2>said
    status=$?
    status_is 141
    says_of m 'left as it was'
    stays m "$seen"
    no_left_over m
    asked='./run feed (into a closed pipe)'
    "$run" feed <"$tape" >&6 2>said
    status=$?
    status_is 141
    silent
    # a reader that goes away after the first answer, of a tape that never ends
    asked='./run feed m </dev/zero | head -c 16'
    { timeout "$limit" "$run" feed m </dev/zero 2>said; echo $? >ended; } | head -c 16 >out
    status=$(cat ended)
    status_is 141
    expect 'bytes of answers' 16 "$(($(wc -c <out)))"
    stays m "$seen"
    no_left_over m
}

trial_feed_memory_not_saved() { # the memory cannot be written: a message, status 1, the file as it was and nothing left over
    head -c 1048576 /dev/zero >m
    seen=$(look m)
    asked='./run feed m (with files of at most 524,288 bytes)'
    (
        ulimit -f 1024
        exec "$run" feed m <"$tape" >out 2>said
    )
    status=$?
    status_is 1
    says m.new
    says 'File too large'
    stays m "$seen"
    no_left_over m
}

trial_feed_cut_tape() { # a tape that ends inside a record: its whole records are run and saved, a message, status 1
    cp "$work/before" m
    { cat "$tape"; printf '\001\002\003'; } >cut
    start feed m <cut
    status_is 1
    says 'bytes left over: 3'
    wrote "$answers"
    same m "$work/after"
    no_left_over m
    start feed <cut
    status_is 1
    says 'bytes left over: 3'
}

trial_feed_no_record() { # a tape without a whole record leaves the memory's file untouched
    cp "$work/before" m
    seen=$(look m)
    start feed m </dev/null
    wrote_nothing
    stays m "$seen"
    no_left_over m
    printf '\001\002\003' >cut
    start feed m <cut
    status_is 1
    says 'bytes left over: 3'
    wrote_nothing
    stays m "$seen"
    no_left_over m
}

trial_feed_input_fails() { # standard input that cannot be read: a message, status 1, memory as it was and nothing left over
    cp "$work/before" m
    seen=$(look m)
    start feed m <.
    status_is 1
    says 'Is a directory'
    wrote_nothing
    stays m "$seen"
    no_left_over m
}

trial_feed_names() { # names with blanks, quotes, a line feed, a dash, stars and letters beyond ASCII are taken as they are
    mkdir -p 'a b'
    for name in 'a b/c  d' "it's \$HOME" 'two
lines' ./-x '*;touch x' 'müde\n' 'a
'; do
        cp "$work/before" "./$name"
        takes "$name"
    done
    [ ! -e x ] || wrong x 'no such file' "$(look x)"
    # a word that begins with a dash is no name
    cp "$work/before" ./-x
    start feed -x <"$tape"
    usage
    same ./-x "$work/before"
}

trial_feed_names_shown() { # control characters in a name are shown in a message, not sent
    escape=$(printf '\033')
    for name in "m${escape}[31m" "a	b" "$(printf 'a\rb')" "$(printf 'a\177b')" "$(printf 'a\302\233b')" 'two
lines'; do
        start feed "$name" <"$tape"
        status_is 1
        says 'No such file or directory'
        expect 'lines of the message' 1 "$(($(wc -l <said)))"
        sends_nothing
    done
    start feed "m${escape}[31m" <"$tape"
    says 'm\x1B[31m: No such file or directory'
}

trial_feed_name_not_text() { # a memory whose name is not UTF-8, or that a link with such a text leads to, is refused before the run, and is as it was
    name=$(printf 'm\377')
    cp "$work/before" "$name"
    ln -s "$name" link
    for memory in "$name" link; do
        start feed "$memory" <"$tape"
        status_is 1
        same "$name" "$work/before"
        [ ! -e "$name.new" ] || wrong "$name.new" 'no such file' 'a file'
    done
    start feed "$name" <"$tape"
    says 'not UTF-8, and a path has to be; nothing was run'
}

# A path of so many characters to the file m: ./././m
long_path() { # LENGTH
    if [ $(($1 % 2)) -eq 1 ]; then printf 'm' >path; else printf './/m' | cut -c1-4 >path; fi
    length=$(($(tr -d '\n' <path | wc -c)))
    { head -c $(($1 - length)) /dev/zero | sed 's/\x00\x00/.\//g'; cat path; } | tr -d '\n'
}

trial_feed_long_names() { # paths up to the longest the system has: taken, or refused before the run with a message; nothing is lost
    cp "$work/before" m
    for length in 4090 4091; do
        takes "$(long_path $length)" m
        cp "$work/before" m
    done
    seen=$(look m)
    for length in 4092 4093 4095 4096 4097 5000; do
        path=$(long_path $length)
        expect 'length of the path' "$length" "${#path}"
        start feed "$path" <"$tape"
        asked="./run feed with a path of $length characters"
        status_is 1
        wrote_nothing
        says 'too long'
        stays m "$seen"
    done
    no_left_over m
    # a name with no room for .new after it
    name=$(head -c 252 /dev/zero | tr '\0' n)
    cp "$work/before" "$name"
    refuses "$name" 'File name too long'
    name=$(head -c 251 /dev/zero | tr '\0' n)
    cp "$work/before" "$name"
    takes "$name"
}

trial_feed_trailing_slash() { # a name that ends in a slash is no file's, and is refused
    cp "$work/before" m
    seen=$(look m)
    start feed m/ <"$tape"
    status_is 1
    says 'Not a directory'
    wrote_nothing
    stays m "$seen"
    expect 'files here' 'm out said' "$(echo *)"
}
