# Trials of `lesson`; trials/run reads them.
# shellcheck shell=sh disable=SC2154

good() { printf 'reset\nwrite 13 10\nread 10\n'; }
# good as a tape
good_tape() { printf '\0\0\0\0\0\0\0\0\001\023\020\0\0\0\0\0\002\020\0\0\0\0\0\0'; }

trial_lesson_usage() { # no argument, --help, an option, a filter's second file, pieces without one, an empty argument: the usage, and nothing is run
    good >a
    cp a b.lesson
    for words in '' --help -h 'b.lesson -x' 'assemble b.lesson a' 'list a b.lesson' 'explain a b.lesson' pieces 'b.lesson pieces' 'pieces list a' \
        'assemble --help' 'list -'; do
        # shellcheck disable=SC2086
        start lesson $words
        usage
    done
    start lesson b.lesson ''
    usage
    start lesson assemble ''
    usage
}

trial_lesson_mistyped_word() { # a mistyped word is told as such, with the usage, before anything is run; a file of letters alone is a lesson
    good >b.lesson
    for word in asemble Assemble help piece; do
        start lesson "$word" <b.lesson
        usage
        says_of "$word" 'no such word'
        says 'no such file'
    done
    start lesson b.lesson asemble
    usage
    start lesson b.lesson list b.lesson exlpain b.lesson
    usage
    good >mine
    start lesson mine
    status_is 0
    silent
    # a word is the word, even where a file has its name
    good >list
    good_tape >tape
    start lesson list tape
    status_is 0
    same out b.lesson
    start lesson ./list
    status_is 0
    expect 'the first line' ./list "$(head -n 1 out)"
}

trial_lesson_missing_file() { # a missing file is told, with status 1, and the lessons after it still run
    good >b.lesson
    start lesson b.lesson
    cp out one
    start lesson missing.lesson b.lesson
    status_is 1
    says_of missing.lesson 'No such file or directory'
    wrote one
    for word in assemble list explain; do
        start lesson "$word" missing.lesson
        status_is 1
        says_of missing.lesson 'No such file or directory'
        wrote_nothing
    done
    # a bad lesson does not stop the good one after it either
    echo wriet >bad.lesson
    start lesson bad.lesson b.lesson
    status_is 1
    says_of bad.lesson:1:1:
    wrote one
}

trial_lesson_filters() { # assemble, list and explain take a file or standard input, and several stand on one line
    good >b.lesson
    good_tape >t
    start lesson assemble b.lesson
    status_is 0
    silent
    wrote t
    start lesson assemble <b.lesson
    status_is 0
    silent
    wrote t
    start lesson list t
    status_is 0
    silent
    wrote b.lesson
    start lesson list <t
    status_is 0
    wrote b.lesson
    start lesson explain "$answers"
    status_is 0
    silent
    cp out words
    expect 'lines, with the heads' $(($(wc -c <"$answers") / 16 + 1)) "$(grep -c '^ *[0-9l]' words)"
    start lesson explain <"$answers"
    status_is 0
    wrote words
    start lesson b.lesson
    cp out rows
    start lesson pieces b.lesson
    status_is 0
    cp out pieces
    cat rows pieces b.lesson t words >all
    start lesson b.lesson pieces b.lesson list t assemble b.lesson explain <"$answers"
    status_is 0
    silent
    wrote all
}

trial_lesson_lessons() { # the lessons of the class run, and go to a tape and back
    start lesson "$lessons"/*.lesson
    status_is 0
    silent
    expect 'titles' "$(echo "$lessons"/*.lesson)" "$(grep '[.]lesson$' out | tr '\n' ' ' | sed 's/ $//')"
    for lesson in slave status tour wide; do
        start lesson assemble "$lessons/$lesson.lesson"
        status_is 0
        cp out t
        start lesson list t
        status_is 0
        cp out listed
        start lesson assemble listed
        status_is 0
        wrote t
    done
}

# lesson_of N LINE: N lines of a good lesson, and then the line.
lesson_of() { yes 'read 10' | head -n "$1"; [ -z "${2-}" ] || echo "$2"; }

trial_lesson_bad_line_no_tape() { # a lesson with its bad line last makes no byte of a tape, of any length, from a file or from a pipe
    for records in 3 8192 8193 20000; do
        lesson_of $records 'wriet 13 10' >bad
        start lesson assemble bad
        status_is 1
        wrote_nothing
        says_of "bad:$((records + 1)):1:" 'expected reset'
        says_of bad: 'nothing was written'
        start lesson assemble <bad
        status_is 1
        wrote_nothing
        says "standard input:$((records + 1)):1: expected reset"
    done
    lesson_of 20000 'wriet 13 10' >bad
    start lesson bad
    status_is 1
    wrote_nothing
    says 'nothing was run'
    asked="a pipe of 20,001 lines | ./run lesson assemble"
    lesson_of 20000 'wriet 13 10' | { "$run" lesson assemble >out 2>said; echo $? >ended; }
    status=$(cat ended)
    status_is 1
    wrote_nothing
}

trial_lesson_long_tape() { # a good lesson of any length makes its whole tape, and nothing is left in the folder for temporary files
    ls -d /tmp/lesson-* >before 2>/dev/null
    for records in 1 8191 8192 8193 20000; do
        lesson_of $records >text
        printf '\002\020\0\0\0\0\0\0' >t
        while [ "$(($(wc -c <t)))" -lt $((records * 8)) ]; do cat t t >twice; mv twice t; done
        truncate -s $((records * 8)) t
        start lesson assemble text
        status_is 0
        silent
        wrote t
    done
    start lesson assemble <text
    status_is 0
    wrote t
    ls -d /tmp/lesson-* >after 2>/dev/null
    same before after
}

trial_lesson_no_room_for_tape() { # a long tape that cannot be held back: a message, status 1, and no byte of it goes out
    lesson_of 40000 >text
    asked='./run lesson assemble text (with files of at most 131,072 bytes)'
    {
        (
            ulimit -f 256
            exec timeout "$limit" "$run" lesson assemble text 2>said
        )
        echo $? >ended
    } | cat >out
    status=$(cat ended)
    status_is 1
    wrote_nothing
    says_of lesson: 'File too large'
}

# fails_at PLACES WORDS..: the words' output is cut short at these bytes, counted from its end where they are below zero: each time a message and
# status 1. With room for all of it, it ends well.
fails_at() {
    places=$1
    shift
    start "$@"
    status_is 0
    length=$(($(wc -c <out)))
    for place in $places; do
        [ "${place#-}" = "$place" ] || place=$((length + place))
        if [ "$place" -lt 0 ] || [ "$place" -ge "$length" ]; then continue; fi
        start_into "$place" "$@"
        status_is 1
        says 'standard output: File too large'
        expect 'bytes written' 2097152 "$(stat -c %s filled)"
    done
    start_into "$length" "$@"
    status_is 0
    silent
}

trial_lesson_rows_not_written() { # a write of a lesson's rows that fails is told with status 1: title, heads, rows, memory rows, last byte
    cp "$lessons/count.lesson" .
    fails_at '0 1 14 20 93 95 1000 -250 -200 -140 -100 -68 -60 -20 -1' lesson count.lesson
    # the heads of a second lesson
    good >b.lesson
    start lesson count.lesson
    first=$(($(wc -c <out)))
    fails_at "$first $((first + 4)) $((first + 12))" lesson count.lesson b.lesson
}

trial_lesson_filters_not_written() { # a write of a filter that fails is told with status 1, wherever it happens
    cp "$lessons/count.lesson" .
    fails_at '0 -1' lesson assemble count.lesson
    lesson_of 8200 >long
    fails_at '0 65536 -1' lesson assemble long
    fails_at '20 200 -100 -1' lesson pieces count.lesson
    cp "$tape" t
    fails_at '0 -1' lesson list t
    cp "$answers" a
    fails_at '40 90 -1' lesson explain a
}

trial_lesson_full_disk() { # a full disk as standard output: a message and status 1, of each command, and the lessons after it are not begun
    good >b.lesson
    good_tape >t
    for words in 'b.lesson b.lesson b.lesson' 'pieces b.lesson' 'listing b.lesson' 'try b.lesson' card 'card 2A' 'assemble b.lesson' 'list t' "explain $answers"; do
        asked="./run lesson $words >/dev/full"
        # shellcheck disable=SC2086
        "$run" lesson $words >/dev/full 2>said
        status=$?
        status_is 1
        says 'standard output: No space left on device'
        expect 'lines of messages' 1 "$(($(wc -l <said)))"
    done
}

trial_lesson_closed_pipe() { # nobody reads the output: status 141 and no message, of each command
    good >b.lesson
    good_tape >t
    open_closed_pipe
    for words in b.lesson 'pieces b.lesson' 'listing b.lesson' 'try b.lesson' card 'card 2A' 'assemble b.lesson' 'list t' "explain $answers"; do
        asked="./run lesson $words (into a closed pipe)"
        # shellcheck disable=SC2086
        "$run" lesson $words >&6 2>said
        status=$?
        status_is 141
        silent
    done
}

# page_rows HEAD: the rows of the tables in docs/LESSON.md whose first column is headed so: each text of that column, a tab, the message.
page_rows() {
    head=$1 awk '
        /^\| *[a-z]/ { inside = index($0, "| " ENVIRON["head"]) == 1 }
        inside && /^\| `/ {
            at = index($0, " | ")
            message = substr($0, at + 4)
            sub(/`.*/, "", message)
            count = split(substr($0, 3, at - 3), text, "`")
            for (i = 2; i <= count; i += 2) print text[i] "\t" message
        }' "$root/docs/LESSON.md"
}

trial_lesson_page() { # each line in the tables of messages of docs/LESSON.md gets the message that stands there, with its column
    page_rows line >rows
    number=0
    set --
    tab=$(printf '\t')
    while IFS=$tab read -r line message; do
        number=$((number + 1))
        mkdir $number
        # a line is given as printf writes it
        # shellcheck disable=SC2059
        printf "$line\n" >"$number/x.lesson"
        set -- "$@" "$number/x.lesson"
        printf '%s\n' "$number/$message" >>expected
    done <rows
    [ "$number" -ge 20 ] || { wrong 'lines in the tables' '20 or more' "$number"; return; }
    start lesson "$@"
    asked='./run lesson'
    status_is 1
    wrote_nothing
    number=0
    while IFS= read -r message; do
        number=$((number + 1))
        grep -qxF -e "$message" said || wrong "the line '$(cat $number/x.lesson)'" "$message" "$(grep "^$number/" said | sed 1q)"
    done <expected
}

trial_lesson_page_usage() { # wrong usage gets the message that stands in the table of docs/LESSON.md, and the usage
    page_rows arguments >rows
    [ "$(($(wc -l <rows)))" -ge 4 ] || { wrong 'rows of the table' '4 or more' "$(cat rows)"; return; }
    tab=$(printf '\t')
    while IFS=$tab read -r words message; do
        eval "start lesson $words"
        usage
        grep -qxF -e "$message" said || wrong message "$message" "$(what_it_said)"
    done <rows
}

trial_lesson_messages() { # bad lines and bad files are told by file, line and column, and nothing is run
    : >empty
    printf '# a comment\n\n' >comments
    printf 'reset\nwrite 13 10' >cut
    { echo reset; head -c 10000 /dev/zero | tr '\0' x; printf '\nwriet\n'; } >long
    { printf '# '; head -c 10000 /dev/zero | tr '\0' x; printf '\nreset\n'; } >comment
    mkdir folder
    yes wriet | head -n 25 >many
    printf 'advance x\n' >pulses
    printf 'advance 65535\nadvance 65536\nadvance 4294967295\n' >limit
    start lesson empty comments cut long comment folder many pulses missing.lesson limit
    status_is 1
    says_of empty 'there is no record in it; nothing was run'
    says_of comments 'there is no record in it; nothing was run'
    says_of cut:2:12: 'expected a line feed at the end of the last line'
    says_of long:2:1001: 'at most 1000 characters'
    says_of long:3:1: 'expected reset'
    says_of 'long: bad lines: 2' 'nothing was run'
    says_of comment:1:1001: 'at most 1000 characters'
    says_of folder 'Is a directory'
    expect 'messages of many bad lines' 10 "$(grep -c '^many:[0-9]*:1: ' said)"
    says_of 'many: bad lines: 10' 'nothing was run'
    says_of pulses:1:9: 65535
    ! grep -q 4294967295 said || wrong message 'the limit that the board has' "$(grep 4294967295 said)"
    # a pulse too many is a good line that the board refuses, by number
    expect 'the title' limit "$(head -n 1 out)"
    expect 'the end' 'records: 3, refused: 2' "$(grep ^records out)"
    asked='cat a lesson | ./run lesson /dev/stdin'
    good | { "$run" lesson /dev/stdin >out 2>said; echo $? >ended; }
    status=$(cat ended)
    status_is 1
    wrote_nothing
    says_of /dev/stdin 'not a file that can be read twice; nothing was run'
}

trial_lesson_unseen_bytes() { # bytes that cannot be seen are named as what they are, in the right column
    printf '\357\273\277reset\n' >bom
    printf 'reset\n  \357\273\277reset\n' >later
    printf '\377\376r\0e\0s\0e\0t\0\n\0' >utf16
    printf '\376\377\0r\0e\0s\0e\0t\0\n' >utf16be
    printf 'read\302\24010\n' >nobreak
    printf 'reset \302\240\n' >after
    printf 'write 13 1\342\200\2130\n' >zerowidth
    printf 'write\302\255 13 10\n' >hyphen
    printf 'write\343\200\20013 10\n' >wide
    printf 'read\00110\n' >control
    printf 'read 1\0000\n' >nul
    printf 'reset\frread 10\n' >feed
    printf 'read 10\033\n' >escape
    printf 'read 10\177\n' >delete
    printf 'reset\rread 10\n' >cr
    printf 'reset\r\r\n' >crcr
    printf 'read 1\320\236\n' >letter
    start lesson bom later utf16 utf16be nobreak after zerowidth hyphen wide control nul feed escape delete cr crcr letter
    status_is 1
    wrote_nothing
    says_of bom:1:1: 'byte order mark'
    says_of later:2:3: 'byte order mark'
    says_of utf16:1:1: UTF-16
    says_of utf16be:1:1: UTF-16
    says_of nobreak:1:5: 'no-break space'
    says_of after:1:7: 'no-break space'
    says_of zerowidth:1:11: 'not seen'
    says_of hyphen:1:6: 'soft hyphen'
    says_of wide:1:6: space
    says_of control:1:5: 'control character'
    says_of control:1:5: 01
    says_of nul:1:7: 'control character'
    says_of feed:1:6: 'control character'
    says_of escape:1:8: 'control character'
    says_of escape:1:8: 1B
    says_of delete:1:8: 'control character'
    says_of cr:1:6: 'carriage return'
    says_of crcr:1:6: 'carriage return'
    says_of letter:1:7: D0
    sends_nothing
}

trial_lesson_lone_cr_in_comment() { # a carriage return alone is named inside a comment too, since what follows it is not run; in any line
    many_x() { head -c 1500 /dev/zero | tr '\0' x; }
    printf 'reset # a\rread 10\n' >short
    printf '# a file whose lines end in CR\rreset\rread 10\r' >mac
    printf 'reset\n# end\rread 10' >last
    { printf '# a\r'; many_x; printf '\nreset\n'; } >early
    for place in short:1:10: mac:1:31: last:2:6: early:1:4:; do
        start lesson "${place%%:*}"
        status_is 1
        wrote_nothing
        says_of "$place" 'a carriage return that no line feed follows'
        says 'nothing was run'
        start lesson assemble <"${place%%:*}"
        status_is 1
        wrote_nothing
        says 'a carriage return that no line feed follows'
    done
}

trial_lesson_good_blanks() { # a tab, CR LF, blanks at the end, and in a comment any byte but a lone CR are good
    printf '\treset\t# \302\240\001\357\273\277\033\nwrite\t13\t10\r\n  read 10  \r\n\r\n# end\r\n' >blanks
    start lesson assemble blanks
    status_is 0
    silent
    good_tape >t
    wrote t
}

trial_lesson_endless() { # what never ends stops after its messages: a text of bad lines, a line without end, random bytes
    limit=10
    mkfifo p
    yes nonsense >p 2>/dev/null &
    start lesson assemble <p
    wait $!
    status_is 1
    wrote_nothing
    expect 'bad lines told' 10 "$(grep -c 'standard input:[0-9]*:1: ' said)"
    says 'there may be more'
    for device in /dev/zero /dev/urandom; do
        start lesson assemble <"$device"
        status_is 1
        wrote_nothing
        start lesson assemble "$device"
        status_is 1
        wrote_nothing
        start lesson "$device"
        status_is 1
        wrote_nothing
        [ "$(($(wc -l <said)))" -le 13 ] || wrong 'lines of messages' '13 or fewer' "$(($(wc -l <said)))"
    done
    start lesson /dev/zero
    says_of /dev/zero:1:1001: 'at most 1000 characters'
    for words in list explain; do
        asked="./run lesson $words </dev/zero | head -n 1"
        { timeout "$limit" "$run" lesson "$words" </dev/zero 2>said; echo $? >ended; } | head -n 1 >out
        status=$(cat ended)
        status_is 141
        expect 'lines' 1 "$(($(wc -l <out)))"
    done
}

trial_lesson_names_shown() { # control characters in a name are shown, not sent, in titles and in messages; other names are as they are
    name=$(printf 'a\033[31mb\nc')
    good >"$name"
    start lesson "$name"
    status_is 0
    expect 'the title' 'a\x1B[31mb\x0Ac' "$(head -n 1 out)"
    echo wriet >"$name"
    for words in '' assemble; do
        # shellcheck disable=SC2086
        start lesson $words "$name"
        status_is 1
        says_of 'a\x1B[31mb\x0Ac:1:1:' 'expected reset'
        sends_nothing
    done
    start lesson "x$name"
    status_is 1
    says_of 'xa\x1B[31mb\x0Ac' 'No such file or directory'
    for name in 'a b.lesson' "it's" 'müde.lesson' ./-x '*.lesson'; do
        good >"$name"
        start lesson "$name"
        status_is 0
        expect 'the title' "$name" "$(head -n 1 out)"
    done
}

trial_lesson_name_not_text() { # a name that is not UTF-8 is told, with status 1, and the lessons after it still run
    name=$(printf 'a\377.lesson')
    good >"$name"
    good >b.lesson
    start lesson b.lesson
    cp out one
    start lesson "$name" b.lesson
    status_is 1
    says_of "$name" 'the name is not UTF-8'
    wrote one
}

# The answer column, as one line.
answer_column() { cut -c42-73 out | tr -s ' \n' ' '; }

# The column of what was asked, as one line.
asked_column() { cut -c14-41 out | tr -s ' \n' ' '; }

# row_says PART: the answer column of the last run has it.
row_says() { case $(answer_column) in *"$1"*) ;; *) wrong 'the row' "'$1'" "$(answer_column)" ;; esac; }

trial_lesson_status_6() { # status 6, of modes 2 and 3, says in a two-byte count that the low byte is kept, and what to write next; in a one-byte count it does not
    for mode in 4 6; do
        printf 'write 13 3%s\nwrite 10 01\nwrite 10 00\n' "$mode" >two
        printf 'write 13 1%s\nwrite 10 01\n' "$mode" >one
        start lesson two
        status_is 0
        expect 'the end' 'records: 3, refused: 1' "$(grep ^records out)"
        for part in '6: a count of 1 is not for modes 2 and 3' 'low byte is kept' 'high byte' 'control word again'; do row_says "$part"; done
        awk 'length > 80 { exit 1 }' out || wrong 'columns of a row' '80 at the most' "$(awk 'length > 80' out)"
        start lesson one
        row_says '6: a count of 1 is not for modes 2 and 3'
        column=$(answer_column)
        case $column in *'low byte'*) wrong 'the row of a one-byte count' 'nothing about a low byte' "$column" ;; esac
        # and that is what the board does: the high byte alone makes the count good
        printf 'write 13 3%s\nwrite 10 01\nwrite 10 00\nwrite 10 01\n' "$mode" >two
        start lesson two
        expect 'the end' 'records: 4, refused: 1' "$(grep ^records out)"
    done
    # the other modes take a count of 1
    for mode in 0 2 8 A; do
        printf 'write 13 1%s\nwrite 10 01\nwrite 13 3%s\nwrite 10 01\nwrite 10 00\n' "$mode" "$mode" >x
        start lesson x
        expect 'the end' 'records: 5, refused: 0' "$(grep ^records out)"
    done
}

trial_lesson_modes() { # a control word is shown with its mode, 0 to 5 by eight codes, and taken; with BCD it is refused, and the row says why
    for code in '0 1 0' '2 3 1' '4 5 2' '6 7 3' '8 9 4' 'A B 5' 'C D 2' 'E F 3'; do
        # shellcheck disable=SC2086
        set -- $code
        printf 'write 13 1%s\nread 10\n' "$1" >x
        start lesson x
        status_is 0
        expect 'the end' 'records: 2, refused: 0' "$(grep ^records out)"
        case $(asked_column) in *"control: 1$1 (mode $3, low byte)"*) ;; *) wrong 'the row' "mode $3" "$(sed -n 3,4p out)" ;; esac
        row_says 'waits for a count'
        printf 'write 13 1%s\n' "$2" >x
        start lesson x
        expect 'the end' 'records: 1, refused: 1' "$(grep ^records out)"
        case $(asked_column) in *"control: 1$2 (mode $3, BCD)"*) ;; *) wrong 'the row' "mode $3, BCD" "$(sed -n 3,4p out)" ;; esac
        row_says '4: not built, counting in BCD '
    done
}

trial_lesson_int_low() { # an acknowledge with INT low is answered as level 7, by vector or CALL, and the row says why INT is low; explain has the bytes alone, and says of a 5 that it is never given
    printf 'write 00 13\nwrite 01 40\nwrite 01 01\n' >vector
    printf 'write 00 B6\nwrite 01 12\n' >call
    for mode in 'vector:vector 47 (level 7)' 'call:CALL 12BC (level 7)'; do
        for cause in 'no level asks:' 'no level asks:intp 20\nintp 00\n' 'every level that asks is masked:write 01 08\nintp 08\n' \
            'level 5 is in service and not outranked:intp 20\nacknowledge\nintp 60\n'; do
            # shellcheck disable=SC2059
            { cat "${mode%%:*}"; printf "${cause#*:}acknowledge\n"; } >x
            start lesson x
            status_is 0
            expect 'the end' "records: $(($(wc -l <x))), refused: 0" "$(grep ^records out)"
            row_says "${mode#*:}: INT is low, ${cause%%:*}; answered as level 7"
            awk 'length > 80 { exit 1 }' out || wrong 'columns of a row' '80 at the most' "$(awk 'length > 80' out)"
        done
        # line 7 itself: INT is high, and there is nothing more to say
        { cat "${mode%%:*}"; printf 'intp 80\nacknowledge\n'; } >x
        start lesson x
        row_says "${mode#*:}"
        case $(answer_column) in *'INT is low'*) wrong 'the row with INT high' 'nothing about INT' "$(answer_column)" ;; esac
    done
    printf '\0\004\107\0\0\0\0\0\0\0\0\0\0\0\0\0\005\004\0\0\0\0\0\0\0\0\0\0\0\0\0\0' >answers
    start lesson explain answers
    status_is 0
    row_says 'vector 47 (level 7) 5: this board never gives it'
}

trial_lesson_slave() { # the slave's lines and ports go to a tape and back; an acknowledge says what the slave gives, or why nothing, or how the two chips differ; a wrong IW3 is refused, and the row has the right one
    printf 'slave 08\nslave FF\nwrite 30 11\nread 31\n' >b.lesson
    printf '\003\003\010\0\0\0\0\0\003\003\377\0\0\0\0\0\001\060\021\0\0\0\0\0\002\061\0\0\0\0\0\0' >t
    start lesson assemble b.lesson
    status_is 0
    wrote t
    start lesson list t
    status_is 0
    wrote b.lesson
    low="vector 3F (level 7): level 7, but the slave's INT is low"
    while IFS='|' read -r records row; do
        # shellcheck disable=SC2059
        { printf 'write %s\n' '00 11' '01 40' '01 80' '01 01' '30 11' '31 38' '31 07' '31 01'; printf "$records"; echo acknowledge; } >x
        start lesson x
        status_is 0
        row_says "$row"
        awk 'length > 80 { exit 1 }' out || wrong 'columns of a row' '80 at the most' "$(awk 'length > 80' out)"
    done <<END
slave 20\n|vector 3D (level 5): level 7, and the slave gives its level 5
slave 20\nslave 00\n|vector 47 (level 7): INT is low, no level asks; answered as level 7
intp 80\n|$low, no level asks; answered as its level 7
write 31 08\nslave 08\nintp 80\n|$low, every level that asks is masked; answered as its level 7
slave 08\nacknowledge\nwrite 00 20\nslave 48\nintp 80\n|$low, level 3 is in service and not outranked; answered as its level 7
write 30 11\n|3: out of turn, the master is extended, and the slave waits for IW2 at port 31
write 30 11\nwrite 31 38\n|3: out of turn, the master is extended, and the slave waits for IW3 at port 31
write 30 13\nwrite 31 38\nwrite 31 01\n|3: out of turn, the master is extended and the slave is single
write 00 13\nwrite 01 40\nwrite 01 01\n|3: out of turn, the master is single and the slave is extended
write 30 10\nwrite 31 38\nwrite 31 07\n|3: out of turn, the master is in vector mode and the slave in CALL mode
write 00 11\nwrite 01 40\nwrite 01 07\n|4: not built, any slave but one on line 7; IW3 must be 80 here
write 30 11\nwrite 31 38\nwrite 31 80\n|4: not built, any slave but one on line 7; IW3 must be 07 here
END
    # line 7 of a single master is a line like others, whoever raises it
    printf 'write 00 13\nwrite 01 40\nwrite 01 01\nwrite 30 13\nwrite 31 38\nwrite 31 01\nslave 20\nacknowledge\n' >x
    start lesson x
    row_says 'vector 47 (level 7); in service: 7 '
}

trial_lesson_readme() { # README.md has the first rows that its first lesson prints, and has every lesson, in the order of their numbers
    ln -s "$lessons" lessons
    start lesson lessons/finish.lesson
    status_is 0
    sed -n '/^## Run a lesson/,/^## The lessons/s/^    //p' "$root/README.md" | sed -n '/^lessons\/finish[.]lesson$/,$p' >shown
    # the page has the first rows, and then two dots
    expect 'the end of what README.md shows' .. "$(tail -n 1 shown)"
    sed '$d' shown >rows
    head -n "$(($(wc -l <rows)))" out >head
    cmp -s head rows || wrong 'what README.md shows' "$(diff rows head | sed -n '2s/^> //p')" "$(diff rows head | sed -n 's/^< //p' | sed 1q)"
    # shellcheck disable=SC2016
    sed -n 's/^| `\([a-z]*[.]lesson\)` .*/\1/p' "$root/README.md" >listed
    number=0
    while IFS= read -r lesson; do
        number=$((number + 1))
        grep -q "^# Lesson $number: " "lessons/$lesson" || wrong "$lesson" "the heading of lesson $number" "$(head -n 1 "lessons/$lesson")"
    done <listed
    set -- lessons/*.lesson
    expect 'lessons in README.md' $# "$number"
}

# A lesson in which channel 0, in the given mode, moves two bytes at the addresses 2 and 3.
transfer() { # MODE BYTE BYTE
    printf 'write %s\n' '21 00' '22 01' '23 00' '24 02' '25 00' '26 00' "2A $1" '2F 0E'
    printf 'requests 01\ncycle\ncycle %s\ncycle\ncycle %s\n' "$2" "$3"
}

trial_lesson_zero_bytes() { # bytes that were moved and are 0 count as moved; 'nothing changed' stands only where no unit arrived in memory
    transfer 44 00 00 >zeros
    transfer 44 00 41 >mixed
    transfer 48 00 00 >reads
    start lesson zeros
    status_is 0
    ! grep -q 'nothing changed' out || wrong 'the end' 'the memory that was written' "$(tail -n 1 out)"
    expect 'the last row' '  000000  -- -- 00 00 -- -- -- -- -- -- -- -- -- -- -- --  ................' "$(tail -n 1 out)"
    start lesson mixed
    expect 'the last row' '  000000  -- -- 00 41 -- -- -- -- -- -- -- -- -- -- -- --  ...A............' "$(tail -n 1 out)"
    start lesson reads
    expect 'cycles that moved a byte from memory' 2 "$(grep -c 'from memory' out)"
    expect 'the last row' 'memory: nothing changed' "$(tail -n 1 out)"
}

# A lesson in which channel 0, in the given mode, moves three bytes from an address on. In single mode each has a grant before it, in block mode the first.
three_at() { # MODE HIGH MIDDLE LOW
    printf 'write %s\n' '21 00' '22 02' '23 00' "24 $4" "25 $3" "26 $2" "2A $1" '2F 0E'
    printf 'requests 01\ncycle\ncycle 41\ncycle 42\ncycle 43\ncycle 44\ncycle 45\n'
}

trial_lesson_past_the_end() { # a unit past the end of memory is told in its row, as lost or as FF, and counted at the end; a verified one is not; explain says it by byte 12 of the answer
    while IFS='|' read -r mode counted inside first last; do
        three_at "$mode" 00 FF FF >x
        start lesson x
        status_is 0
        row_says "channel 0: $inside channel"
        row_says "channel 0: $first channel"
        row_says "channel 0: $last "
        expect 'the end' "$counted" "$(sed -n '/^records/,/^memory/p' out | sed -n 's/^bytes //p')"
        awk 'length > 80 { exit 1 }' out || wrong 'columns of a row' '80 at the most' "$(awk 'length > 80' out)"
    done <<END
84|lost past the end of memory: 2|41 to memory 00FFFF; units left: 2|42 to memory 010000: past the end of memory, lost; units left: 1|43 to memory 010001: past the end of memory, lost; end, bus free
44|lost past the end of memory: 2|41 to memory 00FFFF; units left: 2, bus free|43 to memory 010000: past the end of memory, lost; units left: 1, bus free|45 to memory 010001: past the end of memory, lost; end, bus free
88|read past the end of memory: 2|00 from memory 00FFFF; units left: 2|FF from memory 010000: past the end of memory, reads FF; units left: 1|FF from memory 010001: past the end of memory, reads FF; end, bus free
48|read past the end of memory: 2|00 from memory 00FFFF; units left: 2, bus free|FF from memory 010000: past the end of memory, reads FF; units left: 1, bus free|FF from memory 010001: past the end of memory, reads FF; end, bus free
80||verified 00FFFF; units left: 2|verified 010000; units left: 1|verified 010001, end, bus free
END
    # where every byte is lost nothing changed; and downwards the last of three arrives
    three_at 84 10 00 00 >x
    start lesson x
    expect 'the end' 'bytes lost past the end of memory: 3 memory: nothing changed' "$(tail -n 2 out | tr '\n' ' ' | sed 's/ $//')"
    three_at A4 01 00 01 >x
    start lesson x
    row_says '42 to memory 010000: past the end of memory, lost; units left: 1 channel 0: 43 to memory 00FFFF, end, bus free'
    # answers by themselves: the address does not tell, and no other number in byte 12 does
    printf '\0\006\101\0\002\0\0\0\0\0\001\0\001\0\0\0' >answers
    printf '\0\006\102\0\002\0\001\001\001\0\001\0\001\0\0\0' >>answers
    printf '\0\006\103\0\002\0\0\001\002\0\001\0\0\0\0\0' >>answers
    printf '\0\006\104\0\002\0\0\0\003\0\001\0\002\0\0\0' >>answers
    start lesson explain answers
    status_is 0
    row_says "41 at 010000: past the end of memory, it or a word's upper byte channel"
    row_says "42 at 010001: past the end of memory, it or a word's upper byte; end, bus free channel"
    row_says '43 at 010002, bus free channel'
    row_says '44 at 010003 '
}

trial_lesson_cycles() { # a cycle goes to a tape and back with its lower byte, its upper byte and end, whatever they are; only a record that no such line makes is raw
    printf 'cycle%s\n' '' ' 00 end' ' 41' ' 41 end' ' 41 42' ' 41 42 end' ' 00 42' ' 00 42 end' >b.lesson
    printf 'raw 06 %s 00 00\n' '02 41 42 00 00' '00 41 42 01 00' >>b.lesson
    printf '\006\0\0\0\0\0\0\0\006\001\0\0\0\0\0\0' >t
    printf '\006\0\101\0\0\0\0\0\006\001\101\0\0\0\0\0' >>t
    printf '\006\0\101\102\0\0\0\0\006\001\101\102\0\0\0\0' >>t
    printf '\006\0\0\102\0\0\0\0\006\001\0\102\0\0\0\0' >>t
    printf '\006\002\101\102\0\0\0\0\006\0\101\102\001\0\0\0' >>t
    start lesson assemble b.lesson
    status_is 0
    silent
    wrote t
    start lesson list t
    status_is 0
    wrote b.lesson
    # the same records with all their bytes, and as raw ones
    printf 'cycle %s\n' 0 '0 0 end' '41 0' '41 00 end' '41   42# a comment' '41 42  end' '0 42' '00 42 end' >long
    grep ^raw b.lesson >>long
    start lesson assemble long
    status_is 0
    wrote t
    od -An -v -tx1 -w8 t | sed 's/^/raw/' >raw
    start lesson assemble raw
    status_is 0
    wrote t
}

# A lesson in which channel 0, in the given mode, moves one word on the 16-bit bus.
word_at() { # MODE HIGH MIDDLE LOW
    printf 'write %s\n' '20 02' '21 00' '22 00' '23 00' "24 $4" "25 $3" "26 $2" "2A $1" '2F 0E'
    printf 'requests 01\ncycle\ncycle 41 42\n'
}

trial_lesson_words() { # a word has both bytes in its row; at an odd address the row has the pair that is used, and that pair is written; past the end of memory both bytes count. explain tells a word by its upper byte
    while IFS='|' read -r mode address counted row; do
        # shellcheck disable=SC2086
        word_at "$mode" $address >x
        start lesson x
        status_is 0
        row_says "channel 0 gets the bus; no unit channel 0: $row; end, bus free "
        expect 'the end' "$counted" "$(sed -n '/^records/,/^memory/p' out | sed -n 's/^bytes //p')"
        awk 'length > 80 { exit 1 }' out || wrong 'columns of a row' '80 at the most' "$(awk 'length > 80' out)"
    done <<END
85|00 01 01||41 42 to memory 000101: odd, so 000100 and 000101
85|00 FF FF||41 42 to memory 00FFFF: odd, so 00FFFE and 00FFFF
85|01 00 00|lost past the end of memory: 2|41 42 to memory 010000: past the end of memory, both lost
85|01 00 01|lost past the end of memory: 2|41 42 to memory 010001: odd, so 010000 and 010001; past the end of memory, both lost
89|00 01 01||00 00 from memory 000101: odd, so 000100 and 000101
89|01 00 00|read past the end of memory: 2|FF FF from memory 010000: past the end of memory, both read FF
89|FF FF FF|read past the end of memory: 2|FF FF from memory FFFFFF: odd, so FFFFFE and FFFFFF; past the end of memory, both read FF
81|01 00 01||word verified 010001: odd, so 010000 and 010001
END
    for place in '85 00:41 42 to memory 000100' '89 00:00 00 from memory 000100' '81 00:word verified 000100' '84 01:41 to memory 000101'; do
        # shellcheck disable=SC2086
        set -- ${place%%:*}
        word_at "$1" 00 01 "$2" >x
        start lesson x
        row_says "channel 0: ${place#*:}, end, bus free "
    done
    for low in 00 01; do
        word_at 85 00 01 $low >x
        start lesson x
        expect 'the last row' '  000100  41 42 -- -- -- -- -- -- -- -- -- -- -- -- -- --  AB..............' "$(tail -n 1 out)"
    done
    # answers by themselves: with no upper byte a word is not told from a byte, and byte 12 does not say how much is past the end
    printf '\0\006\101\0\002\0\0\0\003\001\0\0\0\102\0\0' >answers
    printf '\0\006\101\0\002\0\001\001\002\001\0\0\001\102\0\0' >>answers
    printf '\0\006\101\0\002\0\0\001\003\001\0\0\001\102\0\0' >>answers
    printf '\0\006\101\0\002\0\0\0\003\001\0\0\0\0\0\0' >>answers
    start lesson explain answers
    status_is 0
    row_says '41 42 at 000103: odd, so 000102 and 000103 channel'
    row_says '41 42 at 000102: past the end of memory, the upper byte or both; end, bus free channel'
    row_says '41 42 at 000103: odd, so 000102 and 000103; past the end of memory, the upper byte or both, bus free channel'
    row_says '41 at 000103 '
}

trial_lesson_bus() { # words are for the 16-bit bus: a word mode without it, and the 8-bit bus with a word mode, are refused, and the row says what to do; a reset of the chip never is
    while IFS='|' read -r refused records row; do
        # shellcheck disable=SC2059
        printf "$records" >x
        start lesson x
        status_is 0
        expect 'the end' "records: $(($(wc -l <x))), refused: $refused" "$(grep ^records out)"
        row_says "$row"
    done <<'END'
1|write 2A 85\n|4: no words on the 8-bit bus; for the 16-bit bus write 02 to port 20 first
0|write 20 02\nwrite 2A 85\n|done done
1|write 20 02\nwrite 2A 87\n|4: not built, D1 of a mode
1|write 20 02\nwrite 2A 85\nwrite 20 00\n|4: the 8-bit bus has no words; channels in a word mode: 0. Give each a byte mode first, or reset the chip
1|write 20 02\nwrite 21 01\nwrite 2A 01\nwrite 21 03\nwrite 2A 85\nwrite 20 00\n|channels in a word mode: 1 3. Give
0|write 20 02\nwrite 2A 85\nwrite 2A 84\nwrite 20 00\n|done done done done
0|write 20 02\nwrite 2A 85\nwrite 20 03\nwrite 2A 85\n|done done every channel is masked done
1|write 20 02\nwrite 2A 85\nwrite 20 01\nwrite 2A 85\n|done done every channel is masked 4: no words on the 8-bit bus
1|write 20 02\nreset\nwrite 2A 85\n|done done 4: no words on the 8-bit bus
END
}

trial_lesson_tapes() { # an empty tape and a cut one are told, with status 1; the whole records of a cut one are shown
    good_tape >t
    good >b.lesson
    for word in list explain; do
        start lesson "$word" </dev/null
        status_is 1
        says 'is empty'
    done
    { cat t; printf '\001\002\003'; } >cut
    start lesson list cut
    status_is 1
    says 'bytes left over: 3'
    wrote b.lesson
    start lesson assemble </dev/null
    status_is 1
    says 'there is no record in it; nothing was written'
    wrote_nothing
    start lesson list <.
    status_is 1
    says 'Is a directory'
    start lesson assemble .
    status_is 1
    says 'Is a directory'
    wrote_nothing
}

trial_lesson_checks() { # a check that fails, a guess that is still asked for: status 1, and the row says both; a lesson whose checks hold ends with 0
    printf 'write 00 B6\nwrite 01 12\nwrite 00 0B\nread 00 = 00\nexpect int 0\n' >right
    start lesson right
    status_is 0
    silent
    expect 'the checks' 'checks: 2, failed: 0' "$(grep ^checks out)"
    sed 's/= 00/= 20 # a guess/' right >wrong
    start lesson wrong
    status_is 1
    silent
    row_says 'expected 20, read 00 (levels: none)'
    expect 'the checks' 'checks: 2, failed: 1' "$(grep ^checks out)"
    sed 's/= 00/= ?/' right >asked
    printf 'read 00 = ?\nwrite 01 FF\n' >>asked
    start lesson asked
    status_is 1
    silent
    row_says '? put your guess in its place'
    expect 'the others' '    6                                    ? still to be filled in' "$(grep 'still to be' out | head -n 1)"
    expect 'the guesses' 'guesses still to be filled in: 2' "$(grep ^guesses out)"
    expect 'the records' 'records: 3, refused: 0' "$(grep ^records out)"
}

trial_lesson_exercises() { # each exercise asks, answers the mistaken guess with more than the row, and is met by the right guesses; all rows stay on 80 columns
    for exercise in finish count pulse half; do
        start lesson "$lessons/exercises/$exercise.lesson"
        status_is 1
        expect 'the guesses' 'guesses still to be filled in: 4' "$(grep ^guesses out)"
        start lesson "$lessons/gate/$exercise.mistake.lesson"
        status_is 1
        expect 'failed checks' 4 "$(sed -n 's/^checks: .*, failed: //p' out)"
        expect 'answers to guesses' 4 "$(awk '/^ +[0-9]+ +[0-9]+ / { row = 1 } /^      [^ ]/ { if (row) n++; row = 0 } END { print n + 0 }' out)"
        awk 'length > 80 { exit 1 }' out || wrong 'columns' '80 at the most' "$(awk 'length > 80' out)"
        start lesson "$lessons/gate/$exercise.right.lesson"
        status_is 0
        expect 'failed checks' 0 "$(sed -n 's/^checks: .*, failed: //p' out)"
    done
}

trial_lesson_same_tape() { # checks, guesses, memory and show make no record: the tape is that of the plain lesson; texts and repeats are as many records
    for name in finish count pulse half; do
        start lesson assemble "$lessons/exercises/$name.lesson"
        status_is 0
        cp out t
        sed -e 's/=.*//' -e '/^guess/d' -e '/^memory/d' -e '/^expect/d' "$lessons/exercises/$name.lesson" >plain
        start lesson assemble plain
        status_is 0
        wrote t
    done
    printf 'memory 0 "x"\nrepeat 2 cycle "Br" = nothing\nrepeat 3 read 10\nshow\n' >short
    printf 'cycle 42\ncycle 72\ncycle 42\ncycle 72\nread 10\nread 10\nread 10\n' >long
    start lesson assemble long
    cp out t
    start lesson assemble short
    status_is 0
    wrote t
    # more records than the buffer holds, of one line
    printf 'repeat 65535 cycle "ab"\n' >many
    start lesson assemble many
    status_is 0
    expect 'bytes' 1048560 "$(($(wc -c <out)))"
}

trial_lesson_try() { # a line in, its row out, at once; a bad line is told and the next goes on; again starts from reset; the end of the input ends it
    mkfifo in
    "$run" lesson try <in >out 2>said &
    exec 5>in
    echo 'write 13 10' >&5
    tries=0
    until grep -q 'counter 0 control' out || [ $tries -ge 100 ]; do sleep 0.1; tries=$((tries + 1)); done
    grep -q 'counter 0 control' out || wrong 'the row' 'at once' "$(cat out)"
    printf 'wriet\nshow timer\nagain\nshow timer\ncard 13\nread 10\n' >&5
    exec 5>&-
    wait $!
    status=$?
    asked='./run lesson try'
    status_is 1
    says_of 'lesson: standard input:2:1:' 'expected reset'
    expect 'counters' 'counter 0: mode 0 counter 0: no mode' "$(sed -n 's/^ *\(counter 0: [a-z]* [a-z0-9]*\).*/\1/p' out | tr '\n' ' ' | sed 's/ $//')"
    expect 'the end' 'records: 2, refused: 1' "$(grep ^records out)"
    printf 'write 13 10\n' >b.try
    start lesson try <b.try
    status_is 0
    silent
}

trial_lesson_cards() { # every port and every word of the index has a card of at most 23 lines of 79 columns; what has none is told
    start lesson card
    status_is 0
    cp out index
    for word in $(sed 's/:.*//' index); do
        start lesson card "$word"
        status_is 0
        silent
        awk 'length > 79 { exit 1 } END { if (NR > 23) exit 1 }' out || wrong "the card of $word" '23 lines of 79 columns at the most' "$(wc out)"
    done
    start lesson card 99
    status_is 1
    wrote_nothing
    says_of 99 'there is no such card'
}

trial_lesson_listing() { # listing has the rows of a lesson, and its comments and empty lines between them
    start lesson "$lessons/finish.lesson"
    cp out rows
    start lesson listing "$lessons/finish.lesson"
    status_is 0
    grep -v -e '^#' -e '^$' out >bare
    cmp -s bare rows || wrong 'the rows' 'those of the lesson' "$(diff bare rows | head -n 4)"
    expect 'comments' "$(grep -c '#' "$lessons/finish.lesson")" "$(grep -c '^#' out)"
    expect 'empty lines' "$(grep -c '^$' "$lessons/finish.lesson")" "$(grep -c '^$' out)"
}
