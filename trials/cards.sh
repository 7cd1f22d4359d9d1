# Trials of `cards`; trials/run reads them.
# shellcheck shell=sh disable=SC2154

trial_cards() { # cards prints docs/CARDS.md, each card of it fits a screen, and an argument is wrong usage
    [ -d "$home/crates" ] || skip "a package has no program cards"
    # it may have to be built, which takes longer than a trial may
    "$run" cards >/dev/null 2>&1
    start cards
    status_is 0
    silent
    wrote "$root/docs/CARDS.md"
    expect 'what does not fit 23 lines of 79 plain characters' '' "$(awk '
        /^## / { title = substr($0, 4); lines = 1; if (length(title) > 79) print }
        /^```$/ { inside = !inside; next }
        inside { if (++lines > 23 && title) print title; if (length($0) > 79 || /[^ -~]/) print }' out)"
    for words in x --help ''; do
        start cards "$words"
        usage
    done
}

trial_cards_not_written() { # a full disk and a file with no room are told with status 1, and a closed pipe is 141
    [ -d "$home/crates" ] || skip "a package has no program cards"
    "$run" cards >/dev/null 2>&1
    asked='./run cards >/dev/full'
    timeout "$limit" "$run" cards >/dev/full 2>said
    status=$?
    status_is 1
    says 'cards: standard output: No space left on device'
    fails_at '0 100 1000 -1' cards
    open_closed_pipe
    asked='./run cards (into a closed pipe)'
    timeout "$limit" "$run" cards >&6 2>said
    status=$?
    status_is 141
    silent
}
