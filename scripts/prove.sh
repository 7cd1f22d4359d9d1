# prove.sh ROOT CRATE..: proves these crates of a checkout, which stand in the order of their use, and builds the last. rt works in a crate's folder, and keeps
# others out of the crates below it: so they go one after another, and rt itself proves a large one by several processes. build.sh starts it, has the lock, and tells
# how far it is.
# shellcheck shell=sh
set -u
root=$1
shift
exec 4>&1
for crate; do
    cd "$root/crates/$crate" || exit 2
    # A program is built by running it. It is asked how it is called, which does nothing else.
    if [ -f src/main.rt ]; then set -- rt run -- --help; else set -- rt lib; fi
    echo "== proving $crate"
    # Files are named from the checkout on.
    status=$({ { "$@" 2>&1 </dev/null 3>&- 4>&-; echo $? >&3; } | sed -u -E "s;^(.* --> )?((src|specs|proofs)/);\1crates/$crate/\2;" >&4; } 3>&1)
    [ "$status" = 0 ] || exit "$status"
    echo "== proved $crate"
done
