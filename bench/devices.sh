#!/usr/bin/env bash
# devices.sh [PROGRAM]: what the program answers where a file can't be read, or its output goes nowhere.
# Prints each run's status, and the lines that it wrote. The status is 1 where one is not as it should be.
program=$(readlink -f "${1:-$(dirname "$0")/../crates/movep/out/movep}")
example=$(readlink -f "$(dirname "$0")/../examples/sum.move")
folder=$(mktemp -d)
trap 'rm -rf "$folder"' EXIT
wrong=0

# say NAME WANTED STATUS: prints what a run ended with, and what it wrote into the file `out`.
say() {
    local verdict=ok
    [ "$3" -eq "$2" ] || { verdict="WRONG, it should be $2" && wrong=1; }
    echo "$1: status $3 ($verdict)"
    sed 's/^/    /' out
    : >out
}

# Runs the program as a user without root's rights, for whom a file can be unreadable.
as_user() {
    if [ "$(id -u)" -eq 0 ]; then
        setpriv --reuid=65534 --regid=65534 --clear-groups ./movep "$@"
    else
        ./movep "$@"
    fi
}

cd "$folder" || exit 1
cp "$program" movep && cp "$example" a.move && cp "$example" secret.move || exit 1
mkdir folder
chmod 755 . movep
chmod 000 secret.move
: >out

./movep folder >out
say 'a directory' 3 $?

as_user secret.move >out
say 'a file without read permission' 3 $?

./movep missing.move >out
say 'a missing file' 3 $?

./movep a.move >/dev/full
say 'a full device as standard output' 3 $?

./movep a.move >&-
say 'a closed standard output' 3 $?

# The reader of the pipe is gone before the program begins.
(sleep 0.5 && ./movep a.move; echo $? >status) | true
say 'a closed pipe as standard output' 3 "$(cat status)"

./movep >/dev/full
say 'no word and a full device' 3 $?

exit $wrong
