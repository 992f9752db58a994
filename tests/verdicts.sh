# Read by look.sh and lwflow.sh: goes to the root, makes a room for a run's files, and counts verdicts.
# shellcheck shell=sh disable=SC2034
export LC_ALL=C
root=$(dirname -- "$(dirname -- "$(readlink -f -- "$0")")")
cd -- "$root" || exit 1
room=$(mktemp -d) || exit 1
trap 'rm -rf "$room"' EXIT
trap 'exit 1' HUP INT TERM
passed=0 && failed=0
library=bench/libs/mcnc.genlib

# What failed is shown with what it wrote: the files out and err of the room, as far as they are there.
verdict() { # WHAT STATUS
    if [ "$2" -eq 0 ]; then passed=$((passed + 1)); else
        failed=$((failed + 1)) && echo "FAILED: $1"
        for said in "$room/out" "$room/err"; do [ ! -e "$said" ] || sed 's/^/    /' "$said"; done
    fi
}

# Says how many passed; the status is 0 where none failed and at least one was given.
told() {
    echo "$passed passed, $failed failed"
    [ "$failed" -eq 0 ] && [ "$passed" -gt 0 ]
}
