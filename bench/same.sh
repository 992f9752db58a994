# Read by the scripts beside it, which set 'root', 'room' and 'limit': whether two networks of plain nodes are the same, as lwequal
# says, or ABC's 'cec' where lwequal is undecided.
# shellcheck shell=sh disable=SC2034,SC2154

# Leaves the verdict in 'verdict', and in the room for 'spoken'. The status is 0 for equal, 1 for different and 2 for undecided.
same() { # NETWORK NETWORK
    answer=0
    verdict=$(python3 "$root/bench/same.py" "$1" "$2" "$limit") || answer=$?
    echo "$verdict" >>"$room/verdicts"
    return $answer
}

# How many pairs have each verdict since it was last called, on one line.
spoken() {
    [ -e "$room/verdicts" ] || return 0
    sort "$room/verdicts" | uniq -c | awk '{ n = $1; $1 = ""; printf "%s%d%s", (NR > 1 ? ", " : ""), n, $0 } END { print "" }'
    rm "$room/verdicts"
}
