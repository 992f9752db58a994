# Read by the scripts beside it, which set 'runs' and 'room', and 'limit' or 'program': the least processor time of some runs
# goes to 'best', in milliseconds with two decimals, and the most memory to 'memory', in megabytes. One run more comes first,
# which tells the memory, and whose writing is left in the room.
# shellcheck shell=sh disable=SC2034,SC2154
least() { # COMMAND..
    best= && memory=0
    timeout "$limit" /usr/bin/time -f '%M' -o "$room/took" "$@" >"$room/out" 2>"$room/err" || return
    memory=$(awk '{ printf "%d", $1 / 1024 }' "$room/took")
    best=$(python3 "$root/bench/took.py" "$runs" "$@")
}

# The same of a run of 'program' that has to end with a status: the least time in milliseconds goes to 'best', the most memory in
# kilobytes to 'memory', and what the last run wrote stays in out and err. Where it ends otherwise, the script ends.
ended() { # SCRIPT STATUS WORD..
    script=$1 && wanted=$2 && shift 2
    best='' && memory=0
    for _ in $(seq "$runs"); do
        status=0
        /usr/bin/time -q -f '%U %S %M' -o "$room/took" "$program" "$@" >"$room/out" 2>"$room/err" || status=$?
        [ "$status" -eq "$wanted" ] || { echo "$script: $1 ended with $status: $(head -c 100 "$room/err")" >&2 && exit 1; }
        took=$(awk '{ printf "%d", ($1 + $2) * 1000 + 0.5 }' "$room/took")
        most=$(awk '{ print $3 }' "$room/took")
        if [ -z "$best" ] || [ "$took" -lt "$best" ]; then best=$took; fi
        if [ "$most" -gt "$memory" ]; then memory=$most; fi
    done
}
