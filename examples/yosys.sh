# Read by verilog.sh, which names itself in 'name' and the repository in 'root'.
# shellcheck shell=sh disable=SC2034,SC2154
limit=${LIMIT:-60}

fail() { # TEXT..
    echo "$name: $*" >&2
    exit 1
}

# Runs Yosys in 'folder' for at most 'limit' seconds. Its errors are shown, and the first loop that its check found.
run_yosys() { # LOG PASSES FILE..
    log=$folder/$1 && passes=$2 && shift 2
    status=0
    timeout "$limit" yosys -q -l "$log" -p "$passes" "$@" >/dev/null 2>&1 || status=$?
    [ "$status" -ne 0 ] || return 0
    [ "$status" -ne 124 ] || fail "Yosys took over $limit s; see $log"
    awk -v name="$name" '
        /^Warning: found logic loop/ { loops++; on = loops == 1 }
        !/^Warning: found logic loop/ && !/^    / { on = 0 }
        on || /ERROR/ { print name ": Yosys: " $0 }' "$log" >&2
    fail "Yosys failed; see $log"
}
