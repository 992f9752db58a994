#!/bin/sh
# Counts the instructions of whole runs of 'map' on the circuits of bench/circuits with the libraries of bench/libs by
# valgrind's callgrind, in millions, and those of ABC's `strash; map` where ABC is installed (Debian's packages valgrind and
# berkeley-abc). Such counts are the same in every run on one machine, whatever else it does, but say nothing of memory and of
# the system. With words it takes those circuits alone:
#
#   sh bench/instructions.sh [CIRCUIT..]
#
# LIBS names the libraries (tiny, mcnc, rich by default). The program is the one that release/program.sh finds. All of it
# takes some fifteen minutes.
set -eu
root=$(dirname -- "$(dirname -- "$(readlink -f -- "$0")")")
program=$(sh "$root/release/program.sh") || exit 1
command -v valgrind >/dev/null || { echo "instructions: there is no valgrind; it is Debian's package of that name" >&2 && exit 1; }
abc=$(command -v berkeley-abc || true)
bench=$root/bench
room=$(mktemp -d)
trap 'rm -rf "$room"' EXIT

# The instructions of a command, in millions with a decimal.
count() { # COMMAND..
    valgrind --tool=callgrind --callgrind-out-file=/dev/null "$@" 2>"$room/err" >/dev/null &&
        awk '/Collected/ { printf "%.1f", $NF / 1000000 }' "$room/err"
}

# shellcheck disable=SC2046
[ $# -gt 0 ] || set -- $(cd "$bench/circuits" && ls | sed 's/\.blif$//')
for library in ${LIBS:-tiny mcnc rich}; do
    echo "| $library | millions | of map | ratio |"
    echo "|---|---|---|---|"
    lib=$bench/libs/$library.genlib
    python3 "$bench/timing.py" -f "$lib" >"$room/flat"
    : >"$room/ratios"
    for circuit; do
        network=$bench/circuits/$circuit.blif
        ours=$(count "$program" map "$lib" "$network")
        theirs='' && ratio=''
        if [ -n "$abc" ]; then
            theirs=$(count "$abc" -q "read_genlib $room/flat; read_blif $network; strash; map; write_blif $room/abc.blif")
            ratio=$(awk -v a="$ours" -v b="$theirs" 'BEGIN { printf "%.3f", a / b }')
            echo "$ratio" >>"$room/ratios"
        fi
        echo "| $circuit | $ours | $theirs | $ratio |"
    done
    awk -v library="$library" '{ sum += log($1); n++; if ($1 > 1) more++ } END { if (n) printf "geometric mean of the ratios with %s: %.3f over %d circuits, %d of them above 1\n\n", library, exp(sum / n), n, more }' "$room/ratios"
done
