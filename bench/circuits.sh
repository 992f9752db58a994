#!/bin/sh
# Maps the circuits of bench/circuits with the libraries of bench/libs, and prints a table: the processor time of the
# whole program, the most memory that it held, the delay and the gates of what it wrote, and the same time and delay of
# ABC's command 'map', where ABC is installed (Debian's package berkeley-abc), with the ratio of the times. With -e each
# netlist is shown equal to its circuit by lwequal, or by ABC's 'cec' where that is undecided, and the last line of a table says how
# many by which. With words it takes those circuits alone:
#
#   sh bench/circuits.sh [-e] [CIRCUIT..]
#
# LIBS names the libraries (tiny, mcnc, rich by default), LIMIT the seconds that a run may take (60), RUNS how often each
# is run (3); the least time counts. The program is the one that release/program.sh finds.
set -eu
root=$(dirname -- "$(dirname -- "$(readlink -f -- "$0")")")
program=$(sh "$root/release/program.sh") || exit 1
[ -x /usr/bin/time ] || { echo "circuits: there is no /usr/bin/time; it is Debian's package time" >&2 && exit 1; }
abc=$(command -v berkeley-abc || true)
equivalence=
if [ "${1:-}" = -e ]; then equivalence=yes && shift; fi
bench=$root/bench
limit=${LIMIT:-60}
runs=${RUNS:-3}
room=$(mktemp -d)
trap 'rm -rf "$room"' EXIT

# shellcheck source=bench/least.sh
. "$bench/least.sh"
# shellcheck source=bench/same.sh
. "$bench/same.sh"

# The same; what a run that failed said is shown.
heard() { # COMMAND..
    least "$@" || { head -c 100 "$room/err" | tr '\n' ' ' >&2 && false; }
}

# shellcheck disable=SC2046
[ $# -gt 0 ] || set -- $(cd "$bench/circuits" && ls | sed 's/\.blif$//')
for library in ${LIBS:-tiny mcnc rich}; do
    echo "| $library | ms | MB | delay | gates | ms of map | delay of map | ratio |"
    echo "|---|---|---|---|---|---|---|---|"
    lib=$bench/libs/$library.genlib
    python3 "$bench/timing.py" -f "$lib" >"$room/flat"
    : >"$room/ratios"
    for circuit; do
        network=$bench/circuits/$circuit.blif
        if ! heard "$program" map "$lib" "$network"; then
            echo "| $circuit | over $limit s, or refused | | | | | | |"
            continue
        fi
        ours=$best && held=$memory
        cp "$room/out" "$room/mapped"
        # max, area, gates
        line=$(python3 "$bench/timing.py" -s "$lib" "$room/mapped")
        delay=$(echo "$line" | awk '{ print $1 }') && gates=$(echo "$line" | awk '{ print $3 }')
        theirs= && their_delay= && ratio=
        if [ -n "$abc" ] && heard "$abc" -q "read_genlib $room/flat; read_blif $network; strash; map; write_blif $room/abc.blif"; then
            theirs=$best
            their_delay=$(python3 "$bench/timing.py" -s "$lib" "$room/abc.blif" | awk '{ print $1 }')
            ratio=$(awk -v a="$ours" -v b="$theirs" 'BEGIN { printf "%.3f", a / b }')
            echo "$ratio" >>"$room/ratios"
        fi
        echo "| $circuit | $ours | $held | $delay | $gates | $theirs | $their_delay | $ratio |"
        if [ -n "$equivalence" ]; then
            python3 "$bench/timing.py" -u "$lib" "$room/mapped" >"$room/plain.blif"
            same "$network" "$room/plain.blif" || { echo "circuits: $circuit with $library: $verdict" >&2 && exit 1; }
        fi
    done
    awk -v library="$library" '{ sum += log($1); n++; if ($1 > 1) slower++ } END { if (n) printf "geometric mean of the ratios with %s: %.3f over %d circuits, %d of them slower\n", library, exp(sum / n), n, slower }' "$room/ratios"
    spoken
    echo
done
