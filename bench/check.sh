#!/bin/sh
# Times 'map -c' and 'check' of its netlist for the circuits of bench/circuits with the libraries of bench/libs, and prints a
# table: the processor time of both in milliseconds, the ratio, the most memory that each held in megabytes, and the bytes of
# the netlist and of its certificate. With words it takes those circuits alone:
#
#   sh bench/check.sh [CIRCUIT..]
#
# LIBS names the libraries (tiny, mcnc, rich by default), OPTIONS the options of both (none by default, or as '-w 4'), LIMIT the
# seconds that a run may take (60), RUNS how often each is run (3); the least time counts. The program is the one that
# release/program.sh finds.
set -eu
root=$(dirname -- "$(dirname -- "$(readlink -f -- "$0")")")
program=$(sh "$root/release/program.sh") || exit 1
[ -x /usr/bin/time ] || { echo "check: there is no /usr/bin/time; it is Debian's package time" >&2 && exit 1; }
limit=${LIMIT:-60}
runs=${RUNS:-3}
options=${OPTIONS:-}
room=$(mktemp -d)
trap 'rm -rf "$room"' EXIT

# shellcheck source=bench/least.sh
. "$root/bench/least.sh"

# shellcheck disable=SC2046
[ $# -gt 0 ] || set -- $(cd "$root/bench/circuits" && ls | sed 's/\.blif$//')
for library in ${LIBS:-tiny mcnc rich}; do
    echo "| $library | ms of map -c | ms of check | ratio | MB of map -c | MB of check | bytes | of the certificate |"
    echo "|---|---|---|---|---|---|---|---|"
    lib=$root/bench/libs/$library.genlib
    : >"$room/ratios"
    for circuit; do
        network=$root/bench/circuits/$circuit.blif
        # shellcheck disable=SC2086
        least "$program" map $options -c "$lib" "$network" || { echo "| $circuit | over $limit s, or refused | | | | | | |" && continue; }
        map=$best && map_memory=$memory
        cp "$room/out" "$room/mapped"
        # shellcheck disable=SC2086
        least "$program" check $options "$lib" "$network" "$room/mapped" || { echo "| $circuit | $map | over $limit s, or refused: $(cat "$room/err") | | | | | |" && continue; }
        ratio=$(awk -v a="$best" -v b="$map" 'BEGIN { printf "%.2f", a / b }')
        echo "$ratio" >>"$room/ratios"
        bytes=$(wc -c <"$room/mapped") && certificate=$(grep '^#@' "$room/mapped" | wc -c)
        echo "| $circuit | $map | $best | $ratio | $map_memory | $memory | $bytes | $certificate |"
    done
    awk -v library="$library" '{ sum += log($1); if ($1 > most) most = $1; n++ } END { if (n) printf "geometric mean of the ratios with %s: %.2f, the greatest %.2f, over %d circuits\n\n", library, exp(sum / n), most, n }' "$room/ratios"
done
