#!/bin/sh
# Maps the circuits of bench/circuits with the libraries of bench/libs for least delay, and for least tree area under deadlines, and
# prints a table for each library: of 'map', of 'trade' at 1, 1.05, 1.1 and 1.25 times the least time, and of 'trade none', the
# delay, the area with each gate counted once, the processor time of the whole program in milliseconds, and the most memory that it
# held in megabytes. Where ABC is installed (Debian's package berkeley-abc), the same of its 'map', 'map -a', 'amap' and 'dch; map'
# stands beside them. Below each table stand the geometric means of our areas and delays, as ratios to those of 'map' and of ABC's
# commands. With words it takes those circuits alone:
#
#   sh bench/trade.sh [CIRCUIT..]
#
# The least time is the delay of what 'map' wrote. All delays and areas are those of bench/timing.py. LIBS names the libraries
# (tiny, mcnc, rich by default), LIMIT the seconds that a run may take (60), RUNS how often each is run (3); the least time counts.
# A run that ends with a status says so in its cell; 5 comes from more points than the program deals with. The program is the
# one that release/program.sh finds.
set -eu
root=$(dirname -- "$(dirname -- "$(readlink -f -- "$0")")")
program=$(sh "$root/release/program.sh") || exit 1
[ -x /usr/bin/time ] || { echo "trade: there is no /usr/bin/time; it is Debian's package time" >&2 && exit 1; }
abc=$(command -v berkeley-abc || true)
bench=$root/bench
limit=${LIMIT:-60}
runs=${RUNS:-3}
factors="100 105 110 125"
room=$(mktemp -d)
trap 'rm -rf "$room"' EXIT

# shellcheck source=bench/least.sh
. "$bench/least.sh"

# A time, so many hundredths of another one, rounded up to millionths.
part_of() { # TIME HUNDREDTHS
    awk -v time="$1" -v part="$2" 'BEGIN {
        micro = int((int(time * 1000000 + 0.5) * part + 99) / 100)
        whole = int(micro / 1000000)
        said = sprintf("%.0f.%06d", whole, micro - whole * 1000000)
        sub(/\.?0*$/, "", said)
        print said
    }'
}

# Leaves in 'cell' what a table says of a netlist, or why there is none, and in 'delay' its delay; adds 'CIRCUIT WAY delay area' to
# the sizes.
measured() { # CIRCUIT WAY FILE STATUS
    delay=
    case $4 in
    0) [ -s "$3" ] || { cell="no netlist" && return; } ;;
    5) cell="status 5" && return ;;
    124) cell="over $limit s" && return ;;
    *) cell="status $4" && return ;;
    esac
    # max, area, gates
    size=$(python3 "$bench/timing.py" -s "$lib" "$3") || { cell="not read" && return; }
    delay=${size%% *} && area=${size#* } && area=${area%% *}
    echo "$1 $2 $delay $area" >>"$room/sizes"
    cell="$delay, $area, $best, $memory"
}

ours() { # CIRCUIT WAY WORD..
    circuit=$1 && way=$2 && shift 2
    status=0
    least "$program" "$@" "$lib" "$bench/circuits/$circuit.blif" || status=$?
    measured "$circuit" "$way" "$room/out" "$status"
}

theirs() { # CIRCUIT WAY SCRIPT
    cell= && status=0
    rm -f "$room/abc.blif"
    [ -n "$abc" ] || return 0
    least "$abc" -s -q "read_genlib $room/flat; read_blif $bench/circuits/$1.blif; strash; $3; write_blif $room/abc.blif" || status=$?
    measured "$1" "$2" "$room/abc.blif" "$status"
}

row_of() { # CIRCUIT
    ours "$1" map map
    row="| $1 | $cell |" && earliest=$delay
    for factor in $factors; do
        cell=
        [ -z "$earliest" ] || ours "$1" "trade-$factor" trade "$(part_of "$earliest" "$factor")"
        row="$row $cell |"
    done
    ours "$1" trade-none trade none
    row="$row $cell |"
    theirs "$1" abc-map map && row="$row $cell |"
    theirs "$1" abc-map-a "map -a" && row="$row $cell |"
    theirs "$1" abc-amap amap && row="$row $cell |"
    theirs "$1" abc-dch-map "dch; map" && row="$row $cell |"
    echo "$row"
}

# The means of the areas and delays of our ways, as ratios to those of 'map' and of ABC's, over the circuits that both have.
means() {
    awk '
        function mean(way, base, of, size,    sum, n, circuit) {
            for (circuit in circuits) if (((circuit, way) in size) && ((circuit, base) in size))
                if (size[circuit, way] > 0 && size[circuit, base] > 0) { sum += log(size[circuit, way] / size[circuit, base]); n++ }
            return n ? sprintf("%.2f", exp(sum / n)) (of ? sprintf(" (%d)", n) : "") : "-"
        }
        { circuits[$1]; delays[$1, $2] = $3; areas[$1, $2] = $4 }
        END {
            ways = split("map trade-100 trade-105 trade-110 trade-125 trade-none", way, " ")
            split("map,trade at 1,at 1.05,at 1.1,at 1.25,trade none", said, ",")
            bases = split("map abc-map abc-map-a abc-amap abc-dch-map", base, " ")
            print "\n| area, delay (circuits) | to map | to ABC: map | map -a | amap | dch; map |\n|---|---|---|---|---|---|"
            for (w = 1; w <= ways; w++) {
                row = "| " said[w] " |"
                for (b = 1; b <= bases; b++) row = row " " mean(way[w], base[b], 0, areas) ", " mean(way[w], base[b], 1, delays) " |"
                print row
            }
        }' "$room/sizes"
}

# shellcheck disable=SC2046,SC2012
[ $# -gt 0 ] || set -- $(cd "$bench/circuits" && ls | sed 's/\.blif$//')
for library in ${LIBS:-tiny mcnc rich}; do
    echo "| $library: delay, area, ms, MB | map | trade at 1 | at 1.05 | at 1.1 | at 1.25 | trade none | ABC: map | map -a | amap | dch; map |"
    echo "|---|---|---|---|---|---|---|---|---|---|---|"
    lib=$bench/libs/$library.genlib
    python3 "$bench/timing.py" -f "$lib" >"$room/flat"
    : >"$room/sizes"
    for circuit; do row_of "$circuit"; done
    means
    echo
done
