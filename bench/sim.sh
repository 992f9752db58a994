#!/bin/sh
# Times the simulation of random vectors: 'sim' of a circuit of bench/circuits and 'sim -g' of its netlist, whose values are
# compared, and beside them Yosys's command 'sim' on a part of the vectors and ABC's command 'sim' (its own vectors, for which it
# prints no values), where these tools are installed.
#
#   sh bench/sim.sh [CIRCUIT [VECTORS]]
#
# CIRCUIT is div16_a, the one of most nodes, and VECTORS 1000000 by default. LIBRARY names the library (tiny). PART says how many
# vectors Yosys gets (1000), since it goes through them one by one. Times are processor time of the whole program, reading
# and writing included. The program is the one that release/program.sh finds.
set -eu
root=$(dirname -- "$(dirname -- "$(readlink -f -- "$0")")")
program=$(sh "$root/release/program.sh") || exit 1
[ -x /usr/bin/time ] || { echo "sim: there is no /usr/bin/time; it is Debian's package time" >&2 && exit 1; }
circuit=$root/bench/circuits/${1:-div16_a}.blif
count=${2:-1000000}
lib=$root/bench/libs/${LIBRARY:-tiny}.genlib
room=$(mktemp -d)
trap 'rm -rf "$room"' EXIT
cd "$room"

timed() { # WHAT VECTORS COMMAND..
    what=$1 && vectors=$2 && shift 2
    /usr/bin/time -q -f '%U %S %M' -o took "$@" >out 2>err || { echo "sim: $what failed: $(head -c 200 err)" >&2 && exit 1; }
    awk -v what="$what" -v vectors="$vectors" '{ t = $1 + $2
        printf "%s: %d vectors, %.2f s, %.0f ns a vector, %d MB\n", what, vectors, t, t * 1000000000 / vectors, $3 / 1024 }' took
}

"$program" map "$lib" "$circuit" >mapped
awk -v count="$count" '
    $1 == ".inputs" { width += NF - 1 }
    $1 == ".latch" { width++ }
    END {
        srand(1)
        for (v = 0; v < count; v++) {
            line = ""
            for (k = 0; k < width; k += 24) line = line digits(int(rand() * 16777216), width - k < 24 ? width - k : 24)
            print line
        }
    }
    function digits(number, n, text) { text = ""; while (n-- > 0) { text = text number % 2; number = int(number / 2) } return text }' mapped >vectors
echo "$(basename "$circuit" .blif): $(grep -c '^\.names' "$circuit") nodes, $(grep -c '^\.gate' mapped) gates, $(wc -c <vectors) bytes of vectors"
timed "sim" "$count" "$program" sim "$circuit" vectors
mv out wanted
timed "sim -g" "$count" "$program" sim -g "$lib" mapped vectors
cmp out wanted

if command -v berkeley-abc >/dev/null; then
    # (a frame is a round of words of 32 vectors, for which ABC draws the inputs)
    timed "ABC, strash; sim" "$((count / 32 * 32))" berkeley-abc -q "read_blif $circuit; strash; sim -F 1 -W $((count / 32))"
else
    echo "skipped: there is no berkeley-abc"
fi
if command -v yosys >/dev/null; then
    part=${PART:-1000}
    # a value change dump of the vectors, one at each time
    head -n "$part" vectors | awk '
        FNR == NR { if ($1 == ".inputs") for (k = 2; k <= NF; k++) name[++n] = $k; next }
        FNR == 1 {
            print "$timescale 1ns $end\n$scope module top $end"
            for (k = 1; k <= n; k++) print "$var wire 1 v" k " " name[k] " $end"
            print "$upscope $end\n$enddefinitions $end"
        }
        { print "#" FNR - 1; for (k = 1; k <= n; k++) print substr($1, k, 1) "v" k }
        END { print "#" FNR }' mapped - >vectors.vcd
    timed "Yosys, sim" "$part" yosys -q -p "read_blif $circuit; rename -top top; sim -r vectors.vcd -scope top -vcd values.vcd"
else
    echo "skipped: there is no yosys"
fi
