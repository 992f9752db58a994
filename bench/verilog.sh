#!/bin/sh
# Times 'verilog' and 'unverilog' on a large netlist, and 'unverilog' on texts that are one long part, and prints two tables:
# the least processor time of RUNS runs (3), megabytes of Verilog a second, and the most memory, also as a multiple of the text.
# A megabyte has 1,048,576 bytes; a time below the 10 ms of the clock counts as 10 where it is divided by.
#
#   sh bench/verilog.sh [CIRCUIT]
#
# The netlist is CIRCUIT of bench/circuits (div16_a), mapped with the library LIB of bench/libs (tiny), and as many copies of it
# under other names as come near SIZE megabytes of Verilog (60; a file may have 64). Before it is timed it is written, read and
# written again, and has to be the same text. The program is the one that release/program.sh finds.
set -eu
export LC_ALL=C
root=$(dirname -- "$(dirname -- "$(readlink -f -- "$0")")")
program=$(sh "$root/release/program.sh") || exit 1
[ -x /usr/bin/time ] || { echo "verilog: there is no /usr/bin/time; it is Debian's package time" >&2 && exit 1; }
circuit=${1:-div16_a}
lib=$root/bench/libs/${LIB:-tiny}.genlib
bytes=$((${SIZE:-60} * 1048576))
runs=${RUNS:-3}
room=$(mktemp -d)
trap 'rm -rf "$room"' EXIT
trap 'exit 1' HUP INT TERM
cd "$room"

# shellcheck source=bench/least.sh
. "$root/bench/least.sh"

# Copies of a mapped netlist; the number after each name has as many digits in all of them.
copies() { # NUMBER MAPPED
    awk -v n="$1" '
        $1 == ".inputs" || $1 == ".outputs" { for (k = 2; k <= NF; k++) port[$1, ++ports[$1]] = $k; next }
        $1 == ".gate" || $1 == ".names" || $1 == "1" { line[++lines] = $0 }
        function list(word,    c, k) {
            printf "%s", word
            for (c = 0; c < n; c++) for (k = 1; k <= ports[word]; k++) printf " %s_%d", port[word, k], 10000 + c
            print ""
        }
        END {
            print ".model copies"; list(".inputs"); list(".outputs")
            for (c = 0; c < n; c++) for (l = 1; l <= lines; l++) {
                words = split(line[l], word, " ")
                printf "%s", word[1]
                for (k = 2; k <= words; k++) printf word[1] == "1" || word[1] == ".gate" && k == 2 ? " %s" : " %s_%d", word[k], 10000 + c
                print ""
            }
            print ".end"
        }' "$2"
}

"$program" map "$lib" "$root/bench/circuits/$circuit.blif" >one
copies 20 one >twenty
"$program" verilog "$lib" twenty >VER
number=$((bytes / ($(wc -c <VER) / 20 + 1)))
copies "$number" one >MAPPED
gates=$(grep -c '^\.gate' MAPPED)
"$program" verilog "$lib" MAPPED >VER
"$program" unverilog "$lib" VER >MAPPED
"$program" verilog "$lib" MAPPED | cmp - VER || { echo "verilog: what was read was written otherwise" >&2 && exit 1; }
size=$(wc -c <VER)

row() { # COMMAND
    awk -v command="$1" -v ms="$best" -v kb="$memory" -v size="$size" 'BEGIN {
        mb = size / 1048576
        if (ms < 10) ms = 10
        printf "| `%s` | %.1f | %d | %.0f | %.0f | %.1f |\n", command, mb, ms, mb * 1000 / ms, kb / 1024, kb * 1024 / size
    }'
}

echo "$number copies of $circuit with $(basename "$lib" .genlib), $gates gates; the mapped text has $(awk -v n="$(wc -c <MAPPED)" 'BEGIN { printf "%.1f", n / 1048576 }') MB"
echo
echo "| command | MB of Verilog | ms | MB a second | MB of memory | times the Verilog |"
echo "|---|---|---|---|---|---|"
ended verilog 0 verilog "$lib" MAPPED
row verilog
ended verilog 0 unverilog "$lib" VER
row unverilog
rm -f MAPPED one twenty

# So many bytes that are all alike, between two texts.
stretched() { # FIRST TEXT LAST
    { printf '%s' "$1" && yes "$2" | tr -d '\n' | head -c "$((bytes - ${#1} - ${#3}))" && printf '%s\n' "$3"; } >VER
}

# The times of unverilog for a text, and its answer: what it was told, or that it is read.
extreme() { # WHAT STATUS
    ended verilog "$2" unverilog "$root/bench/libs/tiny.genlib" VER
    said=$(sed 's/^lwmap: VER //' err)
    echo "| $1 | $(wc -c <VER | awk '{ printf "%.1f", $1 / 1048576 }') | ${said:-read} | $best | $((memory / 1024)) |"
}

module='module m (a, f); input a; output f; inv u1 (.a(a), .O(f)); endmodule'
echo
echo "| text of one part | MB | answer | ms | MB of memory |"
echo "|---|---|---|---|---|"
stretched '/*' x "*/ $module"
extreme 'one comment' 0
stretched '/*' '*' ''
extreme 'a comment that is not closed' 10
stretched '' x ''
extreme 'one name' 10
stretched "module \\" x ' ;'
extreme "one escaped name, the module's" 10
stretched 'module m (' 'p, ' 'p); endmodule'
extreme 'one list of ports, of one name' 10
awk -v size="$bytes" 'BEGIN {
    printf "module m ("
    for (at = 40; at < size; at += 10) printf "p%07d, ", ++n
    print "p);\nendmodule"
}' >VER
extreme 'one list of ports, of names that differ' 10
awk -v size="$bytes" 'BEGIN {
    printf "module m ("
    for (at = 90; at < size; at += 20) printf "p%07d, ", ++n
    printf "f);\noutput f;\ninput p%07d", 1
    for (k = 2; k <= n; k++) printf ", p%07d", k
    print ";\ninv u1 (.a(p0000001), .O(f));\nendmodule"
}' >VER
extreme 'the same, and one list of inputs' 0
stretched '' '(' ''
extreme 'brackets that are not closed' 10
stretched 'module m ' '(' ''
extreme 'the same after a module and its name' 10
stretched '' '(*' ''
extreme 'brackets of attributes that are not closed' 10
