#!/bin/sh
# Takes a mapped netlist to Verilog and back, and shows it to other tools on the way.
#
#   sh examples/verilog.sh [-n VECTORS] [-o FOLDER] LIB MAPPED
#
#   LIB      the library in genlib
#   MAPPED   a netlist that 'lwmap map' or 'lwmap unverilog' wrote, without latches
#   -n       how many random vectors are simulated (1000)
#   -o       the folder for the files of each step (verilog_MAPPED without its endings, in the folder that the script is called from)
#
# 'lwmap verilog' writes netlist.v, and 'lwmap unverilog' has to read it as the mapped text that was given, byte by byte, but for
# its certificate and its arrivals, of which Verilog says nothing. Icarus Verilog simulates netlist.v with a module for each cell
# (cells.v), and has to see the values that 'lwmap sim -g' gives. Yosys reads netlist.v and writes it anew, and 'lwmap unverilog'
# has to find the same gates in that. A tool that is not there is skipped, and told.
#
# The status is 0 where nothing differed, that of lwmap where lwmap refuses, and else 1. LIMIT holds the seconds that one step of
# another tool may take (60). The program is the one that release/program.sh finds.
set -eu
export LC_ALL=C
root=$(dirname -- "$(dirname -- "$(readlink -f -- "$0")")")
name=verilog
# shellcheck source=examples/yosys.sh
. "$root/examples/yosys.sh"

number=1000 && folder=
while getopts n:o: option; do
    case $option in
    n) number=$OPTARG ;;
    o) folder=$OPTARG ;;
    *) fail "usage: sh examples/verilog.sh [-n VECTORS] [-o FOLDER] LIB MAPPED" ;;
    esac
done
shift $((OPTIND - 1))
[ $# -eq 2 ] || fail "usage: sh examples/verilog.sh [-n VECTORS] [-o FOLDER] LIB MAPPED"
lib=$1 && mapped=$2
program=$(sh "$root/release/program.sh") || exit 1
for file in "$lib" "$mapped"; do [ -r "$file" ] || fail "cannot read $file"; done
folder=${folder:-verilog_$(basename -- "$mapped" | sed 's/\..*//')}
mkdir -p -- "$folder"
(cd -- "$folder" && rm -f -- netlist.v again.blif cells.v vectors words wanted.txt seen.txt bench.v bench.vvp yosys.v yosys.blif)

# There and back.
"$program" verilog "$lib" "$mapped" >"$folder/netlist.v"
"$program" unverilog "$lib" "$folder/netlist.v" >"$folder/again.blif"
sed '/^#@/d; /^\.input_arrival /d' "$mapped" | cmp -s - "$folder/again.blif" ||
    fail "NOT THE SAME: $mapped and what unverilog read, $folder/again.blif"
echo "unverilog: the same mapped text"

have() { # TOOL..
    for tool; do
        command -v "$tool" >/dev/null || { echo "skipped: $tool is not on this machine" && return 1; }
    done
}

# Random vectors, one bit for each input.
draw() { # WIDTH
    awk -v n="$number" -v width="$1" 'BEGIN {
        srand(1)
        for (v = 0; v < n; v++) {
            for (k = 0; k < width; k++) printf "%d", rand() < 0.5
            print ""
        }
    }'
}

# A test bench: the bits of x are the inputs, and those of y the outputs, each in order.
bench() {
    awk -v n="$number" '
        /^\.model / { model = $2 }
        /^\.inputs/ { for (k = 2; k <= NF; k++) port[p++] = "." "\\" $k " (x[" inputs++ "])" }
        /^\.outputs/ { for (k = 2; k <= NF; k++) port[p++] = "." "\\" $k " (y[" outputs++ "])" }
        END {
            print "module \\bench.of.vectors ;\nreg [0:" inputs - 1 "] x, vectors [0:" n - 1 "];\nwire [0:" outputs - 1 "] y;\ninteger k;"
            print "\\" model " netlist ("
            for (k = 0; k < p; k++) print port[k] (k < p - 1 ? "," : "")
            print ");\ninitial begin\n$readmemb(\"vectors\", vectors);"
            print "for (k = 0; k < " n "; k = k + 1) begin x = vectors[k]; #1 $display(\"%b\", y); end\nend\nendmodule"
        }' "$folder/again.blif"
}

ports() { # FIRST WORD
    awk -v first="$1" '$1 == first { n += NF - 1 } END { print n + 0 }' "$folder/again.blif"
}

if have iverilog vvp python3; then
    if [ "$(ports .inputs)" -eq 0 ] || [ "$(ports .outputs)" -eq 0 ]; then
        echo "skipped: the netlist has no inputs or no outputs to simulate"
    else
        python3 "$root/bench/timing.py" -v "$lib" >"$folder/cells.v"
        draw "$(ports .inputs)" >"$folder/vectors"
        # (a word of lwmap has at most 4,095 bytes)
        sed 's/.\{4000\}/& /g' "$folder/vectors" >"$folder/words"
        "$program" sim -g "$lib" "$mapped" "$folder/words" >"$folder/wanted.txt"
        bench >"$folder/bench.v"
        (cd -- "$folder" && timeout "$limit" iverilog -s bench.of.vectors -o bench.vvp bench.v netlist.v cells.v &&
            timeout "$limit" vvp -n bench.vvp) >"$folder/seen.txt" || fail "Icarus Verilog failed; see $folder/bench.v"
        cmp -s "$folder/seen.txt" "$folder/wanted.txt" || fail "NOT THE SAME: $folder/seen.txt and $folder/wanted.txt"
        echo "Icarus Verilog: the same values for $number vectors"
    fi
fi

# What a netlist holds, whatever the order of its lines and ports.
contents() { # MAPPED
    awk '/^\.(inputs|outputs)/ { for (k = 2; k <= NF; k++) print $1, $k; next } 1' "$1" | sort
}

if have yosys python3; then
    [ -s "$folder/cells.v" ] || python3 "$root/bench/timing.py" -v "$lib" >"$folder/cells.v"
    run_yosys yosys.log "read_verilog -lib \"$folder/cells.v\"; read_verilog \"$folder/netlist.v\"; hierarchy -check -auto-top; check -assert
        write_verilog -noattr -noexpr \"$folder/yosys.v\""
    "$program" unverilog "$lib" "$folder/yosys.v" >"$folder/yosys.blif"
    contents "$folder/yosys.blif" >"$folder/seen.txt" && contents "$folder/again.blif" >"$folder/wanted.txt"
    cmp -s "$folder/seen.txt" "$folder/wanted.txt" || fail "NOT THE SAME: $folder/yosys.blif and $folder/again.blif"
    echo "Yosys: the same ports and gates"
fi
