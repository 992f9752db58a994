#!/bin/sh
# Counts the gates of a mapped netlist, and its levels, from the text alone.
#
#   sh tools/summary.sh [MAPPED]
#
# MAPPED is what `lwmap map` or ABC wrote; without it, or as -, it is standard input. Example, with what it prints:
#
#   ./lwmap map examples/small/small.genlib examples/small/full_adder.blif | sh tools/summary.sh
#   inputs 3
#   outputs 2
#   latches 0
#   gates 12
#   cell big_inv 3
#   cell nand2 3
#   cell nand3 5
#   cell nand4 1
#   levels 3
#
# Cells come by name. The levels are the most gates on a way from an input, or from what a latch gives, to an output or to
# what a latch reads; wires count nothing. Delay and area are bench/timing.py's to say. Where a net has no driver or reads
# itself, or the file is no mapped netlist, one line on standard error says so, and the status is 1.
set -eu
[ $# -le 1 ] || { echo "summary: usage: sh tools/summary.sh [MAPPED]" >&2 && exit 1; }
[ "${1:--}" = - ] || { [ -r "$1" ] && ! [ -d "$1" ]; } || { echo "summary: cannot read $1" >&2 && exit 1; }
awk '
    function fail(text) { print "summary: " text >"/dev/stderr"; failed = 1; exit 1 }
    # The levels of a net, by going through what drives it, without calls that nest.
    function level(net,    top, one, k, n, fans, most, waits) {
        top = 1; stack[1] = net
        while (top) {
            one = stack[top]
            if (one in at) { top--; continue }
            if (!(one in fan)) fail("net " one " has no driver")
            n = split(fan[one], fans, " "); most = 0; waits = 0
            for (k = 1; k <= n && !waits; k++) {
                if (fans[k] in open) fail("net " fans[k] " reads itself")
                if (!(fans[k] in at)) { stack[++top] = fans[k]; waits = 1 }
                else if (at[fans[k]] > most) most = at[fans[k]]
            }
            if (waits) { open[one] = 1; continue }
            at[one] = most + weight[one]; delete open[one]; top--
        }
        return at[net]
    }
    {
        sub(/#.*/, "")
        while (sub(/\\[ \t\r]*$/, " ") && (getline more) > 0) { sub(/#.*/, "", more); $0 = $0 more }
    }
    $1 == ".model" { model = 1 }
    $1 == ".inputs" { for (k = 2; k <= NF; k++) { at[$k] = 0; inputs++ } }
    $1 == ".outputs" { for (k = 2; k <= NF; k++) { roots[$k]; outputs++ } }
    $1 == ".latch" { latches++; at[$3] = 0; roots[$2]; if (NF > 4 && $5 != "NIL") roots[$5] }
    $1 == ".gate" {
        gates++; cells[$2]++; sub(/^[^=]*=/, "", $NF); weight[$NF] = 1; fan[$NF] = ""
        for (k = 3; k < NF; k++) { sub(/^[^=]*=/, "", $k); fan[$NF] = fan[$NF] " " $k }
    }
    $1 == ".names" && NF > 3 { fail(".names " $NF " has logic; is the netlist mapped?") }
    $1 == ".names" { fan[$NF] = NF == 3 ? $2 : ""; weight[$NF] = 0 }
    $1 == ".end" { exit }
    END {
        if (failed) exit 1
        if (!model) fail("there is no .model; is this a mapped netlist?")
        for (root in roots) if (level(root) > levels) levels = at[root]
        print "inputs " inputs + 0 "\noutputs " outputs + 0 "\nlatches " latches + 0 "\ngates " gates + 0
        for (cell in cells) print "cell " cell " " cells[cell] | "LC_ALL=C sort"
        close("LC_ALL=C sort")
        print "levels " levels + 0
    }' "${1:--}"
