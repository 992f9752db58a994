#!/bin/sh
# Runs the program at the limits of its layers, and prints for each run its processor time and the most memory that it
# held: forms, splits, factoring, patterns, many entries of one cell, a long chain, and drawn networks of two-input nodes.
# With an empty library no cell can cover anything, so that the time is that of reading, forms and graph.
#
#   sh bench/layers.sh
#
# The program is the one that release/program.sh finds. The least time of three runs counts.
set -eu
root=$(dirname -- "$(dirname -- "$(readlink -f -- "$0")")")
program=$(sh "$root/release/program.sh") || exit 1
[ -x /usr/bin/time ] || { echo "layers: there is no /usr/bin/time; it is Debian's package time" >&2 && exit 1; }
runs=3
room=$(mktemp -d)
trap 'rm -rf "$room"' EXIT
cd "$room"
: >empty

# shellcheck source=bench/least.sh
. "$root/bench/least.sh"

# What is run, the status that is wanted, and the words.
run() { # WHAT STATUS WORD..
    what=$1 && shift
    ended layers "$@"
    echo "$what: $best ms, $((memory / 1024)) MB"
}

awk -v n=8600 -f "$root/bench/eights.awk" >network
run "8,600 nodes of eight inputs at width 8, one form past the limit" 5 map -w 8 empty network
awk -v n=5546 -f "$root/bench/eights.awk" >network
run "16,776,650 splits of 1,414,231 forms" 6 map -w 8 empty network
awk -v n=518 -f "$root/bench/eights.awk" >network
run "16,775,430 splits with -i" 6 map -w 8 -i empty network

# One node of 4,096 rows over 256 columns.
awk 'BEGIN {
    print ".model m"
    line = ".inputs"; for (k = 1; k <= 256; k++) line = line " i" k; print line
    print ".outputs f"
    line = ".names"; for (k = 1; k <= 256; k++) line = line " i" k; print line " f"
    state = 1
    for (r = 1; r <= 4096; r++) {
        line = ""
        for (k = 1; k <= 256; k++) { state = (state * 16807) % 2147483647; line = line substr("01-", state % 3 + 1, 1) }
        print line " 1"
    }
    print ".end"
}' >network
run "a node of 4,096 rows over 256 columns at width 2" 6 map -w 2 empty network

# Libraries at their limits, for an empty network.
printf '.model m\n.inputs\n.outputs\n.end\n' >network
awk 'BEGIN { for (i = 1; i <= 4096; i++) print "GATE c" i " 1 O=((a+b+c)*(d+e+f)*(g+h+i))+((j+k+l)*m*n);\nPIN * NONINV 1 999 1 0 1 0" }' >library
run "a library of 4,096 cells and 262,144 patterns" 0 map library network
awk 'BEGIN {
    sum = "a*b*c*d*e*f*g*h+i*j*k*l*m*n*o*p"
    for (i = 1; i <= 4096; i++) print "GATE c 1 O=" sum "+" sum "+" sum "+" sum ";\nPIN * NONINV 1 999 1 0 1 0"
}' >library
run "4,096 entries of one cell of 16 pins and 64 literals" 0 map library network

# A chain of 100,000 Ands.
awk 'BEGIN {
    n = 100000
    print ".model m\n.inputs a b\n.outputs s" n "\n.names a b s1\n11 1"
    for (i = 2; i <= n; i++) print ".names s" i - 1 " " (i % 2 ? "a" : "b") " s" i "\n" (i % 3 ? "11 1" : "10 1")
    print ".end"
}' >network
run "a chain of 100,000 Ands with tiny" 0 map "$root/bench/libs/tiny.genlib" network

awk -v n=20000 -v seed=1 -f "$root/bench/generated.awk" >network
run "20,000 drawn nodes of two inputs, forms and graph alone" 6 map empty network
for library in tiny mcnc rich; do
    run "20,000 drawn nodes of two inputs with $library" 0 map "$root/bench/libs/$library.genlib" network
done
