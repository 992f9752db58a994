#!/bin/sh
# A Liberty library as the genlib that lwmap reads, by way of ABC, to standard output.
#
#   sh tools/liberty.sh [-a] [-S SLEW] [-G GAIN] [-x PATTERN].. LIBERTY >OUT.genlib
#
#   -S SLEW     the slew at a cell's input, in picoseconds (100)
#   -G GAIN     the load at its output, in percent of the capacitance of the pin that the delay is of (250)
#   -x PATTERN  leaves out the cells whose names match, as 'BUF*'; may stand several times
#   -a          keeps pads and buffers for clocks, which are left out else
#
# Example:
#   sh tools/liberty.sh /usr/share/qflow/tech/osu035/osu035_stdcells.lib >osu035.genlib
#
# What a delay means: Liberty gives tables over slew and load, and lwmap knows one number for each pin. ABC's 'read_lib'
# makes it: the mean of rise and fall delay, in picoseconds, at that slew and that load, on a straight line over loads.
# Of all cells of one function ABC keeps one, and its delays are the mean over these cells, which is why pads and buffers for
# clocks are left out: by their names, or by pad_cell. So a netlist's delay is that of gates that each drive GAIN percent of their own input, as if
# sizes were chosen after the mapper. It is no timing of a chip: wires, loads and slews as they turn out are not in it.
#
# Products and sums are written by * and +, an exclusive or as a sum of products. ABC adds _const0_ and _const1_, which are
# no cells of the library. Cells left out are named on standard error, with the reason. Areas from 1000000 are divided by
# a power of ten, and a comment says so. LIMIT holds the seconds that ABC may take (60). ABC is Debian's berkeley-abc.
set -eu
here=$(dirname -- "$(readlink -f -- "$0")")
limit=${LIMIT:-60}
fail() { # TEXT..
    echo "liberty: $*" >&2
    exit 1
}
usage="usage: sh tools/liberty.sh [-a] [-S SLEW] [-G GAIN] [-x PATTERN].. LIBERTY >OUT.genlib"

slew=100 && gain=250 && every=''
room=$(mktemp -d) && : >"$room/out"
trap 'rm -rf "$room"' EXIT
while getopts aS:G:x: option; do
    case $option in
    a) every=every ;;
    S) slew=$OPTARG ;;
    G) gain=$OPTARG ;;
    x) printf '%s\n' "$OPTARG" >>"$room/out" ;;
    *) fail "$usage" ;;
    esac
done
shift $((OPTIND - 1))
[ $# -eq 1 ] || fail "$usage"
for number in "$slew" "$gain"; do
    case $number in
    '' | . | *[!0-9.]* | *.*.*) fail "$number is no decimal" ;;
    *[1-9]*) ;;
    *) fail "a slew or a gain of 0 gives every pin the delay 1" ;;
    esac
done
for tool in berkeley-abc python3; do command -v "$tool" >/dev/null || fail "there is no $tool"; done
{ [ -r "$1" ] && [ -f "$1" ]; } || fail "cannot read $1"

python3 "$here/liberty.py" without "$room/out" "$1" "$room/given.lib" ${every:+"$every"}
status=0
{ (cd -- "$room" && timeout "$limit" berkeley-abc -q "read_lib -w -S $slew -G $gain given.lib; write_genlib abc.genlib" \
    >abc.log 2>&1) || status=$?; } 2>/dev/null
[ "$status" -ne 124 ] || fail "ABC took over $limit s"
if ! [ -s "$room/abc.genlib" ]; then
    grep -i 'error\|cannot\|failed\|line\|Mio_' "$room/abc.log" | sed "s|^|liberty: ABC: |" >&2 || true
    fail "ABC could not make a library of $1"
fi
echo "# Made of $(basename -- "$1") by tools/liberty.sh."
echo "# Delays are picoseconds, at a slew of $slew ps and a load of $gain percent of each pin's own capacitance."
python3 "$here/liberty.py" genlib "$room/given.lib" "$room/abc.genlib" "$room/abc.log"
