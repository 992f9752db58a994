#!/bin/sh
# Makes two networks of 262,144 signals, has the program read and close them for 'sim' with no vectors, and prints how many
# megabytes a second that is, by processor time, and the most memory that was held: one whose nodes have 14 fan-ins, in some
# 60 MB, and one whose nodes have two, in some 12 MB; and a comment and empty lines of as many bytes as a file may have.
#
#   sh bench/blif.sh
#
# The program is the one that release/program.sh finds. The least time of three runs counts.
set -eu
root=$(dirname -- "$(dirname -- "$(readlink -f -- "$0")")")
program=$(sh "$root/release/program.sh") || exit 1
[ -x /usr/bin/time ] || { echo "blif: there is no /usr/bin/time; it is Debian's package time" >&2 && exit 1; }
# shellcheck disable=SC2034
runs=3
room=$(mktemp -d)
trap 'rm -rf "$room"' EXIT
: >"$room/vectors"

# shellcheck source=bench/least.sh
. "$root/bench/least.sh"

# 1,024 inputs, and nodes of so many fan-ins each: the signals just before, and one from far off. The rows follow.
network() {
    awk -v fanins="$1" -v rows="$2" 'BEGIN {
        inputs = 1024; signals = 262144
        print ".model wide"
        for (i = 0; i < inputs; i++) print ".inputs signal" i
        print ".outputs signal" (signals - 1)
        count = split(rows, row, " ")
        far = 1
        for (i = inputs; i < signals; i++) {
            far = (far * 16807) % 2147483647
            line = ".names signal" (far % i)
            for (k = 1; k < fanins; k++) line = line " signal" (i - k)
            print line " signal" i
            for (k = 1; k <= count; k++) print row[k] " 1"
        }
        print ".end"
    }'
}

# An empty network after so many bytes of a text.
behind() {
    { head -c 67108800 && printf '\n.model m\n.inputs\n.outputs\n.end\n'; }
}

measure() {
    size=$(wc -c <"$room/text")
    ended blif 0 sim "$room/text" "$room/vectors"
    echo "$1: $size bytes, $best ms, $((size / (best + 1) / 1000)) MB/s, $((memory / 1024)) MB held"
}

network 14 "1-0-1-0-1-0-1- -1-0-1-0-1-0-1" >"$room/text"
measure "14 fan-ins"
network 2 "11" >"$room/text"
measure "2 fan-ins"
yes '#' | tr -d '\n' | behind >"$room/text"
measure "one comment"
yes '' | behind >"$room/text"
measure "empty lines"
