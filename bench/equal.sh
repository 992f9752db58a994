#!/bin/sh
# Measures lwequal beside ABC's cec, for all circuits of bench/circuits and bench/further:
#
#   sh bench/equal.sh [CIRCUIT..]
#
# Each circuit is compared with ABC's netlists after 'dch; map', two and four rounds of 'if -g -K 6; strash; dch', with the netlists of
# lwmap and lwarea, and with each of these with one gate changed. A line for each pair gives the circuit, the other network, what lwequal and cec
# say, the outputs that lwequal left, its conflicts, and of both the processor seconds (the least of RUNS, 2) and the megabytes. The
# table of sums comes last. LIBRARY is bench/libs/mcnc.genlib. SECONDS_EACH is the most that one run may take (60).
set -u
export LC_ALL=C
root=$(dirname -- "$(dirname -- "$(readlink -f -- "$0")")")
for tool in python3 berkeley-abc; do
    command -v "$tool" >/dev/null || { echo "skipped: $tool is not on this machine" && exit 0; }
done
exec python3 "$root/bench/equal.py" "$@"
