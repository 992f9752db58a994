#!/bin/sh
# Maps circuits of bench/ again, a third of those that bench/record.csv records, and fails where a delay, an area, a depth or a
# number of tables got worse:
#
#   sh tests/quality.sh
#
# PART is 0, 1 or 2 (0) and says which third. bench/record.py does the work, and tells what got better too. The program is the one
# that release/program.sh finds. The last line is 'N passed, N failed'.
exec python3 "$(dirname -- "$(readlink -f -- "$0")")/../bench/record.py" "${PART:-0}"
