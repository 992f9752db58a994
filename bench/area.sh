#!/bin/sh
# Measures lwarea beside ABC's map: delay and area by effort and deadline, processor time and memory beside lwmap map. LIBS names
# libraries of bench/libs (mcnc).
#
#   nice -n 15 sh bench/area.sh
set -u
for library in ${LIBS:-mcnc}; do
    echo "$library" && python3 "$(dirname -- "$(readlink -f -- "$0")")/area.py" -l "$library" "$@" || exit
done
