#!/bin/sh
# Measures lwarea over several networks beside ABC's rounds: delay and area by effort and deadline, pairs of nets, time and memory. LIBS
# names libraries of bench/libs (mcnc).
#
#   nice -n 15 sh bench/joined.sh -a -f
set -u
for library in ${LIBS:-mcnc}; do
    echo "$library" && python3 "$(dirname -- "$(readlink -f -- "$0")")/joined.py" -l "$library" "$@" || exit
done
