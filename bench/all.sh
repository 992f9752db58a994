#!/bin/sh
# Measures every table of bench/RESULTS.md with one program on one machine, and prints them as Markdown, with the machine, the
# versions and hashes of the programs, the date and the time that it took:
#
#   sh bench/all.sh [FOLDER]
#
# It takes the circuits of bench/circuits and bench/further, or each .blif of FOLDER. Delays and areas are those of timing.py, for
# ABC's netlists too. A time is the least of RUNS runs (3), as processor time of the whole process. LIMIT is the processor seconds that
# a run may take (10), LIBS the libraries (tiny, mcnc, rich), LIBERTY the library for real loads. PARTS names the parts (machine maps
# sizes others loads areas equal trade luts widths idempotence certificates texts goals record); 'record' writes bench/record.csv. The part
# 'areas' takes the efforts of lwarea that EFFORTS names (123; 3 with mcnc alone), and 'equal' is bench/equal.sh. With COMPARE=yes
# netlists are compared with their circuits by lwequal, or by ABC's 'cec' where that is undecided. KEEP=FILE keeps what is measured,
# so that a run that was ended can go on. Without ABC only lwmap's own figures are there, and without lwarea or lwequal none of
# theirs. One processor is used, so 'nice -n 10 sh bench/all.sh' leaves the others alone. The programs are those that
# release/program.sh finds.
exec python3 -u "$(dirname -- "$(readlink -f -- "$0")")/all.py" "$@"
