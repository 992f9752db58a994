#!/bin/sh
# Runs the scripts of tools/ and the pictures of bench/ and examples/ on the examples, and compares what they print. It needs
# Python, and no program of the repository; what needs ABC or Debian's qflow-tech-osu035 is skipped where that is not there.
#
#   sh tests/tools.sh
#
# The last line is `N passed, N failed`.
set -u
root=$(dirname -- "$(dirname -- "$(readlink -f -- "$0")")")
cd -- "$root" || exit 1
room=$(mktemp -d)
trap 'rm -rf "$room"' EXIT
passed=0 && failed=0

good() { # WHAT: the status before it was 0
    if [ "$?" -eq 0 ]; then passed=$((passed + 1)); else failed=$((failed + 1)) && echo "failed: $1"; fi
}

# Whether a run ends with status 1 and one line that holds a text.
refused() { # TEXT COMMAND..
    text=$1 && shift
    "$@" >"$room/out" 2>"$room/err"
    [ "$?" -eq 1 ] && [ "$(wc -l <"$room/err")" -eq 1 ] && grep -q -- "$text" "$room/err"
}

sh tools/summary.sh examples/small/full_adder.mapped.blif | tr '\n' ' ' >"$room/summary"
[ "$(cat "$room/summary")" = 'inputs 3 outputs 2 latches 0 gates 12 cell big_inv 3 cell nand2 3 cell nand3 5 cell nand4 1 levels 3 ' ]
good "the summary of the full adder"
refused 'has logic' sh tools/summary.sh examples/small/full_adder.blif
good "a summary of what is not mapped"
printf '.model a\n.outputs f\n.gate i a=g O=f\n.gate i a=f O=g\n' | refused 'reads itself' sh tools/summary.sh
good "a summary of a cycle"

for lib in bench/libs/*.genlib; do
    name=$(basename "$lib" .genlib)
    python3 tools/forms.py "$lib" >"$room/$name.genlib" 2>"$room/said" &&
        PYTHONPATH=tools python3 - "$room/$name.genlib" <<'END'
import sys
from lib import genlib
for cell in genlib.read_genlib(sys.argv[1]).values():
    if len({genlib.truth(form, cell.pins) for form in cell.funs}) != 1:
        sys.exit(f"{cell.name} has forms of two functions")
END
    good "each further form of $name has its cell's function"
    printf '.model none\n.inputs\n.outputs\n.end\n' >"$room/none"
    python3 tests/reference.py map "$room/$name.genlib" "$room/none" >"$room/out"
    good "a library is read with the further forms of $name"
done
refused 'GATE expected' python3 tools/forms.py README.md
good "forms of what is no library"

PYTHONPATH=tools python3 - <<'END'
import sys
from lib.expressions import irredundant, rows_of
for count in range(4):
    for truth in range(1 << (1 << count)):
        cubes = [rows_of(cube, count) for cube in irredundant(truth, count)]
        sums = [0]
        for cube in cubes:
            sums.append(sums[-1] | cube)
        behind = 0
        for place in range(len(cubes) - 1, -1, -1):
            if sums[place] | behind == truth:
                sys.exit(f"{truth:b} of {count} pins: a cube can be left out")
            behind |= cubes[place]
        if behind != truth:
            sys.exit(f"{truth:b} of {count} pins: the cubes are another function")
END
good "sums of cubes are their functions, and no cube can be left out"
python3 tests/reference.py map examples/small/small.genlib examples/small/full_adder.blif >"$room/once" &&
    python3 bench/timing.py -u examples/small/small.genlib "$room/once" >"$room/plain.blif" &&
    python3 tests/reference.py map examples/small/small.genlib "$room/plain.blif" >"$room/twice" &&
    [ "$(python3 bench/timing.py -s examples/small/small.genlib "$room/twice" | cut -d ' ' -f 1)" = 5.4 ]
good "a netlist as plain nodes, mapped again, is as early"

python3 tools/nowires.py examples/plain/plain.genlib examples/plain/wires.mapped.blif >"$room/plain.blif" 2>"$room/said" &&
    ! grep -q '^\.names' "$room/plain.blif" && grep -q 'gates before it' "$room/said"
good "wires become gates"
refused 'is no wire\|has logic\|outside of a node' python3 tools/nowires.py bench/libs/tiny.genlib examples/small/full_adder.blif
good "wires of what is not mapped"

if command -v berkeley-abc >/dev/null; then
    python3 bench/timing.py -f examples/plain/plain.genlib >"$room/flat.genlib"
    (cd "$room" && berkeley-abc -q "read_genlib flat.genlib; read_blif plain.blif; unmap; sop; write_blif read.blif") &&
        python3 bench/same.py "$room/read.blif" examples/plain/wires.blif >"$room/said" && grep -q '^equal' "$room/said"
    good "what ABC reads of a netlist without wires is $(cat "$room/said") to its network"
    refused 'no library of Liberty' sh tools/liberty.sh bench/libs/mcnc.genlib
    good "Liberty that is none"
    liberty=/usr/share/qflow/tech/osu035/osu035_stdcells.lib
    if [ -r "$liberty" ]; then
        sh tools/liberty.sh -x 'PAD*' "$liberty" >"$room/osu.genlib" 2>"$room/said" &&
            grep -q 'several outputs): FAX1 HAX1' "$room/said" &&
            grep -q '^GATE XOR2X1 224 Y=A\*!B+!A\*B;' "$room/osu.genlib" &&
            python3 tests/reference.py map "$room/osu.genlib" "$room/none" >"$room/out"
        good "a library of Liberty"
    else
        echo "skipped: there is no $liberty"
    fi
else
    echo "skipped: there is no berkeley-abc"
fi

python3 bench/plot.py bench/RESULTS.md "$room" && python3 bench/and3.py "$room/and3.svg" &&
    python3 bench/choices.py "$room/choices.svg" && python3 bench/pipeline.py "$room/pipeline.svg"
for name in delay and3 choices pipeline; do
    cmp -s "$room/$name.svg" "docs/pictures/$name.svg"
    good "docs/pictures/$name.svg is what its script draws now"
done
refused 'no table' python3 bench/plot.py README.md "$room"
good "a page without the table"
python3 docs/pictures/means.py README.md "$room/means.svg" && cmp -s "$room/means.svg" docs/pictures/means.svg
good "docs/pictures/means.svg is what its script draws of README.md"

python3 - <<'END'
import csv, glob, sys
from tools.lib import blif
with open("bench/circuits.csv", encoding="ascii", newline="") as file:
    rows = {f"bench/{row['set']}/{row['circuit']}.blif": [int(row[name]) for name in ("inputs", "outputs", "nodes")] for row in csv.DictReader(file)}
files = glob.glob("bench/circuits/*.blif") + glob.glob("bench/further/*.blif")
ports = {file: blif.ports_of(file) for file in files}
sys.exit(rows != {file: [len(one.inputs), len(one.outputs), sum(words[0] == ".names" for words in one.rest)] for file, one in ports.items()})
END
good "bench/circuits.csv has each circuit with its counts"

# The second program in the place of the built one.
# shellcheck disable=SC2016
printf '#!/bin/sh\ncase $1 in trade) part=_trade ;; *) part= ;; esac\nexec python3 "%s/tests/reference$part.py" "$@"\n' "$root" >"$room/program"
chmod +x "$room/program"
curve() { # LIB IN PICTURE FACTOR..
    LWMAP_PROGRAM=$room/program python3 examples/curve.py "$@"
}
curve examples/small/small.genlib examples/small/full_adder.blif "$room/curve.svg" 1 1.1 >"$room/curve" &&
    [ "$(sed 1,2d "$room/curve" | tr -d ' \n')" = '|map|5.4|31|37||trade5.4|5.4|31|37||trade5.94|5.6|28|31||tradenone|7.1|26|30|' ] &&
    python3 -c 'import sys, xml.dom.minidom as dom; dom.parse(sys.argv[1])' "$room/curve.svg" && grep -q 'class="b hollow"' "$room/curve.svg"
good "the curve of the full adder"
refused 'map ended with 6' curve /dev/null examples/small/full_adder.blif "$room/curve.svg"
good "the curve of what has no cover"
refused 'usage' curve examples/small/small.genlib
good "the curve of no network"

echo "$passed passed, $failed failed"
[ "$failed" -eq 0 ]
