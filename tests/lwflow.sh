#!/bin/sh
# Runs lwflow on a few designs, one of each kind, and on what it has to refuse, and looks at its statuses, its results and its
# words. It takes a minute or two; tests/flows.sh has the many designs.
#
#   sh tests/lwflow.sh
#
# It needs Python, Yosys and ABC, and says 'skipped' where they are not there; so it does for what needs Icarus Verilog or
# Debian's qflow-tech-osu035. The program is the one that release/program.sh finds. The last line is 'N passed, N failed'.
set -u
# shellcheck source=tests/verdicts.sh
. "$(dirname -- "$(readlink -f -- "$0")")/verdicts.sh"
for tool in python3 yosys berkeley-abc; do
    command -v "$tool" >/dev/null || { echo "skipped: $tool is not on this machine, so lwflow was not tried" && exit 0; }
done
LWMAP_PROGRAM=$(sh release/program.sh) || exit 1
export LWMAP_PROGRAM

# A run whose status and words have to be these: a text that its output or its errors hold.
run() { # WHAT STATUS TEXT WORD..
    what=$1 && wanted=$2 && text=$3 && shift 3
    rm -rf "$room/made"
    python3 lwflow -o "$room/made" "$@" >"$room/out" 2>"$room/err" </dev/null
    status=$?
    [ "$status" -eq "$wanted" ] && grep -qe "$text" "$room/out" "$room/err"
    verdict "$what: status $status, wanted $wanted with '$text'" $?
}

# What a run left: these files and no others.
left() { # WHAT FILE..
    what=$1 && shift
    # shellcheck disable=SC2012
    [ "$(ls -A "$room/made" 2>/dev/null | tr '\n' ' ')" = "$*${*:+ }" ]
    verdict "$what: the folder" $?
}

all='cells.v log.txt mapped.blif mapped.v report.html report.json'
run "a design without registers" 0 'every step was shown' -q --effort fast -l $library examples/verilog/adder.v
# shellcheck disable=SC2086
left "a design without registers" $all
[ ! -s "$room/err" ]
verdict "-q is silent" $?
run "a design with registers" 0 '20 registers by name' --jobs 2 -l $library examples/verilog/uart.v
# shellcheck disable=SC2086
left "a design with registers" $all
grep -q 'best so far' "$room/err"
verdict "progress on standard error" $?
if command -v iverilog >/dev/null; then
    grep -q '^shown: simulation' "$room/out"
    verdict "simulated beside Icarus Verilog" $?
else
    echo "skipped: iverilog is not on this machine, so nothing was simulated"
fi
python3 tools/equal.py "$room/made" examples/verilog/uart.v >"$room/out" 2>"$room/err"
verdict "the comparison alone" $?
sed -i 's/\(data\[7\]  *<= \)[^;]*;/\1line;/' "$room/made/mapped.v"
python3 tools/equal.py "$room/made" examples/verilog/uart.v >"$room/out" 2>"$room/err"
[ $? -eq 4 ]
verdict "the comparison of a netlist with a fault" $?
run "the best effort, as JSON" 0 '"status": 0' -q --json --effort best -l $library bench/circuits/rca8_y.blif
python3 -c 'import json, sys; found = json.load(sys.stdin)
sys.exit(not (found["kept"]["delay"] <= found["abc"]["delay"] <= found["abc_as_given"]["delay"] and all(step["verdict"] == "equal" for step in found["steps"])))' <"$room/out"
verdict "the kept netlist is no later than ABC's" $?
./lwmap check $library bench/circuits/rca8_y.blif "$room/made/mapped.blif" >"$room/out" 2>&1
[ $? -ne 2 ]
verdict "mapped.blif is a mapped netlist" $?

# What is refused leaves nothing.
run "three-state drivers" 1 'three-state driver' -q -l $library tests/flows/three.v
left "three-state drivers"
run "a set before a reset" 1 'set that comes before its reset' -q -l $library tests/flows/sets.v
left "a set before a reset"
run "no such file" 1 'cannot read' -q -l $library "$room/none.v"
run "no such module" 1 'there is no module nope; the files have full_adder, adder' -q -t nope -l $library examples/verilog/adder.v
run "no such word" 2 'usage' --foo -l $library examples/verilog/adder.v
run "no library" 2 'required' examples/verilog/adder.v
run "help" 0 'status  0' --help
run "version" 0 '^lwflow [0-9]' --version
: >"$room/empty.blif"
run "an empty design" 1 'is empty' -q -l $library "$room/empty.blif"
printf 'GATE inv 1 O=!a;\n PIN * INV 1 999 1 0 1 0\nGATE nd 2 O=~(a*b);\n PIN * INV 1 999 1 0 1 0\n' >"$room/tilde.genlib"
run "a tilde in a library" 1 'a complement is written !' -q -l "$room/tilde.genlib" bench/circuits/rca8_y.blif
printf ' \n\n' >"$room/blank.v"
run "a blank design" 1 'is empty' -q -l $library "$room/blank.v"
run "what is no library" 1 'README.md: GATE expected' -q -l README.md bench/circuits/rca8_y.blif
mkdir "$room/here" && cp examples/verilog/adder.v "$room/here/mapped.v"
python3 lwflow -q -o "$room/here" -l $library "$room/here/mapped.v" >"$room/out" 2>"$room/err"
[ $? -eq 1 ] && grep -q 'would be overwritten' "$room/err" && cmp -s examples/verilog/adder.v "$room/here/mapped.v"
verdict "it does not write where it reads" $?

# Networks.
printf '.model top\n.inputs a b c\n.clock k\n.outputs f q\n.subckt xor2 x=a y=b z=t\n.subckt xor2 x=t y=c z=f\n.latch t q re k 1\n.end\n.model xor2\n.inputs x y\n.outputs z\n.names x y z\n10 1\n01 1\n.end\n' >"$room/sub.blif"
run "models in models, with a clock" 0 'models in models by Yosys' -q -l $library "$room/sub.blif"
./lwmap map $library bench/circuits/rca8_y.blif >"$room/gates.blif"
run "a mapped netlist" 0 '.gate as the function of its cell' -q --effort fast -l $library "$room/gates.blif"
berkeley-abc -q "read_blif bench/circuits/rca8_y.blif; strash; write_aiger $room/x.aig" >/dev/null 2>&1
run "AIGER" 0 'every step was shown' -q --effort fast -l $library "$room/x.aig"
# shellcheck disable=SC2016
printf '\357\273\277.model people\n.inputs a b\n.cname x\n.outputs f g\n.conn a t\n.names t $true b f\n111 1\n.names b g\n0 1\n.end\n' >"$room/people.blif"
# shellcheck disable=SC2016
run "BLIF as people have it" 0 'rewritten: .*byte order mark.*\.cname.*\.conn.*\$true' -q --effort fast -l $library "$room/people.blif"
printf '.i 3\n.o 1\n1-1 1\n01- 1\n.e\n' >"$room/two.pla"
run "what ABC reads by its ending" 0 'shown: file to network, as ABC reads it, by cec' -q --effort fast -l $library "$room/two.pla"
printf 'aag 7 2 1 3 4\n2\n4\n6 14 1\n6\n15\n0\n8 2 4\n10 3 5\n12 9 11\n14 12 7\ni0 x\ni1 y\nl0 q\no0 q\no1 y\nc\nno symbol\n' >"$room/x.aag"
run "AIGER's text format" 0 "shown: file to network, beside Yosys's reading" -q --effort fast -l $library "$room/x.aag"
grep -q '^\.outputs q y_2 o2$' "$room/made/mapped.blif" && grep -q '^\.latch .* q 1$' "$room/made/mapped.blif"
verdict "AIGER's text format: names and first values" $?
sed 's/^14 12 7/14 12 16/' "$room/x.aag" >"$room/y.aag"
run "AIGER without sense" 1 'y.aag: line 11: 3 literals of at most 15 expected' -q -l $library "$room/y.aag"
printf '.model k\n.inputs d c\n.outputs q\n.latch d q re c 0\n.end\n' >"$room/latch.blif"
run "a latch alone" 0 'every step was shown' -q --effort fast -l $library "$room/latch.blif"
! grep -q '^left out' "$room/out"
verdict "a latch alone: nothing is left out" $?
python3 lwflow -q -o "$room/made" --effort fast -l $library - <bench/circuits/rca8_y.blif >"$room/out" 2>"$room/err"
verdict "standard input" $?
(cd "$room" && python3 "$root/lwflow" -q --effort fast -l "$root/$library" two.pla >out 2>err && [ -s two.lwflow/mapped.v ])
verdict "the folder without -o" $?
run "a limit that is too low names its option" 0 'note: --limit SECONDS gives a step more time' -q --limit 0.01 -l $library bench/circuits/div16_a.blif
run "an area within a time" 0 'every step was shown' -q --effort fast --area 18.5 -l $library bench/circuits/rca8_y.blif
run "a time that nothing reaches" 1 'no netlist is as early as --area asks' -q --effort fast --area 1 -l $library bench/circuits/rca8_y.blif
awk 'BEGIN { print ".model large\n.inputs a b\n.outputs n263000\n.names a b n0\n11 1"
    for (i = 1; i <= 263000; i++) print ".names n" i - 1 " " (i % 2 ? "a" : "b") " n" i "\n11 1"; print ".end" }' >"$room/large.blif"
run "more signals than lwmap takes" 1 'large.blif: the network has more than 262144 signals, .*tools/yosys-lwmap' -q -l $library "$room/large.blif"
run "an area within 110% of the least delay" 0 'every step was shown' -q --area 110% -l $library bench/circuits/rca8_y.blif
# What lwarea makes is kept, and smaller; without it all goes on with lwmap.
if sh release/program.sh lwarea >/dev/null 2>&1; then
    run "all networks joined" 0 '^  kept .* lwarea -e 2 -t max, with 9 networks' -q -l $library bench/circuits/rca8_y.blif
    [ "$(grep -c '^shown' "$room/out")" -eq 2 ] && grep -q '^shown: network as given to netlist, by the theorem of lwarea$' "$room/out"
    verdict "all networks joined: no step of ABC is compared" $?
    run "all networks joined, under a certificate" 0 '^  kept .* lwarea -e 2 -t each' -q --area each -l $library bench/circuits/rca8_y.blif
    grep -q '^#@ label' "$room/made/mapped.blif" && grep -q 'shown: network as given to netlist, by theorem and lwarea -k' "$room/out"
    verdict "all networks joined, under a certificate: checked" $?
    run "all networks joined, within a time" 0 '^  kept .* lwarea -e 2 -t 9,' -q --area 9 -l $library bench/circuits/rca8_y.blif
    run "an area flow and turns joined, too" 0 '^  kept .* lwarea -e 3 -t max, with 1[2-5] networks' -q --effort best -l $library bench/circuits/rca8_y.blif
    run "one network made smaller" 0 '^  kept .* lwarea -w 6 -t max, after' -q --effort fast -l $library bench/circuits/rca8_y.blif
    run "one network made smaller, under a certificate" 0 'by theorem and lwarea -k' -q --effort fast --area each -l $library bench/circuits/rca8_y.blif
    run "latches joined" 0 '^  kept .* lwarea -e 2 -t max, with 9 networks' -q -l $library "$room/sub.blif"
else
    echo "skipped: there is no program lwarea, so no netlist got a smaller area"
fi
printf '#!/bin/sh\necho lwarea: out of memory >&2; exit 8\n' >"$room/lwarea" && chmod +x "$room/lwarea"
LWAREA_PROGRAM=$room/lwarea python3 lwflow -q -o "$room/made" -l $library bench/circuits/rca8_y.blif >"$room/out" 2>"$room/err" &&
    grep -q '^  kept .* lwmap -w 6' "$room/out" && grep -q '^left out: lwarea -w 6 -t max, after 3 rounds: lwarea: out of memory' "$room/out" &&
    grep -q '^left out: lwarea -e 2 -t max, with 9 networks: lwarea: out of memory' "$room/out"
verdict "an lwarea that fails is left out" $?
for status in 0 1; do
    printf '#!/bin/sh\nexit %s\n' $status >"$room/lwequal" && chmod +x "$room/lwequal"
    LWEQUAL_PROGRAM=$room/lwequal python3 lwflow -q -o "$room/made" --effort fast -l $library bench/circuits/rca8_y.blif >"$room/out" 2>"$room/err" &&
        grep -q '^shown: network .*, by cec' "$room/out" && ! grep -q 'by lwequal' "$room/out"
    verdict "an lwequal that says nothing and ends with $status is not believed" $?
done

# Liberty.
osu=/usr/share/qflow/tech/osu035/osu035_stdcells.lib
if [ -r "$osu" ]; then
    run "Liberty, judged by loads" 0 'netlist to sized netlist' -q --effort fast -l "$osu" examples/verilog/alu.v
    grep -q 'sized delay' "$room/out" && grep -q 'pads and buffers for clocks): CLKBUF1' "$room/out"
    verdict "Liberty: what was left out" $?
    run "Liberty, judged by the delays of its cells" 0 'every step was shown' -q --no-loads --effort fast -l "$osu" bench/circuits/rca8_y.blif
    ! grep -q 'sized' "$room/out"
    verdict "--no-loads sizes nothing" $?
else
    echo "skipped: there is no $osu"
fi
printf 'library(a) { cell(inv) { area : 1; pin(a) { direction : input; } pin(y) { direction : output; function : "a'"'"'"; } } }\n' >"$room/bare.lib"
run "Liberty without delay tables" 1 'no delay tables' -q -l "$room/bare.lib" bench/circuits/rca8_y.blif

# A missing tool, an end from outside, a step that takes too long.
mkdir "$room/few" && ln -s "$(python3 -c 'import sys; print(sys.executable)')" "$room/few/python3" && for tool in sh dirname readlink awk find sort sha256sum grep sed cat head tr cut xargs; do
    ln -s "$(command -v $tool)" "$room/few/$tool"
done
PATH=$room/few LWMAP_PROGRAM=$LWMAP_PROGRAM python3 lwflow -q -o "$room/made" -l $library examples/verilog/adder.v >"$room/out" 2>"$room/err"
[ $? -eq 1 ] && grep -q 'no yosys and no berkeley-abc; apt-get install yosys berkeley-abc' "$room/err"
verdict "missing tools are named with their packages" $?
rm -rf "$room/made"
python3 lwflow -o "$room/made" --effort best -l $library bench/circuits/mul16_y.blif >"$room/out" 2>"$room/err" &
child=$!
turn=0
until grep -q 'front ends' "$room/err" || [ $turn -eq 600 ]; do sleep 0.1 && turn=$((turn + 1)); done
kill -TERM $child
wait $child
[ $? -eq 130 ] && grep -q 'interrupted; nothing was written' "$room/err" && [ ! -e "$room/made" ]
verdict "an end from outside" $?
run "a step without an answer" 3 'NOT DECIDED' -q --effort fast --area each -l $library tests/flows/parallel.v

# The recipes of the pages: a netlist as a network again, a clock of SIS, and a certificate for a netlist of ABC.
python3 bench/timing.py -u $library "$room/gates.blif" >"$room/plain.blif" && ./lwmap map $library "$room/plain.blif" >"$room/again.blif" &&
    [ "$(python3 bench/timing.py -s $library "$room/again.blif")" = "$(python3 bench/timing.py -s $library "$room/gates.blif")" ]
verdict "a netlist as a network, mapped again" $?
printf '.model k\n.inputs d\n.outputs q\n.clock c\n.latch d q re c 0\n.end\n' | sed 's/^\.clock/.inputs/' >"$room/clock.blif"
./lwmap map $library "$room/clock.blif" >"$room/out" 2>"$room/err"
verdict "a clock as an input" $?
certified() { # LIB CIRCUIT
    python3 bench/timing.py -f "$1" >"$room/flat.genlib"
    (cd "$room" && berkeley-abc -s -q "read_genlib flat.genlib; read_blif $root/$2; strash; map; write_blif theirs.blif" >/dev/null 2>&1)
    python3 bench/timing.py -u "$1" "$room/theirs.blif" >"$room/network.blif"
    awk '$1 == ".names" { nodes = nodes " " $NF } $1 == ".outputs" { outputs = outputs substr($0, 9); next } $1 == ".end" { next }
        { print } END { print ".outputs" outputs nodes "\n.end" }' "$room/network.blif" >"$room/all.blif"
    ./lwmap map -c "$1" "$room/all.blif" | grep '^#@' >"$room/certificate"
    sed '/^\.end/d' "$room/theirs.blif" | cat - "$room/certificate" >"$room/claimed.blif"
    ./lwmap check "$1" "$room/network.blif" "$room/claimed.blif" >"$room/out" 2>"$room/err"
}
certified examples/small/small.genlib examples/small/shared.blif && grep -q '^yes' "$room/out"
verdict "a certificate for a netlist of ABC" $?
! certified $library bench/circuits/rca8_y.blif && grep -q 'its label is' "$room/err"
verdict "a netlist of ABC that can be made faster" $?

# In Yosys.
yosys -q -l "$room/log" -p "read_verilog examples/verilog/five.v; synth -flatten -noabc -top five; abc -exe $root/tools/yosys-lwmap -genlib $root/$library; opt_clean; write_verilog -noattr $room/five.v" >"$room/out" 2>"$room/err"
[ $? -eq 0 ] && grep -q 'ABC: lwmap: delay .*each shown' "$room/log"
verdict "in ABC's place inside Yosys" $?
yosys -q -l "$room/log" -p "read_verilog examples/verilog/five.v; synth -flatten -noabc -top five; abc -exe $root/tools/yosys-lwmap -genlib $root/README.md" >"$room/out" 2>"$room/err"
[ $? -ne 0 ] && grep -q 'ABC: lwmap: no netlist: .*GATE expected' "$room/log"
verdict "in Yosys with what is no library" $?
yosys -p "read_verilog examples/verilog/five.v; synth -flatten -noabc -top five; abc -exe $root/tools/yosys-lwmap -genlib $root/README.md" 2>"$room/err" | cat >"$room/out"
grep -q '^ABC: lwmap: no netlist: .*GATE expected' "$room/out"
verdict "in Yosys with what is no library, through a pipe" $?

LWMAP_EFFORT=fast yosys -q -l "$room/log" -p "read_verilog examples/verilog/adder.v; synth -noabc -top adder; abc -exe $root/tools/yosys-lwmap -genlib $root/$library" \
    >"$room/out" 2>"$room/err"
[ $? -eq 0 ] && [ "$(grep -c 'ABC: lwmap: delay .*each shown' "$room/log")" -eq 1 ] && grep -q '^     full_adder ' "$room/log"
verdict "in Yosys, module by module" $?
yosys_calls() { # LIB BLIF TEXT
    printf 'read_blif "%s"\nread_library %s\nwrite_blif %s\n' "$2" "$1" "$room/never.blif" >"$room/abc.script"
    ! python3 tools/yosys-lwmap -s -f "$room/abc.script" >"$room/out" 2>"$room/err" && grep -q "lwmap: no netlist: .*$3" "$room/out" && [ ! -e "$room/never.blif" ]
}
yosys_calls "$room/tilde.genlib" bench/circuits/rca8_y.blif 'a complement is written !'
verdict "in Yosys with a tilde in the library" $?
yosys_calls $library "$room/large.blif" 'more than 262144 signals'
verdict "in Yosys with a module that is too large" $?

told
