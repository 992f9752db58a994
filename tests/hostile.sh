#!/bin/sh
# Tries the built program on what is made to break it: nesting, chains and circles as deep as the formats let them be, files at
# each limit and one above, one line of 64 MB, small files that ask for long searches (tests/costs.sh, and tests/costs_equal.sh for lwequal),
# and files and streams that fail. Status, output and error have to be as docs/FORMATS.md says, and no run ends by a signal, all with 256 KB of stack where
# nothing else is said. It stands outside of the gate, since some cases take many seconds and 2 GB. With words it runs those cases
# alone, as in: sh tests/hostile.sh deep_factoring
# A case that is known to fail is told with what it takes, and tried only where it is named.
# SECONDS_EACH is the most that one run may take (60). The last line is 'N passed, N failed'.
set -u
tests=$(dirname -- "$(readlink -f -- "$0")")
# shellcheck source=tests/cases.sh
. "$tests/cases.sh"
# shellcheck disable=SC3045
ulimit -S -s 256
limit=${SECONDS_EACH:-60}
most=67108864

run() {
    timeout "$limit" "$program" "$@" </dev/null >out 2>err
}

# So many times a text, on one line.
repeat() { # COUNT TEXT
    yes -- "$2" | head -n "$1" | tr -d '\n'
}

# The same to a file, blanks behind it up to so many bytes in all, and then a further text.
filled() { # FILE BYTES TEXT END
    printf '%s' "$3" >"$1"
    head -c $(($2 - ${#3} - ${#4})) /dev/zero | tr '\0' ' ' >>"$1"
    printf '%s' "$4" >>"$1"
}

# The inverter with its netlist, its certificate, the netlist in Verilog, two vectors, and a library for 'big'.
all_files() {
    inverter_files
    printf '%s\n' '.model m' '.inputs a' '.outputs f' '.gate inv a=a O=f' '#@ label 2 0' '#@ label 3 1' '#@ net f 3' '.end' >MAPPED
    printf '%s\n' 0 1 >VECTORS
    printf '%s\n' 'module m (a, f);' 'input a;' 'output f;' 'inv u1 (.a(a), .O(f));' 'endmodule' >VER
    printf '%s\n' 'GATE inv 1 O=!a;' 'PIN * INV 1 999 1 0 1 0' 'GATE nand2 2 O=!(a*b);' 'PIN * INV 1 999 1.5 0 1.5 0' >MORE
}
each='map:LIB:IN map:-c:LIB:IN check:LIB:IN:MAPPED time:LIB:MAPPED sim:IN:VECTORS sim:-g:LIB:MAPPED:VECTORS graph:IN lut:4:IN big:0:20:MORE verilog:LIB:MAPPED unverilog:LIB:VER'
# shellcheck disable=SC2154
case $("$program" 2>&1) in *'| trade '*) each="$each trade:3:LIB:IN trade:none:LIB:IN" ;; esac

# Calls a case's own function with the words of each command.
with_each() { # FUNCTION WORD..
    for one in $each; do
        # shellcheck disable=SC2046
        "$@" $(echo "$one" | tr : ' ') || { echo "at $one" && return 1; }
    done
}

# The same for each of the files: the function gets its name, and then the words of a command that reads it.
with_each_file() { # FUNCTION
    for one in $each; do
        for file in LIB IN MAPPED VECTORS VER MORE; do
            case :$one: in *":$file:"*) ;; *) continue ;; esac
            # shellcheck disable=SC2046
            "$@" "$file" $(echo "$one" | tr : ' ') || { echo "at $one with $file" && return 1; }
        done
    done
}

# The words with a file's name exchanged.
instead() { # NAME OTHER WORD..
    name=$1 && other=$2 && shift 2
    for word; do
        shift
        [ "$word" != "$name" ] || word=$other
        set -- "$@" "$word"
    done
    printf '%s\n' "$*"
}

# With so much stack, in KB, for the rest of a case.
stack() {
    # shellcheck disable=SC3045
    ulimit -S -s "$1"
}

# Nesting

# A library of one cell with this function.
deep_cell() { # FUNCTION
    printf '%s\n' "GATE deep 1 O=$1;" 'PIN * INV 1 999 1 0 1 0' >LIB
}

deep_functions() {
    inverter_files
    for function in "$(repeat 2045 '!')a" "$(repeat 1022 '(')!a$(repeat 1022 ')')" "a$(repeat 2045 "'")" \
        "$(repeat 681 '!(')a$(repeat 681 ')')"; do
        deep_cell "$function"
        run map LIB IN
        status $? 0 && holds out '.model m' '.inputs a' '.outputs f' '.gate deep a=a O=f' '.end' && holds err || return
    done
}

deep_functions_that_are_none() {
    inverter_files
    for function in "$(repeat 2046 '(')" "$(repeat 2045 '(')a" "$(repeat 2046 ')')" "$(repeat 2046 '!')" "a$(repeat 1022 '+(')" \
        "$(repeat 1000 '(')a$(repeat 999 ')')"; do
        deep_cell "$function"
        refused 4 'LIB line 1: something else expected' map LIB IN || return
    done
    for function in "$(repeat 2046 '!')a" "$(repeat 1022 '(')!!!a$(repeat 1022 ')')" "a$(repeat 2046 "'")" "$(repeat 4000 '(')"; do
        deep_cell "$function"
        refused 4 'LIB line 1: function longer than 2048 bytes' map LIB IN || return
    done
}

# A node of 256 inputs and 256 rows, of which row k has a 1 in its first columns, and then the sign that is given.
stairs() { # SIGN FIRST
    awk -v sign="$1" -v first="$2" 'BEGIN {
        n = 256; line = ""
        for (k = 1; k <= n; k++) line = line " i" k
        print ".model m\n.inputs" line "\n.outputs f\n.names" line " f"
        for (k = first; k < n + first; k++) {
            row = ""
            for (c = 0; c < n; c++) row = row (c < k ? "1" : c == k ? sign : "-")
            print row " 1"
        }
        print ".end"
    }'
}

deep_factoring() {
    all_files && stairs 0 0 >IN
    # (it is the NAND of all inputs)
    { repeat 256 1 && echo && repeat 256 0 && echo && repeat 255 1 && echo 0; } >VECTORS
    run sim IN VECTORS && holds out 0 1 1 && holds err || return
    run map -w 2 -c MORE IN
    status $? 0 && mv out NET && run check -w 2 MORE IN NET
    status $? 0 && holds out yes && run sim -g MORE NET VECTORS && holds out 0 1 1
}

deep_factoring_to_one_input() {
    all_files && stairs - 1 >IN
    run map -w 2 LIB IN
    status $? 0 && head -n 3 IN >wanted && printf '%s\n' '.names i1 f' '1 1' '.end' >>wanted && same out wanted && holds err
}

deep_pattern() {
    # (64 names, each operator of two parts within the other)
    printf '%s\n' "GATE deep 1 O=$(repeat 32 '!(a*!(b*')a$(repeat 32 '))');" 'PIN * INV 1 999 1 0 1 0' \
        'GATE deep 1 O=!(a*b);' 'PIN * INV 1 999 1 0 1 0' >LIB
    printf '%s\n' '.model m' '.inputs a b' '.outputs f' '.names a b f' '11 0' '.end' >IN
    refused 4 'LIB line 1: more than 64 names in a function' map LIB IN || return
    sed 's/b\*a/b/' LIB >less
    refused 4 'less line 3: cell differs from its first entry' map less IN || return
    head -n 2 less >LIB
    refused 6 'no cover for output f' map LIB IN
}

# Chains and circles

chain_of_latches() {
    inverter_files
    awk 'BEGIN {
        print ".model m\n.inputs q0\n.outputs"
        for (i = 1; i <= 262143; i++) print ".latch q" i - 1 " q" i " 0"
        print ".end"
    }' >IN
    run map LIB IN
    status $? 0 && same out IN && holds err || return
    run lut 4 IN
    status $? 0 && same out IN && holds err || return
    awk 'BEGIN { for (i = 0; i < 262143; i++) print "arrival q" i " 0"; print "max 0\narea 0" }' >wanted
    run time LIB IN
    status $? 0 && same out wanted && holds err || return
    run graph IN
    status $? 0 && holds out 'forms 262145' 'classes 524290' 'alternatives 0'
}

chain_of_latches_and_inverters() {
    inverter_files
    awk -v n=80000 'BEGIN {
        print ".model m\n.inputs q0\n.outputs"
        for (i = n; i; i--) print ".names q" i - 1 " d" i "\n0 1"
        for (i = 1; i <= n; i++) print ".latch d" i " q" i " 2"
        print ".end"
    }' >IN
    awk -v n=80000 'BEGIN {
        print ".model m\n.inputs q0\n.outputs"
        for (i = 1; i <= n; i++) print ".latch d" i " q" i " 2"
        for (i = 1; i <= n; i++) print ".gate inv a=q" i - 1 " O=d" i
        print ".end"
    }' >wanted
    run map LIB IN
    status $? 0 && same out wanted && holds err
}

# So many nodes, or wires, each of which reads the one before it, and the first the last.
circle() { # COUNT
    awk -v n="$1" 'BEGIN {
        print ".model m\n.inputs a\n.outputs s" n
        for (i = 1; i <= n; i++) print ".names s" (i > 1 ? i - 1 : n) " s" i "\n1 1"
        print ".end"
    }'
}

wires_in_a_circle() {
    all_files && circle 200000 >IN && cp IN MAPPED
    refused 3 'IN: cycle through s1' map LIB IN || return
    refused 10 'MAPPED: cycle through s1' time LIB MAPPED || return
    sed 's/^\.names \(.*\) \(.*\)/.gate inv a=\1 O=\2/; /^1 1/d' IN >MAPPED
    refused 10 'MAPPED: cycle through s1' time LIB MAPPED || return
    # (gates that hang from the circle come first)
    awk 'BEGIN {
        print ".inputs a\n.outputs t1"
        for (i = 1; i <= 100000; i++) print ".gate inv a=" (i < 100000 ? "t" i + 1 : "s7") " O=t" i
    }' >hangs
    sed 1,3d MAPPED >>hangs
    refused 10 'hangs: cycle through s1' time LIB hangs
}

nodes_that_hang_from_a_circle() {
    inverter_files
    awk 'BEGIN {
        print ".inputs a\n.outputs t1"
        for (i = 1; i <= 100000; i++) print ".names t" i + 1 " t" i "\n1 1"
        print ".names c t100001\n1 1\n.names b c\n1 1\n.names c b\n1 1\n.end"
    }' >IN
    refused 3 'IN: cycle through c' map LIB IN
}

latches_in_a_circle() {
    inverter_files
    awk 'BEGIN {
        print ".model m\n.inputs\n.outputs q1"
        for (i = 1; i <= 200000; i++) print ".latch q" (i > 1 ? i - 1 : 200000) " q" i " 3"
        print ".end"
    }' >IN
    run map LIB IN
    status $? 0 && same out IN && holds err
}

# One line of 64 MB

line_of_blanks() {
    all_files
    filled IN $most '.model m
.inputs a
.outputs f
.names a f' '
0 1
.end
'
    run map LIB IN
    status $? 0 && holds_inverter out && holds err || return
    filled IN $most '.model m' ' .inputs'
    refused 3 'IN line 1: wrong number of words' map LIB IN || return
    inverter_files
    filled LIB $most 'GATE inv 1' 'O=!a; PIN * INV 1 999 1 0 1 0'
    run map LIB IN
    status $? 0 && holds_inverter out && holds err || return
    inverter_files
    filled MAPPED $most '.inputs a
.outputs f
.gate inv a=a' 'O=f
'
    run time LIB MAPPED
    status $? 0 && holds out 'arrival f 1' 'max 1' 'area 1' 'step f inv a 1' && holds err || return
    filled VECTORS $most '1' ''
    run sim IN VECTORS
    status $? 0 && holds out 0 && holds err
}

# (a line's words stand in memory together, so a machine of little memory may run out of it)
line_of_words() {
    inverter_files
    { printf '.model m\n.inputs a\n.names a f\n0 1\n.outputs' && yes ' f' | head -n 33554000 | tr -d '\n' && echo; } >IN
    run map LIB IN
    case $? in
    0) holds_inverter out && holds err ;;
    8) holds out && holds err 'lwmap: out of memory' ;;
    *) echo "status $?" && cat err && false ;;
    esac || return
    { printf '.model m\n.inputs' && yes ' f' | head -n 33554000 | tr -d '\n' && echo; } >IN
    run map LIB IN
    case $? in
    3) holds out && holds err 'lwmap: IN line 2: more than 262144 signals' ;;
    8) holds out && holds err 'lwmap: out of memory' ;;
    *) echo "status $?" && cat err && false ;;
    esac || return
    inverter_files && yes '1 ' | head -n 33554000 | tr -d '\n' >VECTORS
    run sim IN VECTORS
    case $? in
    10) holds out && holds err 'lwmap: VECTORS line 1: bad vector' ;;
    8) holds out && holds err 'lwmap: out of memory' ;;
    *) echo "status $?" && cat err && false ;;
    esac
}

line_of_continued_lines() {
    inverter_files
    # shellcheck disable=SC1003
    { printf '.model m\n.inputs a\n.outputs f' && yes '\' | head -n 33000000 && printf '\n.names a f\n0 1\n.end\n'; } >IN
    run map LIB IN
    status $? 0 && holds_inverter out && holds err || return
    sed 's/^\.names/.name/' IN >wrong
    refused 3 'wrong line 33000004: unknown command' map LIB wrong
}

line_of_one_word() {
    all_files
    for file in LIB IN MAPPED VECTORS; do
        head -c $most /dev/zero | tr '\0' x >"$file.x"
    done
    refused 4 'LIB.x line 1: word too long' map LIB.x IN || return
    refused 3 'IN.x line 1: word too long' graph IN.x || return
    refused 10 'MAPPED.x line 1: word too long' time LIB MAPPED.x || return
    refused 10 'VECTORS.x line 1: bad vector' sim IN VECTORS.x
}

lines_without_words() {
    inverter_files
    { yes '' | head -n 60000000 && printf '.foo\n'; } >long
    refused 3 'long line 60000001: unknown command' map LIB long || return
    { yes '' | head -n 60000000 && printf 'GATE\n'; } >long
    refused 4 'long line 60000001: something else expected' map long IN
}

# Limits

most_bytes_of_a_library() {
    all_files && head -c $most /dev/zero | tr '\0' '#' >LIB && cp LIB MORE
    printf '%s\n' '.model m' '.inputs a' '.outputs a' '.end' >MAPPED && cp MAPPED IN
    with_each reads_the_most || return
    for file in LIB MORE; do printf '#' >>$file; done
    with_each reads_too_much
}

reads_the_most() { # WORD..
    case $* in
    big*) refused 6 'no cover for output g4' "$@" ;;
    map* | trade*) run "$@" && grep -v '^#@' out >rest && same rest IN && holds err ;;
    check*) refused 9 'no: label of class 2 is none, a match gives 0' "$@" ;;
    time*) run "$@" && holds out 'arrival a 0' 'max 0' 'area 0' ;;
    sim*) run "$@" && holds out 0 1 ;;
    verilog*) refused 11 'no verilog: output a is an input' "$@" ;;
    unverilog*) refused 10 'VER line 4: no such cell' "$@" ;;
    esac
}

reads_too_much() { # WORD..
    case $* in
    *LIB*) refused 5 "limit: LIB has more than $most bytes" "$@" ;;
    *MORE*) refused 5 "limit: MORE has more than $most bytes" "$@" ;;
    esac
}

# Nodes of so many inputs of their own, then so many of two inputs, then inputs that nothing reads.
ands() { # WIDTH COUNT PAIRS INPUTS
    awk -v width="$1" -v count="$2" -v pairs="$3" -v more="$4" 'BEGIN {
        print ".model m"
        for (i = 1; i <= count + pairs; i++) {
            w = i > count ? 2 : width; line = ""; ones = ""
            for (k = 1; k <= w; k++) { line = line " i" i "_" k; ones = ones "1" }
            print ".inputs" line "\n.outputs f" i "\n.names" line " f" i "\n" ones " 1"
        }
        for (i = 1; i <= more; i++) print ".inputs x" i
        print ".end"
    }'
}

# 33,288 Ands of six inputs bring 63 base forms each, themselves, their inputs and their parts among them, and True is one more.
most_forms() {
    ands 6 33288 0 7 >IN
    run graph IN
    status $? 0 && holds out 'forms 2097152' 'classes 4194304' 'alternatives 10019688' && holds err || return
    sed 's/^\.inputs x7$/& x8/' IN >MORE
    refused 5 'limit: more than 2097152 forms' graph MORE
}

# 5,546 Ands of eight inputs have 3,025 splits each, and those of two inputs have one.
most_splits() {
    ands 8 5546 566 0 >IN
    run graph -w 8 IN
    status $? 0 && holds out 'forms 1415929' 'classes 2831858' 'alternatives 16777216' && holds err || return
    ands 8 5546 567 0 >IN
    refused 5 'limit: more than 16777216 splits' graph -w 8 IN
}

most_nodes_of_big() {
    run big 1 20000 "$root/bench/libs/tiny.genlib"
    status $? 0 && head -n 1 out >line && holds line 'nodes 20000' && holds err
}

most_rows_over_the_most_columns() {
    all_files
    awk 'BEGIN {
        line = ""; for (k = 1; k <= 256; k++) line = line " i" k
        print ".inputs" line "\n.outputs f\n.names" line " f"
        for (r = 0; r < 4096; r++) {
            row = ""
            for (k = 0; k < 256; k++) row = row (k == r % 256 ? "1" : "-")
            print row " 1"
        }
    }' >IN
    { repeat 256 0 && echo && repeat 255 0 && echo 1; } >VECTORS
    run sim IN VECTORS
    status $? 0 && holds out 0 1 && holds err || return
    # (as many rows again, each of them a repetition)
    run graph -w 2 IN
    status $? 0 && holds err || return
    repeat 256 - >row && printf ' 1\n' >>row && cat row >>IN
    refused 3 'IN line 4100: more than 4096 rows' graph IN
}

words_beyond_all_use() {
    stack 8192 # (the system takes no such words with less)
    all_files
    run "$(repeat 100000 x)"
    status $? 1 && holds out && [ "$(wc -l <err)" -eq 1 ] && grep -q '^lwmap: usage: ' err || return
    # shellcheck disable=SC2046
    run map $(yes -- -c | head -n 20000)
    status $? 1 && holds out && [ "$(wc -l <err)" -eq 1 ] || return
    name=$(repeat 5000 x)
    refused 2 "cannot read $name" map LIB "$name"
}

# Files that fail

files_that_cannot_be_opened() {
    all_files && ln -s nowhere dangling && ln -s circle circle && mkdir folder && : >plain
    with_each_file not_opened
}

not_opened() { # FILE WORD..
    file=$1 && shift
    for other in dangling circle folder folder/none plain/below /dev/null/below; do
        # shellcheck disable=SC2046
        refused 2 "cannot read $other" $(instead "$file" "$other" "$@") || return
    done
}

# A file that opens, and of which each read fails.
file_that_cannot_be_read() {
    [ -r /proc/self/mem ] || { echo "there is no /proc/self/mem" && return 9; }
    all_files
    with_each_file not_read
}

not_read() { # FILE WORD..
    file=$1 && shift
    # shellcheck disable=SC2046
    refused 2 'cannot read /proc/self/mem' $(instead "$file" /proc/self/mem "$@")
}

file_without_permission() {
    all_files && chmod 0 LIB IN MAPPED VECTORS VER MORE
    if [ "$(id -u)" -eq 0 ]; then
        command -v setpriv >/dev/null || { echo "root may read every file, and there is no setpriv" && return 9; }
        chmod 755 "$room" . && chmod 777 . && : >out && : >err && chmod 666 out err
        cp "$program" ./program && chmod 755 program
        run() { timeout "$limit" setpriv --reuid=65534 --regid=65534 --clear-groups ./program "$@" </dev/null >out 2>err; }
        run || [ $? -eq 1 ] || { echo "the program does not run for another user" && return 9; }
    fi
    with_each_file not_permitted
}

not_permitted() { # FILE WORD..
    file=$1 && shift
    chmod 644 LIB IN MAPPED VECTORS VER MORE && chmod 0 "$file"
    refused 2 "cannot read $file" "$@"
}

file_that_is_empty() {
    all_files
    run map /dev/null IN
    status $? 6 && holds out && holds err 'lwmap: no cover for output f' || return
    run map LIB /dev/null
    status $? 0 && holds out '.model unnamed' '.inputs' '.outputs' '.end' || return
    run sim IN /dev/null
    status $? 0 && holds out && holds err || return
    # shellcheck disable=SC2094
    "$program" map LIB /dev/stdin <&- >out 2>err
    status $? 2 && holds out && holds err 'lwmap: cannot read /dev/stdin'
}

# LIB is a pipe, so that IN changes while the program runs, before it is read.
file_that_changes_before_it_is_read() {
    inverter_files && cp IN whole && mkfifo pipe
    { echo '.foo' >IN && cat LIB; } >pipe &
    refused 3 'IN line 1: unknown command' map pipe IN || return
    { rm IN && cat LIB; } >pipe &
    refused 2 'cannot read IN' map pipe IN || return
    cp whole IN
    { : >IN && cat LIB; } >pipe &
    run map pipe IN
    status $? 0 && holds out '.model unnamed' '.inputs' '.outputs' '.end' && holds err
}

file_that_grows() {
    inverter_files
    { sed 4q IN && sleep 0.3 && sed '1,4d' IN; } | "$program" map LIB /dev/stdin >out 2>err
    status $? 0 && holds_inverter out && holds err || return
    # (what comes behind .end is read, and has no faults)
    head -c 30000000 /dev/zero | tr '\0' '#' >>IN
    for _ in 1 2 3 4 5; do
        cp IN grows
        { for _ in 1 2 3 4 5 6 7 8 9 10; do head -c 1000000 /dev/zero >>grows; done; } &
        run map LIB grows
        status $? 0 && holds_inverter out && holds err && wait || return
    done
}

file_that_shrinks() {
    inverter_files
    head -c 60000000 /dev/zero | tr '\0' '#' >>IN
    for pause in 0 0.002 0.005 0.01 0.02 0.05 0.1; do
        cp IN shrinks
        { sleep $pause && truncate -s 200 shrinks; } &
        run map LIB shrinks
        status $? 0 && holds_inverter out && holds err && wait || return
        cp IN shrinks
        { sleep $pause && rm shrinks; } &
        run map LIB shrinks
        case $? in
        0) holds_inverter out && holds err ;;
        2) holds out && holds err 'lwmap: cannot read shrinks' ;;
        *) echo "status of a file that is gone" && false ;;
        esac && wait || return
    done
}

# Streams that fail

pipe_that_nobody_reads() {
    all_files
    with_each unread
}

unread() { # WORD..
    { sleep 0.1 && "$program" "$@" 2>err; echo $? >status; } | :
    status "$(cat status)" 7 && holds err 'lwmap: cannot write' || return
    # (a refusal is told, and standard output is not touched)
    { sleep 0.1 && "$program" "$@" more 2>err; echo $? >status; } | :
    status "$(cat status)" 1 && [ "$(wc -l <err)" -eq 1 ]
}

pipe_that_is_closed_early() {
    inverter_files
    awk 'BEGIN { line = ""; for (i = 1; i <= 100000; i++) line = line " i" i; print ".inputs" line "\n.outputs" line }' >IN
    { timeout "$limit" "$program" map LIB IN 2>err; echo $? >status; } | head -c 100 >taken
    status "$(cat status)" 7 && holds err 'lwmap: cannot write' || return
    { printf '.model unnamed\n' && cat IN; } | head -c 100 >wanted && same taken wanted
}

error_that_nobody_reads() {
    all_files
    { sleep 0.1 && "$program" map LIB none >out; echo $? >status; } 2>&1 | :
    status "$(cat status)" 2 && holds out || return
    with_each unheard
}

unheard() { # WORD..
    "$program" "$@" none >out 2>/dev/full
    status $? 1 && holds out || return
    "$program" "$@" >/dev/full 2>/dev/full
    status $? 7 || return
    "$program" "$@" >&- 2>&-
    status $? 7 || return
    "$program" "$@" >out 2>&-
    status $? 0 && [ -s out ]
}

output_that_cannot_be_written() {
    all_files
    with_each unwritten
}

unwritten() { # WORD..
    for where in /dev/full readable; do
        : >readable
        case $where in
        readable) "$program" "$@" 2>err 1<readable ;;
        *) "$program" "$@" >$where 2>err ;;
        esac
        status $? 7 && holds err 'lwmap: cannot write' || return
    done
}

# shellcheck source=tests/costs.sh
. "$tests/costs.sh"
# shellcheck source=tests/costs_equal.sh
. "$tests/costs_equal.sh"

# shellcheck disable=SC2086
for it in deep_functions deep_functions_that_are_none deep_pattern deep_factoring deep_factoring_to_one_input \
    chain_of_latches chain_of_latches_and_inverters wires_in_a_circle nodes_that_hang_from_a_circle latches_in_a_circle \
    line_of_blanks line_of_words line_of_continued_lines line_of_one_word lines_without_words \
    most_bytes_of_a_library most_forms most_splits most_nodes_of_big most_rows_over_the_most_columns words_beyond_all_use \
    files_that_cannot_be_opened file_that_cannot_be_read file_without_permission file_that_is_empty \
    file_that_changes_before_it_is_read file_that_grows file_that_shrinks \
    pipe_that_nobody_reads pipe_that_is_closed_early error_that_nobody_reads output_that_cannot_be_written $costs $costs_of_equal; do
    if [ $# -eq 0 ]; then
        if takes=$(failing "$it"); then echo "known to fail: $it: $takes" && continue; fi
    else
        case " $* " in *" $it "*) ;; *) continue ;; esac
    fi
    attempt "$it" "$it"
done
told
