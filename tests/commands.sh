# Cases of all commands, of `map` with -c alone, for tests/rows.sh, which reads this file behind the functions that are used here.
# (the names of its files and folders are set there)
# shellcheck shell=sh disable=SC2015,SC2154

# The inverter with its netlist, its certificate, the netlist in Verilog, and two vectors.
checked_files() {
    inverter_files
    printf '%s\n' '.model m' '.inputs a' '.outputs f' '.gate inv a=a O=f' '#@ label 2 0' '#@ label 3 1' '#@ net f 3' '.end' >MAPPED
    printf '%s\n' 0 1 >VECTORS
    printf '%s\n' 'module m (a, f);' 'input a;' 'output f;' 'inv u1 (.a(a), .O(f));' 'endmodule' >VER
}

# Each command of these words on the files above, as: for words in $each; do set -- $(echo "$words" | tr : ' '); ..
each='map:-c:LIB:IN check:LIB:IN:MAPPED time:LIB:MAPPED sim:IN:VECTORS sim:-g:LIB:MAPPED:VECTORS graph:IN lut:4:IN big:0:20:more verilog:LIB:MAPPED unverilog:LIB:VER'
case $("$program" 2>&1) in *'| trade '*) each="$each trade:8:LIB:IN" ;; esac

each_command_where_standard_output_is_full() {
    [ -c /dev/full ] || { echo "there is no /dev/full" && return 9; }
    checked_files && cp "$root/bench/libs/tiny.genlib" more
    for words in $each; do
        # shellcheck disable=SC2046
        "$program" $(echo "$words" | tr : ' ') >/dev/full 2>err
        status $? 7 && holds err 'lwmap: cannot write' || { echo "at $words" && return 1; }
    done
}

each_command_twice() {
    checked_files && cp "$root/bench/libs/tiny.genlib" more
    for words in $each; do
        # shellcheck disable=SC2046
        set -- $(echo "$words" | tr : ' ')
        run "$@" && cp out first && run "$@" && [ -s out ] && same out first && holds err || { echo "at $words" && return 1; }
    done
}

each_file_is_a_folder() {
    checked_files && cp "$root/bench/libs/tiny.genlib" more && mkdir folder
    for words in $each; do
        for name in LIB IN MAPPED VECTORS VER more; do
            case :$words: in *":$name:"*) ;; *) continue ;; esac
            # shellcheck disable=SC2046
            refused 2 'cannot read folder' $(echo "$words" | sed "s/$name/folder/" | tr : ' ') || { echo "at $words with $name" && return 1; }
        done
    done
}

check_from_a_pipe() {
    checked_files
    "$program" map -c LIB IN | "$program" check LIB IN /dev/stdin >out 2>err
    status $? 0 && holds out yes && holds err || return
    "$program" map -c LIB IN | sed 's/^#@ label 3 1/#@ label 3 1.000001/' | "$program" check LIB IN /dev/stdin >out 2>err
    status $? 9 && holds out && holds err 'lwmap: no: label of class 3 is 1.000001, a match gives 1'
}

# So many vectors for the inputs and latches of a mapped text.
vectors_for() { # MAPPED VECTORS
    awk -v n="$2" '
        $1 == ".inputs" { width += NF - 1 }
        $1 == ".latch" { width++ }
        END {
            state = 7
            for (v = 0; v < n && width; v++) {
                line = ""
                for (k = 0; k < width; k++) { state = (state * 16807) % 2147483647; line = line (state > 1073741823) }
                print line
            }
        }' "$1"
}

# Each example is mapped with its certificate, which is accepted; its netlist and its network have the same values.
examples_are_checked() {
    for mapped in "$examples"/*/*.mapped.blif; do
        library=$(echo "$(dirname "$mapped")"/*.genlib) && network=${mapped%.mapped.blif}.blif
        for options in '' '-w 3' '-w 2 -i'; do
            # shellcheck disable=SC2086
            run map $options -c "$library" "$network"
            status $? 0 && mv out MAPPED || { echo "map $options at $network" && return 1; }
            # shellcheck disable=SC2086
            run check $options "$library" "$network" MAPPED
            status $? 0 && holds out yes && holds err || { echo "check $options at $network" && return 1; }
        done
        vectors_for MAPPED 200 >VECTORS
        run sim "$network" VECTORS
        status $? 0 && mv out wanted && run sim -g "$library" MAPPED VECTORS
        status $? 0 && same out wanted || { echo "values of $network" && return 1; }
    done
}

netlist_of_too_many_bytes() {
    checked_files && zeros MAPPED 67108865
    for words in check:LIB:IN:MAPPED time:LIB:MAPPED sim:-g:LIB:MAPPED:none verilog:LIB:MAPPED; do
        # shellcheck disable=SC2046
        refused 5 'limit: MAPPED has more than 67108864 bytes' $(echo "$words" | tr : ' ') || return
    done
    zeros MAPPED 67108864
    refused 10 'MAPPED line 1: word too long' check LIB IN MAPPED
}

vectors_of_too_many_bytes() {
    checked_files && zeros VECTORS 67108865
    refused 5 'limit: VECTORS has more than 67108864 bytes' sim IN VECTORS || return
    refused 5 'limit: VECTORS has more than 67108864 bytes' sim -g LIB MAPPED VECTORS || return
    zeros VECTORS 67108864
    refused 10 'VECTORS line 1: bad vector' sim IN VECTORS
}

long_words_of_mapped_texts() {
    checked_files
    word=$(long 4096)
    for line in ".model $word" ".inputs $word" ".outputs $word" ".latch $word" ".input_arrival $word" ".default_input_arrival $word" \
        ".gate $word" ".gate inv a=a O=g $word" ".names $word" ".area $word" ".foo $word" "$word" "#@ label 2 $word" "#@ net $word"; do
        printf '%s\n' '.inputs a' '.outputs a' "$line" '.end' >MAPPED
        [ "${line%% *}" != .model ] || printf '%s\n' '# none' '' "$line" >MAPPED
        refused 10 'MAPPED line 3: word too long' time LIB MAPPED || { echo "at ${line%% *}" && return 1; }
    done
    printf '%s\n' '.inputs a' '.outputs f' '.names a f' "1 1 $word" >MAPPED
    run time LIB MAPPED
    status $? 10 && holds err 'lwmap: MAPPED line 4: word too long' || return
    printf '%s\n' '.inputs a' '.outputs a' '.end' ".names $word" >MAPPED
    run time LIB MAPPED
    status $? 0 && holds out 'arrival a 0' 'max 0' 'area 0'
}

mapped_names_of_2000_bytes() {
    checked_files
    n=$(long 2000)
    printf '%s\n' ".model $n" '.inputs a' ".outputs $n" ".gate inv a=a O=$n" '#@ label 2 0' '#@ label 3 1' "#@ net $n 3" '.end' >MAPPED
    run time LIB MAPPED
    status $? 0 && holds out "arrival $n 1" 'max 1' 'area 1' "step $n inv a 1" && holds err || return
    for line in 1 3 4; do
        sed "${line}s/$n/x$n/" MAPPED >longer
        refused 10 "longer line $line: bad name" time LIB longer || return
    done
    # (the name of a certificate's line may be any word)
    sed "7s/$n/x$n/" MAPPED >longer
    run time LIB longer
    status $? 0
}

vectors_of_many_inputs() {
    awk 'BEGIN {
        line = ".inputs"; for (k = 1; k <= 5000; k++) line = line " i" k
        print line "\n.outputs i1 i4000 i4001 i5000\n.end"
    }' >IN
    one=$(head -c 2500 /dev/zero | tr '\0' 1) && zero=$(echo "$one" | tr 1 0)
    printf '%s\n' "$one $zero" "$zero $one" "1 ${zero}${zero%?????}1110" "$one\\" "$one" >VECTORS
    refused 10 'VECTORS line 3: bad vector' sim IN VECTORS || return
    sed 3d VECTORS >fewer
    run sim IN fewer
    status $? 0 && holds out 1000 0111 1111 && holds err
}

graph_of_too_many_forms() {
    awk -v n=8600 -f "$root/bench/eights.awk" >IN
    refused 5 'limit: more than 2097152 forms' graph -w 8 IN
}

# What the counts are: True and each input and, at each node, 247 Ands; a class and its complement for each; a pair for each
# split, and with -i one more for each class.
graph_of_the_most_splits() {
    awk -v n=5547 -f "$root/bench/eights.awk" >IN
    refused 5 'limit: more than 16777216 splits' graph -w 8 IN || return
    awk -v n=5546 -f "$root/bench/eights.awk" >IN
    run graph -w 8 IN
    status $? 0 && holds out 'forms 1414231' 'classes 2828462' 'alternatives 16776650' && holds err
}

graph_of_the_most_splits_that_share_operands() {
    awk -v n=519 -f "$root/bench/eights.awk" >IN
    refused 5 'limit: more than 16777216 splits' graph -w 8 -i IN || return
    awk -v n=518 -f "$root/bench/eights.awk" >IN
    run graph -w 8 -i IN
    status $? 0 && holds out 'forms 132091' 'classes 264182' 'alternatives 17039612' && holds err
}

check_of_too_many_forms() {
    checked_files && awk -v n=8600 -f "$root/bench/eights.awk" >IN
    echo .foo >wrong
    refused 10 'wrong line 1: unknown command' check -w 8 LIB IN wrong || return
    refused 5 'limit: more than 2097152 forms' check -w 8 LIB IN MAPPED
}

each_prefix_of_each_file() {
    command -v python3 >/dev/null || { echo "python3 is not on this machine" && return 9; }
    LWMAP_PROGRAM=$program python3 "$tests/prefixes.py" >said || { cat said && false; }
}

# What the second program said to these is in the table, so that they need no Python.
each_prefix_of_small_files() {
    while read -r row file size last code sum length line; do
        cp "$tests/rows/$row"/* . && set --
        while IFS= read -r word; do set -- "$@" "$word"; done <"$tests/rows/$row/words"
        while [ "$size" -le "$last" ]; do
            head -c "$size" "$tests/rows/$row/$file" >"$file" && run "$@"
            status $? "$code" && [ "$(cksum <out)" = "$sum $length" ] && holds err ${line:+"$line"} ||
                { echo "at $size bytes of $file of $row" && return 1; }
            size=$((size + 1))
        done
    done <"$tests/prefixes.txt"
}

# 4,096 inverters at each class of 8,000 and more, beside the NAND: no store holds so many matches.
big_of_too_many_matches() {
    awk 'BEGIN {
        for (i = 1; i < 4096; i++) print "GATE inv" i " 1 O=!a;\nPIN * INV 1 999 1 0 1 0"
        print "GATE nand2 2 O=!(a*b);\nPIN * INV 1 999 1.5 0 1.5 0"
    }' >LIB
    run big 1 4000 LIB
    status $? 0 && holds err && tail -n 1 out >line && holds line 'steps none' && head -n 1 out >line && holds line 'nodes 4000'
}

big_of_many_nodes_twice() {
    printf '%s\n' 'GATE inv 1 O=!a;' 'PIN * INV 1 999 1 0 1 0' 'GATE nand2 2 O=!(a*b);' 'PIN * INV 1 999 1.5 0 1.5 0' \
        'GATE nand3 3 O=!(a*b*c);' 'PIN * INV 1 999 2 0 2 0' >LIB
    for nodes in 2000 20000; do
        run big 1 $nodes LIB
        status $? 0 && holds err && cp out first && sed 's/ .*//' out >names && holds names nodes classes gates max steps || return
        head -n 1 out >line && holds line "nodes $nodes" || return
        run big 1 $nodes LIB
        status $? 0 && same out first || return
    done
}

# A chain of so many inverters as a mapped text, from the input on, or the last gate first.
mapped_chain() { # GATES [backwards]
    awk -v n="$1" -v backwards="${2:-}" 'BEGIN {
        print ".model m\n.inputs s0\n.outputs s" n
        for (i = 1; i <= n; i++) { k = backwards ? n + 1 - i : i; print ".gate inv a=s" k - 1 " O=s" k }
        print ".end"
    }'
}

long_path() {
    checked_files
    awk 'BEGIN {
        n = 200000
        print "arrival s" n " " n "\nmax " n "\narea " n
        for (i = 1; i <= n; i++) print "step s" i " inv a " i
    }' >wanted
    for way in '' backwards; do
        # shellcheck disable=SC2086
        mapped_chain 200000 $way >MAPPED
        run time LIB MAPPED
        status $? 0 && same out wanted && holds err || return
        run sim -g LIB MAPPED VECTORS
        status $? 0 && holds out 0 1 && holds err || return
    done
}

cycle_behind_a_long_path() {
    checked_files
    mapped_chain 200000 backwards | sed 's/=s0 /=s200000 /' >MAPPED
    refused 10 'MAPPED: cycle through s200000' time LIB MAPPED
}

# Each file left out: the first in the order of the words is told, whatever the later ones hold.
each_file_is_missing() {
    for words in $each; do
        later=
        for name in VER VECTORS MAPPED IN LIB more; do
            case :$words: in *":$name:"*) ;; *) continue ;; esac
            checked_files && cp "$root/bench/libs/tiny.genlib" more && rm "$name"
            for other in $later; do printf '"\n' >"$other"; done
            # shellcheck disable=SC2046
            refused 2 "cannot read $name" $(echo "$words" | tr : ' ') || { echo "at $words without $name" && return 1; }
            later="$later $name"
        done
    done
}

verilog_by_a_pipe() {
    checked_files
    "$program" verilog LIB MAPPED | "$program" unverilog LIB /dev/stdin >out 2>err
    status $? 0 && holds_inverter out && holds err || return
    "$program" unverilog LIB VER | "$program" verilog LIB /dev/stdin >out 2>err
    status $? 0 && holds err || return
    holds out 'module \m (\a , \f );' 'input \a ;' 'output \f ;' '\inv u1 (.\a (\a ), .\O (\f ));' endmodule
}

# A netlist written, read and written again: the same text. What was read is left in the file 'again'.
reads_back() { # LIB MAPPED
    run verilog "$1" "$2"
    status $? 0 && cp out first && run unverilog "$1" first
    status $? 0 && holds err && cp out again && run verilog "$1" again
    status $? 0 && same out first && holds err
}

# What the examples and the rows wrote in Verilog, or read out of it.
written_verilog_reads_back() {
    for mapped in "$examples"/*/*.mapped.blif; do
        case ${mapped##*/} in wires.*) continue ;; esac
        reads_back "$(dirname "$mapped")"/*.genlib "$mapped" && same again "$mapped" || { echo "at $mapped" && return 1; }
        vectors_for again 50 >VECTORS
        run sim -g "$(dirname "$mapped")"/*.genlib "$mapped" VECTORS
        status $? 0 && mv out wanted && run sim -g "$(dirname "$mapped")"/*.genlib again VECTORS
        status $? 0 && same out wanted || { echo "values of $mapped" && return 1; }
    done
    for row in "$tests"/rows/*verilog_*; do
        [ "$(cat "$row/status")" -eq 0 ] || continue
        mapped=$row/MAPPED
        if [ "$(head -n 1 "$row/words")" = unverilog ]; then mapped=$row/stdout; fi
        # (a module may have the name of a cell where it is read)
        case $row in *_model_may_be_a_cell) continue ;; esac
        reads_back "$row/LIB" "$mapped" || { echo "at ${row##*/}" && return 1; }
    done
}

# (Icarus Verilog and Yosys have their part where they are installed)
examples_in_verilog_for_other_tools() {
    export LWMAP_PROGRAM="$program"
    for mapped in "$examples"/*/*.mapped.blif; do
        case ${mapped##*/} in wires.*) wanted=11 ;; *) wanted=0 ;; esac
        sh "$root/examples/verilog.sh" -n 100 -o folder "$(dirname "$mapped")"/*.genlib "$mapped" >said 2>err
        status $? $wanted || { echo "at $mapped" && cat said err && return 1; }
        if [ $wanted -eq 0 ]; then
            grep -qx 'unverilog: the same mapped text' said && holds err
        else
            holds said && holds err 'lwmap: no verilog: output a is an input'
        fi || return
    done
}

each_prefix_of_a_verilog_text_is_refused() {
    checked_files
    size=$(($(wc -c <VER) - 1))
    while [ "$size" -gt 0 ]; do
        size=$((size - 1)) && head -c "$size" VER >PREFIX
        run unverilog LIB PREFIX
        status $? 10 && holds out && [ "$(wc -l <err)" -eq 1 ] && grep -q '^lwmap: PREFIX line [1-5]: ' err || { echo "at $size bytes" && return 1; }
    done
    # (a line's end behind the last word is not needed)
    head -c "$(($(wc -c <VER) - 1))" VER >PREFIX
    run unverilog LIB PREFIX
    status $? 0 && holds_inverter out
}

verilog_text_of_too_many_bytes() {
    checked_files && zeros VER 67108865
    refused 5 'limit: VER has more than 67108864 bytes' unverilog LIB VER || return
    zeros VER 67108864
    refused 10 'VER line 1: byte not allowed' unverilog LIB VER
}

# So many bytes that are all one, between two texts, as a file of 64 MB.
stretched() { # FIRST BYTE LAST
    { printf '%s' "$1" && head -c "$((67108864 - ${#1} - ${#3}))" /dev/zero | tr '\0' "$2" && printf '%s' "$3"; } >VER
}

verilog_text_of_one_long_part() {
    checked_files
    module='module m (a, f); input a; output f; inv u1 (.a(a), .O(f)); endmodule'
    for comment in '/*:*/' '(*:*)' '//:
'; do
        stretched "${comment%:*}" x "${comment#*:}$module"
        run unverilog LIB VER
        status $? 0 && holds_inverter out && holds err || { echo "at $comment" && return 1; }
    done
    for comment in '/*' '(*'; do
        stretched "$comment" '*' ''
        refused 10 'VER line 1: something else expected' unverilog LIB VER || { echo "at $comment" && return 1; }
    done
    stretched '' ' ' "$module"
    run unverilog LIB VER
    status $? 0 && holds_inverter out || return
    stretched "$module" x ''
    refused 10 'VER line 1: no such cell' unverilog LIB VER || return
    stretched "$module " x ''
    run unverilog LIB VER
    status $? 0 && holds_inverter out || return
    stretched '' x ''
    refused 10 'VER line 1: something else expected' unverilog LIB VER || return
    stretched 'module ' x ''
    refused 10 'VER line 1: bad name' unverilog LIB VER || return
    stretched "module \\" x ' ;'
    refused 10 'VER line 1: bad name' unverilog LIB VER || return
    stretched 'module m; ' x ' u1 ();'
    refused 10 'VER line 1: no such cell' unverilog LIB VER || return
    stretched '' '(' ''
    refused 10 'VER line 1: something else expected' unverilog LIB VER || return
    tr '(' '\n' <VER >LINES
    refused 10 'LINES line 67108864: something else expected' unverilog LIB LINES
}

# One input for each of so many names, in one list or in many, and one that is declared again at the end.
verilog_text_of_many_ports() {
    checked_files
    for way in one many; do
        awk -v n=200000 -v way="$way" 'BEGIN {
            printf "module m ("; for (i = 1; i <= n; i++) printf "i%d, ", i
            print "f);\noutput f;"
            if (way == "one") { printf "input i1"; for (i = 2; i <= n; i++) printf ", i%d", i; print ";" }
            else for (i = 1; i <= n; i++) print "input i" i ";"
            print "inv u1 (.a(i" n "), .O(f));\nendmodule"
        }' >VER
        awk -v n=200000 'BEGIN {
            printf ".model m\n.inputs"; for (i = 1; i <= n; i++) printf " i%d", i
            print "\n.outputs f\n.gate inv a=i" n " O=f\n.end"
        }' >wanted
        run unverilog LIB VER
        status $? 0 && same out wanted && holds err || return
        sed 's/^inv/input i1;/' VER >again
        refused 10 "again line $(($(wc -l <again) - 1)): port not declared once" unverilog LIB again || return
        sed '1s/, f/, i1, f/' VER >again
        refused 10 "again line $(wc -l <again): port not declared once" unverilog LIB again || return
    done
}

# A chain of inverters, the last first, and one of assignments, which is a wire.
verilog_text_of_a_long_path() {
    checked_files
    for way in inv assign; do
        awk -v n=100000 -v way="$way" 'BEGIN {
            print "module m (s0, s" n ");\ninput s0;\noutput s" n ";"
            for (i = n; i; i--) print way == "inv" ? "inv s (.a(s" i - 1 "), .O(s" i "));" : "assign s" i " = s" i - 1 ";"
            print "endmodule"
        }' >VER
        run unverilog LIB VER && cp out MAPPED
        status $? 0 && holds err || return
        if [ "$way" = inv ]; then mapped_chain 100000 >wanted; else
            printf '%s\n' '.model m' '.inputs s0' '.outputs s100000' '.names s0 s100000' '1 1' '.end' >wanted
        fi
        same MAPPED wanted || return
        sed 's/(s0)/(s100000)/; s/= s0;/= s100000;/' VER >circle
        refused 10 "circle: cycle through s100000" unverilog LIB circle || return
        run verilog LIB MAPPED && cp out VER && run unverilog LIB VER
        status $? 0 && same out MAPPED || return
    done
}

# Names of nets, ports, instances and the module have a limit, and those of cells and pins have that of a word.
verilog_names_of_2000_bytes() {
    checked_files
    n=$(long 2000)
    sed "s/\\bm\\b/$n/; s/\\bu1\\b/$n/; s/\\bf\\b/$n/g; 4s/^/wire $n;\\n/; \$s/^/assign x = $n;\\n/" VER >longest
    run unverilog LIB longest
    status $? 0 && holds out ".model $n" '.inputs a' ".outputs $n" ".gate inv a=a O=$n" '.end' && holds err || return
    line=1
    for place in '1s/m (/Mm (/' '1s/, /, M/' '2s/ / M/' '3s/ / M/' '4s/ / M/' '4s/(a)/(Ma)/' '4s/(f)/(Mf)/' '4s/.*/wire Mx;/' \
        '4s/.*/assign Mx = a;/' '4s/.*/assign f = Mx;/'; do
        sed "$place" VER | sed "s/M[a-z]*[0-9]*/$(long 2001)/" >longer
        refused 10 "longer line ${place%%s*}: bad name" unverilog LIB longer || { echo "at $place" && return 1; }
    done
}

verilog_of_long_cells_and_pins() {
    checked_files
    cell=$(long 4095) && pin=$(long 2045 | tr x y)
    printf '%s\n' "GATE $cell 1 O=!$pin;" 'PIN * INV 1 999 1 0 1 0' >LIB
    printf '%s\n' '.model m' '.inputs a' '.outputs f' ".gate $cell $pin=a O=f" '.end' >MAPPED
    run verilog LIB MAPPED
    status $? 0 && cp out VER && holds out 'module \m (\a , \f );' 'input \a ;' 'output \f ;' "\\$cell u1 (.\\$pin (\\a ), .\\O (\\f ));" endmodule || return
    run unverilog LIB VER
    status $? 0 && same out MAPPED || return
    sed "s/$cell/x&/" VER >longer
    refused 10 'longer line 4: no such cell' unverilog LIB longer || return
    sed "s/$pin /x&/" VER >longer
    refused 10 'longer line 4: no such pin' unverilog LIB longer
}

# Very many instances are numbered past all names that are taken.
verilog_of_many_taken_names() {
    checked_files
    awk -v n=100000 'BEGIN {
        printf ".model m\n.inputs"; for (i = 1; i <= n; i++) printf " u%d", i
        print "\n.outputs f"
        for (i = 1; i < 1000; i++) print ".gate inv a=u" i " O=n" i
        print ".gate inv a=u1000 O=f\n.end"
    }' >MAPPED
    run verilog LIB MAPPED
    status $? 0 && cp out VER && holds err || return
    sed -n 's/^\\inv \(u[0-9]*\) .*/\1/p' VER >got && awk 'BEGIN { for (i = 1; i <= 1000; i++) print "u" 100000 + i }' >wanted
    same got wanted && run unverilog LIB VER
    status $? 0 && same out MAPPED
}
