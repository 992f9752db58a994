# Cases of lwequal within processor time and memory, for tests/hostile.sh, which reads this file behind tests/costs.sh.
# shellcheck shell=sh disable=SC2034,SC2154

# shellcheck source=tests/arithmetic.sh
. "$tests/arithmetic.sh"
cells=$root/bench/libs/mcnc.genlib

# Makes lwequal the program of the case.
of_lwequal() {
    tried=lwequal
    program=$(sh "$root/release/program.sh" build lwequal) || exit
}

equal_within() { # SECONDS MB WORD..
    answered "$@" && holds out equal
}

# A difference that this output shows.
differ_within() { # OUTPUT SECONDS MB WORD..
    wanted_output=$1 && shift
    within "$@"
    status $? 1 && holds err && head -n 1 out >first && holds first "differ $wanted_output"
}

equal_of_a_million_gates() {
    of_lwequal
    mixing 166667 six >ONE && mixing 166667 two back >OTHER && [ "$(grep -c '^\.gate' ONE)" -gt 1000000 ] || return
    equal_within 20 1024 -l "$cells" ONE OTHER || return
    sed 's/xor a=s0_0 /xnor a=s0_0 /' OTHER >WRONG && ! cmp -s OTHER WRONG || return
    within 20 1024 -l "$cells" ONE WRONG
    status $? 1 && holds err && grep -q '^differ ' out
}

equal_of_100000_gates() {
    of_lwequal
    mixing 16667 six >ONE && mixing 16667 on back >OTHER && mixing 16667 two >THIRD
    equal_within 2 250 -l "$cells" OTHER ONE && equal_within 2 250 -l "$cells" ONE THIRD || return
    sed 's/xor a=s26_260 /xnor a=s26_260 /' THIRD >WRONG && ! cmp -s THIRD WRONG || return
    differ_within s26_261 2 250 -l "$cells" ONE WRONG
}

equal_of_most_signals() {
    of_lwequal
    mixing 262000 on >ONE && mixing 262000 off back >OTHER
    equal_within 5 512 ONE OTHER || return
    awk '/^\.names s47_4093 / { print; getline; print "11- 1"; next } 1' ONE >WRONG && ! cmp -s ONE WRONG || return
    differ_within s47_4094 5 512 ONE WRONG
}

equal_of_long_carries() {
    of_lwequal
    adder 50000 majority >ONE && adder 50000 choice >OTHER
    equal_within 5 512 ONE OTHER || return
    awk '/^\.names p777 c777 s777$/ { print; getline; print "1- 1"; next } 1' OTHER >WRONG && ! cmp -s OTHER WRONG || return
    differ_within s777 5 512 ONE WRONG
}

# An even and an odd number of complements.
equal_of_deep_chains() {
    of_lwequal
    for nodes in 262142 262141; do
        awk -v n=$nodes 'BEGIN {
            print ".model m\n.inputs s0\n.outputs f"
            for (i = n; i > 1; i--) print ".names s" i - 1 " " (i < n ? "s" i : "f") "\n0 1"
            print ".names s0 s1\n0 1\n.end"
        }' >chain
        printf '%s\n' .model\ m '.inputs s0' '.outputs f' '.names s0 f' '1 1' .end >wire
        case $nodes in
        *2) equal_within 2 250 chain wire ;;
        *) differ_within f 2 250 chain wire ;;
        esac || return
    done
}

# The And of all inputs, from the first to the last and from the last to the first. No drawn assignment shows more than 0.
equal_of_ands_in_two_orders() {
    of_lwequal
    for order in 1 -1; do
        awk -v n="${1:-65536}" -v order=$order 'BEGIN {
            printf ".model m\n.inputs"; for (i = 0; i < n; i++) printf " x%d", i
            print "\n.outputs f"
            from = order > 0 ? 0 : n - 1
            for (i = 1; i < n; i++)
                print ".names " (i > 1 ? "s" i - 1 : "x" from) " x" from + order * i " " (i < n - 1 ? "s" i : "f") "\n11 1"
            print ".end"
        }' >"AND$order"
    done
    equal_within 5 250 AND1 AND-1
}

# Nodes of 256 inputs and of 4,096 rows.
equal_of_wide_nodes() {
    of_lwequal
    stairs 0 0 >ONE && { sed 4q ONE && echo "$(repeat 256 1) 0" && echo .end; } >OTHER
    equal_within 1 200 ONE OTHER || return
    awk 'BEGIN {
        srand(7); line = ""; blank = sprintf("%256s", ""); gsub(/ /, "-", blank)
        for (k = 0; k < 256; k++) line = line " x" k
        print ".model m\n.inputs" line "\n.outputs f\n.names" line " f"
        for (r = 0; r < 4096; r++) {
            row = blank
            for (l = 0; l < 8; l++) { c = int(rand() * 256); row = substr(row, 1, c) (rand() < 0.5) substr(row, c + 2) }
            print row " 1"
        }
        print ".end"
    }' >ONE
    { sed 4q ONE && sed '1,4d; $d' ONE | sort && echo .end; } >OTHER
    equal_within 5 250 ONE OTHER
}

equal_of_many_outputs() {
    of_lwequal
    for order in 1 -1; do
        awk -v order=$order 'BEGIN {
            n = 131071; printf ".model m\n.inputs a b\n.outputs"
            for (i = 1; i <= n; i++) printf " f%d", (order > 0 ? i : n + 1 - i)
            print ""
            for (i = 1; i <= n; i++) print ".names a b f" i (order > 0 ? "\n11 1" : "\n0- 0\n-0 0")
            print ".end"
        }' >"MANY$order"
    done
    equal_within 2 250 MANY1 MANY-1 || return
    awk '/^\.names a b f77777$/ { print; getline; print "01 1"; next } 1' MANY1 >WRONG
    differ_within f77777 2 250 WRONG MANY-1
}

# Names of one hash in the tables of the reader, and in that of the netlists.
equal_of_names_that_collide() {
    command -v cc >/dev/null || { echo "there is no C compiler" && return 9; }
    of_lwequal
    colliding_inputs 30000 12 >names || return
    for order in u r; do
        { echo .model m && { echo .inputs && sort -$order names; } | tr '\n' ' ' && echo && { echo .outputs && cat names; } | tr '\n' ' ' && echo && echo .end; } >"BY$order"
    done
    equal_within 1 200 BYu BYr || return
    less=$(sed -n 12345p names) && sed "3s/ $less / /" BYu >LESS
    refused_within 1 200 9 "LESS has no output $less, which BYu has" BYu LESS
}

equal_of_nets_that_collide() {
    command -v python3 >/dev/null || { echo "there is no python3" && return 9; }
    of_lwequal
    two_cells >LIB && python3 "$tests/collide.py" 100000 >ONE && { sed 3q ONE && sed '1,3d; $d' ONE | tac && echo .end; } >OTHER
    equal_within 1 200 -l LIB ONE OTHER
}

# Each beginning of two small files: an answer or a fault, and no more than that.
equal_of_files_that_are_cut() {
    of_lwequal
    adder 2 majority >ONE && mixing 2 two >GATES
    for file in ONE GATES; do
        bytes=0 && most=$(wc -c <$file)
        while [ $bytes -lt "$most" ]; do
            head -c $bytes $file >CUT
            run -l "$cells" $file CUT
            case $? in
            0) holds out equal && holds err ;;
            1) grep -q '^differ ' out && holds err ;;
            3 | 9 | 10) holds out && [ "$(wc -l <err)" -eq 1 ] && grep -q 'CUT' err ;;
            *) false ;;
            esac || { echo "at $bytes bytes of $file" && return 1; }
            bytes=$((bytes + 1))
        done
    done
    mixing 16667 six >GATES
    for bytes in 100000 333333 1000000 2000000; do
        head -c $bytes GATES >CUT
        within 1 250 -l "$cells" GATES CUT
        status $? 10 && holds out && [ "$(wc -l <err)" -eq 1 ] || return
    done
}

equal_of_wrong_ports() {
    of_lwequal
    for last in 1 2; do
        awk -v last=$last -v tail="$(long 1990)" 'BEGIN {
            printf ".model m\n.inputs"
            for (i = 0; i < 10000; i++) printf " x%d%s", (i < 9999 ? i : i + last), tail
            print "\n.outputs f\n.names f\n.end"
        }' >"PORTS$last"
    done
    refused_within 2 250 9 "PORTS2 has no input x10000$(long 1990), which PORTS1 has" PORTS1 PORTS2 || return
    awk 'BEGIN { printf ".model m\n.inputs"; for (i = 0; i < 262143; i++) printf " x%d", i; print "\n.outputs x0\n.end" }' >ONE
    sed 's/ x262142$/ y/' ONE >OTHER && sed 's/^\.outputs x0$/.outputs x1/' ONE >THIRD
    refused_within 2 250 9 'OTHER has no input x262142, which ONE has' ONE OTHER || return
    refused_within 2 250 9 'THIRD has no output x0, which ONE has' ONE THIRD || return
    refused_within 2 250 9 'ONE has no input y, which OTHER has' ONE ONE OTHER
}

# Multipliers that add their rows in opposite orders, under limits of conflicts: an answer, however it comes out.
equal_of_many_conflicts() {
    of_lwequal
    for bits in 8 16 32; do
        multiplier $bits 0 1 >ONE && multiplier $bits $((bits - 1)) -1 >OTHER
        for conflicts in 0 10 100; do
            within 10 250 -n $conflicts ONE OTHER
            case $? in
            0) holds out equal ;;
            2) [ -s out ] && ! grep -v '^undecided m[0-9]*$' out ;;
            *) echo "status of $bits bits with $conflicts conflicts" && false ;;
            esac && holds err || return
        done
    done
    within 10 250 ONE OTHER
    case $? in 0 | 2) ;; *) return 1 ;; esac
}

costs_of_equal='equal_of_a_million_gates equal_of_100000_gates equal_of_most_signals equal_of_long_carries equal_of_deep_chains
    equal_of_ands_in_two_orders
    equal_of_wide_nodes equal_of_many_outputs equal_of_names_that_collide equal_of_nets_that_collide equal_of_files_that_are_cut
    equal_of_wrong_ports equal_of_many_conflicts'
