#!/bin/sh
# Runs lwarea on every row of tests/area and on the cases below, which files alone cannot say. The program is the one that
# release/program.sh finds, or else builds. With words it runs those rows and cases alone, as in:
# sh tests/area.sh inverter two_runs_agree
# The last line is 'N passed, N failed'. The status is 0 where none failed and at least one ran.
set -u
tests=$(dirname -- "$(readlink -f -- "$0")")
tried=lwarea
# shellcheck source=tests/cases.sh
. "$tests/cases.sh"
mapper=$(sh "$root/release/program.sh" build) || exit
equal=$(sh "$root/release/program.sh" build lwequal) || exit

adder=$root/bench/circuits/rca8_y.blif
cells=$root/bench/libs/mcnc.genlib

# The area of a mapped text, each gate counted once.
area() { # TEXT
    awk 'NR == FNR { if ($1 == "GATE") size[$2] = $3; next } $1 == ".gate" { sum += size[$2] } END { print sum + 0 }' "$cells" "$1"
}

effort_0_is_map() {
    "$mapper" map "$cells" "$adder" >wanted
    run -n -e 0 "$cells" "$adder"
    status $? 0 && same out wanted && holds err || return
    "$mapper" map -c "$cells" "$adder" >wanted
    run -n -e 0 -c -t each "$cells" "$adder"
    status $? 0 && same out wanted && holds err
}

two_runs_agree() {
    for effort in 1 2 3; do
        run -e "$effort" "$cells" "$adder"
        status $? 0 && cp out first && run -e "$effort" "$cells" "$adder" && same out first || return
    done
}

later_deadlines_take_no_more_area() {
    run -e 0 "$cells" "$adder"
    status $? 0 && cp out fastest || return
    most=$(area fastest)
    for time in each max 110% 150%; do
        run -t "$time" "$cells" "$adder"
        status $? 0 && [ "$(area out)" -le "$most" ] || { echo "$time: $(area out) after $most" && return 1; }
    done
    [ "$(area out)" -lt "$most" ] || { echo "no smaller netlist" && return 1; }
}

certificates_are_accepted() {
    for effort in 0 1 2 3; do
        run -n -c -t each -e "$effort" "$cells" "$adder"
        status $? 0 && cp out MAPPED && [ "$("$mapper" check "$cells" "$adder" MAPPED)" = yes ] || return
        run -c -t each -e "$effort" "$cells" "$adder" "$root/bench/circuits/rca8_y.blif"
        status $? 0 && cp out MAPPED && run -k "$cells" "$adder" "$root/bench/circuits/rca8_y.blif" MAPPED && holds out yes || return
    done
}

# Where deadlines leave room, a netlist that is not that of effort 0 is one that the look took. So this counts no refusal too few.
the_look_never_refuses() {
    lists=0
    refused=0
    for circuit in "$root"/bench/circuits/*.blif; do
        run -e 0 "$cells" "$circuit"
        status $? 0 && cp out fastest || return
        run -t 150% "$cells" "$circuit"
        status $? 0 || return
        lists=$((lists + 1))
        cmp -s out fastest && refused=$((refused + 1)) && echo "$circuit: the netlist of effort 0"
    done
    echo "the look refused $refused of $lists lists" >"$room/refusals"
    [ "$lists" -gt 0 ] && [ "$refused" -eq 0 ]
}

computes() { # NETWORK: the written netlist computes it
    cp out mapped && [ "$("$equal" -l "$cells" "$1" mapped)" = equal ]
}

# The second network has the function of the first, and then one of its nodes is another; the netlist is that of the first.
further_networks_change_no_value() {
    sum=$root/bench/circuits/cla16_y.blif
    cp "$root/bench/circuits/rca16_l4.blif" MORE
    sed '0,/^11 1$/s//10 1/' "$sum" >CHANGED
    ! cmp -s "$sum" CHANGED || return
    for effort in 0 1 2 3; do
        for more in MORE CHANGED; do
            run -e "$effort" "$cells" "$sum" $more
            status $? 0 && computes "$sum" || { echo "$more at $effort" && return 1; }
        done
    done
}

# f is x but for one assignment of 41 inputs, which no simulation meets. Taken for x, it would be a wire.
pairs_that_only_simulation_calls_equal_are_told_apart() {
    awk 'BEGIN { for (i = 0; i < 40; i++) { names = names " a" i; ones = ones "1" }
        print ".model m\n.inputs x" names "\n.outputs f\n.names" names " p\n" ones " 1\n.names x p f\n10 1\n01 1\n.end" }' >IN
    printf '%s\n' '.model o' '.inputs x' '.outputs f' '.names x f' '1 1' '.end' >MORE
    run -s "$cells" IN MORE
    status $? 0 && grep -q 'apart [1-9]' err && grep -q '^\.gate' out && computes IN
}

# u says that nine pigeons have a hole of their own among eight. It is false, and no short proof says so.
pairs_that_the_limit_leaves_open_are_not_linked() {
    awk 'function all(nodes, n,    k, fan, on, next_, m) {
            while (n > 1) {
                m = 0
                for (k = 1; k <= n; k += 4) {
                    fan = ""; on = ""
                    for (j = k; j < k + 4 && j <= n; j++) { fan = fan " " nodes[j]; on = on "1" }
                    next_ = "t" ++t; print ".names" fan " " next_ "\n" on " 1"; nodes[++m] = next_
                }
                n = m
            }
            return nodes[1]
        }
        BEGIN {
            for (p = 1; p <= 10; p++) for (h = 1; h <= 9; h++) names = names " p" p "h" h
            print ".model m\n.inputs a" names "\n.outputs f"
            for (p = 1; p <= 10; p++) {
                fan = ""; for (h = 1; h <= 9; h++) fan = fan " p" p "h" h
                print ".names" fan " some" p "\n000000000 0"; nodes[++n] = "some" p
            }
            for (h = 1; h <= 9; h++) for (p = 1; p <= 10; p++) for (q = p + 1; q <= 10; q++) {
                print ".names p" p "h" h " p" q "h" h " one" h "." p "." q "\n11 0"; nodes[++n] = "one" h "." p "." q
            }
            print ".names a " all(nodes, n) " f\n10 1\n01 1\n.end"
        }' >IN
    printf '%s\n' '.model o' '.inputs a' '.outputs f' '.names a f' '1 1' '.end' >MORE
    run -s -w 4 "$cells" IN MORE
    status $? 0 && grep -q 'left [1-9]' err && [ "$(grep -c '^\.gate' out)" -gt 100 ] && computes IN
}

# The second network of three passes the limit on signals together with the first; the third is taken.
a_network_past_a_limit_is_left_out() {
    cp "$tests/area/net_linked/LIB" "$tests/area/net_linked/IN" "$tests/area/net_linked/MORE" .
    awk 'BEGIN { print ".model big\n.inputs a b\n.outputs n262141\n.names a b n0\n11 1"
        for (i = 1; i <= 262141; i++) print ".names n" i - 1 " " (i % 2 ? "a" : "b") " n" i "\n11 1"; print ".end" }' >BIG
    run -e 0 LIB IN BIG MORE
    status $? 0 && same out "$tests/area/net_linked/stdout" && holds err 'lwarea: BIG left out: more than 262144 signals'
}

# The answer of -k to certificates that are right, of another netlist, of other options, of other networks, and of lwmap.
certificates_are_judged() {
    sum=$root/bench/circuits/cla16_y.blif
    more=$root/bench/circuits/rca16_l4.blif
    run -e 1 -c -t each "$cells" "$sum" "$more"
    status $? 0 && cp out MAPPED && run -k "$cells" "$sum" "$more" MAPPED
    status $? 0 && holds out yes && holds err || return
    sed '0,/\.gate nand2 a=\([^ ]*\) b=[^ ]*/s//.gate nand2 a=\1 b=\1/' MAPPED >WRONG
    ! cmp -s MAPPED WRONG && run -k "$cells" "$sum" "$more" WRONG
    status $? 9 && holds out && grep -q '^lwarea: no: gate .* is no match$' err || return
    run -k -n "$cells" "$sum" "$more" MAPPED
    status $? 9 && grep -q '^lwarea: no: ' err || return
    run -k "$cells" "$sum" MAPPED
    status $? 9 && grep -q '^lwarea: no: class .* is not in the graph$' err || return
    "$mapper" map -c "$cells" "$sum" >MAPPED
    run -k -n "$cells" "$sum" MAPPED
    status $? 0 && holds out yes
}

standard_output_is_full() {
    [ -c /dev/full ] || { echo "there is no /dev/full" && return 9; }
    "$program" "$cells" "$adder" >/dev/full 2>err
    status $? 7 && holds err 'lwarea: cannot write' || return
    "$program" -v >/dev/full 2>err
    status $? 7 && holds err 'lwarea: cannot write'
}

standard_error_is_closed() {
    "$program" -x LIB IN >out 2>&-
    status $? 1 && holds out
}

for it in "$tests"/area/*/; do
    it=${it%/}
    [ $# -eq 0 ] || case " $* " in *" ${it##*/} "*) ;; *) continue ;; esac
    attempt "${it##*/}" row "$it"
done
for it in effort_0_is_map two_runs_agree later_deadlines_take_no_more_area certificates_are_accepted the_look_never_refuses \
    further_networks_change_no_value pairs_that_only_simulation_calls_equal_are_told_apart pairs_that_the_limit_leaves_open_are_not_linked \
    a_network_past_a_limit_is_left_out certificates_are_judged \
    standard_output_is_full standard_error_is_closed; do
    [ $# -eq 0 ] || case " $* " in *" $it "*) ;; *) continue ;; esac
    attempt "$it" "$it"
done
[ ! -f "$room/refusals" ] || cat "$room/refusals"
told
