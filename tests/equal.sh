#!/bin/sh
# Runs lwequal on every row of tests/equal and on the cases below, which files alone cannot say. The program is the one that
# release/program.sh finds, or else builds. With words it runs those rows and cases alone, as in:
# sh tests/equal.sh differ two_runs_agree
# SECONDS_EACH is the most that one run may take (60). The last line is 'N passed, N failed'. The status is 0 where none failed and
# at least one ran.
set -u
tests=$(dirname -- "$(readlink -f -- "$0")")
tried=lwequal
# shellcheck source=tests/cases.sh
. "$tests/cases.sh"
# shellcheck source=tests/arithmetic.sh
. "$tests/arithmetic.sh"
limit=${SECONDS_EACH:-60}

run() {
    timeout "$limit" "$program" "$@" </dev/null >out 2>err
}

# An assignment that was told is one: the values of lwmap sim differ under it.
confirmed() { # ONE OTHER
    { sed 1d out | sed 's/.* //' | tr -d '\n' && echo; } >VECTORS
    first=$("$mapper" sim "$1" VECTORS) && second=$("$mapper" sim "$2" VECTORS) && [ "$first" != "$second" ] ||
        { echo "not confirmed: $first $second" && return 1; }
}

adders_are_equal() {
    adder 32 majority >ONE && adder 32 choice >OTHER
    run ONE OTHER
    status $? 0 && holds out equal && holds err
}

wrong_gate_is_found() {
    adder 16 majority >ONE
    for bit in 0 7 15; do
        adder 16 choice | awk -v at=".names p$bit a$bit c$bit c$((bit + 1))" '$0 == at { print; getline; print "1-0 1"; next } { print }' >OTHER
        run ONE OTHER
        status $? 1 && holds err && grep -q '^differ [sc]' out && [ "$(wc -l <out)" -eq 33 ] && confirmed ONE OTHER || return
    done
}

two_runs_agree() {
    adder 16 majority >ONE && adder 16 choice | sed 's/^1-1 1$/1-0 1/' >OTHER
    run -s ONE OTHER
    cp out first && cp err counted
    run -s ONE OTHER
    status $? 1 && same out first && same err counted
}

counts_on_standard_error() {
    adder 8 majority >ONE && adder 8 choice >OTHER
    run -s ONE OTHER
    status $? 0 && holds out equal && [ "$(wc -l <err)" -eq 1 ] &&
        grep -qxE 'lwequal: points 9, nodes [0-9]+, pairs equal [0-9]+, apart [0-9]+, left [0-9]+, conflicts [0-9]+' err || { cat err && return 1; }
}

# (with few conflicts, and more inputs than have all their assignments tried, they stay undecided)
limit_is_reached() {
    multiplier 11 0 1 >ONE && multiplier 11 10 -1 >OTHER
    run -n 1 ONE OTHER
    status $? 2 && holds err && [ -s out ] && ! grep -qv '^undecided m[0-9]*$' out
}

# What latches read is undecided by the names of their outputs, and a difference is told before what is undecided.
limit_is_reached_at_latches() {
    for way in '0 1' '10 -1'; do
        # shellcheck disable=SC2086
        multiplier 11 $way | sed 's/^\.outputs.*/.outputs/' | awk '/^\.end/ { for (k = 0; k < 22; k++) print ".latch m" k " q" k " 2" } 1' >"BY${way#* }"
    done
    run -n 1 BY1 BY-1
    status $? 2 && holds err && [ -s out ] && ! grep -qv '^undecided latch q[0-9]*$' out
}

difference_beside_what_is_undecided() {
    multiplier 11 0 1 | sed 's/^\.outputs/& f/; s/^\.end/.names a0 f\n1 1\n&/' >ONE
    multiplier 11 10 -1 | sed 's/^\.outputs/& f/; s/^\.end/.names a0 f\n0 1\n&/' >OTHER
    run -n 1 ONE OTHER
    status $? 1 && holds err && head -n 1 out >first && holds first 'differ f'
}

# What the search leaves of networks of few inputs is decided by all assignments.
all_assignments_of_multipliers() {
    multiplier 8 0 1 >ONE && multiplier 8 7 -1 >OTHER
    run -n 0 ONE OTHER
    status $? 0 && holds out equal && holds err
}

# A multiplier whose last gate is 0 where the product is 199 * 197: of both assignments the first in number is told, where the first
# input is the lowest bit.
gate_that_differs_under_two_assignments() {
    multiplier 8 0 1 >ONE
    multiplier 8 7 -1 | awk -v product=39203 'function bit(k) { return int(product / 2 ^ k) % 2 }
        $1 == ".names" && $3 == "m15" {
            names = ".names " $2
            rows = ""
            for (k = 0; k < 15; k++) {
                names = names " m" k
                rows = rows "1"
                for (j = 0; j < 15; j++) rows = rows (j == k ? 1 - bit(k) : "-")
                rows = rows " 1\n"
            }
            printf "%s m15\n%s", names, rows
            getline
            next
        }
        { print }' >OTHER
    run -n 0 ONE OTHER
    status $? 1 && holds err && confirmed ONE OTHER || return
    awk 'BEGIN { print "differ m15"; for (k = 0; k < 8; k++) printf "a%d %d\nb%d %d\n", k, int(199 / 2 ^ k) % 2, k, int(197 / 2 ^ k) % 2 }' >wanted
    same out wanted
}

library_of_too_many_bytes() {
    adder 2 majority >ONE && zeros LIB 67108865
    refused 5 'limit: LIB has more than 67108864 bytes' -l LIB ONE ONE
}

network_of_too_many_bytes() {
    adder 2 majority >ONE && zeros OTHER 67108865
    refused 5 'limit: OTHER has more than 67108864 bytes' ONE OTHER || return
    refused 5 'limit: OTHER has more than 67108864 bytes' OTHER none
}

standard_output_is_full() {
    [ -c /dev/full ] || { echo "there is no /dev/full" && return 9; }
    adder 2 majority >ONE
    for word in -h -v; do
        "$program" $word >/dev/full 2>err
        status $? 7 && holds err 'lwequal: cannot write' || return
    done
    "$program" ONE ONE >/dev/full 2>err
    status $? 7 && holds err 'lwequal: cannot write' || return
    "$program" -s ONE ONE >&- 2>err
    status $? 7 && holds err 'lwequal: cannot write'
}

standard_error_is_closed() {
    adder 2 majority >ONE
    "$program" -s ONE ONE >out 2>&-
    status $? 0 && holds out equal || return
    "$program" ONE none >out 2>&-
    status $? 12 && holds out
}

file_by_a_pipe() {
    adder 2 majority >ONE
    "$program" ONE /dev/stdin <ONE >out 2>err
    status $? 0 && holds out equal && holds err
}

folder_is_no_file() {
    adder 2 majority >ONE && mkdir folder
    refused 12 'cannot read folder' ONE folder
}

word_that_is_not_utf8() {
    adder 2 majority >ONE
    run ONE "$(printf 'I\377')"
    status $? 70 && holds out && holds err
}

out_of_memory() {
    # shellcheck disable=SC3045
    (ulimit -v 32000) 2>/dev/null || { echo "this shell has no limit of memory" && return 9; }
    adder 2 majority >ONE && zeros OTHER 60000000
    # shellcheck disable=SC3045
    (ulimit -v 32000 && run ONE OTHER)
    status $? 8 && holds out && holds err 'lwequal: out of memory'
}

# A million gates in a row, on a small stack: an even and an odd number of inverters.
a_million_gates() {
    # shellcheck disable=SC3045
    ulimit -s 256
    printf '%s\n' 'GATE inv 1 O=!a;' 'PIN * INV 1 999 1 0 1 0' >LIB
    printf '%s\n' .model\ m '.inputs s0' '.outputs f' '.names s0 f' '1 1' .end >ONE
    for gates in 1000000 999999; do
        awk -v n=$gates 'BEGIN {
            print ".model m\n.inputs s0\n.outputs f"
            for (i = 1; i < n; i++) print ".gate inv a=s" i - 1 " O=s" i
            print ".gate inv a=s" n - 1 " O=f\n.end"
        }' >OTHER
        run -l LIB ONE OTHER
        case $gates in
        1000000) status $? 0 && holds out equal ;;
        *) status $? 1 && head -n 1 out >first && holds first 'differ f' ;;
        esac && holds err || return
    done
}

# As many inputs and outputs as a network may have, in two orders.
most_ports() {
    awk -v n=131072 'BEGIN {
        printf ".model m\n.inputs"; for (i = 1; i <= n; i++) printf " i%d", i
        printf "\n.outputs"; for (i = 1; i <= n; i++) printf " f%d", i
        print ""
        for (i = 1; i <= n; i++) print ".names i" i " f" i "\n0 1"
        print ".end"
    }' >ONE
    awk -v n=131072 'BEGIN {
        printf ".model m\n.inputs"; for (i = n; i; i--) printf " i%d", i
        printf "\n.outputs"; for (i = n; i; i--) printf " f%d", i
        print ""
        for (i = n; i; i--) print ".names i" i " f" i "\n1 0"
        print ".end"
    }' >OTHER
    run ONE OTHER
    status $? 0 && holds out equal && holds err || return
    sed 's/ f77 / g77 /; s/ f77$/ g77/' OTHER >LESS
    refused 9 'LESS has no output f77, which ONE has' ONE LESS
}

# Mapped netlists of lwmap and the examples of the pages.
netlists_of_lwmap() {
    for network in full_adder multiplexer shared; do
        "$mapper" map "$examples/small/small.genlib" "$examples/small/$network.blif" >mapped || return
        run -l "$examples/small/small.genlib" "$examples/small/$network.blif" mapped
        status $? 0 && holds out equal && holds err || return
    done
}

mapper=$(sh "$root/release/program.sh" build) || exit
for it in "$tests"/equal/*/; do
    it=${it%/}
    [ $# -eq 0 ] || case " $* " in *" ${it##*/} "*) ;; *) continue ;; esac
    attempt "${it##*/}" row "$it"
done
for it in adders_are_equal wrong_gate_is_found two_runs_agree counts_on_standard_error limit_is_reached limit_is_reached_at_latches \
    difference_beside_what_is_undecided all_assignments_of_multipliers gate_that_differs_under_two_assignments \
    library_of_too_many_bytes network_of_too_many_bytes standard_output_is_full standard_error_is_closed file_by_a_pipe folder_is_no_file \
    word_that_is_not_utf8 out_of_memory a_million_gates most_ports netlists_of_lwmap; do
    [ $# -eq 0 ] || case " $* " in *" $it "*) ;; *) continue ;; esac
    attempt "$it" "$it"
done
told
