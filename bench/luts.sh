#!/bin/sh
# Covers the circuits of bench/circuits by lookup tables of at most 4 and at most 6 fan-ins, and prints a table: depth and number
# of tables, and the processor time of the whole program in milliseconds, of 'lut 4' and 'lut 6', and the same of ABC's 'if -K 4',
# 'if -K 6' and 'dch; if -K 6', where ABC is installed (Debian's package berkeley-abc). Each result is shown equal to its circuit by
# lwequal, or by ABC's 'cec' where that is undecided, and the last line says how many by which; 'undecided' comes after a result
# where neither decides. With words it takes those circuits alone:
#
#   sh bench/luts.sh [-f] [CIRCUIT..]
#
# With -f each circuit goes through front ends of ABC first, and the table has depth and number of tables of 'lut 6' after each
# of them, beside those of ABC on the circuit as given: 'if -K 6', and the same after 'dch' and after 'if -g -K 6; strash'.
# FRONTS names the front ends, by the names of bench/fronts.sh, or as 'dch;if6', which is the network of ABC's 'dch; if -K 6'.
#
# All depths are those of bench/tables.py, for ABC's networks too. OPTIONS are the options of 'lut' (none by default, or as
# '-w 4'), LIMIT the seconds that a run may take (60), RUNS how often each is run (3); the least time counts. The program is the
# one that release/program.sh finds.
set -eu
root=$(dirname -- "$(dirname -- "$(readlink -f -- "$0")")")
program=$(sh "$root/release/program.sh") || exit 1
[ -x /usr/bin/time ] || { echo "luts: there is no /usr/bin/time; it is Debian's package time" >&2 && exit 1; }
abc=$(command -v berkeley-abc || true)
behind=
if [ "${1:-}" = -f ]; then behind=yes && shift; fi
[ -n "$abc" ] || [ -z "$behind" ] || { echo "luts: there is no berkeley-abc; it is Debian's package of that name" >&2 && exit 1; }
bench=$root/bench
limit=${LIMIT:-60}
runs=${RUNS:-3}
options=${OPTIONS:-}
room=$(mktemp -d)
trap 'rm -rf "$room"' EXIT

# shellcheck source=bench/least.sh
. "$bench/least.sh"
# shellcheck source=bench/fronts.sh
. "$bench/fronts.sh"
# shellcheck source=bench/same.sh
. "$bench/same.sh"

# ABC's reader refuses a node that has fan-ins and no rows, which is a table that is false everywhere. This gives it a row.
mended() { # TEXT
    awk '/^\./ && n { print substr("------", 1, n) " 0" } { n = $1 == ".names" ? NF - 2 : 0 } 1' "$1"
}

# Depth and tables of a text.
size_of() { # TEXT
    python3 "$bench/tables.py" "$1" | awk '{ print $1 ", " $2 }'
}

# Leaves in 'size' depth and tables of 'lut' with so many fan-ins, in 'best' its time, and adds why it is not shown equal.
ours() { # FANINS CIRCUIT NETWORK
    best= && size=
    # shellcheck disable=SC2086
    least "$program" lut "$1" $options "$3" || { size="over $limit s, or refused" && return; }
    size=$(size_of "$room/out")
    mended "$room/out" >"$room/mended.blif"
    same "$bench/circuits/$2.blif" "$room/mended.blif" || size="$size, undecided"
    case $verdict in different*) echo "luts: lut $1 of $2 is $verdict" >&2 && exit 1 ;; esac
}

# The same for a script of ABC, after 'strash'; what it writes is left in the room.
theirs() { # SCRIPT NETWORK
    best= && size=
    rm -f "$room/abc.blif"
    if [ -n "$abc" ] && least "$abc" -s -q "read_blif $2; strash; $1; write_blif $room/abc.blif" && [ -s "$room/abc.blif" ]; then
        size=$(size_of "$room/abc.blif")
    fi
}

# Prints the row of a circuit as given, and adds 'fan-ins depth depth ms ms', ours and theirs, to 'ratios'.
given_row() { # CIRCUIT
    network=$bench/circuits/$1.blif
    row="| $1 |"
    for fanins in 4 6; do
        ours "$fanins" "$1" "$network"
        row="$row $size | $best |"
        our_size=$size && our_time=$best
        theirs "if -K $fanins" "$network"
        row="$row $size | $best |"
        [ -z "$our_time" ] || [ -z "$best" ] || echo "$fanins ${our_size%%,*} ${size%%,*} $our_time $best" >>"$room/ratios"
    done
    theirs "dch; if -K 6" "$network"
    echo "$row $size | $best |"
}

# Prints the row of a circuit after each front end.
behind_row() { # CIRCUIT
    network=$bench/circuits/$1.blif
    row="| $1 |"
    for front in $fronts; do
        case $front in 'dch;if6') script="strash; dch; if -K 6; sop" ;; *) script=$(front_script "$front") ;; esac
        rm -f "$room/front.blif"
        timeout "$limit" "$abc" -s -q "read_blif $network; $script; write_blif $room/front.blif" >/dev/null 2>&1 || true
        if [ -z "$script" ]; then cp "$network" "$room/front.blif"; fi
        if [ -s "$room/front.blif" ]; then ours 6 "$1" "$room/front.blif"; else size="none"; fi
        row="$row $size |"
    done
    for script in "if -K 6" "dch; if -K 6" "if -g -K 6; strash; if -K 6"; do
        theirs "$script" "$network"
        row="$row $size |"
    done
    echo "$row"
}

# shellcheck disable=SC2046
[ $# -gt 0 ] || set -- $(cd "$bench/circuits" && ls | sed 's/\.blif$//')
if [ -n "$behind" ]; then
    fronts=${FRONTS:-given strash if6 dch;if6 if-g}
    head="| circuit |" && under="|---|"
    for front in $fronts; do head="$head $front |" && under="$under---|"; done
    head="$head ABC: if -K 6 | dch; if -K 6 | if -g; if -K 6 |" && under="$under---|---|---|"
    echo "$head" && echo "$under"
    for circuit; do behind_row "$circuit"; done
    echo && spoken
    exit
fi
echo "| circuit | lut 4 | ms | if -K 4 | ms | lut 6 | ms | if -K 6 | ms | dch; if -K 6 | ms |"
echo "|---|---|---|---|---|---|---|---|---|---|---|"
: >"$room/ratios"
for circuit; do given_row "$circuit"; done
awk '
    { n[$1]++; times[$1] += log($4 / $5) }
    $2 > 0 && $3 > 0 { m[$1]++; depths[$1] += log($2 / $3) }
    END {
        if (NR) print ""
        for (k = 4; k <= 6; k += 2) if (n[k])
            printf "geometric mean of the ratios of lut %d to if -K %d: depth %.2f, time %.2f, over %d circuits\n", k, k, exp(depths[k] / m[k]), exp(times[k] / n[k]), n[k]
    }' "$room/ratios"
spoken
