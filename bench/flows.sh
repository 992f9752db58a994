#!/bin/sh
# Maps the circuits of bench/circuits with the libraries of bench/libs after several front ends, and prints the delays
# beside those of ABC's mappers, one table for each library. With words it takes those circuits alone:
#
#   sh bench/flows.sh [CIRCUIT..]
#
# A front end is a script of ABC that restructures the circuit before it is mapped; in the last two ABC maps it, and
# the functions of the cells become the nodes. A delay of this program stands in the table only where lwequal, or
# ABC's 'cec' where that is undecided, shows the netlist equal to the circuit as given; else 'undecided' stands. All delays are
# computed by bench/timing.py from the larger of rise and fall block delay, and ABC gets each library with both delays
# set to the larger one, and with constants and a buffer of no delay where it has none. The least delay of a row is bold.
#
# LIBS names the libraries (tiny, mcnc, rich by default), LIMIT the processor seconds that one step may take (20), JOBS
# how many circuits are taken at once (1). Each circuit that is done is named on standard error, with who showed how
# much. The program is the one that release/program.sh finds. ABC is Debian's package berkeley-abc.
set -eu
root=$(dirname -- "$(dirname -- "$(readlink -f -- "$0")")")
program=$(sh "$root/release/program.sh") || exit 1
for tool in berkeley-abc python3 prlimit xargs; do
    command -v "$tool" >/dev/null || { echo "flows: there is no $tool" >&2 && exit 1; }
done
bench=$root/bench
limit=${LIMIT:-20}
libraries=${LIBS:-tiny mcnc rich}
room=$(mktemp -d)
trap 'rm -rf "$room"' EXIT

# shellcheck source=bench/fronts.sh
. "$bench/fronts.sh"
# shellcheck source=bench/same.sh
. "$bench/same.sh"
ours=$all_fronts
theirs=$all_mappers

# Runs a command for at most the limit of processor seconds; the status 137 says that it took more.
run() { # COMMAND..
    { prlimit --cpu="$limit" "$@"; } 2>"$room/err"
}

abc() { # SCRIPT
    run berkeley-abc -s -q "$1" >"$room/said"
}

# Makes the network after a front end, where it is not there. It is empty where ABC took too long or failed. One that
# ABC maps is made for each library.
front() { # CIRCUIT FRONT
    given=$room/$1.given.blif
    made=$room/$1.$2.blif
    script=$(front_script "$2")
    case $2 in *+map) rm -f "$made" && script="read_genlib $room/peers; $script" ;; esac
    [ -e "$given" ] || cp "$bench/circuits/$1.blif" "$given"
    [ -e "$made" ] || abc "read_blif $given; $script; write_blif $made" || : >"$made"
}

# One entry of the table: the delay of this program's netlist after a front end, or why there is none.
our_delay() { # LIB CIRCUIT FRONT
    front "$2" "$3"
    [ -s "$made" ] || { echo "none" && return; }
    answer=0
    run "$program" map "$1" "$made" >"$room/mapped" || answer=$?
    if [ "$answer" -eq 137 ]; then
        echo "over $limit s"
    elif [ "$answer" -ne 0 ]; then
        echo "status $answer"
    else
        python3 "$bench/timing.py" -u "$1" "$room/mapped" >"$room/plain.blif"
        if same "$given" "$room/plain.blif" || { same "$made" "$room/plain.blif" && same "$given" "$made"; }; then
            python3 "$bench/timing.py" -s "$1" "$room/mapped" | cut -d ' ' -f 1
        else
            echo "$verdict"
        fi
    fi
}

# The same for a mapper of ABC.
their_delay() { # CIRCUIT MAPPER
    rm -f "$room/abc.blif"
    abc "read_genlib $room/peers; read_blif $room/$1.given.blif; $(mapper_script "$2"); write_blif $room/abc.blif" || true
    if [ -s "$room/abc.blif" ]; then
        python3 "$bench/timing.py" -s "$room/peers" "$room/abc.blif" | cut -d ' ' -f 1
    else
        echo "none"
    fi
}

# From the rows 'circuit|delay|..' on standard input: the table with the least delays bold, then by column the geometric
# mean of the ratio to 'map' over the circuits that have both delays, their number, and how often it is the least.
table() { # LIBRARY
    awk -F '|' -v library="$1" -v names="$ours $theirs" '
        function is_number(s) { return s ~ /^[0-9.]+$/ }
        BEGIN {
            n = split(names, name, " ")
            for (i = 1; i <= n; i++) if (name[i] == "map") base = i + 1
            line = "| " library " |"; under = "|---|"
            for (i = 1; i <= n; i++) { line = line " " name[i] " |"; under = under "---|" }
            print line; print under
        }
        {
            least = ""; line = "| " $1 " |"
            for (i = 2; i <= n + 1; i++) if (is_number($i) && (least == "" || $i + 0 < least)) least = $i + 0
            for (i = 2; i <= n + 1; i++) {
                best = is_number($i) && $i + 0 == least
                if (best) wins[i]++
                line = line " " (best ? "**" $i "**" : $i) " |"
                if (is_number($i) && $i > 0 && $base > 0) { circuits[i]++; sum[i] += log($i / $base) }
            }
            print line
        }
        END {
            ratio = "| ratio to map |"; count = "| circuits |"; line = "| least in |"
            for (i = 2; i <= n + 1; i++) {
                ratio = ratio " " (circuits[i] ? sprintf("%.3f", exp(sum[i] / circuits[i])) : "") " |"
                count = count " " circuits[i] + 0 " |"
                line = line " " wins[i] + 0 " |"
            }
            print ratio "\n" count "\n" line "\n"
        }'
}

# The rows of one circuit, 'library|circuit|delay|..', one for each library.
rows_of() { # CIRCUIT
    for library in $libraries; do
        lib=$bench/libs/$library.genlib
        python3 "$bench/timing.py" -p "$lib" >"$room/peers"
        row="$library|$1"
        for name in $ours; do row="$row|$(our_delay "$lib" "$1" "$name")"; done
        for name in $theirs; do row="$row|$(their_delay "$1" "$name")"; done
        echo "$row"
    done
    echo "flows: $1: $(spoken)" >&2
}

# The script calls itself with -r for the rows of one circuit.
if [ "${1:-}" = -r ]; then
    rows_of "$2"
    exit
fi
# shellcheck disable=SC2046
[ $# -gt 0 ] || set -- $(cd "$bench/circuits" && ls | sed 's/\.blif$//')
printf '%s\n' "$@" | xargs -P "${JOBS:-1}" -n 1 sh "$0" -r >"$room/rows"
for library in $libraries; do
    sed -n "s/^$library|//p" "$room/rows" | sort | table "$library"
done
