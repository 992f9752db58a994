#!/bin/sh
# Runs the built program on the full adder where memory ends: each command but 'map' without '-c', which 'map -c' holds. Each run
# has to end with 0 and its whole answer, or with 8, nothing on standard output, and the one line 'lwmap: out of memory'; where even
# the words found no memory that line may be missing.
#
#   sh tests/memory.sh         by limits on its memory (ulimit -v), less and less in steps of STEP KB (4), from where all is there to
#                              where the program cannot be loaded. The system ends by a signal a program whose stack it cannot
#                              enlarge, so within STACK KB (384) of that place a run that ends so is told and not judged
#   sh tests/memory.sh -a      each allocation refused in turn: a library that is loaded before the C library's (by LD_PRELOAD) counts
#                              what the program asks of malloc and realloc, and refuses the one of a number. It takes a C compiler, cc
#
# The answers of 'map -c', 'check', 'time', 'sim', 'verilog' and 'unverilog' are those of rows, and the others those that the
# program writes without a limit. It stands outside of the gate. The last line is 'N passed, N failed'.
set -u
tests=$(dirname -- "$(readlink -f -- "$0")")
# shellcheck source=tests/cases.sh
. "$tests/cases.sh"
step=${STEP:-4}
stack=${STACK:-384}
row=$tests/rows/certificate_of_a_full_adder
cd "$room" || exit 1
cp "$row/LIB" "$row/IN" . && cp "$row/stdout" MAPPED && printf '%s\n' 000 111 101 >VECTORS
cp "$row/stdout" map-c.wanted && echo yes >check.wanted && printf '%s\n' 00 11 01 >sim.wanted
cp "$tests/rows/time_of_a_full_adder/stdout" time.wanted
row=$tests/rows/unverilog_of_a_full_adder_that_was_written
cp "$row/LIB" CELLS && cp "$row/VER" VER && cp "$row/stdout" NET && cp NET unverilog.wanted && cp VER verilog.wanted
each='map:-c:LIB:IN check:LIB:IN:MAPPED time:LIB:MAPPED sim:IN:VECTORS sim:-g:LIB:MAPPED:VECTORS graph:IN lut:4:IN big:0:2:LIB
verilog:CELLS:NET unverilog:CELLS:VER'
case $("$program" 2>&1) in *'| trade '*) each="$each trade:8:LIB:IN" ;; esac

# The words without files and numbers, as a name for the command.
name_of() { # WORDS
    echo "$1" | tr -d ':A-Z0-9'
}

for words in $each; do
    name=$(name_of "$words")
    # shellcheck disable=SC2046
    [ -e "$name.wanted" ] || "$program" $(echo "$words" | tr : ' ') >"$name.wanted" || exit 1
done

# Whether a run ended as it may.
ended_well() { # COMMAND STATUS
    case $2 in
    0) cmp -s out "$1.wanted" && [ ! -s err ] ;;
    8) [ ! -s out ] && { [ ! -s err ] || [ "$(cat err)" = 'lwmap: out of memory' ]; } ;;
    *) false ;;
    esac
}

# A run is counted, and told where it did not end well.
judged() { # WHERE COMMAND STATUS
    if ended_well "$2" "$3"; then passed=$((passed + 1)); else
        failed=$((failed + 1)) && echo "FAILED: $2 with $1: status $3, $(wc -c <out) bytes, $(head -c 200 err)"
    fi
}

# Runs the program with the allocation of this number refused, and writes how many it asked for to the file 'count'.
refusing() { # NUMBER WORD..
    number=$1 && shift
    LD_PRELOAD=./refuses.so REFUSED=$number "$program" "$@" </dev/null >out 2>err 3>count
}

if [ "${1:-}" = -a ]; then
    command -v cc >/dev/null || { echo "memory: there is no cc" >&2 && exit 1; }
    cc -O1 -shared -fPIC -o refuses.so -x c - <<'END' || exit 1
#include <errno.h>
#include <stdio.h>
#include <stdlib.h>
#include <unistd.h>
void *__libc_malloc(size_t), *__libc_realloc(void *, size_t);
static unsigned long calls;
static int refused(void) {
    static long number = -1;
    if (number < 0) number = getenv("REFUSED") ? atol(getenv("REFUSED")) : 0;
    if (++calls != (unsigned long)number) return 0;
    errno = ENOMEM;
    return 1;
}
void *malloc(size_t size) { return refused() ? 0 : __libc_malloc(size); }
void *realloc(void *old, size_t size) { return refused() ? 0 : __libc_realloc(old, size); }
__attribute__((destructor)) static void told(void) {
    char text[32];
    int size = snprintf(text, sizeof text, "%lu\n", calls);
    if (write(3, text, size) != size) _exit(99);
}
END
    for words in $each; do
        name=$(name_of "$words")
        # shellcheck disable=SC2046
        refusing 0 $(echo "$words" | tr : ' ') || { echo "memory: $name does not answer" >&2 && exit 1; }
        same out "$name.wanted" || exit 1
        most=$(cat count) && number=0 && refusals=0
        while [ "$number" -lt "$most" ]; do
            number=$((number + 1))
            # shellcheck disable=SC2046
            refusing $number $(echo "$words" | tr : ' ')
            status=$?
            judged "allocation $number refused" "$name" $status
            [ $status -ne 8 ] || refusals=$((refusals + 1))
        done
        echo "$name: $most allocations were refused in turn; $refusals runs ended with 8, the others answered all the same"
    done
    told
    exit
fi

# Runs the program with so many KB of memory.
within() { # KB WORD..
    # shellcheck disable=SC3045
    ( (ulimit -v "$1" && shift && exec "$program" "$@" </dev/null >out 2>err) || exit) 2>/dev/null
}

# Whether the program can be loaded with so many KB: it refuses these words, or finds no memory for them.
loaded() { # KB
    within "$1" none
    case $? in 1 | 8) ;; *) false ;; esac
}

# shellcheck disable=SC3045
(ulimit -v 1000000) 2>/dev/null || { echo "memory: this shell has no limit of memory" >&2 && exit 1; }
for words in $each; do
    name=$(name_of "$words")
    # the least power of two of KB with which it answers
    enough=1024
    # shellcheck disable=SC2046
    until within "$enough" $(echo "$words" | tr : ' '); do
        enough=$((enough * 2))
        [ "$enough" -le 16777216 ] || { echo "memory: $name does not answer: $(head -c 200 err)" >&2 && exit 1; }
    done
    kilobytes=$enough && refusals=0 && cut=0
    while :; do
        loaded "$kilobytes" || break
        # shellcheck disable=SC2046
        within "$kilobytes" $(echo "$words" | tr : ' ')
        status=$?
        if [ $status -eq 139 ] && ! loaded $((kilobytes - stack)); then
            cut=$((cut + 1))
        else
            judged "$kilobytes KB" "$name" $status
        fi
        [ $status -ne 8 ] || refusals=$((refusals + 1))
        kilobytes=$((kilobytes - step))
    done
    echo "$name: from $enough KB down to $kilobytes KB, where the program is not loaded; $refusals runs were refused memory, $cut a stack"
done
told
