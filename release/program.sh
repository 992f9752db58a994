#!/bin/sh
# Prints the path of a program that is to be run:
#
#   sh release/program.sh [build] [NAME]
#
# NAME is one of release/programs; without it lwmap is meant. The program is the one that LWMAP_PROGRAM names (or, of lwequal,
# LWEQUAL_PROGRAM); else the build in crates/NAME/out, where it is fresh, that is, no older than any source or proof; else the
# released program, where it was built from the sources of this checkout and runs on this system. Where none of them is there,
# the word 'build' has the program proved and built, and standard error says so. With LWMAP_BUILD=yes the released program is
# left out. The status is 69 where nothing is printed, and one line says why.
set -u
root=$(dirname -- "$(dirname -- "$(readlink -f -- "$0")")")
may_build=no
name=lwmap
for word; do
    case $word in
    build) may_build=yes ;;
    *) name=$word ;;
    esac
done
built=$root/crates/$name/out/$name
released=$root/release/$name
passed_over=

say() {
    echo "$name: $*" >&2
}

grep -qxF -- "$name" "$root/release/programs" || { say "release/programs has no program $name" && exit 69; }
variable=$(printf '%s' "$name" | tr '[:lower:]' '[:upper:]')_PROGRAM
eval "named=\${$variable:-}"

is_fresh() (
    cd "$root" && [ -x "$built" ] && folders=$(awk -v of="$name" -v kinds='src specs proofs' -f release/folders.awk crates.txt) &&
        [ -z "$(find crates.txt $folders -newer "$built" 2>/dev/null)" ]
)

# Where the released program is there and is not taken, 'passed_over' says why. A program that runs says without words how
# it is called, on standard error; what else stands there then is of the system.
is_released() {
    [ -e "$released" ] || return
    if [ -n "${LWMAP_BUILD:-}" ]; then
        passed_over="LWMAP_BUILD leaves the released program out"
    elif ! { sources=$(sh "$root/release/sources.sh") && grep -qxF "sources $sources" "$root/release/BUILT"; } 2>/dev/null; then
        passed_over="the released program is of other sources than these"
    else
        said=$("$released" 2>&1 >/dev/null </dev/null)
        case $said in
        "$name: "*) return 0 ;;
        *) passed_over="the released program does not run on this system: $(printf '%s' "$said" | head -n 1)" ;;
        esac
    fi
    return 1
}

# It is tried on the words of the crate's file args, whose files lie in data. The program counts as old as the moment before the
# build, so that a file edited meanwhile is seen.
build() (
    cd "$root/crates/$name" || exit
    set --
    while read -r word; do
        [ ! -e "data/$word" ] || word=data/$word
        set -- "$@" "$word"
    done <args
    mkdir -p out && touch out/begun && rt run -- "$@" </dev/null && touch -r out/begun "out/$name"
)

if [ -n "$named" ]; then
    program=$(readlink -f -- "$named") && [ -x "$program" ] && [ ! -d "$program" ] ||
        { say "there is no program $named, which $variable names" && exit 69; }
elif is_fresh; then
    program=$built
elif is_released; then
    program=$released
elif [ $may_build = no ]; then
    say "no program is there${passed_over:+ ($passed_over)}; ./$name builds it, or $variable names a built one" && exit 69
else
    [ -z "$passed_over" ] || say "$passed_over"
    say "no fresh build is there, so the program is proved and built now, and tried on a small network."
    say "from nothing this takes most of an hour on four processors; where little has changed it takes one to three."
    build >&2 || { say "the program could not be built" && exit 69; }
    program=$built
fi
printf '%s\n' "$program"
