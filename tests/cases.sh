# Read by rows.sh, equal.sh, hostile.sh and memory.sh, which set 'tests' and may set 'tried': where the program of that name is (lwmap
# without one), and how a case is tried. It is the program that release/program.sh finds, or else builds.
# shellcheck shell=sh disable=SC2034,SC2154
export LC_ALL=C
root=$(dirname -- "$tests")
examples=$root/examples
tried=${tried:-lwmap}
program=$(sh "$root/release/program.sh" build "$tried") || exit
room=$(mktemp -d) || exit 1
trap 'rm -rf "$room"' EXIT
trap 'exit 1' HUP INT TERM
passed=0
failed=0

# One case in a new folder. Its status is 0 where it passed, and 9 where it says that it cannot run here.
attempt() {
    rm -rf "$room/at" && mkdir "$room/at" || exit 1
    (cd "$room/at" && shift && "$@") >"$room/said" 2>&1
    case $? in
    0) passed=$((passed + 1)) ;;
    9) echo "skipped: $1: $(cat "$room/said")" ;;
    *) failed=$((failed + 1)) && echo "FAILED: $1" && sed 's/^/    /' "$room/said" ;;
    esac
}

same() { # FILE WANTED
    cmp "$1" "$2" && return
    echo "wanted:" && head -c 2000 "$2" && echo "got:" && head -c 2000 "$1"
    return 1
}

status() { # GOT WANTED
    [ "$1" -eq "$2" ] || { echo "status $1, wanted $2" && false; }
}

holds() { # FILE LINE..
    wanted=$1.wanted && shift
    { [ $# -eq 0 ] || printf '%s\n' "$@"; } >"$wanted"
    same "${wanted%.wanted}" "$wanted"
}

# Runs the program in the case's folder, and leaves what it wrote there.
run() {
    "$program" "$@" </dev/null >out 2>err
}

# A row: its files but these four lie in the folder, and the words are the lines of the file words.
row() {
    row=$1
    cp -R "$row/." . && rm words stdout stderr status || return 1
    set --
    while IFS= read -r word; do set -- "$@" "$word"; done <"$row/words"
    mkdir "$room/at/.got" && "$program" "$@" </dev/null >.got/stdout 2>.got/stderr
    status $? "$(cat "$row/status")" && same .got/stdout "$row/stdout" && same .got/stderr "$row/stderr"
}

# A run of these words is refused: with this status, nothing on standard output, and this line on standard error.
refused() { # STATUS LINE WORD..
    wanted_status=$1 && wanted_line=$2 && shift 2
    run "$@"
    status $? "$wanted_status" && holds out && holds err "$tried: $wanted_line"
}

inverter_files() {
    printf '%s\n' 'GATE inv 1 O=!a;' 'PIN * INV 1 999 1 0 1 0' >LIB
    printf '%s\n' '.model m' '.inputs a' '.outputs f' '.names a f' '0 1' '.end' >IN
}

holds_inverter() { # FILE
    holds "$1" '.model m' '.inputs a' '.outputs f' '.gate inv a=a O=f' '.end'
}

# A file of so many bytes 0.
zeros() { # FILE BYTES
    rm -f "$1" && dd if=/dev/zero of="$1" bs=1 count=1 seek="$(($2 - 1))" 2>/dev/null
}

# A word of so many bytes x.
long() { # BYTES
    head -c "$1" /dev/zero | tr '\0' x
}

# Says how many cases passed; the status is 0 where none failed and at least one ran.
told() {
    echo "$passed passed, $failed failed"
    [ "$failed" -eq 0 ] && [ "$passed" -gt 0 ]
}
