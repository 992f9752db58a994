#!/bin/sh
# Prints what the programs need of the system, and tries each in a folder that holds nothing but that:
#
#   sh release/needs.sh [PROGRAM]
#
# Without PROGRAM each of release/programs is taken, as release/program.sh finds it. A line is printed for the loader, for each library with the newest version
# of its symbols that the program asks for (readelf -lW, -dW, -VW), with the file that this system has for it (ldd), for the level of
# x86-64 that the file is marked with (readelf -nW), and for that of its instructions (objdump -d, release/levels.awk). Then an
# example is mapped (or compared, by lwequal) in a new root folder with the loader, the libraries and the files, without an environment,
# which needs root or user namespaces; and on a processor of x86-64-v2, where qemu-x86_64 is there. 'skipped: ' says what could not be
# tried. The status is 1 where a trial fails.
set -u
export LC_ALL=C
root=$(dirname -- "$(dirname -- "$(readlink -f -- "$0")")")
fail() { # TEXT..
    echo "needs: $*" >&2
    exit 1
}

for tool in readelf ldd objdump; do command -v $tool >/dev/null || fail "there is no $tool; readelf and objdump are in Debian's package binutils"; done
if [ $# -eq 0 ]; then
    status=0
    while read -r name; do
        echo "$name:" && program=$(sh "$root/release/program.sh" "$name") && sh "$0" "$program" </dev/null || status=1
    done <"$root/release/programs"
    exit $status
fi
program=$(readlink -f -- "$1")
readelf -h "$program" >/dev/null 2>&1 || fail "$program is no program that readelf knows"
room=$(mktemp -d) || exit 1
trap 'rm -rf "$room"' EXIT
trap 'exit 1' HUP INT TERM

readelf -lW "$program" | sed -n 's/.*program interpreter: \(.*\)]$/loader \1/p'
readelf -dW "$program" | sed -n 's/.*(NEEDED).*\[\(.*\)]$/\1/p' >"$room/needed"
readelf -VW "$program" >"$room/versions"
ldd "$program" >"$room/ldd" 2>/dev/null || : >"$room/ldd"
while read -r library; do
    newest=$(awk -v library="$library" '/File: / { mine = $0 ~ "File: " library " " } mine && sub(/.*Name: /, "") { print $1 }' "$room/versions" |
        sort -V | tail -n 1)
    echo "library $library, of ${newest:-no version}, here $(awk -v library="$library" '$1 == library && $2 == "=>" { print $3 }' "$room/ldd")"
done <"$room/needed"
[ -s "$room/needed" ] || echo "no library"
marked=$(readelf -nW "$program" 2>/dev/null | sed -n 's/.*x86 ISA needed: //p' | tail -n 1)
echo "marked with ${marked:-no level of x86-64}"
objdump -d --no-show-raw-insn "$program" | awk -f "$root/release/levels.awk" || fail "$program has no instructions that objdump shows"

status=0
cp -- "$root/examples/plain/plain.genlib" "$room/LIB" && cp -- "$root/examples/plain/chain.blif" "$room/IN" &&
    cp -- "$root/examples/plain/chain.mapped.blif" "$room/MAPPED" || exit 1
case ${program##*/} in
lwequal*) words='-l LIB IN MAPPED' && echo equal >"$room/wanted" ;;
lwarea*) words='-e 0 -t each LIB IN' && cp "$room/MAPPED" "$room/wanted" ;;
*) words='map LIB IN' && cp "$room/MAPPED" "$room/wanted" ;;
esac
verdict() { # WHAT STATUS
    if [ "$2" -eq 0 ] && cmp -s "$room/out" "$room/wanted"; then
        echo "tried $1: the example comes out as wanted"
    else
        echo "tried $1: FAILED: status $2, $(wc -c <"$room/out") bytes, and on standard error '$(head -n 1 "$room/err")'" && status=1
    fi
}

mkdir "$room/empty" && cp -- "$program" "$room/empty/program" && (cd "$room" && cp LIB IN MAPPED empty)
grep -o '/[^ ]*' "$room/ldd" | while read -r file; do mkdir -p "$room/empty$(dirname "$file")" && cp -L "$file" "$room/empty$file"; done
enter=$(PATH=$PATH:/usr/sbin command -v chroot)
apart=
[ "$(id -u)" -eq 0 ] || apart="$(command -v unshare || echo unshare) -r"
# shellcheck disable=SC2086
if [ -n "$enter" ] && $apart "$enter" / /bin/true 2>/dev/null; then
    env -i $apart "$enter" "$room/empty" /program $words >"$room/out" 2>"$room/err"
    verdict "in an empty environment, with its libraries alone" $?
else
    echo "skipped: no new root folder can be made here, so the program was not tried in an empty environment"
fi
for qemu in qemu-x86_64 qemu-x86_64-static ''; do [ -z "$qemu" ] || ! command -v "$qemu" >/dev/null || break; done
if [ -n "$qemu" ]; then
    # shellcheck disable=SC2086
    (cd "$room" && "$qemu" -cpu Nehalem "$program" $words) >"$room/out" 2>"$room/err"
    verdict "on a processor of x86-64-v2, by qemu" $?
else
    echo "skipped: qemu-x86_64 is not on this machine, so no processor of x86-64-v2 alone was tried"
fi
exit $status
