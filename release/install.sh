#!/bin/sh
# Puts the released programs, the scripts, the manual pages and the completion for bash in place, and takes them out again:
#
#   sh release/install.sh PREFIX
#   sh release/install.sh -u PREFIX
#
# PREFIX is a folder such as /usr/local or ~/.local; it is made if it is missing, and neither root nor make is needed. The programs are
# those of release/SHA256SUMS. PREFIX gets bin/, share/lwmap/, share/man/man1/, share/bash-completion/completions/ and
# share/doc/lwmap/. The list of all that was made is share/lwmap/INSTALLED; -u removes what it names and nothing else. An earlier
# installation is replaced. A file of the same name that is in no such list stays, and nothing is installed.
#
# Nothing is written where a program is missing, is not the released one, or does not run here. The status is 1 then.
set -eu
export LC_ALL=C
root=$(dirname -- "$(dirname -- "$(readlink -f -- "$0")")")
fail() { # TEXT..
    echo "install: $*" >&2
    exit 1
}

remove=
if [ "${1:-}" = -u ]; then remove=yes && shift; fi
case "${1:-}" in
'' | -*) fail "usage: sh release/install.sh [-u] PREFIX" ;;
esac
[ $# -eq 1 ] || fail "usage: sh release/install.sh [-u] PREFIX"
prefix=$1
list=share/lwmap/INSTALLED

# Lines as the words of a command, in PREFIX.
with_all() { # COMMAND..
    (cd -- "$prefix" && tr '\n' '\0' | xargs -0r "$@")
}

# Takes out what the list names, the folders that it made last, if nothing else is in them.
take_out() {
    sed -n 's/^file //p' "$prefix/$list" >"$room/gone"
    sed -n 's/^folder //p' "$prefix/$list" | sort -r >"$room/emptied"
    with_all rm -f -- <"$room/gone"
    find "$prefix/share/lwmap" -name __pycache__ -prune -exec rm -rf {} + # (what Python leaves beside its modules)
    with_all rmdir --ignore-fail-on-non-empty -- <"$room/emptied"
}

room=$(mktemp -d)
stage=
trap 'rm -rf "$room" "$stage"' EXIT
trap 'exit 1' HUP INT TERM
if [ -n "$remove" ]; then
    [ -f "$prefix/$list" ] || fail "$prefix/$list is missing, so nothing is known of an installation in $prefix"
    take_out
    echo "install: taken out of $prefix"
    exit
fi

# The programs, and whether they are the released ones.
[ -f "$root/release/SHA256SUMS" ] || fail "release/SHA256SUMS is missing: there is no released program to install"
programs=$(awk '{ print $2 }' "$root/release/SHA256SUMS")
[ -n "$programs" ] || fail "release/SHA256SUMS names no program"
for program in $programs; do
    [ -x "$root/release/$program" ] || fail "release/$program is missing: there is no released program to install"
done
(cd "$root/release" && sha256sum -c --quiet SHA256SUMS >/dev/null 2>&1) || fail "a program in release/ is not the one that release/SHA256SUMS names"
for program in $programs; do
    said=$("$root/release/$program" 2>&1 </dev/null) || :
    case $said in "$program: "*) ;; *) fail "release/$program does not run on this system: $(printf '%s' "$said" | head -n 1)" ;; esac
done

# Everything is put together in a folder of its own first.
mkdir -p -- "$prefix" 2>/dev/null && [ -w "$prefix" ] || fail "$prefix cannot be written; choose a folder of yours, such as $HOME/.local, or become root"
prefix=$(readlink -f -- "$prefix")
stage=$(mktemp -d "$prefix/.lwmap.XXXXXX")
share=$stage/share/lwmap
mkdir -p "$stage/bin" "$share/release" "$share/libs" "$stage/share/man/man1" "$stage/share/bash-completion/completions" "$stage/share/doc/lwmap"
tar -C "$root" -cf - --exclude='*.pyc' --exclude=__pycache__ --exclude='*.md' tools lwflow | tar -C "$share" -xf -
cp -- "$root/CHANGELOG.md" "$share/"
cp -- "$root"/bench/libs/*.genlib "$share/libs/"
cp -- "$root/release/install.sh" "$share/release/"
cat >"$share/release/program.sh" <<'PROGRAM'
#!/bin/sh
# Prints the path of an installed program, lwmap or the one that is named, or of the one that LWMAP_PROGRAM or the like names.
name=${1:-lwmap}
eval "named=\${$(printf '%s' "$name" | tr '[:lower:]' '[:upper:]')_PROGRAM:-}"
program=$(readlink -f -- "${named:-$(dirname -- "$(readlink -f -- "$0")")/../../../bin/$name}")
[ -x "$program" ] && [ ! -d "$program" ] || { echo "$name: there is no program ${named:-$program}" >&2 && exit 69; }
printf '%s\n' "$program"
PROGRAM
for program in $programs lwflow yosys-lwmap; do
    case $program in
    lwflow) ln -s ../share/lwmap/lwflow "$stage/bin/lwflow" ;;
    yosys-lwmap) ln -s ../share/lwmap/tools/yosys-lwmap "$stage/bin/yosys-lwmap" ;;
    *) cp -- "$root/release/$program" "$stage/bin/" ;;
    esac
    [ ! -f "$root/release/man/$program.1" ] || cp -- "$root/release/man/$program.1" "$stage/share/man/man1/"
    grep -q "^complete .* $program\$" "$root/release/completion.bash" && cp -- "$root/release/completion.bash" "$stage/share/bash-completion/completions/$program"
done
cp -- "$root/LICENSE-MIT" "$root/LICENSE-APACHE" "$root/README.md" "$stage/share/doc/lwmap/"
find "$stage" -type f -exec chmod 644 {} +
find "$stage/bin" "$share" -type f \( -path '*/bin/*' -o -name '*.sh' -o -name lwflow -o -name yosys-lwmap \) -exec chmod 755 {} +
find "$stage" -type d -exec chmod 755 {} +

# What stands in the way, then the exchange.
: >"$stage/$list"
(cd "$stage" && find . ! -type d | sed 's|^\./||' | sort) >"$room/files"
(cd "$stage" && find . -mindepth 1 -type d | sed 's|^\./||' | sort) >"$room/folders"
sed -n 's/^file //p' "$prefix/$list" 2>/dev/null | sort >"$room/ours" || :
with_all ls -d -- <"$room/files" 2>/dev/null | sort | comm -23 - "$room/ours" >"$room/others" || :
[ ! -s "$room/others" ] || fail "$prefix/$(head -n 1 "$room/others") is there already and is not of an installation by this script; nothing was changed"
if [ -f "$prefix/$list" ]; then take_out; fi
{ with_all ls -d -- <"$room/folders" 2>/dev/null || :; } | sort | comm -13 - "$room/folders" >"$room/made"
with_all mkdir -- <"$room/made"
{ sed 's/^/folder /' "$room/made" && sed 's/^/file /' "$room/files"; } >"$prefix/$list"
cp "$prefix/$list" "$stage/$list"
cp -a "$stage/." "$prefix/" || { take_out && fail "not everything could be written into $prefix, so nothing is installed"; }

# shellcheck disable=SC2086
echo "install:" $programs "lwflow yosys-lwmap in $prefix/bin; take out with: sh '$prefix/share/lwmap/release/install.sh' -u '$prefix'"
case ":$PATH:" in *":$prefix/bin:"*) ;; *) echo "install: $prefix/bin is not in PATH; add it to run the programs by their names" ;; esac
for tool in python3 yosys berkeley-abc; do
    command -v "$tool" >/dev/null || echo "install: lwflow needs $tool, which is not on this machine; apt-get install $tool"
done
