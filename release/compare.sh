#!/bin/sh
# Compares the released programs, byte for byte, with the builds of this checkout, and builds those first that are not fresh.
#
#   sh release/compare.sh
#
# The sums in release/SHA256SUMS are looked at first, and always. Where the checkout's sources are not those of the release,
# or the kit is not the release's, or is not there, one line says 'skipped: ' and why, with status 0. The status is 1, and a
# line says why, where the release lacks a file, a sum is wrong, a build fails, or one byte differs.
set -u
cd -- "$(dirname -- "$(readlink -f -- "$0")")/.." || exit 1
fail() { # TEXT..
    echo "compare: $*" >&2
    exit 1
}

skip() { # TEXT..
    echo "skipped: $*"
    exit 0
}

of_release() { # WORD: what its line in BUILT says
    sed -n "s/^$1 //p" release/BUILT
}

programs=$(cat release/programs)
for variable in $(printf '%s' "$programs" | tr '[:lower:]' '[:upper:]'); do unset "${variable}_PROGRAM"; done
some=
for file in $programs BUILT SHA256SUMS; do [ ! -e "release/$file" ] || some=yes; done
[ -n "$some" ] || skip "there is no release yet, so no program was compared"
for file in BUILT SHA256SUMS; do [ -r "release/$file" ] || fail "the release has no file $file"; done
released=$(sed 's/^[^ ]*  //' release/SHA256SUMS)
for file in $released; do [ -r "release/$file" ] || fail "the release has no file $file"; done
for word in sources commit kit; do [ -n "$(of_release $word)" ] || fail "release/BUILT has no line of the $word"; done
# (names without blanks)
# shellcheck disable=SC2086
[ "$(cd release && sha256sum $released)" = "$(cat release/SHA256SUMS)" ] || fail "the released programs do not have the sums of release/SHA256SUMS"

sources=$(sh release/sources.sh) || fail "the sources have no hash"
[ "$(of_release sources)" = "$sources" ] || skip "the release is of other sources than this checkout, so it was not built again and compared"
command -v rt >/dev/null || skip "rt is not on this machine, so the release was not built again and compared"
kit=$(rt version </dev/null | sed -n 1p)
[ "$(of_release kit)" = "$kit" ] || skip "the release was built with '$(of_release kit)' and this kit is '$kit', so it was not built again and compared"

[ "$released" = "$programs" ] || fail "the release does not hold the programs of release/programs"
for name in $programs; do
    program=$(LWMAP_BUILD=yes sh release/program.sh build "$name") || fail "$name could not be built"
    cmp -- "release/$name" "$program" >&2 || fail "the released $name is not what these sources and this kit give"
done
echo "same: the released programs are, byte for byte, what these sources and this kit give"
