#!/bin/sh
# Makes the release: copies the fresh builds of the programs in release/programs, as they are, to release/, and writes
# release/SHA256SUMS and release/BUILT, which holds the hash of the sources, the commit and the kit's line. It needs git, rt and
# the builds that the gate left, and refuses where one is not fresh, or where something outside of release/ is not committed.
#
#   sh release/make.sh
set -eu
cd -- "$(dirname -- "$(readlink -f -- "$0")")/.."
fail() { # TEXT..
    echo "make: $*" >&2
    exit 1
}

for variable in $(tr '[:lower:]' '[:upper:]' <release/programs); do unset "${variable}_PROGRAM"; done
dirt=$(git status --porcelain -- . ':(exclude)release') || fail "this is no checkout of git"
[ -z "$dirt" ] || fail "not committed: $(printf '%s\n' "$dirt" | sed 's/^...//' | tr '\n' ' ')"
commit=$(git rev-parse HEAD)
programs=$(cat release/programs)
for name in $programs; do
    LWMAP_BUILD=yes sh release/program.sh "$name" >/dev/null 2>&1 || fail "there is no fresh build of $name; the gate makes one"
done
kit=$(rt version 2>/dev/null </dev/null | sed -n 1p) && [ -n "$kit" ] || fail "there is no 'rt version'"
sources=$(sh release/sources.sh) || fail "the sources have no hash"
for name in $programs; do
    program=$(LWMAP_BUILD=yes sh release/program.sh "$name")
    cp -- "$program" "release/$name.new" && chmod 755 "release/$name.new" && mv -f "release/$name.new" "release/$name"
    # (a build that names its folder cannot be had again in another)
    ! grep -qF -- "$(pwd)/" "release/$name" || echo "make: $name holds the path $(pwd)/, so builds in other folders may differ" >&2
done
# (names without blanks)
# shellcheck disable=SC2086
(cd release && sha256sum $programs >SHA256SUMS)
printf '%s\n' "sources $sources" "commit $commit" "kit $kit" >release/BUILT
cat release/SHA256SUMS release/BUILT
