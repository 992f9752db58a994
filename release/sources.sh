#!/bin/sh
# Prints the hash of the programs' sources: of crates.txt, and of the names and bytes of all files under src and specs of
# the crates of release/programs and of those that they stand on. Proofs, other crates, the times of files and the path of the
# checkout do not count.
#
#   sh release/sources.sh
set -u
export LC_ALL=C
cd -- "$(dirname -- "$(readlink -f -- "$0")")/.." || exit 1
programs=$(tr '\n' ' ' <release/programs) || exit 1
folders=$(awk -v of="$programs" -v kinds='src specs' -f release/folders.awk crates.txt) && [ -n "$folders" ] || exit 1
# (not each crate has both folders)
# shellcheck disable=SC2086
hash=$(find crates.txt $folders -type f -print0 2>/dev/null | sort -z | xargs -0 sha256sum | sha256sum) || exit 1
echo "${hash%% *}"
