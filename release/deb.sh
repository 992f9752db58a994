#!/bin/sh
# Makes a Debian package of what release/install.sh installs:
#
#   sh release/deb.sh [FOLDER]
#
# FOLDER (the current one) gets lwmap_VERSION_amd64.deb. VERSION is the newest one of CHANGELOG.md. The package needs the C library alone,
# and recommends yosys, berkeley-abc and python3, which lwflow needs. MAINTAINER is the name and the address that it carries. The same
# checkout gives the same bytes: times in it are those of the commit. It needs dpkg-deb, and no root.
set -eu
export LC_ALL=C
root=$(dirname -- "$(dirname -- "$(readlink -f -- "$0")")")
fail() { # TEXT..
    echo "deb: $*" >&2
    exit 1
}

folder=${1:-.}
[ $# -le 1 ] || fail "usage: sh release/deb.sh [FOLDER]"
[ -d "$folder" ] && [ -w "$folder" ] || fail "$folder is no folder that can be written"
command -v dpkg-deb >/dev/null || fail "there is no dpkg-deb; apt-get install dpkg"
version=$(sed -n 's/^## *\[*v*\([0-9][0-9.]*\).*/\1/p' "$root/CHANGELOG.md" | head -n 1)
[ -n "$version" ] || fail "CHANGELOG.md names no version"
SOURCE_DATE_EPOCH=${SOURCE_DATE_EPOCH:-$(git -C "$root" log -1 --format=%ct 2>/dev/null || stat -c %Y "$root/release/SHA256SUMS")}
export SOURCE_DATE_EPOCH
room=$(mktemp -d)
trap 'rm -rf "$room"' EXIT
trap 'exit 1' HUP INT TERM
usr=$room/lwmap/usr
sh "$root/release/install.sh" "$usr" >"$room/said" 2>&1 || fail "$(tail -n 1 "$room/said")"

# What a package has in other places or forms: dpkg knows its files, and manual pages are compressed.
rm "$usr/share/lwmap/INSTALLED" "$usr/share/lwmap/release/install.sh" "$usr"/share/doc/lwmap/LICENSE-*
gzip -9n "$usr"/share/man/man1/*.1 "$usr/share/doc/lwmap/README.md"
# (-B: Python leaves nothing beside its modules, which a purge would find)
sed -i '1s|^#!/usr/bin/env python3|#!/usr/bin/python3 -B|' "$usr/share/lwmap/lwflow" "$usr/share/lwmap/tools/yosys-lwmap"
find "$usr/share/lwmap/tools" -name '*.py' -exec sed -i '1{/^#!/d}' {} + # (they are called by python3, or by other scripts)
maintainer=${MAINTAINER:-lwmap developers <lwmap@debian.invalid>}
{
    echo "lwmap ($version) unstable; urgency=medium"
    echo
    echo "  * See CHANGELOG.md of this version."
    echo
    echo " -- $maintainer  $(date -u -R -d "@$SOURCE_DATE_EPOCH")"
} | gzip -9n >"$usr/share/doc/lwmap/changelog.gz"
{
    echo "Format: https://www.debian.org/doc/packaging-manuals/copyright-format/1.0/"
    echo "Upstream-Name: lwmap"
    echo
    echo "Files: *"
    echo "Copyright: $(sed -n 's/^Copyright (c) //p' "$root/LICENSE-MIT" | head -n 1)"
    echo "License: Expat or Apache-2.0"
    echo
    echo "License: Expat"
    sed '1,/^Permission/{/^Permission/!d}; s/^$/./; s/^/ /' "$root/LICENSE-MIT"
    echo
    echo "License: Apache-2.0"
    echo " On Debian systems the text is in /usr/share/common-licenses/Apache-2.0."
} >"$usr/share/doc/lwmap/copyright"
mkdir -p "$usr/share/lintian/overrides"
cat >"$usr/share/lintian/overrides/lwmap" <<'OVERRIDES'
# The programs are byte for byte those of the release, so that their SHA-256 can be compared with that of release/SHA256SUMS.
lwmap: unstripped-binary-or-object *
OVERRIDES
control=$room/lwmap/DEBIAN
mkdir "$control"
cat >"$control/control" <<CONTROL
Package: lwmap
Version: $version
Section: electronics
Priority: optional
Architecture: amd64
Maintainer: $maintainer
Installed-Size: $(du -sk "$usr" | cut -f 1)
Depends: libc6 (>= 2.34)
Recommends: berkeley-abc, python3, yosys
Suggests: iverilog
Description: map logic to library cells with the smallest delay, proved
 lwmap reads a logic network in BLIF and a library of cells in genlib, and
 writes a netlist with the smallest delay. A proof checker has verified that
 each netlist computes its network and that no cover in the search space is
 faster.
 .
 lwequal compares two networks, and its yes is proved. lwarea gives area back
 where no output needs the speed, and takes structures of further networks.
 .
 lwflow reads Verilog, BLIF or AIGER, tries several commands of ABC with lwmap
 and with ABC's own mapper, keeps the best netlist, compares each step with
 the design, and writes a report.
CONTROL
(cd "$room/lwmap" && find usr -type f -print0 | sort -z | xargs -0 md5sum) >"$control/md5sums"
find "$room/lwmap" -type d -exec chmod 755 {} +
chmod 644 "$control"/*
find "$room/lwmap" -exec touch -h -d "@$SOURCE_DATE_EPOCH" {} +
dpkg-deb --root-owner-group --build "$room/lwmap" "$room/made.deb" >/dev/null || fail "dpkg-deb made no package"
mv -f -- "$room/made.deb" "$folder/lwmap_${version}_amd64.deb"
echo "$folder/lwmap_${version}_amd64.deb"
