#!/bin/sh
# Looks at what a person sees and installs: the report of lwflow, the manual pages, an installation, the Debian package, a sweep here and
# on Slurm, and the pictures of the tutorial.
#
#   sh tests/look.sh [PART..]
#
# PART is one of report, manuals, install, package, sweep, slurm, tutorial; without words all are taken. What a tool is missing for is
# skipped, with a line that says so. The program is the one that release/program.sh finds. The last line is 'N passed, N failed'.
set -u
# shellcheck source=tests/verdicts.sh
. "$(dirname -- "$(readlink -f -- "$0")")/verdicts.sh"

lacks() { # WHAT TOOL..
    what=$1 && shift
    for tool; do
        command -v "$tool" >/dev/null || { echo "skipped: $tool is not on this machine, so $what" && return 0; }
    done
    return 1
}

flow() { # FOLDER WORD..
    folder=$1 && shift
    python3 lwflow -q --effort fast --vectors 0 -o "$room/$folder" -l $library "$@" >"$room/out" 2>&1
}

# A design whose names would be marks of HTML, or signs that no page may hold.
hostile() {
    printf '.model <b>&amp;"x\n.inputs <script>alert(1)</script> bc d\377\n.outputs f</title> &lt;\n'
    printf '.names <script>alert(1)</script> bc d\377 f</title>\n11- 1\n--1 1\n.names bc d\377 &lt;\n01 1\n10 1\n.end\n'
}

report() {
    ! lacks "no report was made" python3 yosys berkeley-abc || return
    flow uart examples/verilog/uart.v
    verdict "a report of a design with registers" $?
    python3 tests/report.py "$room/uart/report.json" "$room/uart/report.html" "$room/uart/mapped.blif" $library >"$room/out" 2>&1
    verdict "the figures of the report are those of the netlist" $?
    hostile >"$room/hostile.blif"
    flow hostile "$room/hostile.blif"
    verdict "a report of a design with marks in its names" $?
    ! grep -q '<script\|<b>&amp;"x\|[[:cntrl:]]' "$room/hostile/report.html" >"$room/out" && grep -q '&lt;script&gt;alert(1)' "$room/hostile/report.html"
    verdict "names are no marks" $?
    python3 tools/picture.py page "$room/uart/report.json" | cmp - "$room/uart/report.html" >"$room/out" 2>&1
    verdict "report.html is made of report.json alone" $?
    for kind in tries netlist; do
        python3 tools/picture.py $kind "$room/uart/report.json" >"$room/$kind.svg" && python3 -c 'import sys, xml.dom.minidom as dom; dom.parse(sys.argv[1])' "$room/$kind.svg" >"$room/out" 2>&1
        verdict "the picture of $kind" $?
    done
    osu=/usr/share/qflow/tech/osu035/osu035_stdcells.lib
    pages="$room/uart/report.html $room/hostile/report.html"
    if [ -r "$osu" ]; then
        python3 lwflow -q --effort fast -o "$room/loads" -l "$osu" bench/circuits/rca8_y.blif >"$room/out" 2>&1
        verdict "a report under loads" $?
        pages="$pages $room/loads/report.html"
    else
        echo "skipped: there is no $osu, so no report under loads was made"
    fi
    ! lacks "no report was looked at in a browser" chromium || return
    # shellcheck disable=SC2086
    python3 tests/look.py $pages >"$room/out" 2>&1
    verdict "reports in a browser" $?
    grep '^skipped' "$room/out" | sort -u
    sed 's/--soft: #57606a/--soft: #c0c0c0/; s|<h2 id="path">|<p style="width:900px;max-width:none">wide</p>&|' "$room/uart/report.html" >"$room/faint.html"
    python3 tests/look.py "$room/faint.html" >"$room/out" 2>&1
    [ $? -eq 1 ] && grep -q 'contrast 1.82' "$room/out" && grep -q 'wider than 400' "$room/out"
    verdict "a page that is faint and too wide is refused" $?
}

manuals() {
    for program in $(awk '{ print $2 }' release/SHA256SUMS) lwflow yosys-lwmap; do
        [ -f "release/man/$program.1" ]
        verdict "$program has a manual page" $?
    done
    ! lacks "the manual pages were not read" mandoc || return
    for page in release/man/*.1; do
        # (pages that are not installed cannot be found)
        mandoc -T lint -W style "$page" | grep -v 'referenced manual not found' >"$room/out"
        verdict "mandoc finds nothing in $page" $((1 - $?))
    done
    for option in $(python3 lwflow --help | grep -oE '^  -[-a-zA-Z]+|, --[a-z-]+|^  --[a-z-]+' | tr -d ' ,'); do
        case $option in -h | --help) continue ;; esac
        mandoc -T ascii release/man/lwflow.1 | col -b | grep -qe "$option\b" || echo "$option"
    done >"$room/out"
    [ ! -s "$room/out" ]
    verdict "lwflow.1 has each option of lwflow" $?
    ./lwmap 2>&1 | tr '|' '\n' | sed 's/.*usage: //; s/^ *//' | while read -r command words; do
        mandoc -T ascii release/man/lwmap.1 | col -b | tr -s ' ' | grep -qF " lwmap $command $words" || echo "$command $words"
    done >"$room/out"
    [ ! -s "$room/out" ]
    verdict "lwmap.1 has each command of lwmap" $?
}

# The system's tools alone, and no variable of this script.
plainly() {
    env -i PATH=/usr/bin:/bin HOME="$room" TMPDIR="$room" "$@"
}

install() {
    if ! (cd release && sha256sum -c --quiet SHA256SUMS) >/dev/null 2>&1; then
        echo "skipped: release/ does not hold the released programs, so nothing was installed" && return
    fi
    prefix="$room/a prefix"
    plainly sh release/install.sh "$prefix" >"$room/out" 2>&1
    verdict "an installation in an empty folder" $?
    (cd "$prefix" && find . ! -type d ! -name INSTALLED | sed 's|^\./|file |' | sort) >"$room/there"
    grep '^file' "$prefix/share/lwmap/INSTALLED" | grep -v INSTALLED | sort | cmp - "$room/there" >"$room/out" 2>&1
    verdict "the list of what was installed" $?
    cmp "$prefix/bin/lwmap" release/lwmap >"$room/out" 2>&1 && (cd / && plainly "$prefix/bin/lwmap" map "$root/examples/plain/plain.genlib" "$root/examples/plain/chain.blif") |
        cmp - examples/plain/chain.mapped.blif >"$room/out" 2>&1
    verdict "the installed lwmap" $?
    for program in $(awk '{ print $2 }' release/SHA256SUMS) lwnone; do
        [ "$(plainly sh "$prefix/share/lwmap/release/program.sh" "$program" 2>"$room/out")" = "$(readlink -f "$prefix/bin/$program" | grep -v lwnone)" ]
        verdict "where the installed $program is" $?
    done
    if ! lacks "the installed lwflow was not run" python3 berkeley-abc; then
        (cd / && plainly "$prefix/bin/lwflow" -q --effort fast -o "$room/installed" -l "$prefix/share/lwmap/libs/mcnc.genlib" "$root/bench/circuits/rca8_y.blif") >"$room/out" 2>&1 &&
            [ -s "$room/installed/report.html" ]
        verdict "the installed lwflow" $?
    fi
    for words in 'map -:-c' 'tr:trade' 'lut :6'; do
        bash -c '. "$1/share/bash-completion/completions/lwmap"; words=${2%:*}; COMP_WORDS=(lwmap $words); case $words in *" ") COMP_WORDS+=("") ;; esac
            COMP_CWORD=$((${#COMP_WORDS[@]} - 1)); _lwmap; printf "%s\n" "${COMPREPLY[@]}" | grep -qxe "${2#*:}"' bash "$prefix" "$words" >"$room/out" 2>&1
        verdict "completion of lwmap $words" $?
    done
    bash -c '. "$1/share/bash-completion/completions/lwflow"; COMP_WORDS=(lwflow --effort b); COMP_CWORD=2; _lwflow; [ "${COMPREPLY[*]}" = best ]' bash "$prefix" >"$room/out" 2>&1
    verdict "completion of lwflow" $?
    plainly sh release/install.sh "$prefix" >"$room/out" 2>&1
    verdict "an installation over another one" $?
    echo mine >"$prefix/share/man/man1/mine.1"
    plainly sh "$prefix/share/lwmap/release/install.sh" -u "$prefix" >"$room/out" 2>&1 && [ "$(cd "$prefix" && find . -type f)" = ./share/man/man1/mine.1 ]
    verdict "all is taken out again, and nothing else" $?
    plainly sh release/install.sh -u "$prefix" >"$room/out" 2>&1
    [ $? -eq 1 ] && grep -q INSTALLED "$room/out"
    verdict "what is not installed is not taken out" $?
    rm "$prefix/share/man/man1/mine.1" && mkdir -p "$prefix/bin" && echo mine >"$prefix/bin/lwflow"
    plainly sh release/install.sh "$prefix" >"$room/out" 2>&1
    [ $? -eq 1 ] && grep -q 'is there already' "$room/out" && [ "$(cd "$prefix" && find . -type f)" = ./bin/lwflow ]
    verdict "a file of somebody else stays, and nothing is installed" $?
    mkdir "$room/tree" && cp -a release lwflow tools CHANGELOG.md LICENSE-* README.md "$room/tree/" && rm "$room/tree/release/lwmap"
    plainly sh "$room/tree/release/install.sh" "$room/none" >"$room/out" 2>&1
    [ $? -eq 1 ] && grep -q 'no released program' "$room/out" && [ ! -e "$room/none" ]
    verdict "nothing is installed without the released programs" $?
    echo >"$room/tree/release/lwmap" && chmod +x "$room/tree/release/lwmap"
    plainly sh "$room/tree/release/install.sh" "$room/none" >"$room/out" 2>&1
    [ $? -eq 1 ] && grep -q 'is not the one' "$room/out" && [ ! -e "$room/none" ]
    verdict "another program in the place of the released one is not installed" $?
}

package() {
    ! lacks "no package was made" dpkg-deb || return
    if ! (cd release && sha256sum -c --quiet SHA256SUMS) >/dev/null 2>&1; then
        echo "skipped: release/ does not hold the released programs, so no package was made" && return
    fi
    sh release/deb.sh "$room" >"$room/out" 2>&1
    verdict "a Debian package" $?
    package=$(tail -n 1 "$room/out")
    if ! lacks "the package was not read by it" lintian; then
        lintian --allow-root --fail-on error "$package" >"$room/out" 2>&1
        verdict "lintian finds no error" $?
    fi
    if [ "$(id -u)" -ne 0 ]; then
        echo "skipped: only root installs a package, so it was not installed" && return
    fi
    mkdir -p "$room/system/var/lib/dpkg/info" "$room/system/var/lib/dpkg/updates" && : >"$room/system/var/lib/dpkg/status"
    dpkg --root="$room/system" --log="$room/log" --force-depends -i "$package" >"$room/out" 2>&1 && "$room/system/usr/bin/lwmap" map examples/plain/plain.genlib examples/plain/chain.blif |
        cmp - examples/plain/chain.mapped.blif >>"$room/out" 2>&1
    verdict "the package is installed in a folder" $?
    dpkg --root="$room/system" --log="$room/log" --force-depends --purge lwmap >"$room/out" 2>&1 && [ ! -e "$room/system/usr" ]
    verdict "the package is purged, and nothing is left" $?
}

plan() { # FOLDER
    printf 'designs: [bench/circuits/rca8_y.blif, examples/small/full_adder.blif, {lost: tests/none.blif}]\nlibraries: [%s]\nefforts: [fast]\nwords: "--vectors 0"\nfolder: %s\n' "$library" "$1"
}

swept() { # WHAT FOLDER: three runs, one without a netlist
    [ "$(wc -l <"$2/table.csv")" -eq 4 ] && grep -q '^lost.mcnc.fast,.*cannot read' "$2/table.csv" && grep -q '^rca8_y.mcnc.fast,rca8_y,.*,fast,no,0,' "$2/table.csv" &&
        [ -s "$2/rca8_y.mcnc.fast/report.html" ] && grep -q '<b>3 runs</b>: 2 with every step shown, 0 .* 1 without' "$2/index.html"
    verdict "$1" $?
}

snake() { # WORD..
    (cd "$room/here" && timeout 900 snakemake -q -s tools/sweep/Snakefile "$@") >"$room/out" 2>&1
}

prepare() { # (Snakemake keeps its records in the folder that it is called in)
    mkdir -p "$room/here"
    for name in *; do ln -sfn "$root/$name" "$room/here/$name"; done
}

sweep() {
    ! lacks "no sweep was made" snakemake python3 berkeley-abc || return
    prepare && plan "$room/swept" >"$room/plan.yaml"
    snake --configfile "$room/plan.yaml" --cores 4
    verdict "a sweep with a fault ends" $?
    swept "the table of a sweep" "$room/swept"
    inode=$(ls -i "$room/swept/rca8_y.mcnc.fast/report.json")
    python3 tools/reports.py --again "$room/swept" >"$room/out" && grep -q '^1 runs' "$room/out" && [ ! -e "$room/swept/lost.mcnc.fast/report.json" ]
    verdict "faults are tried again" $?
    sed 's/tests.none/examples\/small\/shared/' "$room/plan.yaml" >"$room/plan2.yaml"
    snake --configfile "$room/plan2.yaml" --cores 4
    [ "$inode" = "$(ls -i "$room/swept/rca8_y.mcnc.fast/report.json")" ] && grep -q '<b>3 runs</b>: 3 with' "$room/swept/index.html"
    verdict "what is done is kept" $?
    ! lacks "the page of a sweep was not looked at in a browser" chromium || return
    python3 tests/look.py "$room/swept/index.html" >"$room/out" 2>&1
    verdict "the page of a sweep in a browser" $?
    grep '^skipped' "$room/out" | sort -u
}

slurm() {
    ! lacks "nothing was tried on Slurm" snakemake python3 berkeley-abc sbatch || return
    prepare && plan "$room/cluster" >"$room/plan.yaml"
    (cd "$room/here" && timeout 900 sh tests/slurm.sh snakemake -q -s tools/sweep/Snakefile --configfile "$room/plan.yaml" --profile tools/sweep/slurm) >"$room/out" 2>&1
    status=$?
    if [ $status -eq 77 ]; then tail -n 1 "$room/out" && return; fi
    [ $status -eq 0 ] && [ "$(grep -c 'Submitted job' "$room/out")" -eq 3 ]
    verdict "three jobs on Slurm" $?
    swept "the table of a sweep on Slurm" "$room/cluster"
}

# The pictures of the tutorial are what its commands draw now.
tutorial() {
    ! lacks "the pictures of the tutorial were not drawn" python3 yosys berkeley-abc || return
    sed -n 's/^    \(\.\/lwflow .*\)/\1/p; s/^    \(python3 tools\/picture.py .*\)/\1/p' docs/TUTORIAL.md | grep -v ' LIB ' >"$room/commands"
    prepare
    (cd "$room/here" && sh -e "$room/commands") >"$room/out" 2>&1
    verdict "the commands of the tutorial" $?
    for picture in $(grep -oE '>[a-z]+\.svg' "$room/commands" | tr -d '>'); do
        cmp "docs/pictures/$picture" "$room/here/$picture" >"$room/out" 2>&1
        verdict "docs/pictures/$picture is what the tutorial's command draws" $?
    done
}

[ $# -gt 0 ] || set -- report manuals install package sweep slurm tutorial
for part; do "$part"; done
told
