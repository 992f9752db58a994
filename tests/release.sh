# Cases of the scripts in release/, and of the scripts at the root with a released program, for tests/rows.sh, which reads this file
# behind the functions that are used here. The program and the kit are stand-ins (tests/fake_rt.sh).
# shellcheck shell=sh disable=SC2015,SC2154

# The copy of script_files with a release, which is what the stand-in of rt builds.
release_files() {
    script_files
    at='a copy/release'
    (cd "$here/a copy/crates/lwmap" && rt) >said && mv 'a copy/crates/lwmap/out/lwmap' "$at/lwmap" && rm -r 'a copy/crates/lwmap/out' built
    (cd "$at" && sha256sum lwmap >SHA256SUMS)
    printf '%s\n' "sources $(sh "$at/sources.sh")" 'commit none' "kit $(rt version)" >"$at/BUILT"
}

# The same, and the released program says that it is the released one.
other_release_files() {
    release_files
    sed 's/the program speaks/the released program speaks/' "$at/lwmap" >other && cat other >"$at/lwmap" && (cd "$at" && sha256sum lwmap >SHA256SUMS)
}

# Runs a function where there is no rt, neither the stand-in nor one of this machine.
without_rt() { # FUNCTION WORD..
    rm -rf tools && mkdir tools
    for tool in sh awk cat chmod cmp cp dirname find git grep head mkdir mv readlink rm sed sha256sum sort tail touch tr xargs; do
        ! found=$(command -v $tool) || ln -s "$found" tools/
    done
    PATH=$here/tools "$@"
}

released_alone() {
    holds err 'lwmap: the released program speaks' && [ ! -e built ]
}

script_runs_the_released_program() {
    other_release_files
    script map 'my file' ''
    status $? 5 && holds out "in $here/elsewhere" '<map>' '<my file>' '<>' 'read given' && released_alone || return
    mkdir -p 'a copy/crates/lwmap/out' 'a copy/crates/lwmap/proofs' 'a copy/crates/other/src'
    echo >'a copy/crates/lwmap/out/begun' && echo >'a copy/crates/lwmap/proofs/Lib.antt' && echo >'a copy/crates/other/src/lib.rt'
    touch 'a copy/crates.txt' 'a copy/crates/low/src/lib.rt'
    without_rt script
    status $? 5 && released_alone
}

script_runs_no_release_of_other_sources() {
    other_release_files
    mkdir 'a copy/crates/low/specs' && cp -R 'a copy' kept
    for edit in 'echo >>crates/lwmap/src/main.rt' 'echo >>crates/low/src/lib.rt' 'echo >crates/low/src/more.rt' 'echo >crates/low/specs/Lib.antt' \
        'mv crates/low/src/lib.rt crates/low/src/bil.rt' 'echo >>crates.txt' 'rm release/BUILT' 'echo sources >release/BUILT'; do
        rm -rf 'a copy' built && cp -R kept 'a copy' && (cd 'a copy' && eval "$edit")
        script
        status $? 5 && built_once && grep -q 'lwmap: the program speaks' err && head -n 1 err >first &&
            holds first 'lwmap: the released program is of other sources than these' || { echo "after $edit" && return 1; }
    done
}

sources_have_one_hash_in_each_folder() {
    script_files
    sh 'a copy/release/sources.sh' >first && [ -s first ] && cp -R 'a copy' copied && touch copied/crates/low/src/lib.rt || return
    mkdir copied/crates/low/out && echo >copied/crates/low/out/lib && ln -s copied/release/sources.sh link
    sh copied/release/sources.sh >second && same second first && (cd / && LC_ALL=C.UTF-8 sh "$here/link") >third && same third first || return
    printf x >>copied/crates/low/src/lib.rt
    sh copied/release/sources.sh >second && ! cmp -s second first
}

script_prefers_a_fresh_build() {
    other_release_files
    (export LWMAP_BUILD=yes && script)
    script
    status $? 5 && holds err 'lwmap: the program speaks' && built_once || return
    sleep 0.1 && mkdir 'a copy/crates/low/proofs'
    script
    status $? 5 && holds err 'lwmap: the released program speaks' && built_once
}

script_builds_where_it_is_told() {
    other_release_files
    (export LWMAP_BUILD=yes && script)
    status $? 5 && built_once && head -n 1 err >first && holds first 'lwmap: LWMAP_BUILD leaves the released program out'
}

script_runs_no_release_that_the_system_cannot() {
    other_release_files
    printf '\177ELF' >"$at/lwmap"
    script
    status $? 5 && built_once && head -n 1 err | grep -q '^lwmap: the released program does not run on this system: ' || return
    rm -r built 'a copy/crates/lwmap/out' && printf '%s\n' '#!/bin/sh' 'echo "no library" >&2' 'exit 1' >"$at/lwmap"
    script
    status $? 5 && built_once && head -n 1 err >first && holds first 'lwmap: the released program does not run on this system: no library'
}

no_program_where_none_is_to_be_built() {
    script_files
    sh 'a copy/release/program.sh' >out 2>err
    status $? 69 && holds out && holds err 'lwmap: no program is there; ./lwmap builds it, or LWMAP_PROGRAM names a built one' || return
    LWMAP_PROGRAM=none sh 'a copy/release/program.sh' >out 2>err
    status $? 69 && holds out && holds err 'lwmap: there is no program none, which LWMAP_PROGRAM names' && [ ! -e built ]
}

compared() { # STATUS LINE
    sh 'a copy/release/compare.sh' >out 2>err
    status $? "$1" || { cat out err && return 1; }
    if [ "$1" -eq 0 ]; then holds out "$2"; else tail -n 1 err >last && holds last "compare: $2" && holds out; fi
}

release_is_compared() {
    release_files
    compared 0 'same: the released programs are, byte for byte, what these sources and this kit give' && built_once || return
    compared 0 'same: the released programs are, byte for byte, what these sources and this kit give' && built_once || return
    echo '# more' >>"$at/lwmap"
    compared 1 'the released programs do not have the sums of release/SHA256SUMS' || return
    (cd "$at" && sha256sum lwmap >SHA256SUMS)
    compared 1 'the released lwmap is not what these sources and this kit give' && built_once || return
    rm -r 'a copy/crates/lwmap/out' && touch fails
    compared 1 'lwmap could not be built'
}

release_is_not_compared() {
    script_files
    compared 0 'skipped: there is no release yet, so no program was compared' || return
    cd .. && rm -rf at && mkdir at && cd at && release_files
    sed 's/^kit .*/kit of another day/' "$at/BUILT" >other && cp other "$at/BUILT"
    compared 0 "skipped: the release was built with 'of another day' and this kit is 'a kit that stands for one', so it was not built again and compared" || return
    without_rt compared 0 'skipped: rt is not on this machine, so the release was not built again and compared' || return
    sed '/^kit/d' "$at/BUILT" >other && cp other "$at/BUILT"
    compared 1 'release/BUILT has no line of the kit' || return
    rm "$at/BUILT"
    compared 1 'the release has no file BUILT' && [ ! -e built ]
}

# The copy as a checkout of git, with a fresh build.
checkout_files() {
    script_files
    printf '%s\n' '/crates/*/out/' >'a copy/.gitignore'
    export GIT_CONFIG_GLOBAL=/dev/null GIT_CONFIG_SYSTEM=/dev/null
    git_here() { git -C "$here/a copy" -c user.name=a -c user.email=a@b -c commit.gpgsign=false "$@"; }
    git_here init -q 2>/dev/null && git_here add -A && git_here commit -q -m a && script
}

made() { # STATUS [LINE]
    (cd elsewhere && sh '../a copy/release/make.sh') >out 2>err
    status $? "$1" && { [ $# -eq 1 ] || holds err "make: $2"; } || { cat out err && return 1; }
}

release_is_made() {
    command -v git >/dev/null || { echo "git is not on this machine" && return 9; }
    checkout_files
    at='a copy/release' && echo '# an edit here does not count' >>"$at/make.sh"
    made 0 && holds err && same "$at/lwmap" 'a copy/crates/lwmap/out/lwmap' && [ -x "$at/lwmap" ] || return
    holds "$at/BUILT" "sources $(sh "$at/sources.sh")" "commit $(git_here rev-parse HEAD)" 'kit a kit that stands for one' || return
    cat "$at/SHA256SUMS" "$at/BUILT" >told && same out told || return
    git_here add -A && git_here commit -q -m b && git_here clone -q . ../cloned && mv 'a copy' first && mv cloned 'a copy' || return
    without_rt script
    status $? 5 && holds err 'lwmap: the program speaks' && built_once || return
    compared 0 'same: the released programs are, byte for byte, what these sources and this kit give' && holds built built built
}

release_is_not_made() {
    command -v git >/dev/null || { echo "git is not on this machine" && return 9; }
    checkout_files
    echo >'a copy/crates/other/src/more.rt' && echo >>'a copy/lwmap'
    made 1 'not committed: lwmap crates/other/src/more.rt ' || return
    git_here add -A && git_here commit -q -m b && echo >'a copy/crates/low/src/more.rt' && git_here add -A && git_here commit -q -m c || return
    made 1 'there is no fresh build of lwmap; the gate makes one' || return
    script
    without_rt made 1 "there is no 'rt version'" || return
    rm -rf 'a copy/.git'
    made 1 && grep -q '^make: this is no checkout of git' err && [ ! -e 'a copy/release/lwmap' ]
}

# A second program beside it.
second_program() {
    mkdir -p 'a copy/crates/lwequal/src' && echo IN1 >'a copy/crates/lwequal/args' && cp "$root/lwequal" 'a copy/lwequal'
    echo 'lwequal: low' >>'a copy/crates.txt' && echo lwequal >>'a copy/release/programs'
    touch -t 202001010000 'a copy/crates.txt' 'a copy/crates/lwequal/src'
}

second_program_is_built_and_released() {
    command -v git >/dev/null || { echo "git is not on this machine" && return 9; }
    checkout_files
    second_program && git_here add -A && git_here commit -q -m b || return
    made 1 'there is no fresh build of lwequal; the gate makes one' || return
    (cd elsewhere && '../a copy/lwequal' one 'two words' >../out 2>../err </dev/null)
    status $? 5 && grep -qx '<two words>' out && tail -n 1 err >last && holds last 'lwequal: the program speaks' && holds built built built || return
    made 0 && same "$here/a copy/release/lwequal" 'a copy/crates/lwequal/out/lwequal' || return
    sed 's/^[^ ]*  //' 'a copy/release/SHA256SUMS' >names && holds names lwmap lwequal || return
    compared 0 'same: the released programs are, byte for byte, what these sources and this kit give' || return
    echo '# more' >>'a copy/release/lwequal'
    compared 1 'the released programs do not have the sums of release/SHA256SUMS' || return
    rm 'a copy/release/lwequal'
    compared 1 'the release has no file lwequal' || return
    sed -i '/lwequal/d' 'a copy/release/SHA256SUMS'
    compared 1 'the release does not hold the programs of release/programs' || return
    echo >>'a copy/crates/lwequal/src/main.rt'
    compared 0 'skipped: the release is of other sources than this checkout, so it was not built again and compared'
}

no_program_of_another_name() {
    script_files
    sh 'a copy/release/program.sh' lwother >out 2>err
    status $? 69 && holds out && holds err 'lwother: release/programs has no program lwother' || return
    second_program && LWEQUAL_PROGRAM=none sh 'a copy/release/program.sh' lwequal >out 2>err
    status $? 69 && holds err 'lwequal: there is no program none, which LWEQUAL_PROGRAM names'
}
