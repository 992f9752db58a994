#!/bin/sh
# Tests whether everything that the pages of this repository name exists:
#
#   - targets of Markdown links, with their headings
#   - paths: words with a slash that begin with a folder of the repository or of the page, and names of pages and scripts
#   - crates, and clauses: `FUNCTION: CLAUSE, ..` names clauses of a function's contract in crates/NAME/src, and
#     `DEFINITION: FIELD, ..` fields of a definition in crates/NAME/specs
#   - names of the code with a low line
#
# Words with a capital name in them, such as crates/NAME, are placeholders. What a build or a flow makes (out/, flow_TOP/,
# NAME.lwflow/) need not exist.
#
#   sh tests/links.sh [PAGE..]
#
# Each name that leads nowhere is printed. The last line is 'N looked at, N lead nowhere'; the status is 0 if none does.
set -u
export LC_ALL=C
cd "$(dirname -- "$(dirname -- "$(readlink -f -- "$0")")")" || exit 1
if [ $# -eq 0 ]; then
    # shellcheck disable=SC2046
    set -- $(find . -name '*.md' -not -path './.git/*' -not -path '*/out/*' | sed 's|^\./||' | sort)
fi
looked=0
lost=0

# The headings of a page as Markdown's links name them.
anchors() { # PAGE
    sed -n 's/^##* *//p' "$1" | tr 'A-Z ' 'a-z-' | tr -cd 'a-z0-9_\n-'
}

nowhere() { # PAGE WHAT
    lost=$((lost + 1))
    echo "$1: $2"
}

# Whether something of the repository has that name; the name may be a pattern.
exists() { # FOLDER NAME
    for found in "$1"/$2 ./$2; do
        [ ! -e "$found" ] || return 0
    done
    return 1
}

link() { # PAGE TARGET
    case $2 in http://* | https://* | mailto:*) return ;; esac
    looked=$((looked + 1))
    target=${2%%#*}
    file=$(dirname -- "$1")/$target
    [ -n "$target" ] || file=$1
    if ! [ -e "$file" ]; then
        nowhere "$1" "$2"
    elif [ "$2" != "$target" ] && ! anchors "$file" | grep -qxF -- "${2#*#}"; then
        nowhere "$1" "$2"
    fi
}

path() { # PAGE WORD
    folder=$(dirname -- "$1")
    case $2 in
    */*)
        first=${2%%/*}
        [ -d "$folder/$first" ] || [ -d "./$first" ] || return 0
        ;;
    esac
    looked=$((looked + 1))
    exists "$folder" "$2" || nowhere "$1" "$2"
}

# The words that look like paths, out of the code and the text of a page; links and addresses are taken out first.
paths() { # PAGE
    sed 's/](\([^)]*\))/]/g; s|https*://[^ ]*||g' "$1" | grep -oE '[A-Za-z0-9_.*-]+(/[A-Za-z0-9_.*-]+)+/?|[A-Za-z0-9_-]+\.(md|sh|py|awk)' |
        sed 's/\.$//' | awk '/\.md$/ || !/(^|[\/._])[A-Z][A-Z]+([\/._]|$)|(^|\/)(out|flow_[A-Za-z]*|[A-Za-z]*\.lwflow)\/|\.\.$|\/\.$/' | sort -u
    sed 's/](\([^)]*\))/]/g' "$1" | grep -oE '(^|[^A-Za-z0-9_./-])[A-Z]+\.md' | grep -oE '[A-Z]+\.md' | sort -u
}

# A script that is named without its folder may stand anywhere.
anywhere() { # NAME
    [ -n "$(find . -name "$1" -not -path './.git/*' 2>/dev/null | head -n 1)" ]
}

# Every word of the sources, scripts, libraries and examples, one on a line, and the names of all files.
known_names() {
    {
        grep -rohE '[A-Za-z0-9_]+' crates/*/src crates/*/specs crates/*/proofs tests/*.sh tests/*.py tools bench/*.sh bench/*.py bench/libs \
            bench/*.awk examples release/*.sh 2>/dev/null
        find bench tests/rows crates -type f | sed 's|.*/||; s|\..*||'
    } | sort -u
}

# What a page has between backquotes, one on a line.
quoted() { # PAGE
    grep -oE '`[^`]+`' "$1" | tr -d '`' | sort -u
}

crate() { # PAGE NAME
    looked=$((looked + 1))
    [ -d "crates/$2" ] || nowhere "$1" "$2"
}

# A clause of a function, which may be named with its type, or a field of a definition.
clause() { # PAGE OWNER CLAUSE
    looked=$((looked + 1))
    case ${2##*::} in
    run) files=$(grep -rlE "pub fn run\b" --include='*.rt' crates/*/src) && wanted="(ensures|requires) $3\b" ;;
    [A-Z]*) files=$(grep -rlE "(record|data|inductive|trait) $2\b" --include='*.antt' crates/*/specs) && wanted="^ *(pub )?$3 *:" ;;
    *) files=$(grep -rlE "fn ${2##*::}\b" --include='*.rt' crates/*/src) && wanted="(ensures|requires) $3\b" ;;
    esac
    # shellcheck disable=SC2086
    [ -n "$files" ] && grep -qE "$wanted" $files || nowhere "$1" "$2: $3"
}

# Crates, clauses and names of the code.
code() { # PAGE
    for name in $(quoted "$1" | grep -oE '^lw_[a-z0-9_]+|crates/lw_[a-z0-9_]+' | sed 's|crates/||' | sort -u); do crate "$1" "$name"; done
    quoted "$1" | grep -E '^[A-Za-z][A-Za-z_:0-9]*: [a-z][a-z0-9_]*(, [a-z][a-z0-9_]*)*$' | grep -v '^[a-z]*map: ' >"$room/clauses"
    while read -r owner names; do
        for name in $(echo "$names" | tr -d ,); do clause "$1" "${owner%:}" "$name"; done
    done <"$room/clauses"
    for name in $(quoted "$1" | grep -xE '([A-Za-z0-9]+::)*[a-z][a-z0-9]*(_[a-z0-9]+)+' | sed 's/.*:://' | grep -v '^flow_'); do
        looked=$((looked + 1))
        grep -qxF -- "$name" "$room/names" || [ -d "crates/$name" ] || nowhere "$1" "$name"
    done
}

room=$(mktemp -d)
trap 'rm -rf "$room"' EXIT
known_names >"$room/names"
for page; do
    code "$page"
    # shellcheck disable=SC2013
    for target in $(grep -oE '\]\([^) ]+\)' "$page" | sed 's/^](//; s/)$//'); do link "$page" "$target"; done
    set -f
    # shellcheck disable=SC2046
    set -- $(paths "$page")
    for word; do
        case $word in
        */*) set +f && path "$page" "$word" && set -f ;;
        *)
            looked=$((looked + 1))
            anywhere "$word" || nowhere "$page" "$word"
            ;;
        esac
    done
    set +f
done
echo "$looked looked at, $lost lead nowhere"
[ "$lost" -eq 0 ]
