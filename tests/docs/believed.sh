#!/usr/bin/env bash
# believed.sh: the files that a reader of the promises must believe, one a line with its lines of definitions (no blanks, comments or imports): those of
# crates/promises/specs, and what their `use` lines reach. Fails where one of them is a file of proofs or of inner definitions.
#   believed.sh --types   instead the types of the code that they speak of, as CRATE NAME
set -euo pipefail
root=$(cd "$(dirname "${BASH_SOURCE[0]}")/../.." && pwd)
cd "$root/crates"

# uses FILE: what its `use` lines name, as CRATE TREE PATH
uses() {
    sed -nE 's/^(pub )?use Rattle\.([a-z_]+)\.(specs|proofs)\.([A-Za-z0-9_.-]+)( as .*|\.?\{.*)?$/\2 \3 \4/p' "$1"
}

lines() {
    awk '/^(pub )?use /{ open = !/\}/ && /\{/; next } open { if (/\}/) open = 0; next } /^ *--/ || /^ *$/ { next } { n++ } END { print n + 0 }' "$1"
}

declare -A seen types
todo=(promises/specs/*.antt)
failed=0
while [ ${#todo[@]} -gt 0 ]; do
    file=${todo[0]}
    todo=("${todo[@]:1}")
    if [ -n "${seen[$file]:-}" ] || [ "${file##*/}" = Lib.antt ]; then continue; fi
    seen[$file]=yes
    while read -r crate tree path; do
        # What is the library's own stands in no crate here.
        [ -d "$crate" ] || continue
        path=${path%.}
        case $tree/$path in
        specs/declared.*)
            path=${path%.TheVariants}
            types["$crate ${path##*.}"]=yes
            ;;
        specs/Inner*)
            echo "believed: FAILED: $file rests on inner definitions: $crate/specs/$path" >&2
            failed=1
            ;;
        specs/*) todo+=("$crate/specs/$path.antt") ;;
        *)
            echo "believed: FAILED: $file rests on a file of proofs: $crate/$tree/$path" >&2
            failed=1
            ;;
        esac
    done < <(uses "$file")
done
if [ "${1:-}" = --types ]; then
    printf '%s\n' "${!types[@]}" | LC_ALL=C sort
else
    for file in "${!seen[@]}"; do echo "$file $(lines "$file")"; done | LC_ALL=C sort
fi
exit $failed
