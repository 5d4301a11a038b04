#!/usr/bin/env bash
# Whether what the papers name is there: each definition of docs/RULES.md in its file, each name of docs/PROOFS.md somewhere in the crates or
# among their must-fail edits, and each file of a crate that a paper in docs/ names; and whether docs/BELIEVED.md lists what believed.sh finds, file by
# file with its lines, type by type, and in all.
# It needs nothing but the repository.
# shellcheck disable=SC2016
set -euo pipefail
root=$(cd "$(dirname "${BASH_SOURCE[0]}")/../.." && pwd)
cd "$root/crates"
failed=0
named=0

wrong() {
    echo "docs: FAILED: $*"
    failed=1
}

# has FILE NAME: the definition, or its field as DEFINITION.FIELD
has() {
    local part
    for part in ${2//./ }; do
        grep -qE "(^|[ (])$part( |:|\(|$)" "$1" || wrong "RULES names $2, and $1 has no $part"
    done
    named=$((named + 1))
}

# A bracket of RULES: paths CRATE/FILE, each with the names that follow it. In "When a card is whole" and in "Tried examples" the file is
# said once for all.
while IFS= read -r bracket; do
    file=card_rules/specs/Whole.antt
    while IFS= read -r token; do
        case $token in
        '`Examples.'*) has law_calls/specs/Examples.antt "${token//\`/}" ;;
        '`'*) has "$file" "${token//\`/}" ;;
        */src/* | */proofs/*) file=${token%.rt} ;;
        *) file=${token/\///specs/} ;;
        esac
        case $token in
        '`'*) continue ;;
        */src/*) file=$file.rt ;;
        *) file=$file.antt ;;
        esac
        if [ ! -f "$file" ]; then
            wrong "RULES names $token, and there is no $file"
            break
        fi
    done < <(grep -oE '[a-z_]+/((proofs|src)/)?[A-Za-z][A-Za-z0-9]*(\.rt)?|`[A-Za-z][^`]*`' <<<"$bracket")
done < <(sed -n '/^## The three demands/,$p' "$root/docs/RULES.md" | tr '\n' ' ' | grep -oE '\[[^]]*`[^]]*\]' | grep -v '^\[crates/')

# PROOFS has names in backticks, parts of a record after a point. `ac`, `lem` are what no proof imports; folders of tests are no names.
words=$(mktemp)
trap 'rm -f "$words"' EXIT
{
    find . -name out -prune -o \( -name '*.antt' -o -name '*.rt' \) -print0 | xargs -0 cat | grep -oE "[A-Za-z][A-Za-z0-9_-]*"
    find . -name out -prune -o -name '*.edit' -printf '%f\n' | sed 's/\.edit$//'
    printf '%s\n' ac lem check files dirs calls replay cli
} | LC_ALL=C sort -u >"$words"
while IFS= read -r name; do
    wrong "PROOFS names $name, which no crate has"
done < <(grep -oE '`[A-Za-z][A-Za-z0-9_.-]*`' "$root/docs/PROOFS.md" | tr -d '`' | tr . '\n' | grep . | LC_ALL=C sort -u | LC_ALL=C comm -23 - "$words")

for paper in "$root"/docs/*.md; do
    while IFS= read -r path; do
        named=$((named + 1))
        [ -e "$path.antt" ] || [ -e "$path.rt" ] || [ -d "$path" ] || wrong "${paper##*/} names $path, which is not there"
    done < <(sed 's,rust/[a-z/-]*,,g' "$paper" | grep -oE '\b[a-z_]+/(specs|proofs|src)/[A-Za-z][A-Za-z0-9_]*' | grep -v '^crate/' | sort -u)
done

# BELIEVED has a row for each file, with its lines, and one for each type of the code, with its crate; and the sum of the files' lines in a sentence.
believed=$root/docs/BELIEVED.md
files=$("$root/tests/docs/believed.sh") || wrong "a promise rests on proofs or on inner definitions"
types=$("$root/tests/docs/believed.sh" --types) || true
# differ WHAT FOUND LISTED: the lines of the two that the other has not
differ() {
    local line
    while IFS= read -r line; do
        [ -z "$line" ] || wrong "BELIEVED does not list $1 $line"
    done < <(LC_ALL=C comm -23 <(LC_ALL=C sort <<<"$2") <(LC_ALL=C sort <<<"$3"))
    while IFS= read -r line; do
        [ -z "$line" ] || wrong "BELIEVED lists $1 $line, which is not so"
    done < <(LC_ALL=C comm -13 <(LC_ALL=C sort <<<"$2") <(LC_ALL=C sort <<<"$3"))
    named=$((named + $(wc -l <<<"$2")))
}
differ "the file" "$files" "$(sed -nE 's,^\| ([a-z_]+/specs/[A-Za-z0-9]+) \| ([0-9]+) \|.*,\1.antt \2,p' "$believed")"
differ "the type" "$types" "$(sed -nE 's,^\| `([A-Za-z]+)` \| ([a-z_]+) \|.*,\2 \1,p' "$believed")"
sum=$(awk '{ n += $2 } END { printf "%d files, %d,%03d lines", NR, n / 1000, n % 1000 }' <<<"$files")
grep -qF "$sum" "$believed" || wrong "BELIEVED does not say $sum"
[ "$failed" = 1 ] || echo "docs: all $named names of definitions and files are there"
exit "$failed"
