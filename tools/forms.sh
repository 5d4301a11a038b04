#!/usr/bin/env bash
# How many places of an older form the sources have: tools/forms.sh [COMMIT]. Without a commit those of the working tree.
# A row is a point of docs/DESIGN-PASS.md, what is counted, and its lines; with --list the lines too.
set -euo pipefail
cd "$(dirname "$0")/.."
list=no
if [ "${1:-}" = --list ]; then list=yes && shift; fi
commit=${1:-}

# sources: FILE:LINE:TEXT of every .rt file of the crates
sources() {
    if [ -n "$commit" ]; then
        git ls-tree -r --name-only "$commit" crates | grep '/src/.*\.rt$' | while read -r f; do git show "$commit:$f" | awk -v f="$f" '{ print f ":" FNR ":" $0 }'; done
    else
        find crates -path '*/src/*.rt' -not -path '*/out/*' | LC_ALL=C sort | while read -r f; do awk -v f="$f" '{ print f ":" FNR ":" $0 }' "$f"; done
    fi
}

all=$(mktemp)
trap 'rm -f "$all"' EXIT
sources >"$all"

count() {
    local hits
    hits=$(grep -E "$3" "$all" | grep -vE ':[0-9]+: *//' || true)
    printf '%s\t%s\t%s\n' "$1" "$2" "$(printf '%s' "$hits" | grep -c . || true)"
    if [ $list = yes ]; then printf '%s\n' "$hits" | sed 's/^/    /'; fi
}

count 1 'enums of the crates'"'"' own' ':[0-9]+:(pub )?enum '
count 1 'a flag with a value beside it' '(zeros: bool|goes: bool|answer: u32|said: Said)'
count 1 'a kind by its number' 'kind: u32'
count 1 'a refusal by its number' 'return 12;|answer: 12'
count 2 'numbers of bytes, a function for each width' 'fn (byte|get|put|copy|join)(16|32|64)\('
count 2 'the lesser and the greater of two' 'order::(least|most)\(|fn (least|most|at_most_64|less|less_one)\('
count 2 'reading and writing a file, each walk twice' 'fn (read|fill)_(run|direct|indirect|level|double)\('
count 2 'functions for C, of sfs and of sfs_c' 'extern "C" fn sfs_'
count 3 'loops that count by while' '\bwhile '
count 3 'an index that is counted up' '^[^:]*:[0-9]+: *[a-z] \+= 1;'
count 4 'ids compared by their numbers' '\.0 (==|!=) [a-z]+\.0'
count 4 'a kind taken apart to be compared' 'FileType::(File|SymLink) => (true|false)|fn is_dir\(kind'
count 4 'derives that leave out equality' '#\[derive\(Clone, Copy\)\]'
count 4 'conversion of a status, a kind or a refusal by a match' '=> (Said|Acted|Filed|Opened|Status)::|(Unused|Valid|Dirty) => [0-9]|(File|Dir|SymLink) => [0-9]'
count 5 'image and block count, passed beside one another' 'image(: &(mut )?\[u8\])?, nb(: u(32|size))?[,)]'
count 6 'zeroing and copying by a loop' 'fn (zero|copy_bytes|copy_steps|set_all)\('
count 7 'a flag that says which step to run' '\bzeros\b'
