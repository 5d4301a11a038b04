#!/usr/bin/env bash
# The tests of the crate and of the command sfs.
#
#   run.sh               for x86-64, with the archive that `make` leaves (SFS_LIB: another one)
#   run.sh --stand-in    with plain Rust in the archive's place, to try the tests themselves
#   run.sh --host        with the stand-in, by the cargo of PATH, for this machine
# shellcheck disable=SC2317
set -euo pipefail
# shellcheck source=build.sh disable=SC2154
. "$(dirname "${BASH_SOURCE[0]}")/build.sh"
build_for "$@"

failed=0
# step NAME COMMAND..: one line, or everything where it fails
step() {
    local name=$1 log=$out/$1.log
    shift
    if "$@" >"$log" 2>&1; then
        echo "cli: $name: $(tail -n 1 "$log")"
    else
        cat "$log"
        echo "cli: FAILED: $name"
        failed=1
    fi
}

crate() {
    "$here/crate.sh" "$@" || return 1
    echo "tests and examples passed"
}

# The C compilers for the machine that is built for.
cross=
[ "$(uname -m)" = x86_64 ] || [ "${1:-}" = --host ] || cross=x86_64-linux-gnu-
[ -n "${run+set}" ] || run=()

# c_program NAME ARCHIVE COMPILER..: a program of this folder, built and run; ARCHIVE may be empty
c_program() {
    local name=$1 linked=(${2:+-x none "$2"})
    shift 2
    "$@" -static -Wall -Wextra -Werror -I "$root/include" -o "$out/$name" "$here/$name.c" "${linked[@]}" &&
        "${run[@]}" "$out/$name"
}

# each_language COMMAND..: with the words for C after it, and with those for C++ where there is a compiler
each_language() {
    "$@" "${cross}gcc" -std=c99 -pedantic || return 1
    if command -v "${cross}g++" >/dev/null; then
        "$@" "${cross}g++" -std=c++11 -pedantic -x c++
    else
        echo "C++ is left out: there is no ${cross}g++"
    fi
}

# The stand-in has no Rust library of its own, so no C program can take it.
from_c() {
    each_language c_program null "$archive" && each_language c_program use "$archive"
}

refusals_of_crate() {
    if [ "$how" = cargo ]; then
        cargo run --quiet --release --offline --manifest-path "$root/rust/Cargo.toml" -p sfs --example refusals
    else
        compile refusals sfs/examples/refusals.rs --extern "sfs=$out/libsfs.rlib" -o "$out/refusals" && "${run[@]}" "$out/refusals"
    fi
}

# What the header must say: the crate's version, and its numbers, names and sentences.
header_expected() {
    local version
    version=$(sed -n 's/^version = "\(.*\)"/\1/p' "$root/rust/sfs/Cargo.toml")
    [ "$("$sfs" --version)" = "sfs $version" ] || return 1
    echo "$version $version"
    echo "0 SFS_DONE done"
    refusals_of_crate | awk '{ gsub(/[A-Z]/, "_&", $2); $2 = "SFS" toupper($2); print }'
    echo "this is no answer that this header knows"
}

header_is() {
    c_program header "" "$@" | diff "$out/header.expected" -
}

header() {
    header_expected >"$out/header.expected" && each_language header_is || return 1
    echo "version, $(grep -c ' SFS_' "$out/header.expected") answers and their texts are the crate's"
}

step crate crate "$@"
step header header
step day "$here/day.sh" "$sfs"
step refusals "$here/refusals.sh" "$sfs"
step texts "$here/texts.sh" "$sfs"
step get "$here/get.sh" "$sfs"
step copy "$here/copy.sh" "$sfs"
step large "$here/large.sh" "$sfs"
step release "$here/release_refused.sh"
[ -n "${1:-}" ] || step c from_c
exit $failed
