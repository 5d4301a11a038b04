#!/usr/bin/env bash
# Read, write and resize of the library beside the unchanged Rust.
#
#   run.sh               for x86-64, by the tools of tests/tools.sh, with the archive that `make` leaves
#   run.sh --stand-in    with the plain Rust of tests/standin in the archive's place, to try the tests themselves
#   run.sh --host        with the stand-in, by the rustc of PATH, for this machine
#   run.sh --long        every pair of lengths at the edges on both kinds of card, and an hour of random days
#
# SFS_LIB    another archive                   FILES_SEED     another seed than 1
#                                              FILES_SECONDS  time for the random days    FILES_DAYS  how many, at most
set -euo pipefail

here=$(cd "$(dirname "${BASH_SOURCE[0]}")" && pwd)
root=$(cd "$here/../.." && pwd)
# shellcheck source=../tools.sh
. "$here/../tools.sh"

read_options "--stand-in --host --long" "$@"
build_beside files

seconds=40
words=()
if asked --long; then
    seconds=3600
    words=(--long)
fi
step files "${run[@]}" "$out/files_test" --seed "${FILES_SEED:-1}" --seconds "${FILES_SECONDS:-$seconds}" \
    --days "${FILES_DAYS:-1000000}" "${words[@]}"
exit "$failed"
