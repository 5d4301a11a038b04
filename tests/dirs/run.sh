#!/usr/bin/env bash
# The directory calls and format of the library beside the unchanged Rust.
#
#   run.sh               for x86-64, by the tools of tests/tools.sh, with the archive that `make` leaves
#   run.sh --stand-in    with the plain Rust of tests/standin in the archive's place, to try the tests themselves
#   run.sh --host        with the stand-in, by the rustc of PATH, for this machine
#   run.sh --long        directories of up to 2,061 blocks at the edges, and an hour of random days
#
# SFS_LIB    another archive                   DIRS_SEED     another seed than 1
#                                              DIRS_SECONDS  time for the random days    DIRS_DAYS  how many, at most
set -euo pipefail

here=$(cd "$(dirname "${BASH_SOURCE[0]}")" && pwd)
root=$(cd "$here/../.." && pwd)
# shellcheck source=../tools.sh
. "$here/../tools.sh"

read_options "--stand-in --host --long" "$@"
build_beside dirs

seconds=35
words=()
if asked --long; then
    seconds=3600
    words=(--long)
fi
step dirs "${run[@]}" "$out/dirs_test" --seed "${DIRS_SEED:-1}" --seconds "${DIRS_SECONDS:-$seconds}" \
    --days "${DIRS_DAYS:-1000000}" "${words[@]}"
exit "$failed"
