#!/usr/bin/env bash
# Every call of the library on whole and damaged cards and on any bytes, with absurd requests.
#
#   run.sh               for x86-64, by the tools of tests/tools.sh, with the archive that `make` leaves
#   run.sh --stand-in    with the plain Rust of tests/standin in the archive's place, to try the test itself
#   run.sh --host        with the stand-in, by the rustc of PATH, for this machine
#
# SFS_LIB    another archive                   CALLS_SEED     another seed than 1
#                                              CALLS_SECONDS  time for the cards          CALLS_CARDS  how many, at most
set -euo pipefail

here=$(cd "$(dirname "${BASH_SOURCE[0]}")" && pwd)
root=$(cd "$here/../.." && pwd)
# shellcheck source=../tools.sh
. "$here/../tools.sh"

read_options "--stand-in --host" "$@"
build_beside calls

step calls "${run[@]}" "$out/calls_test" --seed "${CALLS_SEED:-1}" --seconds "${CALLS_SECONDS:-40}" \
    --cards "${CALLS_CARDS:-1000000}"
exit "$failed"
