#!/usr/bin/env bash
# The library's block cache beside its rules, beside a plain device, and beside the unchanged block_cache.rs.
#
#   run.sh               for x86-64, by the tools of tests/tools.sh, with the archive that `make` leaves
#   run.sh --stand-in    with the plain Rust of tests/standin in the archive's place, to try the tests themselves
#   run.sh --host        with the stand-in, by the rustc of PATH, for this machine
#
# SFS_LIB    another archive                   CACHE_SEED     another seed than 1
#                                              CACHE_SECONDS  time for the random runs    CACHE_RUNS  how many, at most
set -euo pipefail

here=$(cd "$(dirname "${BASH_SOURCE[0]}")" && pwd)
root=$(cd "$here/../.." && pwd)
# shellcheck source=../tools.sh
. "$here/../tools.sh"

read_options "--stand-in --host" "$@"
use_tools
out=$root/target/cache/$place
mkdir -p "$out/lib"
take_archive "$root/tests/standin/lib.rs"
compile kit "$root/tests/check/kit.rs" --crate-type rlib --out-dir "$out/lib"
compile cache_test "$here/main.rs" --extern kit -o "$out/cache_test"
words=(--seed "${CACHE_SEED:-1}" --runs "${CACHE_RUNS:-1000000}")
step cache "${run[@]}" "$out/cache_test" "${words[@]}" --seconds "${CACHE_SECONDS:-15}"
if find_sources; then
    "$root/tests/oracle/build.sh" "$root/target/oracle/$place" release
    compile cache_beside "$here/beside.rs" --extern kit -L "$root/target/oracle/$place/release" --extern rcore_fs -o "$out/cache_beside"
    step beside "${run[@]}" "$out/cache_beside" "${words[@]}" --seconds "${CACHE_SECONDS:-5}"
else
    echo "cache: not put beside the unchanged block_cache.rs: its sources are not at hand"
fi
exit "$failed"
