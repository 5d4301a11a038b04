#!/usr/bin/env bash
# The library's check beside RULES, "When a card is whole": made and damaged cards, hostile ones, and the examples.
#
#   run.sh               for x86-64, by the tools of tests/tools.sh, with the archive that `make` leaves
#   run.sh --stand-in    with the plain Rust of tests/standin in the archive's place, to try the tests themselves
#   run.sh --host        with the stand-in, by the rustc of PATH, for this machine
#
# SFS_LIB    another archive                            CHECK_SEED     another seed than 1
# SFS_CHECK  the program sfs_check, words parted by     CHECK_SECONDS  time for the changed cards, at most
#            spaces; the examples are put to it too     CHECK_CASES    how many of them
set -euo pipefail

here=$(cd "$(dirname "${BASH_SOURCE[0]}")" && pwd)
root=$(cd "$here/../.." && pwd)
# shellcheck source=../tools.sh
. "$here/../tools.sh"

read_options "--stand-in --host" "$@"
use_tools
out=$root/target/check/$place
mkdir -p "$out/lib" "$out/examples"
take_archive "$here/../standin/lib.rs"

compile kit "$here/kit.rs" --crate-type rlib --out-dir "$out/lib"
compile check_fuzz "$here/main.rs" --extern kit -o "$out/check_fuzz"
compile check_stdin "$here/stdin.rs" -o "$out/check_stdin"
compile check_examples "$here/examples.rs" --extern kit -o "$out/check_examples"
if find_sources; then
    "$here/../oracle/build.sh" "$root/target/oracle/$place" release
    compile check_oracle "$here/oracle.rs" --extern kit -L "$root/target/oracle/$place/release" --extern oracle \
        -o "$out/check_oracle"
    step oracle "${run[@]}" "$out/check_oracle" 60
else
    echo "check: made cards are not put to the Rust: its sources are not at hand"
fi
step fuzz "${run[@]}" "$out/check_fuzz" --seed "${CHECK_SEED:-1}" --cases "${CHECK_CASES:-30000}" \
    --seconds "${CHECK_SECONDS:-75}" --save "$out"
step linear "${run[@]}" "$out/check_fuzz" --time-linear
# None that an older list left behind.
rm -f "$out/examples/"*
step examples "${run[@]}" "$out/check_examples" "$here/examples.txt" "$out/examples"
export CHECK_EXAMPLES=$out/examples
step examples-library "$here/examples.sh" "${run[@]}" "$out/check_stdin"
if [ -n "${SFS_CHECK:-}" ]; then
    read -r -a program <<<"$SFS_CHECK"
    step examples-program "$here/examples.sh" "${program[@]}"
fi
exit $failed
