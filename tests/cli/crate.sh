#!/usr/bin/env bash
# The tests of the crate, its examples too, and those inside the command.
#   crate.sh [--stand-in | --host]
set -euo pipefail
# shellcheck source=build.sh disable=SC2154
. "$(dirname "${BASH_SOURCE[0]}")/build.sh"
build_for "$@"

if [ "$how" = cargo ]; then
    cargo test --quiet --release --offline --manifest-path "$root/rust/Cargo.toml"
    exit
fi

# What `cargo test` does, for a machine that is not this one.
test_of() {
    local name=$1
    compile "$@" --test -o "$out/test_$name"
    "${run[@]}" "$out/test_$name" --quiet
}
for file in "$root"/rust/sfs/tests/*.rs; do
    name=$(basename "$file" .rs)
    test_of "$name" "sfs/tests/$name.rs" --extern "sfs=$out/libsfs.rlib"
done
test_of cli sfs-cli/src/main.rs --extern "sfs=$out/libsfs.rlib"

# rustdoc of 1.63 runs examples by another program only where unstable options are allowed.
words=()
for word in "${run[@]:1}"; do words+=(--runtool-arg "$word"); done
RUSTC_BOOTSTRAP=1 "${rustc[0]%rustc}rustdoc" --test --edition 2021 --crate-name sfs "${rustc[@]:1}" -L "$out" \
    --extern "sfs=$out/libsfs.rlib" -Z unstable-options --runtool "${run[0]}" "${words[@]}" "$root/rust/sfs/src/lib.rs"
