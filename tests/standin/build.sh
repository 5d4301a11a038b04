#!/usr/bin/env bash
# The stand-in as an archive: plain Rust behind the library's names, for Rust programs built by the same compiler.
#   build.sh ARCHIVE    RUSTC: the compiler with its flags, words parted by spaces (default: rustc)
# It holds one object that takes Rust's own library from the program it is linked into.
set -euo pipefail
here=$(cd "$(dirname "${BASH_SOURCE[0]}")" && pwd)
archive=$1
read -r -a rustc <<<"${RUSTC:-rustc}"
mkdir -p "$(dirname "$archive")"
object=$archive.o
"${rustc[@]}" --edition 2021 --crate-name standin --crate-type lib -C opt-level=3 --emit obj -o "$object" "$here/lib.rs"
rm -f "$archive"
ar rcs "$archive" "$object"
rm -f "$object"
