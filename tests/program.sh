#!/usr/bin/env bash
# Runs a proved program that `rt ci`, or `rt run` in its crate, has made; on other machines than x86-64 by the emulator, under the kit's loader and C library.
#   tests/program.sh NAME [WORDS..]
set -euo pipefail
root=$(cd "$(dirname "${BASH_SOURCE[0]}")/.." && pwd)
name=$1
shift
program=$root/crates/$name/out/$name
if [ ! -x "$program" ]; then
    echo "program.sh: there is no $program: \`rt ci\` here, or \`rt run\` in crates/$name, makes it" >&2
    exit 2
fi
[ "$(uname -m)" != x86_64 ] || exec "$program" "$@"
tools=$(dirname "$(dirname "$(readlink -f "$(command -v rt)")")")/toolchain
exec qemu-x86_64 "$tools/lib/ld-linux-x86-64.so.2" --library-path "$tools/lib" "$program" "$@"
