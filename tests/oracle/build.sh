#!/usr/bin/env bash
# Builds the judge: build.sh OUTDIR [debug|release]
#
# Four files of occlum/sefs (tests/sources.sh finds them) are laid under OUTDIR/src beside the shims, unchanged, and everything
# is built by plain compiler calls. RUSTC may hold another compiler with its flags, as tests/tools.sh sets it. Leaves
# OUTDIR/PROFILE/sfs_oracle and the libraries *.rlib.
set -euo pipefail

here=$(cd "$(dirname "${BASH_SOURCE[0]}")" && pwd)
root=$(cd "$here/../.." && pwd)
# shellcheck source=../sources.sh
. "$here/../sources.sh"
if [ $# -lt 1 ] || [ $# -gt 2 ]; then
    echo "usage: build.sh OUTDIR [debug|release]" >&2
    exit 2
fi
out=$1
profile=${2:-release}
read -r -a rustc <<<"${RUSTC:-rustc}"

case $profile in
# Level 1 keeps every check of a debug build and saves most of its time.
debug) flags=(-C opt-level=1 -C debug-assertions=on -C overflow-checks=on) ;;
release) flags=(-C opt-level=3 -C debug-assertions=off -C overflow-checks=off) ;;
*)
    echo "build.sh: the profile is debug or release, not $profile" >&2
    exit 2
    ;;
esac

if ! find_sources; then
    say_sources >&2
    exit 1
fi
sources=$SFS_SOURCES
(cd "$sources" && sha256sum --quiet --check "$here/sources.sha256") || {
    echo "build.sh: the sources are not those the answers were recorded from" >&2
    exit 1
}

src=$out/src
lib=$out/$profile

# One build at a time: tests that run beside each other share it.
mkdir -p "$out"
exec 9>"$out/lock"
flock 9

# Nothing to do where compiler, flags and every file are those of the last build.
state=$(
    "${rustc[@]}" --version
    echo "${rustc[@]}" "${flags[@]}"
    cd "$here" && find build.sh sources.sha256 shims src -type f -print0 | LC_ALL=C sort -z | xargs -0 sha256sum
)
if [ -f "$lib/built" ] && [ "$(cat "$lib/built")" = "$state" ]; then
    exit 0
fi
rm -rf "$lib"
mkdir -p "$src/rcore_fs/dev" "$src/sfs" "$lib"
cp "$here/shims/rcore_fs/"*.rs "$sources/rcore-fs/src/util.rs" "$src/rcore_fs/"
cp "$here/shims/rcore_fs/dev/mod.rs" "$sources/rcore-fs/src/dev/block_cache.rs" "$src/rcore_fs/dev/"
cp "$sources/rcore-fs-sfs/src/"{lib,structs}.rs "$here/shims/sfs/tests.rs" "$src/sfs/"

# compile NAME FILE FLAG..: one crate of edition 2018 into $lib
compile() {
    local name=$1 file=$2
    shift 2
    "${rustc[@]}" --edition 2018 --crate-name "$name" "${flags[@]}" -L "$lib" --out-dir "$lib" "$@" "$file"
}

own=(--crate-type rlib)
compile bitvec "$here/shims/bitvec.rs" "${own[@]}"
compile log "$here/shims/log.rs" "${own[@]}"
compile spin "$here/shims/spin.rs" "${own[@]}"
compile static_assertions "$here/shims/static_assertions.rs" "${own[@]}"

# Crates that hold given sources: their warnings are not ours to mend. `test` opens the module of tests
# that the file system declares; see shims/sfs/tests.rs.
given=(--crate-type rlib --cap-lints allow)
compile rcore_fs "$src/rcore_fs/lib.rs" "${given[@]}" --extern spin
compile by_number "$here/shims/by_number.rs" "${own[@]}" --extern rcore_fs
compile rcore_fs_sfs "$src/sfs/lib.rs" "${given[@]}" --cfg test --extern bitvec --extern log --extern spin \
    --extern static_assertions --extern rcore_fs --extern by_number

compile oracle "$here/src/lib.rs" "${own[@]}" --extern rcore_fs --extern rcore_fs_sfs --extern by_number
compile sfs_oracle "$here/src/main.rs" --extern oracle
echo "$state" >"$lib/built"
