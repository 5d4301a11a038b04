# shellcheck shell=bash disable=SC2034
# Sourced by the scripts here: builds the crate and the command sfs, for x86-64 with the proved archive.
#
#   announce          says what will be done, how long it takes and what will be installed
#   build_for "$@"    takes --stand-in (plain Rust in the archive's place) or --host (that, for this machine)
#
# On x86-64 and with --host it is cargo that builds. Elsewhere cargo has no compiler for x86-64 that it can drive, so
# Debian's rustc is called for each crate, and the command runs under the emulator.
#
# It sets  out      where everything is built
#          archive  the archive that is linked
#          sfs      the command, as a path that runs here
#          how      cargo or rustc; with rustc the arrays rustc and run too

here=$(cd "$(dirname "${BASH_SOURCE[0]}")" && pwd)
root=$(cd "$here/../.." && pwd)
# shellcheck source=../tools.sh
. "$here/../tools.sh"

announce() {
    local wanted
    wanted=$(tools_wanted cargo)
    echo "The command sfs is built, with the archive of the proved library."
    if ! archive_made; then
        echo "The library is proved first: $archive_takes. The next time nothing of it is done again."
    fi
    if [ -n "$wanted" ]; then
        echo "These packages of Debian are missing, and are installed first where apt-get may: $wanted"
    fi
}

build_for() {
    local place=x86_64 stand_in=
    case ${1:-} in
    "") ;;
    --stand-in) stand_in=yes ;;
    --host) place=host stand_in=yes ;;
    *)
        echo "usage: ${0##*/} [--stand-in | --host]" >&2
        exit 2
        ;;
    esac
    find_tools $place || return 1
    out=$root/target/cli/$place${stand_in:+-stand-in}
    mkdir -p "$out"
    take_archive "$stand_in" || return 1
    export SFS_LIB=$archive
    if [ "$how" = cargo ]; then
        build_by_cargo
    else
        build_by_rustc
    fi
}

find_tools() {
    RUN=
    if [ "$1" = host ]; then
        RUSTC=${RUSTC:-rustc}
        how=cargo
        return
    fi
    need_outside_tools cargo || return 1
    how=rustc
    if [ "$(uname -m)" = x86_64 ]; then
        how=cargo
        # By cargo's own flags: the archive may stand anywhere in memory.
        RUSTC=rustc
    fi
    read -r -a rustc <<<"$RUSTC"
    read -r -a run <<<"$RUN"
}

take_archive() {
    if [ -n "$1" ]; then
        archive=$out/lib/libsfs.a
        RUSTC=$RUSTC "$root/tests/standin/build.sh" "$archive"
    elif [ -n "${SFS_LIB:-}" ]; then
        archive=$SFS_LIB
    else
        archive=$root/target/staticlib/libsfs.a
        make_archive || return 1
    fi
}

build_by_cargo() {
    export CARGO_TARGET_DIR=$out/cargo
    cargo build --quiet --release --offline --manifest-path "$root/rust/Cargo.toml" || return 1
    sfs=$out/cargo/release/sfs
}

# compile NAME FILE FLAG..
compile() {
    local name=$1 file=$2
    shift 2
    "${rustc[@]}" --edition 2021 --crate-name "$name" -C opt-level=3 -L "$out" "$@" "$root/rust/$file"
}

build_by_rustc() {
    local version
    version=$(sed -n 's/^version = "\(.*\)"/\1/p' "$root/rust/sfs-cli/Cargo.toml")
    export CARGO_PKG_VERSION=$version
    compile sfs sfs/src/lib.rs --crate-type rlib -L "native=$(dirname "$archive")" -l static=sfs --out-dir "$out" &&
        compile sfs sfs-cli/src/main.rs -C metadata=cli --extern "sfs=$out/libsfs.rlib" -o "$out/sfs.x86_64" || return 1
    sfs=$out/sfs
    printf '#!/bin/sh\nexec %s "%s" "$@"\n' "$RUN" "$out/sfs.x86_64" >"$sfs"
    chmod +x "$sfs"
}
