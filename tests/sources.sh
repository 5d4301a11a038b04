# shellcheck shell=bash disable=SC2154
# Sourced by the scripts that need the unchanged Rust, or do without it. They use `root`.

# find_sources: SFS_SOURCES is where the Rust sources are. Where it is not set they may stand beside this repository.
find_sources() {
    local place
    if [ -n "${SFS_SOURCES:-}" ]; then
        [ -f "$SFS_SOURCES/rcore-fs-sfs/src/lib.rs" ]
        return
    fi
    for place in "$root/../sefs" "$root/../shared/docs/src"; do
        if [ -f "$place/rcore-fs-sfs/src/lib.rs" ]; then
            export SFS_SOURCES=$place
            return 0
        fi
    done
    return 1
}

# What to do where they are not.
say_sources() {
    if [ -n "${SFS_SOURCES:-}" ]; then
        echo "The Rust sources are not at $SFS_SOURCES, where SFS_SOURCES has them."
    else
        echo "The Rust sources are not at hand."
    fi
    echo "They are the folders rcore-fs and rcore-fs-sfs of occlum/sefs at commit a6cf692c7e: have a copy of that repository at"
    echo "that commit, and set SFS_SOURCES to its folder, or put it beside this one as ../sefs."
}
