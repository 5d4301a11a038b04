# shellcheck shell=bash disable=SC2034,SC2154,SC2119,SC2120
# Sourced by the scripts that build programs for x86-64 outside of the proved code.
#
# need_outside_tools finds, and where it can installs, what that takes, and sets
#   RUSTC  the compiler with its flags, words parted by spaces
#   RUN    what runs a program it built: nothing on x86-64, the emulator with its flags elsewhere
# Elsewhere the programs are static: the emulator has no libraries of x86-64 to load.
#
# make_archive proves the library and makes its archive, where that is not done already.
#
# What the scripts share besides: read_options, use_tools, compile, take_archive, build_beside, step; and tests/sources.sh. They
# use `root` and `out`.

# shellcheck source=sources.sh
. "$(dirname "${BASH_SOURCE[0]}")/sources.sh"

outside_tools_missing() {
    local file missing=()
    for file in /usr/bin/rustc /usr/bin/x86_64-linux-gnu-gcc /usr/bin/qemu-x86_64 \
        /usr/lib/x86_64-linux-gnu/libc.a; do
        [ -e "$file" ] || missing+=("$file")
    done
    compgen -G '/usr/lib/rustlib/x86_64-unknown-linux-gnu/lib/libstd-*.rlib' >/dev/null ||
        missing+=("the standard library for x86_64-unknown-linux-gnu")
    echo "${missing[*]}"
}

# tools_wanted [cargo]: the packages of Debian that are to be installed before programs for x86-64 can be built here, on x86-64 by cargo
# where that is said; none where all is there
tools_wanted() {
    local wanted=()
    if [ "$(uname -m)" = x86_64 ]; then
        command -v rustc >/dev/null || wanted+=(rustc)
        command -v cc >/dev/null || wanted+=(gcc libc6-dev)
        [ "${1:-}" != cargo ] || command -v cargo >/dev/null || wanted+=(cargo)
    elif [ -n "$(outside_tools_missing)" ]; then
        wanted=(rustc libstd-rust-dev:amd64 libc6-dev:amd64 gcc-x86-64-linux-gnu qemu-user)
    fi
    echo "${wanted[*]}"
}

# install_outside_tools PACKAGE..
install_outside_tools() {
    local apt=(apt-get -qq -o DPkg::Lock::Timeout=300)
    command -v apt-get >/dev/null && [ "$(id -u)" = 0 ] || return 1
    echo "Installing from Debian, by apt-get: $*" >&2
    if [ "$(uname -m)" != x86_64 ]; then
        dpkg --add-architecture amd64 || return 1
    fi
    "${apt[@]}" update >/dev/null &&
        DEBIAN_FRONTEND=noninteractive "${apt[@]}" install -y --no-install-recommends "$@" >/dev/null
}

need_outside_tools() {
    local wanted
    wanted=$(tools_wanted "$@")
    if [ -n "$wanted" ]; then
        # shellcheck disable=SC2086
        install_outside_tools $wanted || true
        wanted=$(tools_wanted "$@")
        if [ -n "$wanted" ]; then
            echo "tools.sh: programs for x86-64 cannot be built here; apt-get could not install: $wanted" >&2
            return 1
        fi
    fi
    RUN=
    if [ "$(uname -m)" = x86_64 ]; then
        RUSTC="rustc -C relocation-model=static"
        return 0
    fi
    # Debian's compiler by its full name: another one may come first in PATH and has no library for x86-64.
    RUSTC="/usr/bin/rustc --target x86_64-unknown-linux-gnu -C target-feature=+crt-static"
    RUSTC="$RUSTC -C relocation-model=static -C linker=x86_64-linux-gnu-gcc"
    # Without "erms" the C library copies by vectors: under the emulator some 15 times as fast as by "rep movsb".
    RUN="qemu-x86_64 -cpu max,-erms"
}

# What the archive hangs on, and the archive: the crates that sfs_c reaches (a crate is listed after those that it uses), and the kit.
archive_state() {
    local reached
    reached=$(tac "$root/crates.txt" | sed 's/ staticlib:/:/' | awk -F: 'BEGIN { wanted["sfs_c"] = 1 }
        $1 in wanted { print $1; n = split($2, uses, " "); for (i = 1; i <= n; i++) wanted[uses[i]] = 1 }')
    (
        cd "$root" && rt version
        for crate in $reached; do find "crates/$crate/"{src,specs,proofs} -type f 2>/dev/null; done | LC_ALL=C sort | xargs sha256sum
        sha256sum crates.txt target/staticlib/libsfs.a
    ) 2>/dev/null
}

# archive_made: whether the archive is there, made of what is there
archive_made() {
    local state=$root/target/staticlib/state
    [ -f "$state" ] && [ "$(cat "$state")" = "$(archive_state)" ]
}

# What proving the library and making its archive takes from nothing.
archive_takes="many minutes from nothing, and less where most of it is proved already"

# make_archive: target/staticlib/libsfs.a, of what was proved. Names each crate once rt has checked it; all that rt says is in
# target/staticlib/log. Where nothing has changed since it was made, nothing is said and done.
make_archive() {
    local made=$root/target/staticlib
    if archive_made; then return 0; fi
    mkdir -p "$made"
    rm -f "$made/state"
    echo "Proving the library's crates; each is named when it is done."
    # rt has checked a crate, and says so in a line, before it says whether it is proved.
    (cd "$root/crates/sfs_c" && rt lib) 2>&1 | tee "$made/log" |
        awk '/^crate [a-z_]+:/ { sub(":", "", $2); name = $2 } /^logic=/ { split($1, said, "="); print name " " said[2]; fflush() }'
    if [ "${PIPESTATUS[0]}" -ne 0 ]; then
        tail -n 20 "$made/log"
        return 1
    fi
    cp "$root/crates/sfs_c/out/libsfs_c.a" "$made/libsfs.a"
    archive_state >"$made/state"
}

# read_options "--WORD .." "$@": the options, which must be among the words. `asked --WORD` tells of one; `place` is
# host after --host, else x86_64.
read_options() {
    local words=$1 word
    shift
    given=" "
    for word in "$@"; do
        if [[ " $words " != *" $word "* ]]; then
            echo "usage: ${0##*/} [${words// /] [}]" >&2
            exit 2
        fi
        given+="$word "
    done
    place=x86_64
    if asked --host; then place=host; fi
}

asked() {
    [[ $given == *" $1 "* ]]
}

# The tools for `place`, also as the arrays rustc and run.
use_tools() {
    if [ "$place" = host ]; then
        RUSTC=${RUSTC:-rustc}
        RUN=
    else
        need_outside_tools || return 1
    fi
    export RUSTC
    read -r -a rustc <<<"$RUSTC"
    read -r -a run <<<"$RUN"
}

# Further flags of compile. With these, sums that overflow are faults of the tests themselves.
flags=(-C overflow-checks=on)

# compile NAME FILE FLAG..: a program, a library or an object, with the libraries of $out/lib at hand
compile() {
    local name=$1 file=$2
    shift 2
    "${rustc[@]}" --edition 2021 --crate-name "$name" -C opt-level=3 "${flags[@]}" -L "$out/lib" "$@" "$file"
}

# make_standin FILE: its object as $out/lib/libsfs.a
make_standin() {
    compile standin "$1" --crate-type lib --emit obj -o "$out/lib/standin.o"
    rm -f "$out/lib/libsfs.a"
    ar rcs "$out/lib/libsfs.a" "$out/lib/standin.o"
}

# take_archive STANDIN: $out/lib/libsfs.a is the archive to test, or with --stand-in and --host the stand-in
take_archive() {
    local archive=${SFS_LIB:-$root/target/staticlib/libsfs.a}
    if asked --stand-in || asked --host; then
        make_standin "$1"
        return
    fi
    if [ ! -f "$archive" ]; then
        echo "${here##*/}: there is no archive $archive; \`make\` makes it" >&2
        return 1
    fi
    cp "$archive" "$out/lib/libsfs.a"
}

# build_beside NAME: the tests of that name with the archive to test and the unchanged Rust, as $out/NAME_test
build_beside() {
    use_tools
    out=$root/target/$1/$place
    mkdir -p "$out/lib"
    take_archive "$root/tests/standin/lib.rs"
    compile kit "$root/tests/check/kit.rs" --crate-type rlib --out-dir "$out/lib"
    "$root/tests/oracle/build.sh" "$root/target/oracle/$place" release
    compile "$1_test" "$root/tests/$1/main.rs" --extern kit -L "$root/target/oracle/$place/release" --extern oracle \
        -o "$out/$1_test"
}

failed=0
# step NAME COMMAND..: its last line, or everything where it fails; then `failed` is 1
step() {
    local log=$out/$1.log
    shift
    if "$@" >"$log" 2>&1; then
        tail -n 1 "$log"
    else
        cat "$log"
        echo "${here##*/}: FAILED: $*"
        failed=1
    fi
}
