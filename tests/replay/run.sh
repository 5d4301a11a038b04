#!/usr/bin/env bash
# The recording that the program `replay` runs, made again by the unchanged Rust and compared byte for byte; then replay is run on
# recordings with one wrong byte, each of which it must notice.
#
#   run.sh            for x86-64, by the tools of tests/tools.sh; the program is what `rt ci` made
#   run.sh --host     only the comparison, by the rustc of PATH, for this machine
#   run.sh --record   writes crates/replay/stdin and stdout anew (with --host or without)
set -euo pipefail

here=$(cd "$(dirname "${BASH_SOURCE[0]}")" && pwd)
root=$(cd "$here/../.." && pwd)
# shellcheck source=../tools.sh
. "$here/../tools.sh"

read_options "--host --record" "$@"
use_tools
out=$root/target/replay/$place
recording=$root/crates/replay/stdin
line=$root/crates/replay/stdout
mkdir -p "$out/lib"

# The recording by the Rust once more, compared, or with --record written anew.
again() {
    local told
    compile kit "$here/../check/kit.rs" --crate-type rlib --out-dir "$out/lib"
    "$here/../oracle/build.sh" "$root/target/oracle/$place" release
    compile record "$here/record.rs" --extern kit -L "$root/target/oracle/$place/release" --extern oracle -o "$out/record"
    step record "${run[@]}" "$out/record" "$out/recording"
    [ "$failed" = 0 ] || exit 1
    told=$(tail -n 1 "$out/record.log")
    if asked --record; then
        cp "$out/recording" "$recording"
        echo "$told" | sed -E 's/record: ([0-9]+) cards, ([0-9]+) calls.*/cards \1 calls \2 agree \2/' >"$line"
        exit 0
    fi
    if ! cmp "$out/recording" "$recording"; then
        echo "replay: FAILED: the Rust's recording is not that of crates/replay/stdin"
        exit 1
    fi
}

whose="the Rust's"
if find_sources || asked --record; then
    again
else
    whose="as it was committed, not made again without the Rust sources"
fi
if asked --host; then exit 0; fi

# one_wrong BYTE: with that byte of the recording changed, one call fewer agrees
calls=$(awk '{ print $4 }' "$line")
one_wrong() {
    local at=$1 byte said
    cp "$recording" "$out/wrong"
    byte=$(od -An -tu1 -j "$at" -N 1 "$out/wrong")
    printf '%b' "\\x$(printf %02x $((byte ^ 1)))" | dd of="$out/wrong" bs=1 seek="$at" conv=notrunc status=none
    said=$("$here/../program.sh" replay <"$out/wrong")
    if [[ $said != *" agree $((calls - 1))" ]]; then
        echo "replay: FAILED: byte $at is wrong, and it says: $said"
        failed=1
    fi
}
if [ "$("$here/../program.sh" replay <"$recording")" != "$(cat "$line")" ]; then
    echo "replay: FAILED: the library does not answer as recorded"
    exit 1
fi
# The first call stands at byte 64, after the step that begins card 0: its number, and the sum of the card after it.
one_wrong $((64 + 36))
one_wrong $((64 + 56))
[ "$failed" = 1 ] || echo "replay: the recording is $whose; all $calls answers agree; a wrong number and a wrong sum in it are noticed"
exit "$failed"
