#!/usr/bin/env bash
# make release where the promises are not proved: an error, and nothing is handed out, not even what was there before. `rt` is a stand-in that proves nothing,
# so this takes no time; a release that is there is kept aside meanwhile.
set -euo pipefail
here=$(cd "$(dirname "${BASH_SOURCE[0]}")" && pwd)
root=$(cd "$here/../.." && pwd)
release=$root/target/release
work=$(mktemp -d)
mkdir -p "$root/target"
aside=$(mktemp -d "$root/target/release.XXXXXX")

# shellcheck disable=SC2317
restore() {
    rm -rf "$work" "$release" "$root/target/release.log"
    for name in release release.log; do
        [ ! -e "$aside/$name" ] || mv "$aside/$name" "$root/target/$name"
    done
    rm -rf "$aside"
}
trap restore EXIT
for name in release release.log; do
    [ ! -e "$root/target/$name" ] || mv "$root/target/$name" "$aside/"
done

fail() {
    echo "FAILED: $*" >&2
    exit 1
}

printf '#!/bin/sh\necho "rt: $*: error: not proved"\nexit 1\n' >"$work/rt"
chmod +x "$work/rt"
mkdir "$release"
touch "$release/libsfs.a"
got=0
PATH=$work:$PATH "$here/release.sh" >"$work/out" 2>&1 || got=$?
[ "$got" = 1 ] || fail "make release: status $got, not 1: $(cat "$work/out")"
grep -qF 'rt: check: error: not proved' "$work/out" || fail "make release did not say what rt said: $(cat "$work/out")"
grep -qF 'the promises are not proved; nothing is handed out' "$work/out" || fail "make release did not say why: $(cat "$work/out")"
[ ! -e "$release" ] || fail "the promises were not proved, and there is $release"
echo "where the promises are not proved nothing is handed out"
