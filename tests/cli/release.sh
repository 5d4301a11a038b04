#!/usr/bin/env bash
# make release: hands out the archive, the header and the command in target/release, once the promises of crates/promises are proved of the library that
# they are made of; where they are not, it hands out nothing.
set -euo pipefail
# shellcheck source=build.sh disable=SC2154
. "$(dirname "${BASH_SOURCE[0]}")/build.sh"

release=$root/target/release
rm -rf "$release"
mkdir -p "$root/target"
echo "The promises are proved first, with every crate that they are about."
if ! (cd "$root/crates/promises" && rt check) >"$root/target/release.log" 2>&1; then
    grep -E '^rt: |error' "$root/target/release.log" | tail -n 20
    echo "release: the promises are not proved; nothing is handed out" >&2
    exit 1
fi
# shellcheck disable=SC2119
build_for
mkdir -p "$release"
cp "$archive" "$root/include/sfs.h" "$root/LICENSE" "$root/NOTICE" "$root/CHANGELOG.md" "$release/"
if [ "$how" = cargo ]; then cp "$sfs" "$release/sfs"; else cp "$out/sfs.x86_64" "$release/sfs"; fi
{
    echo "Proved before this was handed out, by rt $(cd "$root" && rt version | head -n 1):"
    # A theorem of promises/proofs has the name of its statement as its type.
    sed -nE 's/^pub [a-z_-]+ : ([A-Z][A-Za-z0-9]*)$/  \1/p' "$root"/crates/promises/proofs/*.antt
    echo "The statements are in crates/promises/specs, what they rest on is listed in docs/BELIEVED.md."
    (cd "$release" && sha256sum libsfs.a sfs.h sfs)
} >"$release/PROVED"
echo "In $release: libsfs.a, sfs.h, sfs, and in PROVED what was proved."
