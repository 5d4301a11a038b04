#!/usr/bin/env bash
# Do these tests notice a fault? Each line below is one, as tests/faults.sh says. dirs_test must find every one; where it does not,
# that is printed.
# By the rustc of PATH, for this machine; some four minutes. DIRS_SECONDS: time for the days of one fault. DIRS_ONLY: one
# part of the tests alone (edges, cases or days). An argument: only the faults that hold this text.
set -euo pipefail
here=$(cd "$(dirname "${BASH_SOURCE[0]}")" && pwd)
root=$(cd "$here/../.." && pwd)
# shellcheck source=../tools.sh
. "$here/../tools.sh"
# shellcheck source=../faults.sh
. "$here/../faults.sh"
begin_faults dirs

build() {
    compile dirs_test "$here/main.rs" --extern kit -L "$oracle/release" --extern oracle -o "$out/dirs_test"
}

test=("$out/dirs_test" --seconds "${DIRS_SECONDS:-10}")
[ -z "${DIRS_ONLY:-}" ] || test+=(--only "$DIRS_ONLY")
each_fault "${1:-}" "${test[@]}" <<'END'
dirs: files::store(image, record(number), ENTRY, &target.to_le_bytes()); ==> 
dirs: room(image, growth(image, to))?; ==> 
dirs: room(image, growth(image, to))?; ==> room(image, growth(image, to).saturating_sub(usize::from(word(image, from) as usize % BLOCK <= ENTRY)))?;
dirs: room(image, own + growth(image, parent))?; ==> room(image, own)?;
dirs: room(image, growth(image, parent))?; ==> room(image, usize::from(growth(image, parent) > 0))?;
dirs: if is_at_or_below(image, target, number) { ==> if target == number {
dirs: (1..=255).contains(&name.len()) ==> (1..=254).contains(&name.len())
dirs: let (k, number) = search(image, from, old).ok_or(ENTRY_NOT_FOUND)?;\n    if from == to { ==> let (k, number) = search(image, from, old).ok_or(ENTRY_NOT_FOUND)?;\n room(image, growth(image, to))?;\n    if from == to {
dirs:     new_name(image, to, new)?;\n    let (k, number) = search(image, from, old).ok_or(ENTRY_NOT_FOUND)?; ==>     let (k, number) = search(image, from, old).ok_or(ENTRY_NOT_FOUND)?;\n new_name(image, to, new)?;
dirs: if is_dir && word(image, child) as usize > 2 * ENTRY { ==> if is_dir && word(image, child) as usize > 3 * ENTRY {
dirs: put_half(image, child + LINKS_AT, 0); ==> add_links(image, child, -1);
dirs:         add_links(image, from, -1);\n ==> 
dirs:     let last = entry_at(image, dir, size / ENTRY - 1);\n ==>     let last = entry_at(image, dir, k + 1);\n
dirs: put(record, DEVICE_AT, 100); ==> put(record, DEVICE_AT, 0);
dirs: record.fill(0); ==> record[..68].fill(0);\n record[72..].fill(0);
dirs: u16::MAX => Err(TOO_MANY_LINKS), ==> 65534 => Err(TOO_MANY_LINKS),
dirs: if index >= (word(image, dir) as usize / ENTRY) as u64 { ==> if index as u32 >= (word(image, dir) as usize / ENTRY) as u32 {
dirs: append(image, to, number, new);\n    remove(image, from, k); ==> remove(image, from, k);\n    append(image, to, number, new);
dirs: name == b"." || name == b".." ==> name == b"." || name == b".." || name == b"..."
dirs: files::give(image, number); ==> files::give(image, number);\n put(image, file, 0);
lib: entry[4..].iter().position(|&byte| byte == 0).unwrap_or(0) ==> entry[4..].iter().position(|&byte| byte == 0).unwrap_or(0).min(254)
lib: &[dir, target] ==> &[dir]
lib: *value = answer.unwrap_or(0); ==> if let Ok(number) = answer {\n *value = number;\n }
card: image[..48].fill(0); ==> image[..BLOCK].fill(0);
END
