#!/usr/bin/env bash
# Does this test notice a fault? Each line below is one in tests/standin, as tests/faults.sh says, after the name of its
# file. calls_test must find every one; where it does not, that is printed.
# By the rustc of PATH, for this machine; some four minutes. CALLS_SECONDS: time for one fault. An argument: only the faults
# that hold this text.
set -euo pipefail
here=$(cd "$(dirname "${BASH_SOURCE[0]}")" && pwd)
root=$(cd "$here/../.." && pwd)
# shellcheck source=../tools.sh
. "$here/../tools.sh"
# shellcheck source=../faults.sh
. "$here/../faults.sh"
begin_faults calls

build() {
    compile calls_test "$here/main.rs" --extern kit -L "$oracle/release" --extern oracle -o "$out/calls_test"
}

test=("$out/calls_test" --seconds "${CALLS_SECONDS:-10}")
each_fault "${1:-}" "${test[@]}" <<'END'
check: if image.len() < BLOCK { ==> if image.len() < BLOCK && (image.len() < 4 || word(image, 0) == MAGIC) {
check: if word(image, 0) != MAGIC { ==> if word(image, 0) != MAGIC && word(image, 44) == 1 {
check: !(16..=32_768).contains(&blocks) ==> !(15..=32_768).contains(&blocks)
check: !(16..=32_768).contains(&blocks) ==> !(16..=32_769).contains(&blocks)
check: let blocks = word(image, 4); ==> let blocks = word(image, 4) & 0xffff;
check: || word(image, 44) != 1 ==> || word(image, 44) as u8 != 1
check: image.len() < blocks as usize * BLOCK { ==> image.len() / BLOCK + 1 < blocks as usize {
check: let blocks = word(image, 4); ==> let blocks = word(image, 4);\n if scratch.is_empty() {\n return Err(SCRATCH_SHORT);\n }
check: if scratch.len() < words { ==> if scratch.len() < words {\n scratch.fill(0);
check: scratch[..words].fill(0); ==> scratch.fill(0);
check: scratch[..words].fill(0);\n ==>  ;; Ok(()) => Ok(walk.named), ==> Ok(()) => {\n scratch[..words].fill(0);\n Ok(walk.named)\n }
check: let named = whole(image, scratch)?; ==> if inodes.contains(&u32::MAX) {\n return Err(NO_INODE);\n }\n let named = whole(image, scratch)?;
check: named.get(i as usize).map_or(false, |&entries| entries > 0) ==> named.get(i as usize % (1 << 24)).map_or(false, |&entries| entries > 0)
check: named.get(i as usize).map_or(false, |&entries| entries > 0) ==> (3..named.len()).contains(&(i as usize))
lib: &[dir, target] ==> &[dir]
lib: &[dir, inode] ==> &[inode]
lib: *value = answer.unwrap_or(0); ==> if let Ok(number) = answer {\n *value = number;\n }
lib: [*kind, *size, *blocks, *links] = values; ==> if opened != Err(NO_INODE) {\n [*kind, *size, *blocks, *links] = values;\n } ;; use bytes::ENTRY; ==> use bytes::*;
lib: lent_mut(entry, ENTRY).copy_from_slice(&answer.unwrap_or([0; ENTRY])); ==> if let Ok(bytes) = answer {\n lent_mut(entry, ENTRY).copy_from_slice(&bytes);\n }
lib: *blocks = answer.blocks; ==> *blocks = if answer.status == 3 && image_len > 48 { 16 } else { answer.blocks };
lib: opened.and_then(|()| files::read(image, ==> opened.map_err(|status| {\n lent_mut(buf, buf_len).fill(0);\n status\n }).and_then(|()| files::read(image,
lib: status(opened.and_then(|()| files::resize(image, inode, len))) ==> if opened == Err(3) && image_len > 70_000 {\n image[70_000] ^= 1;\n }\n status(opened.and_then(|()| files::resize(image, inode, len)))
lib: let answer = opened.and_then(|()| dirs::entry(image, dir, index)); ==> let opened = if dir == 1 && index < 2 && image_len >= 65_536 { opened.or_else(|no| if no == 3 { Ok(()) } else { Err(no) }) } else { opened };\n let answer = opened.and_then(|()| dirs::entry(image, dir, index));
lib: opened.and_then(|()| dirs::find(image, ==> opened.or_else(|no| if no == 3 && name_len == 0 { Err(10) } else { Err(no) }).and_then(|()| dirs::find(image,
lib: status(opened.and_then(|()| dirs::unlink(image, dir, lent(name, name_len)))) ==> status(opened.and_then(|()| dirs::unlink(image, dir, lent(name, name_len.min(255)))))
lib: if entry_len == ENTRY => ==> if entry_len >= ENTRY =>
files: size.min(offset.saturating_add(buf.len() as u64)) ==> size.min(offset.wrapping_add(buf.len() as u64))
files: size.min(offset) as usize ==> size.min(offset & 0xffff_ffff) as usize
files: offset.checked_add(data.len() as u64).ok_or(INVALID_PARAM)? ==> offset.wrapping_add(data.len() as u64)
files: if len > u64::from(u32::MAX) { ==> if len > u64::from(u32::MAX) + 1 {
dirs: if index >= (word(image, dir) as usize / ENTRY) as u64 { ==> if index as u32 >= (word(image, dir) as usize / ENTRY) as u32 {
dirs: (1..=255).contains(&name.len()) && !name.contains(&0) ==> (1..=255).contains(&name.len())
dirs: (1..=255).contains(&name.len()) && !name.contains(&0) ==> (1..=256).contains(&name.len()) && !name.contains(&0)
dirs: let kind = match kind { ==> let kind = match kind & 0xffff {
dirs: new_name(image, parent, name)?;\n    let kind ==> if kind > 3 {\n return Err(INVALID_PARAM);\n }\n new_name(image, parent, name)?;\n    let kind
card: let blocks = space / BLOCK as u64 + u64::from(space % BLOCK as u64 > 0); ==> let blocks = u64::from((space / BLOCK as u64 + u64::from(space % BLOCK as u64 > 0)) as u32);
card: || image.len() < blocks as usize * BLOCK { ==> || image.len() + 1 < blocks as usize * BLOCK {
card:         return Err(INVALID_PARAM);\n ==>         if image.len() >= 48 && blocks > 15 {\n put(image, 44, 1);\n }\n return Err(INVALID_PARAM);\n
END
