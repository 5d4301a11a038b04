#!/usr/bin/env bash
# Do these tests notice a fault? Each line below is one in the file of tests/standin that it names first, as
# tests/faults.sh says. files_test must find every one; where it does not, that is printed.
# By the rustc of PATH, for this machine; some four minutes. FILES_SECONDS: time for the days of one fault. FILES_ONLY:
# one part of the tests alone (edges, bytes, growth, refusals, maps or days). An argument: only the faults that hold this text.
set -euo pipefail
here=$(cd "$(dirname "${BASH_SOURCE[0]}")" && pwd)
root=$(cd "$here/../.." && pwd)
# shellcheck source=../tools.sh
. "$here/../tools.sh"
# shellcheck source=../faults.sh
. "$here/../faults.sh"
begin_faults files

build() {
    compile files_test "$here/main.rs" --extern kit -L "$oracle/release" --extern oracle -o "$out/files_test"
}

test=("$out/files_test" --seconds "${FILES_SECONDS:-20}")
[ -z "${FILES_ONLY:-}" ] || test+=(--only "$FILES_ONLY")
each_fault "${1:-}" "${test[@]}" <<'END'
files: if old < DIRECT && new >= DIRECT { ==> if old < 13 && new >= 13 { ;; usize::from(b >= DIRECT) ==> usize::from(b > DIRECT) ;; if old >= DIRECT && new < DIRECT { ==> if old > DIRECT && new <= DIRECT { ;; if old >= DIRECT && new < DIRECT { ==> if old > DIRECT && new <= DIRECT {
files: zero(image, file, size, len as usize); ==> if (len as usize + BLOCK - 1) / BLOCK > (size + BLOCK - 1) / BLOCK {\n zero(image, file, size, len as usize);\n }
files: zero(image, file, size, offset as usize); ==> if (end as usize + BLOCK - 1) / BLOCK > (size + BLOCK - 1) / BLOCK {\n zero(image, file, size, offset as usize);\n }
files: zero(image, file, size, offset as usize); ==> 
files: zero(image, file, size, offset as usize); ==> zero(image, file, size, (offset as usize).min((size + BLOCK - 1) / BLOCK * BLOCK));
files: zero(image, file, size, offset as usize); ==> zero(image, file, size, (offset as usize).saturating_sub(1));
files: zero(image, file, size, offset as usize); ==> zero(image, file, size, (end as usize + BLOCK - 1) / BLOCK * BLOCK);
files: zero(image, file, size, len as usize); ==> 
files: zero(image, file, size, len as usize); ==> if len as usize > size {\n zero(image, file, size, (len as usize + BLOCK - 1) / BLOCK * BLOCK);\n }
files: zero(image, file, size, len as usize); ==> zero(image, file, (size + BLOCK - 1) / BLOCK * BLOCK, len as usize);
files: zero(image, file, size, len as usize); ==> zero(image, file, size + 1, len as usize);
files: zero(image, file, size, len as usize); ==> zero(image, file, size, (len as usize).min((size + BLOCK - 1) / BLOCK * BLOCK));
files: zero(image, file, size, len as usize); ==> zero(image, file, size, (len as usize).min(size + (1 << 20)));
files: zero(image, file, size, len as usize); ==> if size < (len as usize) {\n zero(image, file, size, len as usize);\n } else {\n zero(image, file, len as usize, (len as usize + BLOCK - 1) / BLOCK * BLOCK);\n }
files: if taken > unused { ==> if new - old > unused {
files: if taken > unused { ==> if taken >= unused {
files: image[MAP + block / 8] |= 1 << (block % 8); ==> image[MAP + block / 8] |= 0;
files:         give(image, word(image, file + INDIRECT_AT));\n ==> 
files:         give(image, word(image, file + DOUBLE_AT));\n ==> 
files: let bit = self.bits.trailing_zeros() as usize; ==> let bit = 63 - self.bits.leading_zeros() as usize; ;; self.bits &= self.bits - 1; ==> self.bits ^= 1 << bit;
files: while self.bits == 0 { ==> while self.bits == 0 || self.bits == 1 << 63 && self.at == MAP + 8 {
files: at: MAP,\n            bits: long(image, MAP), ==> at: MAP + 8 * usize::from(word(image, 4) > 900),\n bits: long(image, MAP + 8 * usize::from(word(image, 4) > 900)),
files:         let block = free.take(image);\n        put(image, file + INDIRECT_AT, block); ==>         let data = free.take(image);\n put(image, file + DIRECT_AT + 4 * old, data);\n let block = free.take(image);\n put(image, file + INDIRECT_AT, block); ;; let mut i = old; ==> let mut i = old + usize::from(old < DIRECT && new >= DIRECT);
files:     if old < DIRECT && new >= DIRECT {\n        let block = free.take(image);\n        put(image, file + INDIRECT_AT, block);\n    }\n ==>  ;;     let double = pointer(image, file + DOUBLE_AT);\n    for j in seconds(old) ==>     if old < DIRECT && new >= DIRECT {\n let block = free.take(image);\n put(image, file + INDIRECT_AT, block);\n }\n let double = pointer(image, file + DOUBLE_AT);\n for j in seconds(old)
files: for j in seconds(old)..seconds(new) { ==> for j in (seconds(old)..seconds(new)).rev() {
files: for j in seconds(new)..seconds(old) { ==> for j in seconds(new) + 1..seconds(old) {
files: put(image, double + 4 * j, block); ==> put(image, double + 4 * (j - seconds(old)), block);
files: put(image, double + 4 * j, block); ==> put(image, double + 4 * j, block);\n image[block * BLOCK..][..BLOCK].fill(0);
files: put(image, file + INDIRECT_AT, block); ==> put(image, file + INDIRECT_AT, block);\n image[block * BLOCK..][..BLOCK].fill(0);
files: 1 + (b - DOUBLE) / SLOTS ==> usize::from(b == DOUBLE) + (b - DOUBLE + SLOTS - 1) / SLOTS
files: put(image, UNUSED_AT, unused - taken); ==> 
files: put(image, UNUSED_AT, unused + owned(old) - owned(new)); ==> put(image, UNUSED_AT, unused + old - new);
files: put(image, file + INDIRECT_AT, 0); ==> 
files: put(image, file + DOUBLE_AT, 0); ==> 
files: give(image, word(image, at)); ==> give(image, word(image, at));\n put(image, at, 0);
files: let block = block as usize;\n ==> let block = block as usize;\n image[block * BLOCK..][..BLOCK].fill(0);\n
files:     Ok((end - begin) as u32) ==>     Ok((end - begin) as u32 + u32::from(end > begin && end == size as usize))
files:     Ok((end - begin) as u32) ==>     buf[end - begin..].fill(0);\n    Ok((end - begin) as u32)
files: if (size as u64) < end { ==> if (size as u64) < end && size as u64 != offset {
files: if (size as u64) < end { ==> if (size as u64) < end && !data.is_empty() {
files: if (size as u64) < end { ==> if (size as u64) != end {
files: offset.checked_add(data.len() as u64).ok_or(INVALID_PARAM)? ==> offset.wrapping_add(data.len() as u64)
files: if len > u64::from(u32::MAX) { ==> if len >= u64::from(u32::MAX) {
files: if len > u64::from(u32::MAX) { ==> if false {
files:     put(image, file, len);\n ==>     put(image, file + 68, 0);\n put(image, file, len);\n
files: word(slot, 0) != next ==> word(slot, 0) < next
files: self.slots -= blocks; ==> self.slots = (self.slots - blocks).max(1);
files: if kind(image, inode) == DIR { ==> if kind(image, inode) == 9 {
files: if kind(image, inode) == DIR { ==> if kind(image, inode) != 1 {
files: return (pointer(image, file + INDIRECT_AT) + 4 * (i - DIRECT), DOUBLE - i); ==> return (pointer(image, file + INDIRECT_AT) + 4 * (i - DIRECT), DOUBLE - i + 1);
check: named.get(i as usize).map_or(false, |&entries| entries > 0) ==> (i as usize) < named.len()
check: scratch[..words].fill(0); ==> scratch[..words - 1].fill(0);
check: scratch[..words].fill(0); ==> scratch.fill(0);
check: if scratch.len() < words { ==> if scratch.len() < words {\n scratch.fill(0);
check: if scratch.len() < words { ==> if scratch.len() + 1 < words { ;; scratch[..words].fill(0); ==> let end = scratch.len().min(words);\n scratch[..end].fill(0);
lib: *value = answer.unwrap_or(0); ==> if let Ok(count) = answer {\n *value = count;\n }
lib: let opened = check::open(image, lent_mut(scratch, scratch_len), &[inode]);\n    status(opened.and_then(|()| files::resize( ==> let opened: Result<(), u32> = Ok(());\n let _ = (scratch, scratch_len);\n    status(opened.and_then(|()| files::resize(
lib: opened.and_then(|()| files::write( ==> opened.and_then(|()| files::resize(image, inode, offset).and(Ok(0))).and_then(|_: u32| files::write(
END
