#!/usr/bin/env bash
# Do these tests notice a fault? Each line below is one in tests/standin/check.rs, as tests/faults.sh says.
# check_fuzz must find every one; where it does not, that is printed.
# By the rustc of PATH, for this machine; some three minutes. CHECK_SECONDS: time for one fault. An argument: only
# the faults that hold this text.
set -euo pipefail
here=$(cd "$(dirname "${BASH_SOURCE[0]}")" && pwd)
root=$(cd "$here/../.." && pwd)
# shellcheck source=../tools.sh
. "$here/../tools.sh"
# shellcheck source=../faults.sh
. "$here/../faults.sh"
begin_faults check

build() {
    compile check_fuzz "$here/main.rs" --extern kit -o "$out/check_fuzz"
}

each_fault "${1:-}" "$out/check_fuzz" --seconds "${CHECK_SECONDS:-20}" --cases 60000 --save "$out" <<'END'
check: if image.len() < BLOCK { ==> if image.len() < 48 {
check: word(image, 0) != MAGIC ==> word(image, 0) | 1 != MAGIC
check: !(16..=32_768).contains(&blocks) ==> !(15..=32_768).contains(&blocks)
check: || word(image, 44) != 1 ==> || word(image, 44) & 255 != 1
check: || image.len() < blocks as usize * BLOCK ==> || image.len() + 1 < blocks as usize * BLOCK
check: if scratch.len() < words { ==> if scratch.len() <= words {
check: scratch[..words].fill(0); ==> scratch.fill(0);
check: scratch[..words].fill(0); ==> scratch[..words - 1].fill(0);
check: u32::from(head.links) { ==> u32::from(head.links | 2) {
check: _ if i == whole => last, ==> _ if i == whole => last | free,
check: _ => 0,\n ==> _ => free,
check: if unused == word(self.image, 8) { ==> if unused <= word(self.image, 8) {
check: if *byte & bit != 0 { ==> if *byte & bit != 0 && block != 3 {
check: (1..=3).contains(&head.kind) ==> (1..=4).contains(&head.kind)
check: && head.count == (head.size + BLOCK - 1) / BLOCK ==> && head.count >= (head.size + BLOCK - 1) / BLOCK
check: (head.indirect != 0) == (head.count >= 12) ==> (head.indirect != 0) == (head.count >= 13)
check: (head.indirect != 0) == (head.count >= 12) ==> (head.indirect != 0 || head.count < 12)
check: (head.double != 0) == (head.count >= 1036) ==> (head.double != 0 || head.count < 1036)
check: (head.double != 0) == (head.count >= 1036) ==> (head.double != 0) == (head.count > 1036)
check: || (number == ROOT && head.kind != DIR) ==> || (number == ROOT && head.kind == 3)
check: 0..=(count - 1036) / 1024 ==> 0..(count - 1036 + 1023) / 1024
check: self.slots(self.block(second), count - 1036 - 1024 * j, ==> self.slots(self.block(second), (count - 1036 - 1024 * j).min(1023),
check: if head.size % ENTRY != 0 || entries < 2 { ==> if entries < 2 {
check: if head.size % ENTRY != 0 || entries < 2 { ==> if head.size % ENTRY != 0 {
check: 0 => name == b"." && named == number, ==> 0 => name == b".",
check: 0 => name == b"." && named == number, ==> 0 => name[0] == b'.' && named == number,
check: 1 => name == b".." && named == self.parent[number as usize], ==> 1 => name == b"..",
check: 1 => name == b".." && named == self.parent[number as usize], ==> 1 => name == b".." && (number == ROOT || named == self.parent[number as usize]),
check: 1 => name == b".." && named == self.parent[number as usize], ==> 1 => named == self.parent[number as usize],
check: if !expected || known { ==> if !expected {
check: if !expected || known { ==> if !expected || (known && k > 200) {
check: usize::from(head.links) == 2 + subdirectories ==> usize::from(head.links) >= 2 + subdirectories
check: } else if directory { ==> } else if directory && false {
check: return if len == 0 { ==> return if len == 300 {
check:     }\n    Err(Damaged)\n}\n\n/// The two ==> }\n    Ok((bytes, hash))\n}\n\n/// The two
check: let mark = (hash >> 32) as u32; ==> let mark = 0; ;; & self.mask;\n        loop ==> & 3;\n        loop ;; && entry[4 + name.len()] == 0 ==> && entry[4] != 0
check: let mark = (hash >> 32) as u32; ==> let mark = 0; ;; & self.mask;\n        loop ==> & 3;\n        loop ;; entry[4..].starts_with(name) ==> entry[4..].starts_with(&name[..name.len() - 1])
check: let mark = (hash >> 32) as u32; ==> let mark = 0; ;; & self.mask;\n        loop ==> & 3;\n        loop ;; entry[4..].starts_with(name) ==> entry[5..].starts_with(&name[1..])
check: self.take(head.indirect)?; ==> if self.take(head.indirect).is_err() && head.indirect as usize >= self.blocks { return Err(Damaged); }
check: self.take(second)?; ==> if self.take(second).is_err() && second as usize >= self.blocks { return Err(Damaged); }
check: self.take(head.double)?; ==> if self.take(head.double).is_err() && head.double as usize >= self.blocks { return Err(Damaged); }
END
