#!/usr/bin/env bash
# Does this test notice a fault? Each line below is one in tests/standin, as tests/faults.sh says, after the name of its
# file. cache_test must find every one; where it does not, that is printed.
# By the rustc of PATH, for this machine; some two minutes. CACHE_SECONDS: time for one fault. An argument: only the faults
# that hold this text.
set -euo pipefail
here=$(cd "$(dirname "${BASH_SOURCE[0]}")" && pwd)
root=$(cd "$here/../.." && pwd)
# shellcheck source=../tools.sh
. "$here/../tools.sh"
# shellcheck source=../faults.sh
. "$here/../faults.sh"
begin_faults cache

build() {
    compile cache_test "$here/main.rs" --extern kit -o "$out/cache_test"
}

test=("$out/cache_test" --seconds "${CACHE_SECONDS:-5}")
each_fault "${1:-}" "${test[@]}" <<'END'
cache:         give_way(device, data, slots, i);\n        slots[3 * i] = VALID; ==>         slots[3 * i] = VALID;
cache:     if !hit {\n        give_way(device, data, slots, i);\n    }\n ==> 
cache: if slot[2] > slots[3 * oldest + 2] { ==> if slot[2] < slots[3 * oldest + 2] {
cache: let (mut unused, mut oldest) = (None, 0); ==> let (mut unused, mut oldest) = (None, 1); ;; if slot[2] > slots[3 * oldest + 2] { ==> if i > 0 && slot[2] > slots[3 * oldest + 2] {
cache:     visit(slots, i);\n    buf.copy_from_slice ==>     if !hit {\n visit(slots, i);\n }\n    buf.copy_from_slice
cache:     visit(slots, i);\n    bytes_mut(data, i) ==>     if !hit {\n visit(slots, i);\n }\n    bytes_mut(data, i)
cache: unused = unused.or(Some(i)); ==> unused = Some(i);
cache:         if slot[0] == UNUSED {\n ==>         if slot[0] == UNUSED && slot[1] != block {\n
cache:         } else if slot[1] == block {\n ==>         } else if slot[1] == block && slot[0] == DIRTY {\n
cache: a[2] != b[2] && (a[0] == UNUSED || b[0] == UNUSED || a[1] != b[1]) ==> a[2] != b[2]
cache: a[2] != b[2] && (a[0] == UNUSED || b[0] == UNUSED || a[1] != b[1]) ==> a[0] == UNUSED || b[0] == UNUSED || a[1] != b[1]
cache: a[0] == UNUSED || b[0] == UNUSED || a[1] != b[1] ==> a[1] != b[1]
cache: a[0] == UNUSED || b[0] == UNUSED || a[1] != b[1] ==> a[0] != DIRTY || b[0] != DIRTY || a[1] != b[1]
cache: let mut taken = mark(&mut places, place); ==> let mut taken = false;
cache: taken |= mark(&mut held, block); ==> 
cache: taken |= mark(&mut held, block); ==> if mark(&mut held, block) {\n return Err(INVALID_PARAM);\n }
cache: let mut taken = mark(&mut places, place); ==> let mut taken = false;\n if mark(&mut places, place) {\n return Err(INVALID_PARAM);\n }
cache: for i in 0..slots.len() / 3 { ==> for i in 1..slots.len() / 3 {
cache:             slots[3 * i] = VALID;\n ==> 
cache:     sound(device, data, slots)?;\n    for i ==>     for i
cache:     slots[3 * i] = DIRTY; ==>     slots[3 * i] = VALID;
cache:     slots[3 * i] = DIRTY; ==>     slots[3 * i] = DIRTY;\n bytes_mut(device, block as usize).copy_from_slice(buf);
cache:     visit(slots, i);\n    buf.copy_from_slice(bytes(data, i)); ==>     slots[3 * i] = VALID;\n visit(slots, i);\n    buf.copy_from_slice(bytes(data, i));
cache: buf.copy_from_slice(bytes(data, i)); ==> buf.copy_from_slice(bytes(device, block as usize));
cache: bytes_mut(data, i).copy_from_slice(bytes(device, block as usize)); ==> 
cache: (2..=64).contains(&count) ==> (1..=64).contains(&count)
cache: (2..=64).contains(&count) ==> (3..=64).contains(&count)
cache: (2..=64).contains(&count) ==> (2..=63).contains(&count)
cache: (2..=64).contains(&count) ==> (2..=65).contains(&count)
cache: slots.len() % 3 == 0 && ==> 
cache: && data.len() == count * BLOCK ==> && data.len() >= count * BLOCK
cache: buf.len() == BLOCK && ==> buf.len() >= BLOCK && ;;     buf.copy_from_slice(bytes(data, i)); ==>     buf[..BLOCK].copy_from_slice(bytes(data, i)); ;; copy_from_slice(buf) ==> copy_from_slice(&buf[..BLOCK])
cache: status <= DIRTY && ==> status <= 3 &&
cache: status <= DIRTY && ==> status & 255 <= DIRTY &&
cache: (status == UNUSED || (block as usize) < blocks) ==> (block as usize) < blocks
cache: (status == UNUSED || (block as usize) < blocks) ==> (status != DIRTY || (block as usize) < blocks)
cache: let blocks = device.len() / BLOCK; ==> let blocks = (device.len() + BLOCK - 1) / BLOCK;
cache: slot[2] += u32::from(slot[2] < old); ==> slot[2] = slot[2].wrapping_add(1);
cache: slot[2] += u32::from(slot[2] < old); ==> 
cache: [UNUSED, 0, place as u32] ==> [UNUSED, slot[1], place as u32]
cache: pub fn start(slots: &mut [u32]) {\n ==> pub fn start(slots: &mut [u32]) {\n slots.fill(0);\n
cache: pub fn start(slots: &mut [u32]) {\n ==> pub fn start(slots: &mut [u32]) {\n if slots.len() > 192 {\n return;\n }\n
cache:     fits(device, data, slots, block, buf)?;\n ==>     fits(device, data, slots, block, buf).map_err(|no| {\n buf.fill(0);\n no\n })?;\n
lib: status(cache::sync(device, lent(data, data_len), slots)) ==> status(cache::sync(device, lent(data, data_len), slots)) * 0
END
