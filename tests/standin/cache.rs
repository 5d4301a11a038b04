//! The block cache as one writes it in Rust for speed, with nothing proved: slots of three words (status, block, place in the
//! order of use), 4,096 bytes of data for each, and the device, all lent. What is refused is RULES'.

use crate::bytes::{BLOCK, INVALID_PARAM};

const UNUSED: u32 = 0;
const VALID: u32 = 1;
const DIRTY: u32 = 2;

pub fn start(slots: &mut [u32]) {
    for (place, slot) in slots.chunks_exact_mut(3).enumerate() {
        slot.copy_from_slice(&[UNUSED, 0, place as u32]);
    }
}

pub fn read(device: &mut [u8], data: &mut [u8], slots: &mut [u32], block: u32, buf: &mut [u8]) -> Result<(), u32> {
    fits(device, data, slots, block, buf)?;
    let (i, hit) = slot_for(slots, block);
    if !hit {
        give_way(device, data, slots, i);
        slots[3 * i] = VALID;
        slots[3 * i + 1] = block;
        bytes_mut(data, i).copy_from_slice(bytes(device, block as usize));
    }
    visit(slots, i);
    buf.copy_from_slice(bytes(data, i));
    Ok(())
}

pub fn write(device: &mut [u8], data: &mut [u8], slots: &mut [u32], block: u32, buf: &[u8]) -> Result<(), u32> {
    fits(device, data, slots, block, buf)?;
    let (i, hit) = slot_for(slots, block);
    if !hit {
        give_way(device, data, slots, i);
    }
    slots[3 * i] = DIRTY;
    slots[3 * i + 1] = block;
    visit(slots, i);
    bytes_mut(data, i).copy_from_slice(buf);
    Ok(())
}

pub fn sync(device: &mut [u8], data: &[u8], slots: &mut [u32]) -> Result<(), u32> {
    sound(device, data, slots)?;
    for i in 0..slots.len() / 3 {
        if slots[3 * i] == DIRTY {
            bytes_mut(device, slots[3 * i + 1] as usize).copy_from_slice(bytes(data, i));
            slots[3 * i] = VALID;
        }
    }
    Ok(())
}

fn bytes(of: &[u8], i: usize) -> &[u8] {
    &of[i * BLOCK..(i + 1) * BLOCK]
}

fn bytes_mut(of: &mut [u8], i: usize) -> &mut [u8] {
    &mut of[i * BLOCK..(i + 1) * BLOCK]
}

fn refuse_unless(holds: bool) -> Result<(), u32> {
    if holds {
        Ok(())
    } else {
        Err(INVALID_PARAM)
    }
}

fn fits(device: &[u8], data: &[u8], slots: &[u32], block: u32, buf: &[u8]) -> Result<(), u32> {
    refuse_unless(buf.len() == BLOCK && (block as usize) < device.len() / BLOCK)?;
    sound(device, data, slots)
}

fn sound(device: &[u8], data: &[u8], slots: &[u32]) -> Result<(), u32> {
    let count = slots.len() / 3;
    refuse_unless(slots.len() % 3 == 0 && (2..=64).contains(&count) && data.len() == count * BLOCK)?;
    let blocks = device.len() / BLOCK;
    // A mark for each place and block so far, by their low bits: only where one is taken are slots compared.
    let (mut places, mut held) = ([0_u64; 4], [0_u64; 16]);
    for (i, slot) in slots.chunks_exact(3).enumerate() {
        let (status, block, place) = (slot[0], slot[1], slot[2]);
        refuse_unless(status <= DIRTY && (status == UNUSED || (block as usize) < blocks))?;
        let mut taken = mark(&mut places, place);
        if status != UNUSED {
            taken |= mark(&mut held, block);
        }
        if taken {
            refuse_unless(slots[..3 * i].chunks_exact(3).all(|before| apart(before, slot)))?;
        }
    }
    Ok(())
}

fn mark(marks: &mut [u64], number: u32) -> bool {
    let bit = number as usize % (64 * marks.len());
    let taken = marks[bit / 64] >> (bit % 64) & 1 == 1;
    marks[bit / 64] |= 1 << (bit % 64);
    taken
}

fn apart(a: &[u32], b: &[u32]) -> bool {
    a[2] != b[2] && (a[0] == UNUSED || b[0] == UNUSED || a[1] != b[1])
}

/// The slot with the block, else the lowest unused one, else the least recently used; and whether it has the block.
fn slot_for(slots: &[u32], block: u32) -> (usize, bool) {
    let (mut unused, mut oldest) = (None, 0);
    for (i, slot) in slots.chunks_exact(3).enumerate() {
        if slot[0] == UNUSED {
            unused = unused.or(Some(i));
        } else if slot[1] == block {
            return (i, true);
        }
        if slot[2] > slots[3 * oldest + 2] {
            oldest = i;
        }
    }
    (unused.unwrap_or(oldest), false)
}

fn give_way(device: &mut [u8], data: &[u8], slots: &[u32], i: usize) {
    if slots[3 * i] == DIRTY {
        bytes_mut(device, slots[3 * i + 1] as usize).copy_from_slice(bytes(data, i));
    }
}

fn visit(slots: &mut [u32], i: usize) {
    let old = slots[3 * i + 2];
    for slot in slots.chunks_exact_mut(3) {
        slot[2] += u32::from(slot[2] < old);
    }
    slots[3 * i + 2] = 0;
}
