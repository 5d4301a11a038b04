//! Read, write and resize of a file as one writes them in Rust for speed, with nothing proved.
//! The card is whole and the number an inode's. What each does, and the order of its refusals, is RULES'.

use crate::bytes::*;

const SLOTS: usize = 1024;
const DIRECT: usize = 12;
/// The file block at which the second level begins.
const DOUBLE: usize = DIRECT + SLOTS;

pub fn read(image: &[u8], inode: u32, offset: u64, buf: &mut [u8]) -> Result<u32, u32> {
    let file = file(image, inode)?;
    let size = u64::from(word(image, file));
    let begin = size.min(offset) as usize;
    let end = size.min(offset.saturating_add(buf.len() as u64)) as usize;
    load(image, file, begin, &mut buf[..end - begin]);
    Ok((end - begin) as u32)
}

pub fn write(image: &mut [u8], inode: u32, offset: u64, data: &[u8]) -> Result<u32, u32> {
    let file = file(image, inode)?;
    let end = offset.checked_add(data.len() as u64).ok_or(INVALID_PARAM)?;
    let size = word(image, file) as usize;
    if (size as u64) < end {
        set_length(image, file, end)?;
        // The gap; what comes after it is written next.
        zero(image, file, size, offset as usize);
    }
    store(image, file, offset as usize, data);
    Ok(data.len() as u32)
}

pub fn resize(image: &mut [u8], inode: u32, len: u64) -> Result<(), u32> {
    let file = file(image, inode)?;
    let size = word(image, file) as usize;
    set_length(image, file, len)?;
    zero(image, file, size, len as usize);
    Ok(())
}

/// Where the record stands, if it is not a directory's.
fn file(image: &[u8], inode: u32) -> Result<usize, u32> {
    if kind(image, inode) == DIR {
        Err(NOT_FILE)
    } else {
        Ok(record(inode))
    }
}

/// Copies bytes that the file has, from its byte `at` on.
pub fn load(image: &[u8], file: usize, at: usize, buf: &mut [u8]) {
    let mut done = 0;
    let mut pieces = Pieces::new(file, at, at + buf.len());
    while let Some((at, len)) = pieces.next(image) {
        buf[done..done + len].copy_from_slice(&image[at..at + len]);
        done += len;
    }
}

/// Puts bytes where the file has some, from its byte `at` on.
pub fn store(image: &mut [u8], file: usize, at: usize, data: &[u8]) {
    let mut done = 0;
    let mut pieces = Pieces::new(file, at, at + data.len());
    while let Some((at, len)) = pieces.next(image) {
        image[at..at + len].copy_from_slice(&data[done..done + len]);
        done += len;
    }
}

/// The new length of a file or directory, with the blocks that it takes or frees. What is new of it holds what it held:
/// the caller zeroes or writes it.
pub fn set_length(image: &mut [u8], file: usize, len: u64) -> Result<(), u32> {
    if len > u64::from(u32::MAX) {
        return Err(INVALID_PARAM);
    }
    let len = len as usize;
    let (old, new) = (word(image, file + COUNT_AT) as usize, (len + BLOCK - 1) / BLOCK);
    if new > old {
        let unused = word(image, UNUSED_AT) as usize;
        let taken = owned(new) - owned(old);
        if taken > unused {
            return Err(NO_DEVICE_SPACE);
        }
        grow(image, file, old, new);
        put(image, UNUSED_AT, unused - taken);
        put(image, file + COUNT_AT, new);
    } else if new < old {
        shrink(image, file, old, new);
        let unused = word(image, UNUSED_AT) as usize;
        put(image, UNUSED_AT, unused + owned(old) - owned(new));
        put(image, file + COUNT_AT, new);
    }
    put(image, file, len);
    Ok(())
}

/// The blocks that a file of b blocks owns: RULES' N(b).
pub fn owned(b: usize) -> usize {
    b + usize::from(b >= DIRECT) + usize::from(b >= DOUBLE) + seconds(b)
}

/// How many blocks of the second level it has.
fn seconds(b: usize) -> usize {
    if b < DOUBLE {
        0
    } else {
        1 + (b - DOUBLE) / SLOTS
    }
}

fn grow(image: &mut [u8], file: usize, old: usize, new: usize) {
    let mut free = Free::new(image);
    if old < DIRECT && new >= DIRECT {
        let block = free.take(image);
        put(image, file + INDIRECT_AT, block);
    }
    if old < DOUBLE && new >= DOUBLE {
        let block = free.take(image);
        put(image, file + DOUBLE_AT, block);
    }
    let double = pointer(image, file + DOUBLE_AT);
    for j in seconds(old)..seconds(new) {
        let block = free.take(image);
        put(image, double + 4 * j, block);
    }
    let mut i = old;
    while i < new {
        let (first, slots) = slots(image, file, i);
        let slots = slots.min(new - i);
        for at in (first..first + 4 * slots).step_by(4) {
            let block = free.take(image);
            put(image, at, block);
        }
        i += slots;
    }
    free.store(image);
}

fn shrink(image: &mut [u8], file: usize, old: usize, new: usize) {
    release(image, file, old, new);
    if old >= DIRECT && new < DIRECT {
        put(image, file + INDIRECT_AT, 0);
    }
    if old >= DOUBLE && new < DOUBLE {
        put(image, file + DOUBLE_AT, 0);
    }
}

/// Sets the bits of the blocks that a file of `old` blocks owns and one of `new` blocks does not.
pub fn release(image: &mut [u8], file: usize, old: usize, new: usize) {
    let mut i = new;
    while i < old {
        let (first, slots) = slots(image, file, i);
        let slots = slots.min(old - i);
        for at in (first..first + 4 * slots).step_by(4) {
            give(image, word(image, at));
        }
        i += slots;
    }
    let double = pointer(image, file + DOUBLE_AT);
    for j in seconds(new)..seconds(old) {
        give(image, word(image, double + 4 * j));
    }
    if old >= DIRECT && new < DIRECT {
        give(image, word(image, file + INDIRECT_AT));
    }
    if old >= DOUBLE && new < DOUBLE {
        give(image, word(image, file + DOUBLE_AT));
    }
}

/// Nothing where the file was as long already.
fn zero(image: &mut [u8], file: usize, begin: usize, end: usize) {
    let mut pieces = Pieces::new(file, begin, end);
    while let Some((at, len)) = pieces.next(image) {
        image[at..at + len].fill(0);
    }
}

/// The search for free blocks, going on from the last one: eight bytes of the map in hand, from the place `at`.
pub struct Free {
    at: usize,
    bits: u64,
}

impl Free {
    pub fn new(image: &[u8]) -> Free {
        Free {
            at: MAP,
            bits: long(image, MAP),
        }
    }

    /// The lowest free block; the caller knows that there is one.
    pub fn take(&mut self, image: &mut [u8]) -> usize {
        while self.bits == 0 {
            self.store(image);
            self.at += 8;
            self.bits = long(image, self.at);
        }
        let bit = self.bits.trailing_zeros() as usize;
        self.bits &= self.bits - 1;
        8 * (self.at - MAP) + bit
    }

    pub fn store(&self, image: &mut [u8]) {
        image[self.at..self.at + 8].copy_from_slice(&self.bits.to_le_bytes());
    }
}

/// Sets a block's bit.
pub fn give(image: &mut [u8], block: u32) {
    let block = block as usize;
    image[MAP + block / 8] |= 1 << (block % 8);
}

/// Where the slot of file block i stands, and how many slots there are from it on in the same place.
fn slots(image: &[u8], file: usize, i: usize) -> (usize, usize) {
    if i < DIRECT {
        return (file + DIRECT_AT + 4 * i, DIRECT - i);
    }
    if i < DOUBLE {
        return (pointer(image, file + INDIRECT_AT) + 4 * (i - DIRECT), DOUBLE - i);
    }
    let (j, k) = ((i - DOUBLE) / SLOTS, (i - DOUBLE) % SLOTS);
    let second = pointer(image, pointer(image, file + DOUBLE_AT) + 4 * j);
    (second + 4 * k, SLOTS - k)
}

/// The bytes of a file from `begin` to `end`, in pieces that are each whole in the image: blocks that follow each
/// other are one piece. The place of the slots is looked up once for all that are in it.
pub struct Pieces {
    file: usize,
    begin: usize,
    end: usize,
    slot: usize,
    slots: usize,
}

impl Pieces {
    pub fn new(file: usize, begin: usize, end: usize) -> Pieces {
        Pieces {
            file,
            begin,
            end,
            slot: 0,
            slots: 0,
        }
    }

    /// Where the next piece stands, and its length.
    pub fn next(&mut self, image: &[u8]) -> Option<(usize, usize)> {
        if self.begin >= self.end {
            return None;
        }
        if self.slots == 0 {
            (self.slot, self.slots) = slots(image, self.file, self.begin / BLOCK);
        }
        let (within, left) = (self.begin % BLOCK, self.end - self.begin);
        let most = self.slots.min((within + left + BLOCK - 1) / BLOCK);
        let first = word(image, self.slot);
        let mut list = image[self.slot..self.slot + 4 * most].chunks_exact(4).zip(first..);
        let blocks = list.position(|(slot, next)| word(slot, 0) != next).unwrap_or(most);
        self.slot += 4 * blocks;
        self.slots -= blocks;
        let len = left.min(blocks * BLOCK - within);
        self.begin += len;
        Some((first as usize * BLOCK + within, len))
    }
}

/// The place in the image of the block in a slot.
fn pointer(image: &[u8], slot: usize) -> usize {
    word(image, slot) as usize * BLOCK
}
