//! Plain looks at image bytes. Nothing here asks the Rust, and any bytes may be given.

use std::collections::BTreeSet;
use std::convert::TryInto;

pub const BLOCK: usize = 4096;
const MAGIC: u32 = 0x2f8d_be2b;
const ENTRY: usize = 260;
const ROOT: u32 = 1;
const DIRECTORY: u8 = 2;
/// Where a record's padding stands in its block.
const PADDING: std::ops::Range<usize> = 68..72;

/// The 32-bit number at a byte offset.
pub fn word(image: &[u8], offset: usize) -> Option<u32> {
    let bytes = image.get(offset..offset.checked_add(4)?)?;
    Some(u32::from_le_bytes([bytes[0], bytes[1], bytes[2], bytes[3]]))
}

/// The number of map blocks, where the magic is right.
pub fn map_blocks(image: &[u8]) -> Option<u32> {
    if word(image, 0) == Some(MAGIC) {
        word(image, 44)
    } else {
        None
    }
}

/// The superblock's text can be printed by the Rust: UTF-8 up to a NUL.
pub fn readable_text(image: &[u8]) -> bool {
    let text = image.get(12..44).unwrap_or(&[]);
    match text.iter().position(|&byte| byte == 0) {
        Some(len) => std::str::from_utf8(&text[..len]).is_ok(),
        None => false,
    }
}

/// The number of set bits in the map.
pub fn set_bits(image: &[u8], map_blocks: u32) -> u64 {
    let end = (2 + map_blocks as usize) * BLOCK;
    let map = image.get(2 * BLOCK..end).unwrap_or(&[]);
    map.iter().map(|byte| u64::from(byte.count_ones())).sum()
}

/// The kind bytes of the record in a block.
pub fn kind(image: &[u8], inode: u32) -> Option<u16> {
    let at = inode as usize * BLOCK + 4;
    let bytes = image.get(at..at + 2)?;
    Some(u16::from_le_bytes([bytes[0], bytes[1]]))
}

/// The offset of a file's byte in the image, by the slots of its record.
fn place(image: &[u8], inode: u32, byte: usize) -> Option<usize> {
    let record = inode as usize * BLOCK;
    let slot = |block: u32, i: usize| word(image, block as usize * BLOCK + 4 * i);
    let block = match byte / BLOCK {
        i if i < 12 => word(image, record + 12 + 4 * i)?,
        i if i < 1036 => slot(word(image, record + 60)?, i - 12)?,
        i => {
            let second = slot(word(image, record + 64)?, (i - 1036) / 1024)?;
            slot(second, (i - 1036) % 1024)?
        }
    };
    Some(block as usize * BLOCK + byte % BLOCK)
}

fn entry_number(image: &[u8], dir: u32, index: usize) -> Option<u32> {
    let mut bytes = [0; 4];
    for (i, byte) in bytes.iter_mut().enumerate() {
        *byte = *image.get(place(image, dir, ENTRY * index + i)?)?;
    }
    Some(u32::from_le_bytes(bytes))
}

/// The numbers that a walk from the root meets: on a whole card, exactly its inodes.
pub fn inodes(image: &[u8]) -> BTreeSet<u32> {
    let mut met = BTreeSet::new();
    let mut waiting = vec![ROOT];
    while let Some(inode) = waiting.pop() {
        let record = inode as usize * BLOCK;
        if record + BLOCK > image.len() || !met.insert(inode) {
            continue;
        }
        if image[record + 4] != DIRECTORY || image[record + 5] != 0 {
            continue;
        }
        // A damaged size may be far past the image.
        let size = (word(image, record).unwrap_or(0) as usize).min(image.len());
        for index in 2..size / ENTRY {
            match entry_number(image, inode, index) {
                Some(number) => waiting.push(number),
                None => break,
            }
        }
    }
    met
}

/// Compares two images but for the padding of the records in the given blocks, which the Rust leaves
/// undefined. Give every block that was an inode's since the two images were one: a dead record keeps
/// its padding. The answer is the first offset that differs.
pub fn same_but_padding(
    a: &[u8],
    b: &[u8],
    inodes: impl IntoIterator<Item = u32>,
) -> Result<(), usize> {
    let mut masked: Vec<usize> = inodes
        .into_iter()
        .map(|inode| inode as usize * BLOCK)
        .collect();
    masked.sort_unstable();
    let common = a.len().min(b.len());
    let mut from = 0;
    for record in masked {
        let to = (record + PADDING.start).min(common);
        if from < to {
            same(a, b, from, to)?;
        }
        from = from.max((record + PADDING.end).min(common));
    }
    same(a, b, from, common)?;
    if a.len() == b.len() {
        Ok(())
    } else {
        Err(common)
    }
}

/// Bytes that are compared at once.
const PIECE: usize = 64;

/// Piece by piece, of eight words each: under an emulator the library's comparison by vectors is many times slower.
fn same(a: &[u8], b: &[u8], from: usize, to: usize) -> Result<(), usize> {
    let end = to - (to - from) % PIECE;
    let pairs = a[from..end]
        .chunks_exact(PIECE)
        .zip(b[from..end].chunks_exact(PIECE));
    let equal = pairs.take_while(|(x, y)| differing_bits(x, y) == 0).count();
    match (from + PIECE * equal..to).find(|&i| a[i] != b[i]) {
        Some(differs) => Err(differs),
        None => Ok(()),
    }
}

fn differing_bits(a: &[u8], b: &[u8]) -> u64 {
    let long = |bytes: &[u8]| u64::from_le_bytes(bytes.try_into().expect("eight bytes"));
    let pairs = a.chunks_exact(8).zip(b.chunks_exact(8));
    pairs.fold(0, |bits, (x, y)| bits | (long(x) ^ long(y)))
}

/// FNV-1a of 64 bits over the image, with the padding of the given records read as zero.
pub fn checksum(image: &[u8], inodes: &BTreeSet<u32>) -> u64 {
    let mut sum: u64 = 0xcbf2_9ce4_8422_2325;
    for (block, bytes) in image.chunks(BLOCK).enumerate() {
        let masked = inodes.contains(&(block as u32));
        for (i, &byte) in bytes.iter().enumerate() {
            let byte = if masked && PADDING.contains(&i) {
                0
            } else {
                byte
            };
            sum = (sum ^ u64::from(byte)).wrapping_mul(0x0100_0000_01b3);
        }
    }
    sum
}
