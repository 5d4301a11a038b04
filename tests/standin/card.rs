//! A new card, and an inode's numbers.

use crate::bytes::*;
use crate::dirs;

pub fn format(image: &mut [u8], space: u64) -> Result<(), u32> {
    let blocks = space / BLOCK as u64 + u64::from(space % BLOCK as u64 > 0);
    if !(16..=32_768).contains(&blocks) || image.len() < blocks as usize * BLOCK {
        return Err(INVALID_PARAM);
    }
    let blocks = blocks as usize;
    let text = b"simple file system";
    image[..48].fill(0);
    put(image, 0, MAGIC as usize);
    put(image, 4, blocks);
    put(image, UNUSED_AT, blocks - 4);
    image[12..12 + text.len()].copy_from_slice(text);
    put(image, 44, 1);
    let map = &mut image[MAP..MAP + BLOCK];
    map.fill(0);
    map[..blocks / 8].fill(0xff);
    if blocks % 8 > 0 {
        map[blocks / 8] = (1 << (blocks % 8)) - 1;
    }
    // Superblock, root, map and the root's entries.
    map[0] &= 0xf0;
    dirs::new_record(image, ROOT, DIR, 3);
    dirs::two_entries(image, 3, ROOT, ROOT);
    Ok(())
}

/// Kind, size, blocks and links.
pub fn metadata(image: &[u8], inode: u32) -> [u32; 4] {
    let at = record(inode);
    let size = word(image, at);
    [
        kind(image, inode).into(),
        size,
        word(image, at + COUNT_AT),
        half(image, at + LINKS_AT).into(),
    ]
}
