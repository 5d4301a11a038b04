//! What a card holds, read from its bytes by the layout of RULES, "The card".

use crate::expect::{field, size};
use kit::plan::BLOCK;

/// The pointer blocks and the data blocks of an inode, in the order in which growth takes them.
pub fn lists(image: &[u8], inode: u32) -> (Vec<usize>, Vec<usize>) {
    let record = inode as usize * BLOCK;
    let count = field(image, record + 8);
    let slots = |block: usize, wanted: usize| -> Vec<usize> {
        (0..wanted.min(1024)).map(|i| field(image, block * BLOCK + 4 * i)).collect()
    };
    let mut pointers = Vec::new();
    let mut data: Vec<usize> = (0..count.min(12)).map(|i| field(image, record + 12 + 4 * i)).collect();
    if count >= 12 {
        let indirect = field(image, record + 60);
        pointers.push(indirect);
        data.extend(slots(indirect, count - 12));
    }
    if count >= 1036 {
        let double = field(image, record + 64);
        let seconds = slots(double, 1 + (count - 1036) / 1024);
        for (j, &second) in seconds.iter().enumerate() {
            data.extend(slots(second, count - 1036 - 1024 * j));
        }
        pointers.push(double);
        pointers.extend(seconds);
    }
    (pointers, data)
}

pub fn content(image: &[u8], inode: u32) -> Vec<u8> {
    let (_, data) = lists(image, inode);
    let mut bytes: Vec<u8> = data.iter().flat_map(|&b| image[b * BLOCK..][..BLOCK].iter().copied()).collect();
    bytes.truncate(size(image, inode));
    bytes
}

/// What a day that returns every length must leave as it was: the superblock, the map, and of each inode the head of
/// its record, its lists of blocks, and for a directory its bytes.
#[derive(PartialEq, Eq)]
pub struct Frame {
    superblock: Vec<u8>,
    map: Vec<u8>,
    inodes: Vec<Held>,
}

#[derive(PartialEq, Eq)]
struct Held {
    head: Vec<u8>,
    pointers: Vec<usize>,
    data: Vec<usize>,
    entries: Vec<u8>,
}

pub fn frame(image: &[u8], inodes: impl IntoIterator<Item = u32>) -> Frame {
    let held = |inode: u32| {
        let record = inode as usize * BLOCK;
        let (pointers, data) = lists(image, inode);
        let entries = if image[record + 4] == 2 { content(image, inode) } else { Vec::new() };
        Held { head: image[record..record + 12].to_vec(), pointers, data, entries }
    };
    Frame {
        superblock: image[..BLOCK].to_vec(),
        map: image[2 * BLOCK..3 * BLOCK].to_vec(),
        inodes: inodes.into_iter().map(held).collect(),
    }
}
