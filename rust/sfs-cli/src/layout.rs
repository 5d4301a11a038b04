//! Which inode owns which block. The library has no call for this, so it is read from the bytes by the rules'
//! layout, after the library found the card whole. Nothing here is proved, and nothing is written; what does not fit
//! the layout is left out.

use sfs::{BLOCK_SIZE, ENTRY_SIZE};

const ROOT: u32 = 1;
const DIR: u16 = 2;
const DIRECT: usize = 12;
const SLOTS: usize = BLOCK_SIZE / 4;

/// An inode with its blocks: its own, its pointer blocks and its data blocks.
pub struct Owner {
    /// Which owner is the directory that names it; the root's is itself.
    parent: usize,
    name: Vec<u8>,
    pub inode: u32,
    pub pointers: Vec<u32>,
    pub data: Vec<u32>,
}

impl Owner {
    pub fn blocks(&self) -> impl Iterator<Item = u32> + '_ {
        std::iter::once(self.inode)
            .chain(self.pointers.iter().copied())
            .chain(self.data.iter().copied())
    }
}

/// Longer paths, which only a card made for that has, are shown by their ends.
const PATH: usize = 4096;

/// The path of an owner among all.
pub fn path(owners: &[Owner], mut i: usize) -> Vec<u8> {
    let mut names: Vec<&[u8]> = Vec::new();
    let mut len = 0;
    while i > 0 && len < PATH {
        names.push(&owners[i].name);
        len += owners[i].name.len() + 1;
        i = owners[i].parent;
    }
    names.push(if i > 0 { b"..." } else { b"" });
    names.reverse();
    match names.len() {
        1 => b"/".to_vec(),
        _ => names.join(&b'/'),
    }
}

/// All inodes, the root first, a file with several names by the first one found.
pub fn owners(image: &[u8]) -> Vec<Owner> {
    let mut known = vec![false; image.len() / BLOCK_SIZE];
    let mut owners = Vec::new();
    let mut found = vec![(ROOT, 0, Vec::new())];
    while let Some((inode, parent, name)) = found.pop() {
        match known.get_mut(inode as usize) {
            Some(known) if !*known => *known = true,
            _ => continue,
        }
        let owner = owner(image, inode, parent, name);
        if is_dir(image, inode) {
            let mut children = children(image, &owner);
            children.sort_by(|a, b| b.1.cmp(&a.1));
            found.extend(children.into_iter().map(|(inode, name)| (inode, owners.len(), name)));
        }
        owners.push(owner);
    }
    owners
}

fn is_dir(image: &[u8], inode: u32) -> bool {
    let record = block(image, inode);
    u16::from_le_bytes([record[4], record[5]]) == DIR
}

fn owner(image: &[u8], inode: u32, parent: usize, name: Vec<u8>) -> Owner {
    let record = block(image, inode);
    let count = word(record, 8) as usize;
    let (indirect, double) = (word(record, 60), word(record, 64));
    let mut owner = Owner {
        parent,
        name,
        inode,
        pointers: Vec::new(),
        data: slots(&record[12..60], count),
    };
    if count >= DIRECT {
        owner.pointers.push(indirect);
        owner.data.extend(slots(block(image, indirect), count - DIRECT));
    }
    if count >= DIRECT + SLOTS {
        let count = count - DIRECT - SLOTS;
        owner.pointers.push(double);
        for (j, second) in slots(block(image, double), 1 + count / SLOTS).into_iter().enumerate() {
            owner.pointers.push(second);
            owner.data.extend(slots(block(image, second), count - SLOTS * j));
        }
    }
    owner
}

/// The numbers and names that a directory's entries name, without "." and "..".
fn children(image: &[u8], dir: &Owner) -> Vec<(u32, Vec<u8>)> {
    let size = word(block(image, dir.inode), 0) as usize;
    let mut bytes: Vec<u8> = dir.data.iter().flat_map(|&b| block(image, b).iter().copied()).collect();
    bytes.truncate(size);
    let entries = bytes.chunks_exact(ENTRY_SIZE).skip(2);
    entries.map(|entry| (word(entry, 0), before_nul(&entry[4..]))).collect()
}

fn before_nul(name: &[u8]) -> Vec<u8> {
    name.iter().copied().take_while(|&byte| byte != 0).collect()
}

/// A block's bytes; for a number that is none, zeros.
fn block(image: &[u8], number: u32) -> &[u8] {
    let start = number as usize * BLOCK_SIZE;
    image.get(start..start + BLOCK_SIZE).unwrap_or(&[0; BLOCK_SIZE])
}

/// The first slots, `wanted` of them or all there are.
fn slots(bytes: &[u8], wanted: usize) -> Vec<u32> {
    bytes.chunks_exact(4).take(wanted).map(|slot| word(slot, 0)).collect()
}

fn word(bytes: &[u8], at: usize) -> u32 {
    u32::from_le_bytes([bytes[at], bytes[at + 1], bytes[at + 2], bytes[at + 3]])
}
