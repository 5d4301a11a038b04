//! The check of a card as one writes it in Rust for speed, with nothing proved.
//! Rules, their order and the answers are RULES'.

use crate::bytes::*;

pub struct Answer {
    pub status: u32,
    pub blocks: u32,
    pub unused: u32,
}

/// The card breaks a rule.
struct Damaged;

pub fn check(image: &[u8], scratch: &mut [u32]) -> Answer {
    match whole(image, scratch) {
        Ok(_) => Answer {
            status: 0,
            blocks: word(image, 4),
            unused: word(image, 8),
        },
        Err(status) => Answer {
            status,
            blocks: 0,
            unused: 0,
        },
    }
}

/// What a call tests first: the card, then that each number is one of its inodes.
pub fn open(image: &[u8], scratch: &mut [u32], inodes: &[u32]) -> Result<(), u32> {
    let named = whole(image, scratch)?;
    let is_inode = |&i: &u32| i == ROOT || named.get(i as usize).map_or(false, |&entries| entries > 0);
    if inodes.iter().all(is_inode) {
        Ok(())
    } else {
        Err(NO_INODE)
    }
}

/// For each block how many entries name it as an inode, or the number of the refusal.
fn whole(image: &[u8], scratch: &mut [u32]) -> Result<Vec<u32>, u32> {
    if image.len() < BLOCK {
        return Err(DAMAGED);
    }
    if word(image, 0) != MAGIC {
        return Err(WRONG_FS);
    }
    let blocks = word(image, 4);
    if !(16..=32_768).contains(&blocks) || word(image, 44) != 1 || image.len() < blocks as usize * BLOCK {
        return Err(DAMAGED);
    }
    let words = 4 * blocks as usize;
    if scratch.len() < words {
        return Err(SCRATCH_SHORT);
    }
    scratch[..words].fill(0);
    let mut walk = Walk::new(image, blocks as usize);
    match walk.run() {
        Ok(()) => Ok(walk.named),
        Err(Damaged) => Err(DAMAGED),
    }
}

/// One inode's record.
struct Head {
    size: usize,
    kind: u16,
    links: u16,
    count: usize,
    indirect: u32,
    double: u32,
}

struct Walk<'a> {
    image: &'a [u8],
    blocks: usize,
    /// One bit a block, laid out as the map is.
    used: Vec<u8>,
    queue: Vec<u32>,
    /// For each block: how many entries name it as an inode, and the directory of the last one.
    named: Vec<u32>,
    parent: Vec<u32>,
    /// The data blocks of the inode at hand.
    data: Vec<u32>,
    names: Names,
}

impl<'a> Walk<'a> {
    fn new(image: &'a [u8], blocks: usize) -> Walk<'a> {
        Walk {
            image: &image[..blocks * BLOCK],
            blocks,
            used: vec![0; BLOCK],
            queue: Vec::new(),
            named: vec![0; blocks],
            parent: vec![0; blocks],
            data: Vec::new(),
            names: Names {
                table: Vec::new(),
                mask: 0,
            },
        }
    }

    fn run(&mut self) -> Result<(), Damaged> {
        self.take(0)?;
        self.take(2)?;
        self.queue.push(ROOT);
        self.parent[ROOT as usize] = ROOT;
        let mut next = 0;
        while next < self.queue.len() {
            let number = self.queue[next];
            next += 1;
            self.inode(number)?;
        }
        for &number in &self.queue {
            let head = self.head(number);
            if head.kind != DIR && self.named[number as usize] != u32::from(head.links) {
                return Err(Damaged);
            }
        }
        self.map()
    }

    /// Every block is in use or free; past the last one no bit is set.
    fn map(&self) -> Result<(), Damaged> {
        let map = &self.image[2 * BLOCK..3 * BLOCK];
        let whole = self.blocks / 8;
        let last = (1u16 << (self.blocks % 8)) as u8;
        let last = last.wrapping_sub(1);
        let mut unused = 0;
        for (i, (&free, &used)) in map.iter().zip(&self.used).enumerate() {
            let expected = match i {
                _ if i < whole => 255,
                _ if i == whole => last,
                _ => 0,
            };
            if free ^ used != expected || free & used != 0 {
                return Err(Damaged);
            }
            unused += free.count_ones();
        }
        if unused == word(self.image, 8) {
            Ok(())
        } else {
            Err(Damaged)
        }
    }

    fn take(&mut self, block: u32) -> Result<(), Damaged> {
        if block as usize >= self.blocks {
            return Err(Damaged);
        }
        let byte = &mut self.used[block as usize / 8];
        let bit = 1 << (block % 8);
        if *byte & bit != 0 {
            return Err(Damaged);
        }
        *byte |= bit;
        Ok(())
    }

    fn block(&self, number: u32) -> &'a [u8] {
        &self.image[number as usize * BLOCK..][..BLOCK]
    }

    fn head(&self, number: u32) -> Head {
        let record = self.block(number);
        Head {
            size: word(record, 0) as usize,
            kind: half(record, 4),
            links: half(record, 6),
            count: word(record, 8) as usize,
            indirect: word(record, 60),
            double: word(record, 64),
        }
    }

    fn inode(&mut self, number: u32) -> Result<(), Damaged> {
        self.take(number)?;
        let head = self.head(number);
        let right = (1..=3).contains(&head.kind)
            && head.count == (head.size + BLOCK - 1) / BLOCK
            && head.count < self.blocks
            && (head.indirect != 0) == (head.count >= 12)
            && (head.double != 0) == (head.count >= 1036);
        if !right || (number == ROOT && head.kind != DIR) {
            return Err(Damaged);
        }
        self.blocks_of(number, &head)?;
        if head.kind == DIR {
            self.directory(number, &head)?;
        }
        Ok(())
    }

    fn blocks_of(&mut self, number: u32, head: &Head) -> Result<(), Damaged> {
        self.data.clear();
        let count = head.count;
        self.slots(&self.block(number)[12..60], count, head.kind)?;
        if count >= 12 {
            self.take(head.indirect)?;
            self.slots(self.block(head.indirect), count - 12, head.kind)?;
        }
        if count >= 1036 {
            self.take(head.double)?;
            let seconds = self.block(head.double);
            for j in 0..=(count - 1036) / 1024 {
                let second = word(seconds, 4 * j);
                self.take(second)?;
                self.slots(self.block(second), count - 1036 - 1024 * j, head.kind)?;
            }
        }
        Ok(())
    }

    /// Takes the blocks in the first `wanted` slots, or in all there are. Those of a directory will be read.
    fn slots(&mut self, slots: &[u8], wanted: usize, kind: u16) -> Result<(), Damaged> {
        let slots = slots.chunks_exact(4).take(wanted).map(|slot| word(slot, 0));
        if kind == DIR {
            self.data.extend(slots.clone());
        }
        for block in slots {
            self.take(block)?;
        }
        Ok(())
    }

    /// Entry k of the directory at hand; `buffer` holds it where it crosses into another block.
    fn entry<'b>(&self, k: usize, buffer: &'b mut [u8; ENTRY]) -> &'b [u8]
    where
        'a: 'b,
    {
        let (i, at) = (ENTRY * k / BLOCK, ENTRY * k % BLOCK);
        let first = &self.block(self.data[i])[at..];
        if first.len() >= ENTRY {
            return &first[..ENTRY];
        }
        let rest = &self.block(self.data[i + 1])[..ENTRY - first.len()];
        buffer[..first.len()].copy_from_slice(first);
        buffer[first.len()..].copy_from_slice(rest);
        &buffer[..]
    }

    fn directory(&mut self, number: u32, head: &Head) -> Result<(), Damaged> {
        let entries = head.size / ENTRY;
        if head.size % ENTRY != 0 || entries < 2 {
            return Err(Damaged);
        }
        let mut names = std::mem::replace(
            &mut self.names,
            Names {
                table: Vec::new(),
                mask: 0,
            },
        );
        names.clear(entries);
        let mut subdirectories = 0;
        let mut buffer = [0; ENTRY];
        let mut other = [0; ENTRY];
        for k in 0..entries {
            let entry = self.entry(k, &mut buffer);
            let named = word(entry, 0);
            let (name, hash) = name_in(entry)?;
            let expected = match k {
                0 => name == b"." && named == number,
                1 => name == b".." && named == self.parent[number as usize],
                _ => true,
            };
            let known = names.insert(hash, k, |k| is_named(self.entry(k, &mut other), name));
            if !expected || known {
                return Err(Damaged);
            }
            if k >= 2 {
                subdirectories += self.child(number, named)?;
            }
        }
        self.names = names;
        if usize::from(head.links) == 2 + subdirectories {
            Ok(())
        } else {
            Err(Damaged)
        }
    }

    /// Answers 1 for a directory.
    fn child(&mut self, dir: u32, number: u32) -> Result<usize, Damaged> {
        let at = number as usize;
        if at >= self.blocks || number == ROOT {
            return Err(Damaged);
        }
        let directory = half(self.image, at * BLOCK + 4) == DIR;
        self.named[at] += 1;
        if self.named[at] == 1 {
            self.parent[at] = dir;
            self.queue.push(number);
        } else if directory {
            return Err(Damaged);
        }
        Ok(usize::from(directory))
    }
}

/// The bytes of a name before its NUL, and their hash: eight at a time, by the usual trick for a zero byte.
fn name_in(entry: &[u8]) -> Result<(&[u8], u64), Damaged> {
    const ONES: u64 = 0x0101_0101_0101_0101;
    let bytes = &entry[4..ENTRY];
    let mut hash = 0x2d35_8dcc_aa6c_78a5;
    for (i, chunk) in bytes.chunks_exact(8).enumerate() {
        let word = long(chunk, 0);
        let zero = word.wrapping_sub(ONES) & !word & (ONES << 7);
        if zero == 0 {
            hash = step(hash, word);
            continue;
        }
        // The lowest mark is the first NUL; what stands below it belongs to the name.
        let below = (zero & zero.wrapping_neg()) - 1;
        let len = 8 * i + below.count_ones() as usize / 8;
        let hash = step(hash, word & below);
        return if len == 0 {
            Err(Damaged)
        } else {
            Ok((&bytes[..len], hash))
        };
    }
    Err(Damaged)
}

/// The two halves of a product, folded: names that differ in a few digits are far apart.
fn step(hash: u64, word: u64) -> u64 {
    let product = u128::from(hash ^ word) * 0x9e37_79b9_7f4a_7c15_u128;
    product as u64 ^ (product >> 64) as u64
}

pub fn is_named(entry: &[u8], name: &[u8]) -> bool {
    entry[4..].starts_with(name) && entry[4 + name.len()] == 0
}

/// The names of one directory by open addressing: in each place a part of the hash, and the entry's index
/// plus one.
struct Names {
    table: Vec<(u32, u32)>,
    mask: usize,
}

impl Names {
    fn clear(&mut self, entries: usize) {
        let places = (2 * entries).next_power_of_two();
        self.table.clear();
        self.table.resize(places, (0, 0));
        self.mask = places - 1;
    }

    /// Answers whether the name was there. `same` tells whether an earlier entry has it.
    fn insert(&mut self, hash: u64, k: usize, mut same: impl FnMut(usize) -> bool) -> bool {
        let mark = (hash >> 32) as u32;
        let mut at = hash as usize & self.mask;
        loop {
            match self.table[at] {
                (_, 0) => {
                    self.table[at] = (mark, k as u32 + 1);
                    return false;
                }
                (there, entry) if there == mark && same(entry as usize - 1) => return true,
                _ => (),
            }
            at = (at + 1) & self.mask;
        }
    }
}
