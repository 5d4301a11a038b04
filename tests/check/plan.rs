//! A tree of files put on a card, straight from the layout of RULES ("The card"). A plan says what is
//! there and keeps account of the blocks it will take; `card` gives every part its blocks and writes the bytes.

use crate::rng::Rng;
use std::collections::BTreeSet;

pub const BLOCK: usize = 4096;
pub const ENTRY: usize = 260;
pub const MAGIC: u32 = 0x2f8d_be2b;
pub const ROOT: usize = 0;

#[derive(Clone, Copy, PartialEq, Eq, Debug)]
pub enum Kind {
    File = 1,
    Dir = 2,
    Symlink = 3,
}

/// What stands in bytes that no rule mentions.
#[derive(Clone, Copy, PartialEq, Eq, Debug)]
pub enum Fill {
    Zeros,
    Ones,
    Noise,
    /// Words below the block count: a slot read by mistake then looks like one in use.
    Numbers,
}

/// The blocks that a file of b blocks owns: RULES' N(b).
pub fn owned(b: usize) -> usize {
    b + if b >= 12 { 1 } else { 0 } + if b >= 1036 { 2 + (b - 1036) / 1024 } else { 0 }
}

fn blocks_for(size: usize) -> usize {
    (size + BLOCK - 1) / BLOCK
}

struct Node {
    kind: Kind,
    parent: usize,
    /// A directory's size follows from its entries.
    size: usize,
    links: usize,
    entries: Vec<(Vec<u8>, usize)>,
}

impl Node {
    fn size(&self) -> usize {
        match self.kind {
            Kind::Dir => ENTRY * (2 + self.entries.len()),
            _ => self.size,
        }
    }
}

pub struct Plan {
    blocks: usize,
    left: usize,
    nodes: Vec<Node>,
}

impl Plan {
    /// A fresh card: superblock, root inode, map, and the root's one block.
    pub fn new(blocks: usize) -> Plan {
        let root = Node { kind: Kind::Dir, parent: ROOT, size: 0, links: 2, entries: Vec::new() };
        Plan { blocks, left: blocks - 4, nodes: vec![root] }
    }

    pub fn left(&self) -> usize {
        self.left
    }

    pub fn entries(&self, dir: usize) -> usize {
        self.nodes[dir].entries.len()
    }

    /// What one more entry costs its directory.
    fn growth(&self, dir: usize) -> usize {
        let size = self.nodes[dir].size();
        owned(blocks_for(size + ENTRY)) - owned(blocks_for(size))
    }

    fn pay(&mut self, cost: usize) -> Option<()> {
        self.left = self.left.checked_sub(cost)?;
        Some(())
    }

    /// A new directory; the caller sees to it that its name is new in the parent. None where it does not fit.
    pub fn dir(&mut self, parent: usize, name: &[u8]) -> Option<usize> {
        self.pay(2 + self.growth(parent))?;
        self.nodes[parent].links += 1;
        Some(self.add(Kind::Dir, parent, name, 0, 2))
    }

    /// A new file or symbolic link.
    pub fn file(&mut self, kind: Kind, parent: usize, name: &[u8], size: usize) -> Option<usize> {
        self.pay(1 + owned(blocks_for(size)) + self.growth(parent))?;
        Some(self.add(kind, parent, name, size, 1))
    }

    /// One more name for a file or symbolic link.
    pub fn link(&mut self, parent: usize, name: &[u8], node: usize) -> Option<()> {
        if self.nodes[node].links == 65535 {
            return None;
        }
        self.pay(self.growth(parent))?;
        self.nodes[node].links += 1;
        self.nodes[parent].entries.push((name.to_vec(), node));
        Some(())
    }

    fn add(&mut self, kind: Kind, parent: usize, name: &[u8], size: usize, links: usize) -> usize {
        let node = self.nodes.len();
        self.nodes[parent].entries.push((name.to_vec(), node));
        self.nodes.push(Node { kind, parent, size, links, entries: Vec::new() });
        node
    }

    /// The card. Blocks are given out in a random order, or in rising order where `mixed` is false.
    pub fn card(&self, rng: &mut Rng, fill: Fill, mixed: bool) -> Card {
        let mut free: Vec<u32> = (3..self.blocks as u32).rev().collect();
        if mixed {
            rng.shuffle(&mut free);
        }
        self.laid(rng, fill, free)
    }

    /// The card whose free blocks are these, as many as the plan leaves; the others are given out in rising order.
    pub fn card_leaving(&self, rng: &mut Rng, fill: Fill, free: &[u32]) -> Card {
        let kept: BTreeSet<u32> = free.iter().copied().collect();
        let taken = (3..self.blocks as u32).rev().filter(|block| !kept.contains(block));
        self.laid(rng, fill, free.iter().copied().chain(taken).collect())
    }

    /// Blocks are given out from the last of `free` on.
    fn laid(&self, rng: &mut Rng, fill: Fill, mut free: Vec<u32>) -> Card {
        let mut take = |n: usize| -> Vec<u32> { (0..n).map(|_| free.pop().expect("planned")).collect() };
        let inodes: Vec<Inode> = self
            .nodes
            .iter()
            .enumerate()
            .map(|(i, node)| {
                let count = blocks_for(node.size());
                let level = |from: usize| if count >= from { 1 } else { 0 };
                let second = if count >= 1036 { 1 + (count - 1036) / 1024 } else { 0 };
                Inode {
                    number: if i == ROOT { 1 } else { take(1)[0] },
                    kind: node.kind,
                    parent: node.parent,
                    size: node.size() as u32,
                    links: node.links as u16,
                    indirect: take(level(12)).first().copied().unwrap_or(0),
                    double: take(level(1036)).first().copied().unwrap_or(0),
                    seconds: take(second),
                    data: take(count),
                    entries: node.entries.clone(),
                }
            })
            .collect();
        assert_eq!(free.len(), self.left, "the plan's account of blocks");
        let mut card = Card { image: filled(self.blocks, rng, fill), blocks: self.blocks as u32, free, inodes };
        card.write();
        card
    }
}

fn filled(blocks: usize, rng: &mut Rng, fill: Fill) -> Vec<u8> {
    let mut image = vec![0; blocks * BLOCK];
    match fill {
        Fill::Zeros => (),
        Fill::Ones => image.fill(255),
        Fill::Noise => rng.fill(&mut image),
        Fill::Numbers => {
            for word in image.chunks_exact_mut(4) {
                word.copy_from_slice(&(rng.below(blocks) as u32).to_le_bytes());
            }
        }
    }
    image
}

/// An inode with the blocks it was given. `parent` and the entries' second part are indices into `Card::inodes`.
pub struct Inode {
    pub number: u32,
    pub kind: Kind,
    pub parent: usize,
    pub size: u32,
    pub links: u16,
    pub indirect: u32,
    pub double: u32,
    pub seconds: Vec<u32>,
    pub data: Vec<u32>,
    pub entries: Vec<(Vec<u8>, usize)>,
}

impl Inode {
    /// Where the record's field at a byte stands in the image.
    pub fn field(&self, byte: usize) -> usize {
        self.number as usize * BLOCK + byte
    }

    /// Where byte `at` of the file stands in the image.
    pub fn byte(&self, at: usize) -> usize {
        self.data[at / BLOCK] as usize * BLOCK + at % BLOCK
    }

    /// Where the slot that holds file block i stands in the image.
    pub fn slot(&self, i: usize) -> usize {
        match i {
            0..=11 => self.field(12 + 4 * i),
            12..=1035 => self.indirect as usize * BLOCK + 4 * (i - 12),
            _ => self.seconds[(i - 1036) / 1024] as usize * BLOCK + 4 * ((i - 1036) % 1024),
        }
    }
}

pub struct Card {
    pub image: Vec<u8>,
    pub blocks: u32,
    pub free: Vec<u32>,
    pub inodes: Vec<Inode>,
}

impl Card {
    fn write(&mut self) {
        let image = &mut self.image;
        put32(image, 0, MAGIC);
        put32(image, 4, self.blocks);
        put32(image, 8, self.free.len() as u32);
        put32(image, 44, 1);
        image[2 * BLOCK..3 * BLOCK].fill(0);
        for &b in &self.free {
            image[2 * BLOCK + b as usize / 8] |= 1 << (b % 8);
        }
        for n in &self.inodes {
            put32(image, n.field(0), n.size);
            put16(image, n.field(4), n.kind as u16);
            put16(image, n.field(6), n.links);
            put32(image, n.field(8), n.data.len() as u32);
            put32(image, n.field(60), n.indirect);
            put32(image, n.field(64), n.double);
            for (j, &second) in n.seconds.iter().enumerate() {
                put32(image, n.double as usize * BLOCK + 4 * j, second);
            }
            for (i, &b) in n.data.iter().enumerate() {
                put32(image, n.slot(i), b);
            }
            if n.kind == Kind::Dir {
                put_entry(image, n, 0, n.number, b".");
                put_entry(image, n, 1, self.inodes[n.parent].number, b"..");
                for (k, (name, node)) in n.entries.iter().enumerate() {
                    put_entry(image, n, 2 + k, self.inodes[*node].number, name);
                }
            }
        }
    }
}

/// Writes number, name and NUL; what follows in the 256 bytes stays.
pub fn put_entry(image: &mut [u8], dir: &Inode, k: usize, number: u32, name: &[u8]) {
    for (i, byte) in number.to_le_bytes().iter().chain(name).chain(&[0]).enumerate() {
        image[dir.byte(ENTRY * k + i)] = *byte;
    }
}

pub fn put16(image: &mut [u8], at: usize, value: u16) {
    image[at..at + 2].copy_from_slice(&value.to_le_bytes());
}

pub fn put32(image: &mut [u8], at: usize, value: u32) {
    image[at..at + 4].copy_from_slice(&value.to_le_bytes());
}
