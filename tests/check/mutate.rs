//! Changes of a whole card that aim at its fields. Some leave it whole, most break a rule; none knows the answer.

use crate::mutate_blocks::*;
use crate::mutate_entries::*;
use kit::plan::{put16, put32, Card, Inode, Kind, BLOCK, MAGIC, ROOT};
use kit::rng::Rng;

/// A card in somebody's hands: `image` is changed, `card` tells where things were.
pub struct Hand<'a> {
    pub card: &'a Card,
    pub image: Vec<u8>,
    pub rng: &'a mut Rng,
}

type Change = fn(&mut Hand);

/// Each change with its weight.
const CHANGES: [(&str, usize, Change); 38] = [
    ("none", 3, |_| ()),
    ("magic", 2, magic),
    ("block count", 2, block_count),
    ("one block fewer, accounted for", 2, one_block_fewer),
    ("unused", 2, unused),
    ("F", 1, map_blocks),
    ("text", 1, text),
    ("map bit", 3, map_bit),
    ("map bit past the count", 1, bit_past),
    ("map bit and unused", 4, bit_accounted),
    ("map bits exchanged", 3, bits_exchanged),
    ("size", 4, size),
    ("size and block count", 3, size_and_count),
    ("kind", 3, kind),
    ("links", 3, links),
    ("block count of an inode", 2, count),
    ("direct slot", 4, direct_slot),
    ("indirect", 3, indirect),
    ("double indirect", 2, double),
    ("slot in a pointer block", 5, pointer_slot),
    ("slot in use", 4, used_slot),
    ("entry number", 5, entry_number),
    ("entry number and links", 5, entry_and_links),
    ("name twice", 4, name_twice),
    ("name emptied", 1, name_emptied),
    ("name without NUL", 2, name_endless),
    ("name byte", 4, name_byte),
    ("\".\" or \"..\"", 4, dots),
    ("entries exchanged", 4, entries_exchanged),
    ("loop cut off", 4, loop_cut_off),
    ("bytes no rule mentions", 5, unmentioned),
    ("slice length", 4, slice_length),
    ("random bytes", 2, random_bytes),
    ("block moved", 4, block_moved),
    ("slot, accounted for", 4, slot_accounted),
    ("pointer block shared", 4, pointer_shared),
    ("root as a file", 2, root_as_file),
    ("entry dropped", 3, entry_dropped),
];

/// One change or more on the image; says which.
pub fn change(hand: &mut Hand) -> String {
    let turns = if hand.rng.percent(25) { 2 } else { 1 };
    let all: usize = CHANGES.iter().map(|change| change.1).sum();
    let mut said = Vec::new();
    for _ in 0..turns {
        let mut at = hand.rng.below(all);
        for (name, weight, act) in CHANGES {
            if at < weight {
                said.push(name);
                act(hand);
                break;
            }
            at -= weight;
        }
    }
    said.join(" + ")
}

impl<'a> Hand<'a> {
    /// Writes where the slice still reaches: an earlier change may have shortened it.
    pub fn put32(&mut self, at: usize, value: u32) {
        if at + 4 <= self.image.len() {
            put32(&mut self.image, at, value);
        }
    }

    pub fn put16(&mut self, at: usize, value: u16) {
        if at + 2 <= self.image.len() {
            put16(&mut self.image, at, value);
        }
    }

    pub fn put8(&mut self, at: usize, value: u8) {
        if let Some(byte) = self.image.get_mut(at) {
            *byte = value;
        }
    }

    pub fn byte(&self, at: usize) -> u8 {
        self.image.get(at).copied().unwrap_or(0)
    }

    pub fn half(&self, at: usize) -> u16 {
        u16::from(self.byte(at)) | u16::from(self.byte(at + 1)) << 8
    }

    pub fn word(&self, at: usize) -> u32 {
        u32::from(self.half(at)) | u32::from(self.half(at + 2)) << 16
    }

    pub fn flip_bit(&mut self, block: u32) {
        let at = 2 * BLOCK + block as usize / 8;
        self.put8(at, self.byte(at) ^ 1 << (block % 8));
    }

    /// One of the inodes that fit; the root where none does.
    pub fn inode(&mut self, fits: impl Fn(&Inode) -> bool) -> &'a Inode {
        let card = self.card;
        let few: Vec<&Inode> = card.inodes.iter().filter(|inode| fits(inode)).collect();
        if few.is_empty() {
            &card.inodes[ROOT]
        } else {
            self.rng.pick(&few)
        }
    }

    pub fn any(&mut self) -> &'a Inode {
        self.inode(|_| true)
    }

    pub fn dir(&mut self) -> &'a Inode {
        self.inode(|inode| inode.kind == Kind::Dir)
    }

    /// A directory with at least one entry besides the two, and the index of one of them.
    pub fn entry(&mut self) -> Option<(&'a Inode, usize)> {
        let dir = self.inode(|inode| !inode.entries.is_empty());
        let k = self.rng.below(dir.entries.len());
        (!dir.entries.is_empty()).then_some((dir, 2 + k))
    }

    /// A number that may be somebody's block, somebody's inode, free, just outside, or anything.
    pub fn number(&mut self) -> u32 {
        let blocks = self.card.blocks;
        match self.rng.below(10) {
            0 => self.rng.pick(&[0, 1, 2, 3]),
            1 => self.rng.pick(&[blocks - 1, blocks, blocks + 1, 32767, 32768, u32::MAX]),
            2 | 3 => self.any().number,
            4 | 5 if !self.card.free.is_empty() => self.rng.pick(&self.card.free),
            6 => self.rng.next() as u32,
            _ => self.rng.below(blocks as usize) as u32,
        }
    }

    /// Mostly a step away from what was there, seldom anything.
    fn near(&mut self, old: u32, steps: &[i64]) -> u32 {
        let step = self.rng.pick(steps);
        match self.rng.below(10) {
            0 => self.rng.next() as u32,
            1 => self.rng.pick(&[0, 1, u32::MAX]),
            _ => (i64::from(old) + step) as u32,
        }
    }
}

fn magic(h: &mut Hand) {
    let bit = h.rng.below(32);
    h.put32(0, MAGIC ^ 1 << bit);
}

fn block_count(h: &mut Hand) {
    let edge = h.rng.pick(&[15, 16, 17, 32767, 32768, 32769, 0]);
    let near = h.near(h.card.blocks, &[1, -1, 8, -8]);
    let value = if h.rng.percent(30) { edge } else { near };
    h.put32(4, value);
}

/// Whole again where the last block was free and the count stays above 15.
fn one_block_fewer(h: &mut Hand) {
    let last = h.card.blocks - 1;
    h.put32(4, last);
    h.put32(8, h.word(8).wrapping_sub(1));
    h.flip_bit(last);
}

fn unused(h: &mut Hand) {
    let value = h.near(h.word(8), &[1, -1]);
    h.put32(8, value);
}

fn map_blocks(h: &mut Hand) {
    let value = h.near(1, &[1, -1, 256]);
    h.put32(44, value);
}

fn text(h: &mut Hand) {
    let at = h.rng.from_to(12, 43);
    let value = h.rng.next() as u8;
    h.put8(at, value);
}

fn map_bit(h: &mut Hand) {
    let block = h.rng.below(h.card.blocks as usize) as u32;
    h.flip_bit(block);
}

fn bit_past(h: &mut Hand) {
    let first = h.card.blocks as usize;
    let block = h.rng.pick(&[first, first + 7, 32767]).max(first).min(32767) as u32;
    h.flip_bit(block);
    if h.rng.percent(50) {
        h.put32(8, h.word(8).wrapping_add(1));
    }
}

/// A bit with the unused count to match: only the owners tell.
fn bit_accounted(h: &mut Hand) {
    let block = h.rng.below(h.card.blocks as usize) as u32;
    let step = if h.card.free.contains(&block) { u32::MAX } else { 1 };
    h.flip_bit(block);
    h.put32(8, h.word(8).wrapping_add(step));
}

/// A free block for one in use: the unused count stays.
fn bits_exchanged(h: &mut Hand) {
    if !h.card.free.is_empty() {
        let free = h.rng.pick(&h.card.free);
        let inode = h.any();
        let used = if inode.data.is_empty() { inode.number } else { h.rng.pick(&inode.data) };
        h.flip_bit(free);
        h.flip_bit(used);
    }
}

fn size(h: &mut Hand) {
    let n = h.any();
    let value = h.near(n.size, &[1, -1, 260, -260, 4096, -4096, 520]);
    h.put32(n.field(0), value);
}

fn size_and_count(h: &mut Hand) {
    let n = h.any();
    let size = h.near(n.size, &[1, -1, 260, -260, 4096, -4096, 12 * 4096, 1036 * 4096]);
    h.put32(n.field(0), size);
    h.put32(n.field(8), size / 4096 + u32::from(size % 4096 > 0));
}

fn kind(h: &mut Hand) {
    let n = h.any();
    let value = h.rng.pick(&[0, 1, 1, 2, 3, 3, 4, 5, 256 + n.kind as u16, u16::MAX]);
    h.put16(n.field(4), value);
}

fn links(h: &mut Hand) {
    let n = h.any();
    let value = h.near(u32::from(n.links), &[1, -1]);
    h.put16(n.field(6), value as u16);
}

fn count(h: &mut Hand) {
    let n = h.any();
    let value = h.near(n.data.len() as u32, &[1, -1]);
    h.put32(n.field(8), value);
}

fn direct_slot(h: &mut Hand) {
    let n = h.any();
    let i = h.rng.below(12);
    let value = h.number();
    h.put32(n.field(12 + 4 * i), value);
}

fn indirect(h: &mut Hand) {
    let n = h.inode(|n| n.data.len() >= 11);
    let value = h.number();
    h.put32(n.field(60), value);
}

fn double(h: &mut Hand) {
    let n = h.inode(|n| n.data.len() >= 1035);
    let value = h.number();
    h.put32(n.field(64), value);
}

/// Any slot of a pointer block, in use or not, or the one where use ends.
fn pointer_slot(h: &mut Hand) {
    let n = h.inode(|n| n.indirect != 0);
    let mut blocks = vec![n.indirect, n.double];
    blocks.extend(&n.seconds);
    blocks.retain(|&b| b != 0);
    if !blocks.is_empty() {
        let block = h.rng.pick(&blocks) as usize;
        let end = [0, 1, n.seconds.len(), n.data.len().saturating_sub(12), n.data.len() % 1024];
        let slot = if h.rng.percent(50) { h.rng.below(1024) } else { h.rng.pick(&end) % 1024 };
        let value = h.number();
        h.put32(block * BLOCK + 4 * slot, value);
    }
}

/// A slot in use: another number, or exchanged with another slot of the same file.
fn used_slot(h: &mut Hand) {
    let n = h.inode(|n| !n.data.is_empty());
    if !n.data.is_empty() {
        let (i, j) = (h.rng.below(n.data.len()), h.rng.below(n.data.len()));
        if h.rng.percent(40) {
            h.put32(n.slot(i), n.data[j]);
            h.put32(n.slot(j), n.data[i]);
        } else {
            let value = h.number();
            h.put32(n.slot(i), value);
        }
    }
}

fn unmentioned(h: &mut Hand) {
    let n = h.any();
    let at = match h.rng.below(5) {
        0 => h.rng.from_to(12, 43),
        1 => h.rng.from_to(48, BLOCK - 1),
        2 => n.field(h.rng.from_to(68, BLOCK - 1)),
        3 if n.data.len() < 12 => n.field(12 + 4 * n.data.len()),
        // Behind the file's last byte in its last block.
        _ if n.size % 4096 != 0 => n.byte(n.size as usize),
        _ => 20,
    };
    let value = h.rng.next() as u8;
    h.put8(at, value);
}

fn slice_length(h: &mut Hand) {
    let all = h.image.len();
    let some = h.rng.below(all + 1);
    let len = h.rng.pick(&[0, 1, 47, 48, 4095, 4096, all.saturating_sub(1), some, all + 1, all + 100, all + 4096]);
    let old = all.min(len);
    h.image.resize(len, 0);
    h.rng.fill(&mut h.image[old..]);
}

/// Bytes out of nowhere, with as much of a superblock as lets the check go on for a while.
fn random_bytes(h: &mut Hand) {
    let len = h.rng.below(20 * BLOCK);
    h.image = vec![0; len];
    h.rng.fill(&mut h.image);
    let blocks = (len / BLOCK).max(16) as u32;
    for (at, value) in [(0, MAGIC), (44, 1), (4, blocks)] {
        if h.rng.percent(75) {
            h.put32(at, value);
        }
    }
}
