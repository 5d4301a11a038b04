//! Changes of a card that aim at directory entries.

use crate::mutate::Hand;
use kit::plan::{Inode, Kind, ENTRY, ROOT};

/// Writes part of entry k of a directory, byte by byte: it may cross blocks.
fn put_in_entry(h: &mut Hand, dir: &Inode, k: usize, from: usize, bytes: &[u8]) {
    for (i, &byte) in bytes.iter().enumerate() {
        h.put8(dir.byte(ENTRY * k + from + i), byte);
    }
}

pub fn entry_number(h: &mut Hand) {
    if let Some((dir, k)) = h.entry() {
        let value = h.number();
        put_in_entry(h, dir, k, 0, &value.to_le_bytes());
    }
}

/// Links up or down by one, in the record.
fn step_links(h: &mut Hand, n: &Inode, step: u16) {
    h.put16(n.field(6), h.half(n.field(6)).wrapping_add(step));
}

/// An entry names another inode, and links follow: for two files the card stays whole if the old one keeps a name.
pub fn entry_and_links(h: &mut Hand) {
    let shared = h.inode(|n| n.links > 1 && n.kind != Kind::Dir);
    let holds = |dir: &Inode| dir.entries.iter().any(|entry| h.card.inodes[entry.1].number == shared.number);
    let dirs: Vec<&Inode> = h.card.inodes.iter().filter(|n| holds(n)).collect();
    if dirs.is_empty() {
        return;
    }
    let dir = h.rng.pick(&dirs);
    let k = dir.entries.iter().position(|entry| h.card.inodes[entry.1].number == shared.number);
    let new = if h.rng.percent(70) { h.inode(|n| n.kind != Kind::Dir) } else { h.any() };
    put_in_entry(h, dir, 2 + k.unwrap_or(0), 0, &new.number.to_le_bytes());
    step_links(h, shared, u16::MAX);
    step_links(h, if new.kind == Kind::Dir { dir } else { new }, 1);
}

pub fn name_twice(h: &mut Hand) {
    if let Some((dir, k)) = h.entry() {
        let names = dir.entries.len();
        let name: &[u8] = match h.rng.below(8) {
            0 => b".",
            1 => b"..",
            _ => &dir.entries[h.rng.below(names)].0,
        };
        put_in_entry(h, dir, k, 4, name);
        put_in_entry(h, dir, k, 4 + name.len(), &[0]);
    }
}

pub fn name_emptied(h: &mut Hand) {
    if let Some((dir, k)) = h.entry() {
        put_in_entry(h, dir, k, 4, &[0]);
    }
}

/// 256 bytes without NUL, or 255 and the NUL.
pub fn name_endless(h: &mut Hand) {
    if let Some((dir, k)) = h.entry() {
        let last = h.rng.pick(&[0, 1, b'z']);
        put_in_entry(h, dir, k, 4, &[b'x'; 255]);
        put_in_entry(h, dir, k, 259, &[last]);
    }
}

pub fn name_byte(h: &mut Hand) {
    if let Some((dir, k)) = h.entry() {
        let len = dir.entries[k - 2].0.len();
        let at = if h.rng.percent(70) { h.rng.below(len + 1) } else { h.rng.below(256) };
        let value = h.rng.pick(&[0, b'a', b'n', 255]);
        put_in_entry(h, dir, k, 4 + at, &[value]);
    }
}

pub fn dots(h: &mut Hand) {
    let dir = h.dir();
    let k = h.rng.below(2);
    if h.rng.percent(50) {
        let value = if h.rng.percent(50) { h.dir().number } else { h.number() };
        put_in_entry(h, dir, k, 0, &value.to_le_bytes());
    } else {
        let names: [&[u8]; 7] = [b"\0", b".\0", b"..\0", b"...\0", b".\0.\0", b"a\0", b".a\0"];
        let name = h.rng.pick(&names);
        put_in_entry(h, dir, k, 4, name);
    }
}

/// Two entries of one directory in each other's place, or two numbers of two directories exchanged.
pub fn entries_exchanged(h: &mut Hand) {
    if let (Some((dir, k)), Some((other, l))) = (h.entry(), h.entry()) {
        let number = |dir: &Inode, k: usize| h.card.inodes[dir.entries[k - 2].1].number;
        if h.rng.percent(50) {
            let (a, b) = (number(dir, k), number(other, l));
            put_in_entry(h, dir, k, 0, &b.to_le_bytes());
            put_in_entry(h, other, l, 0, &a.to_le_bytes());
        } else {
            let l = h.rng.from_to(2, dir.entries.len() + 1);
            for i in 0..ENTRY {
                let (at, to) = (dir.byte(ENTRY * k + i), dir.byte(ENTRY * l + i));
                let (a, b) = (h.byte(at), h.byte(to));
                h.put8(at, b);
                h.put8(to, a);
            }
        }
    }
}

/// The entry of a directory A and one below A that names a file exchange their numbers, and "..", links follow.
/// A is then below itself and no rule but the sum of blocks is broken.
pub fn loop_cut_off(h: &mut Hand) {
    let card = h.card;
    let below = h.inode(|n| n.kind == Kind::Dir && n.number != 1 && n.entries.iter().any(|e| card.inodes[e.1].kind != Kind::Dir));
    let file = match below.entries.iter().position(|e| card.inodes[e.1].kind != Kind::Dir) {
        Some(k) if below.number != 1 => k,
        _ => return,
    };
    let mut top = below;
    while top.parent != ROOT && h.rng.percent(50) {
        top = &card.inodes[top.parent];
    }
    let parent = &card.inodes[top.parent];
    let at = parent.entries.iter().position(|e| card.inodes[e.1].number == top.number);
    let file_number = card.inodes[below.entries[file].1].number;
    put_in_entry(h, parent, 2 + at.unwrap_or(0), 0, &file_number.to_le_bytes());
    put_in_entry(h, below, 2 + file, 0, &top.number.to_le_bytes());
    put_in_entry(h, top, 1, 0, &below.number.to_le_bytes());
    step_links(h, parent, u16::MAX);
    step_links(h, below, 1);
}
