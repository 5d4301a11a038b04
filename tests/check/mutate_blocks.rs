//! Changes of a card that keep the account of blocks: what breaks then is one rule alone, or none.

use crate::mutate::Hand;
use kit::plan::{Inode, Kind, BLOCK, ENTRY, ROOT};

/// The places in the image that hold the numbers of an inode's blocks, each with its number: data and pointer blocks.
fn places(n: &Inode) -> Vec<(usize, u32)> {
    let mut places: Vec<(usize, u32)> = n.data.iter().enumerate().map(|(i, &b)| (n.slot(i), b)).collect();
    let seconds = n.seconds.iter().enumerate();
    places.extend(seconds.map(|(j, &b)| (n.double as usize * BLOCK + 4 * j, b)));
    places.extend([(n.field(60), n.indirect), (n.field(64), n.double)].iter().filter(|place| place.1 != 0));
    places
}

fn any_place(h: &mut Hand) -> Option<(usize, u32)> {
    let n = h.inode(|n| !n.data.is_empty());
    let places = places(n);
    // Pointer blocks stand last and are few: as often as data.
    let pointers = places.len() - n.data.len();
    let from = if pointers > 0 && h.rng.percent(50) { n.data.len() } else { 0 };
    if places.is_empty() {
        None
    } else {
        Some(places[h.rng.from_to(from, places.len() - 1)])
    }
}

/// A block's bytes go to a free one, and its number and the map follow: whole.
pub fn block_moved(h: &mut Hand) {
    if h.card.free.is_empty() {
        return;
    }
    if let Some((place, old)) = any_place(h) {
        let new = h.rng.pick(&h.card.free);
        for i in 0..BLOCK {
            let byte = h.byte(old as usize * BLOCK + i);
            h.put8(new as usize * BLOCK + i, byte);
        }
        h.put32(place, new);
        h.flip_bit(old);
        h.flip_bit(new);
    }
}

/// A number in use becomes another one in use, and the block that lost its owner is free: one block is used twice.
pub fn slot_accounted(h: &mut Hand) {
    if let (Some((place, old)), Some((_, other))) = (any_place(h), any_place(h)) {
        let value = match h.rng.below(4) {
            0 => h.any().number,
            1 => h.rng.pick(&[0, 1, 2, 3]),
            _ => other,
        };
        if value != old {
            h.put32(place, value);
            h.flip_bit(old);
            h.put32(8, h.word(8).wrapping_add(1));
        }
    }
}

/// The root a file or symbolic link that nobody names: on a card without other inodes rule 3 alone is broken.
pub fn root_as_file(h: &mut Hand) {
    let root = &h.card.inodes[ROOT];
    let kind = h.rng.pick(&[1, 3]);
    h.put16(root.field(4), kind);
    h.put16(root.field(6), 0);
}

/// A directory's last entry, one of several of a file, is dropped: whole where the directory keeps its blocks.
pub fn entry_dropped(h: &mut Hand) {
    let card = h.card;
    let shared = |n: &Inode| {
        n.entries.last().map_or(false, |e| card.inodes[e.1].links > 1 && card.inodes[e.1].kind != Kind::Dir)
    };
    let dir = h.inode(shared);
    if let Some(entry) = dir.entries.last() {
        let file = &card.inodes[entry.1];
        h.put32(dir.field(0), dir.size - ENTRY as u32);
        h.put16(file.field(6), file.links.wrapping_sub(1));
    }
}

/// A pointer block's bytes go to a data block of a file, which serves as both from now on; the old one is free.
/// All numbers are in order, and one block is used twice.
pub fn pointer_shared(h: &mut Hand) {
    let level = h.rng.pick(&[12, 1036]);
    let n = h.inode(|n| n.data.len() >= level);
    let file = h.inode(|n| n.kind != Kind::Dir && !n.data.is_empty());
    let pointers = places(n).split_off(n.data.len());
    if pointers.is_empty() || file.data.is_empty() {
        return;
    }
    let (place, old) = h.rng.pick(&pointers);
    let new = h.rng.pick(&file.data);
    for i in 0..BLOCK {
        let byte = h.byte(old as usize * BLOCK + i);
        h.put8(new as usize * BLOCK + i, byte);
    }
    h.put32(place, new);
    h.flip_bit(old);
    h.put32(8, h.word(8).wrapping_add(1));
}
