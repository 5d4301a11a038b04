//! The steps of a recording: 64 bytes each, sixteen words, and then the names or bytes that belong to it.

use crate::judge::Told;
use crate::made;
use oracle::Call;

const CARD: u32 = 1;
const BYTES: u32 = 2;

/// The words that say what is asked; `tail` follows the sixteen.
#[derive(Default)]
struct Asked {
    op: u32,
    inode: u32,
    other: u32,
    at: u64,
    long: usize,
    more: usize,
    seed: u32,
    tail: Vec<u8>,
}

#[derive(Default)]
pub struct Recording {
    pub bytes: Vec<u8>,
    pub cards: usize,
    pub calls: usize,
}

impl Recording {
    /// A card of so many bytes: zeros, or those made from a seed other than 0.
    pub fn card(&mut self, len: usize, seed: u32) {
        self.cards += 1;
        self.step(Asked { op: CARD, long: len, seed, ..Asked::default() }, 0, &Told::default(), 0);
    }

    pub fn put(&mut self, at: usize, bytes: &[u8]) {
        let asked = Asked { op: BYTES, at: at as u64, long: bytes.len(), tail: bytes.to_vec(), ..Asked::default() };
        self.step(asked, 0, &Told::default(), 0);
    }

    /// A call with so many words of scratch, what was told, and the card afterwards. A write's bytes are those of the seed.
    pub fn call(&mut self, call: &Call, seed: u32, scratch: usize, told: &Told, image: &[u8]) {
        self.calls += 1;
        self.step(asked(call, seed), scratch, told, made::sum(image));
    }

    fn step(&mut self, asked: Asked, scratch: usize, told: &Told, image: u32) {
        let (low, high) = (asked.at as u32, (asked.at >> 32) as u32);
        let [a, b, c, d] = told.words;
        let words = [
            asked.op,
            asked.inode,
            asked.other,
            low,
            high,
            asked.long as u32,
            asked.more as u32,
            asked.seed,
            scratch as u32,
            told.number,
            a,
            b,
            c,
            d,
            image,
            told.bytes.as_ref().map_or(0, |bytes| made::sum(bytes)),
        ];
        words.iter().for_each(|word| self.bytes.extend(word.to_le_bytes()));
        self.bytes.extend(asked.tail);
    }
}

fn asked(call: &Call, seed: u32) -> Asked {
    let plain = |op, inode, other, at| Asked { op, inode, other, at, ..Asked::default() };
    let named =
        |op, dir, name: &[u8], other| Asked { long: name.len(), tail: name.to_vec(), ..plain(op, dir, other, 0) };
    match call {
        Call::Format { space } => plain(3, 0, 0, *space),
        Call::Counts => plain(4, 0, 0, 0),
        Call::Metadata { inode } => plain(5, *inode, 0, 0),
        Call::Read { inode, offset, len } => Asked { long: *len, ..plain(6, *inode, 0, *offset) },
        Call::Write { inode, offset, data } => Asked { long: data.len(), seed, ..plain(7, *inode, 0, *offset) },
        Call::Resize { inode, len } => plain(8, *inode, 0, *len),
        Call::Create { dir, name, kind } => named(9, *dir, name, *kind),
        Call::Link { dir, name, inode } => named(10, *dir, name, *inode),
        Call::Unlink { dir, name } => named(11, *dir, name, 0),
        Call::Move { dir, old, target, new } => {
            Asked { more: new.len(), tail: [&old[..], new].concat(), ..named(12, *dir, old, *target) }
        }
        Call::Find { dir, name } => named(13, *dir, name, 0),
        Call::Entry { dir, index } => plain(14, *dir, 0, *index),
    }
}
