//! The map with one free block, or two, at each place of a byte, of a group of eight bytes, and of what follows the last group;
//! and with none.

use crate::expect::unused;
use crate::pair::{resize, write, Pair};
use kit::plan::{Card, Fill, Kind, Plan, BLOCK, ROOT};
use kit::rng::Rng;

/// The map: two groups of eight bytes, a byte, and half of one.
const BLOCKS: usize = 140;

/// How far the second of two free blocks is from the first, in turn: in its byte, in the next, in the next group.
const APART: [u32; 7] = [1, 2, 7, 8, 9, 63, 64];

const END: u64 = BLOCK as u64;

pub fn run(pair: &mut Pair, seed: u64) -> Result<usize, String> {
    let mut maps = 0;
    for first in 4..BLOCKS as u32 {
        let second = first + APART[first as usize % APART.len()];
        let both: &[u32] = if (second as usize) < BLOCKS { &[first, second] } else { &[first] };
        for free in [&[first][..], both] {
            grown(pair, free, &mut Rng::of(seed, u64::from(first))).map_err(|error| format!("free: {:?}: {}", free, error))?;
            maps += 1;
        }
    }
    grown(pair, &[], &mut Rng::new(seed)).map_err(|error| format!("none free: {}", error))?;
    Ok(maps + 1)
}

/// Two files of one block and of none, and a third that leaves these blocks free.
fn card(free: &[u32], rng: &mut Rng) -> Card {
    let mut plan = Plan::new(BLOCKS);
    plan.file(Kind::File, ROOT, b"file", 100).expect("room");
    plan.file(Kind::File, ROOT, b"other", 0).expect("room");
    // Its record and its block of pointers.
    let data = plan.left() - free.len() - 2;
    plan.file(Kind::File, ROOT, b"rest", data * BLOCK).expect("room");
    let mut card = plan.card_leaving(rng, Fill::Noise, free);
    card.image[12..44].copy_from_slice(b"maps\0 and noise after the text\0\0");
    card
}

fn left(pair: &Pair, wanted: usize) -> Result<(), String> {
    match unused(pair.image()) {
        count if count == wanted => Ok(()),
        count => Err(format!("{} blocks are left and should be {}", count, wanted)),
    }
}

/// Every free block is taken by growth, none is left for more, and what is freed is taken again by the other file.
fn grown(pair: &mut Pair, free: &[u32], rng: &mut Rng) -> Result<(), String> {
    let card = card(free, rng);
    let (file, other) = (card.inodes[1].number, card.inodes[2].number);
    pair.start(card.image);
    left(pair, free.len())?;
    pair.must(resize(file, END * (2 + free.len() as u64)), 14)?;
    pair.must(write(file, END * free.len() as u64, &[7; 9]), 0)?;
    left(pair, 0)?;
    pair.must(resize(file, END * (1 + free.len() as u64) + 1), 14)?;
    pair.must(write(other, 0, &[7]), 14)?;
    pair.must(resize(file, 0), 0)?;
    left(pair, 1 + free.len())?;
    pair.must(resize(other, END * (1 + free.len() as u64)), 0)?;
    left(pair, 0)
}
