//! The cards: whole ones, changed ones, and any bytes, each from its seed and number.

use crate::mutate::{self, Hand};
use crate::tree::Tree;
use kit::cards;
use kit::plan::{put32, Card, Fill, Plan, BLOCK, MAGIC};
use kit::rng::Rng;
use kit::rules::{self, Answer};
use oracle::image::word;

/// Cards made from one base: making one costs more than the calls on it.
const PER_BASE: u64 = 48;

/// A whole card from which others are made, and what is on it.
pub struct Base {
    group: u64,
    pub card: Card,
    pub tree: Tree,
}

/// An image, what was done to it, and what the rules say of it.
pub struct Made {
    pub image: Vec<u8>,
    pub said: String,
    pub answer: Answer,
}

impl Made {
    pub fn new(image: Vec<u8>, said: String) -> Made {
        let answer = rules::check(&image, usize::MAX);
        Made { image, said, answer }
    }
}

impl Base {
    /// Small ones, for the number of cards; a few with directories and files beyond their direct slots.
    fn new(seed: u64, group: u64) -> Base {
        let mut rng = Rng::of(seed, group);
        let most = match rng.below(1000) {
            0 => 1500,
            1..=10 => 300,
            _ => rng.from_to(16, 40),
        };
        let readable = rng.percent(80);
        let card = cards::from_seed(rng.next(), most, readable);
        let tree = Tree::read(&card.image);
        Base { group, card, tree }
    }

    /// A card of so many blocks with nothing on it but the root.
    pub fn empty(blocks: usize, rng: &mut Rng) -> Base {
        let card = Plan::new(blocks).card(rng, Fill::Zeros, false);
        let tree = Tree::read(&card.image);
        Base { group: u64::MAX, card, tree }
    }

    /// The base of that card: the one at hand, or a new one.
    pub fn of(now: Option<Base>, seed: u64, card: u64) -> Base {
        match now {
            Some(base) if base.group == card / PER_BASE => base,
            _ => Base::new(seed, card / PER_BASE),
        }
    }

    pub fn make(&self, rng: &mut Rng) -> Made {
        let mut image = self.card.image.clone();
        let said = match rng.below(100) {
            0..=3 => "nothing".to_string(),
            4..=8 => superblock(&mut image, rng),
            9..=13 => length(&mut image, rng),
            14..=16 => any_bytes(&mut image, rng),
            _ => return self.changed(image, rng),
        };
        // With another change: which refusal comes first?
        if image.len() >= 4 && rng.percent(5) {
            put32(&mut image, 0, MAGIC ^ 1 << rng.below(32));
            return Made::new(image, said + " + magic");
        }
        Made::new(image, said)
    }

    /// Many a change leaves a small card whole: it is changed again, as a rule.
    fn changed(&self, mut image: Vec<u8>, rng: &mut Rng) -> Made {
        let mut said = String::new();
        loop {
            let mut hand = Hand { card: &self.card, image, rng };
            said += &mutate::change(&mut hand);
            let made = Made::new(hand.image, said.clone());
            if made.answer.status != 0 || rng.percent(8) {
                return made;
            }
            said += " + ";
            image = made.image;
        }
    }
}

/// Counts outside of the limits, within them but not this card's, and right ones with a higher bit set.
fn superblock(image: &mut [u8], rng: &mut Rng) -> String {
    let own = word(image, 4).unwrap_or(0);
    let high = rng.pick(&[1 << 16, 1 << 20, 1 << 24, 1 << 31]);
    let blocks = rng.pick(&[0, 1, 15, 16, 32_767, 32_768, 32_769, u32::MAX - 1, u32::MAX, own, own + high, own + high]);
    put32(image, 4, blocks);
    let maps = if blocks == own || rng.percent(20) { rng.pick(&[0, 2, 1 + high, 257, u32::MAX]) } else { 1 };
    put32(image, 44, maps);
    format!("block count {} and F {}", blocks, maps)
}

/// Too short, too long, and of odd lengths.
fn length(image: &mut Vec<u8>, rng: &mut Rng) -> String {
    let all = image.len();
    let some = rng.below(all);
    let short =
        rng.pick(&[0, 1, 2, 3, 4, 7, 47, 48, 79, 4095, 4096, 4097, 8191, 12_287, 12_288, some, all - BLOCK, all - 1]);
    let len = if rng.percent(70) { short } else { all + rng.pick(&[1, 3, 47, 4095, 4096, 4097, 8193]) };
    image.resize(len, 0);
    rng.fill(&mut image[all.min(len)..]);
    format!("{} bytes of {}", len, all)
}

/// Bytes out of nowhere, some with as much of a superblock as lets the check go on.
fn any_bytes(image: &mut Vec<u8>, rng: &mut Rng) -> String {
    let len = rng.below(20 * BLOCK);
    image.clear();
    image.resize(len, rng.pick(&[0, 0xff]));
    if rng.percent(60) {
        rng.fill(image);
    }
    let blocks = (len / BLOCK).max(16) as u32;
    for (at, value) in [(0, MAGIC), (44, 1), (4, blocks)] {
        if len >= 48 && rng.percent(80) {
            put32(image, at, value);
        }
    }
    format!("{} bytes out of nowhere", len)
}
