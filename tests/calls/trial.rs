//! One card after another, with every call put to each.

use crate::made::{Base, Made};
use crate::pair::{shown, Pair};
use crate::requests::{entry, space, Asker, CALLS};
use kit::plan::put32;
use kit::rng::Rng;
use kit::rules::Answer;
use std::collections::BTreeMap;

/// Blocks of the largest card.
const MOST: usize = 32_768;

pub struct Trial {
    seed: u64,
    base: Option<Base>,
    pub pair: Pair,
    /// How many cards there were, by the answer of the check with enough scratch and the first rule found broken.
    pub cards: BTreeMap<(u32, &'static str), u64>,
}

impl Trial {
    pub fn new(seed: u64) -> Trial {
        Trial { seed, base: None, pair: Pair::new(seed, MOST + 1), cards: BTreeMap::new() }
    }

    /// The card of that number. Err is the first difference.
    pub fn run(&mut self, card: u64) -> Result<(), String> {
        let base = Base::of(self.base.take(), self.seed, card);
        let mut rng = Rng::of(!self.seed, card);
        self.pair.reseed(Rng::of(self.seed ^ 1, card));
        let made = base.make(&mut rng);
        self.put(&base, made, &mut rng)?;
        self.base = Some(base);
        Ok(())
    }

    /// Cards at the limits of the block count, and next to them, on slices that are long enough: "16 to 32,768 blocks".
    pub fn limits(&mut self) -> Result<(), String> {
        for blocks in [15, 16, MOST, MOST + 1] {
            let mut rng = Rng::of(self.seed, blocks as u64);
            let base = Base::empty(blocks, &mut rng);
            let mut image = base.card.image.clone();
            // The map has no bit for the block past the most.
            put32(&mut image, 8, blocks.min(MOST) as u32 - 4);
            let made = Made::new(image, format!("{} blocks", blocks));
            self.put(&base, made, &mut rng)?;
        }
        Ok(())
    }

    fn put(&mut self, base: &Base, made: Made, rng: &mut Rng) -> Result<(), String> {
        let Made { image, said, answer } = made;
        let len = image.len();
        let calls = if answer.status == 0 {
            self.pair.start(image);
            self.whole(rng)
        } else {
            self.pair.lend(image);
            self.damaged(base, &answer, rng)
        };
        let told = |error| format!("{}, {} bytes, {} ({}): {}", said, len, answer.status, answer.why, error);
        calls.and_then(|()| self.others(rng)).map_err(told)?;
        *self.cards.entry((answer.status, answer.why)).or_default() += 1;
        Ok(())
    }

    /// Each call once, in any order. RULES decides by the card and the scratch alone, and nothing is changed.
    fn damaged(&mut self, base: &Base, answer: &Answer, rng: &mut Rng) -> Result<(), String> {
        for which in order(rng) {
            let call = Asker { rng, image: &base.card.image, tree: &base.tree }.call(which);
            let words = scratch(rng, answer.cleared);
            // "block count, F or slice length (3), scratch (1), the other rules of a whole card (3)"
            let (status, cleared) = if words < answer.cleared { (1, 0) } else { (answer.status, answer.cleared) };
            let said = self.pair.ask_library(&call, status, words, cleared);
            said.map_err(|error| format!("{} with {} words: {}", shown(&call), words, error))?;
        }
        Ok(())
    }

    /// Each call twice, judged by RULES and the Rust; each now and then with too little scratch before.
    fn whole(&mut self, rng: &mut Rng) -> Result<(), String> {
        for which in order(rng).into_iter().chain(order(rng)) {
            let call = Asker { rng, image: self.pair.image(), tree: &self.pair.tree }.call(which);
            if rng.percent(15) {
                let words = scratch(rng, 4 * self.blocks());
                if words < 4 * self.blocks() {
                    let said = self.pair.ask_library(&call, 1, words, 0);
                    said.map_err(|error| format!("{} with {} words: {}", shown(&call), words, error))?;
                }
            }
            if self.pair.judges(&call) {
                self.pair.ask(&call)?;
            }
        }
        Ok(())
    }

    fn blocks(&self) -> usize {
        oracle::image::word(self.pair.image(), 4).unwrap_or(0) as usize
    }

    /// The two calls that ask nothing of the card.
    fn others(&mut self, rng: &mut Rng) -> Result<(), String> {
        self.pair.same_name(&entry(rng))?;
        let space = space(rng, self.pair.image().len());
        self.pair.format_lent(space).map(|_| ())
    }
}

fn order(rng: &mut Rng) -> [usize; CALLS] {
    let mut order = [0; CALLS];
    order.iter_mut().enumerate().for_each(|(i, which)| *which = i);
    rng.shuffle(&mut order);
    order
}

/// So many words where `exact` are asked for; any number where the card is refused before.
fn scratch(rng: &mut Rng, exact: usize) -> usize {
    let exact = if exact == 0 { rng.pick(&[0, 1, 64, 160]) } else { exact };
    match rng.below(100) {
        0..=6 => exact.saturating_sub(1),
        7..=8 => 0,
        9..=10 => rng.below(exact),
        11..=14 => exact / 4,
        15..=40 => exact + rng.from_to(1, 9),
        _ => exact,
    }
}
