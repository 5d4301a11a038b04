//! A call by the library and by the model, and what was met.

use crate::lent::Lent;
use crate::model::{self, Call, State, Traffic};
use kit::rng::Rng;
use std::collections::BTreeMap;

/// The most that is lent: blocks of the device, slots, and bytes of a buffer.
const DEVICE: usize = 2100;
pub const SLOTS: usize = 70;
const BUF: usize = 2 * model::BLOCK;

pub struct Trial {
    lent: Lent,
    pub seed: u64,
    /// How often each call was met, by its answer and what it did to the device.
    pub tally: BTreeMap<(&'static str, u32, &'static str), u64>,
}

impl Trial {
    pub fn new(seed: u64) -> Trial {
        let lent = Lent::new(DEVICE * model::BLOCK, (SLOTS + 1) * model::BLOCK, 3 * SLOTS + 300, BUF);
        Trial { lent, seed, tally: BTreeMap::new() }
    }

    /// Both answer the same and leave the same; then `state` is that.
    pub fn call(&mut self, call: Call, state: &mut State, rng: &mut Rng) -> Result<(u32, Traffic), String> {
        let told = |what: &str, state: &State| {
            let lens = (state.device.len(), state.data.len(), state.buf.len());
            format!("{:?} with {:?} bytes and slots {:?}: {}", call, lens, state.slots, what)
        };
        let pattern = rng.next() as u32 | 1;
        let (status, left) = self.lent.call(call, state, pattern, rng.percent(50)).map_err(|what| told(what, state))?;
        let mut expected = state.clone();
        let (number, traffic) = model::run(call, &mut expected);
        let differs = [
            (status != number, "the answer"),
            (left.slots != expected.slots, "the slots"),
            (left.data != expected.data, "the data"),
            (left.device != expected.device, "the device"),
            (left.buf != expected.buf, "the buffer"),
        ];
        if let Some((_, what)) = differs.iter().find(|(differs, _)| *differs) {
            let numbers = format!("{} where {} is right, slots left {:?}", status, number, left.slots);
            return Err(told(&format!("{} differs: {}", what, numbers), state));
        }
        self.count(call, number, &traffic);
        *state = left;
        Ok((number, traffic))
    }

    fn count(&mut self, call: Call, number: u32, traffic: &Traffic) {
        let name = match call {
            Call::Read(_) => "read",
            Call::Write(_) => "write",
            Call::Sync => "sync",
        };
        let did = match (number, traffic.read, &traffic.written[..]) {
            (0, None, []) => "without the device",
            (0, Some(_), []) => "reads the device",
            (0, None, _) => "writes back",
            (0, Some(_), _) => "writes back and reads the device",
            _ => "refused",
        };
        *self.tally.entry((name, number, did)).or_default() += 1;
    }

    pub fn start(&mut self, words: &[u32], rng: &mut Rng) -> Result<Vec<u32>, String> {
        let left = self.lent.start(words, rng.next() as u32 | 1, rng.percent(50))?;
        if left != model::started(words) {
            return Err(format!("start of {} words left {:?}", words.len(), left));
        }
        *self.tally.entry(("start", 0, "")).or_default() += 1;
        Ok(left)
    }
}

/// Bytes, for the most part alike within a block, so that making them is quick, and different in one place.
pub fn bytes(len: usize, rng: &mut Rng) -> Vec<u8> {
    let mut bytes = vec![0; len];
    for block in bytes.chunks_mut(model::BLOCK) {
        block.fill(rng.next() as u8);
        let at = rng.below(block.len());
        block[at] ^= 1 << rng.below(8);
    }
    bytes
}
