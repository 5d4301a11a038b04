//! Runs from slots that start made, beside a plain device that has the same reads and writes.

use crate::model::{Call, State, BLOCK};
use crate::trial::{bytes, Trial};
use kit::rng::Rng;
use std::collections::BTreeSet;

pub fn run(trial: &mut Trial, case: u64) -> Result<(), String> {
    let mut rng = Rng::of(trial.seed, case);
    let slots = rng.pick(&[2, 2, 3, 4, 7, 16, 33, 64]);
    // More blocks than slots, so that some give way; at times fewer.
    let blocks = if rng.percent(80) { slots + rng.from_to(1, 1 + slots) } else { rng.from_to(1, slots) };
    // At times a part of a block at the end.
    let tail = if rng.percent(50) { rng.below(BLOCK) } else { 0 };
    let mut plain = bytes(blocks * BLOCK + tail, &mut rng);
    let mut words = vec![0; 3 * slots];
    words.iter_mut().for_each(|word| *word = rng.next() as u32);
    let slots = trial.start(&words, &mut rng)?;
    let data = bytes(slots.len() / 3 * BLOCK, &mut rng);
    let mut state = State { device: plain.clone(), data, slots, buf: Vec::new() };
    for _ in 0..rng.from_to(40, 160) {
        step(trial, &mut state, &mut plain, blocks, &mut rng)?;
    }
    state.buf.clear();
    let (status, _) = trial.call(Call::Sync, &mut state, &mut rng)?;
    let same = status == 0 && state.device == plain;
    same.then(|| ()).ok_or_else(|| "after the last sync the device is not the plain one".to_string())
}

fn step(trial: &mut Trial, state: &mut State, plain: &mut [u8], blocks: usize, rng: &mut Rng) -> Result<(), String> {
    // Some blocks are asked for more often than others, and some are not there.
    let block = match rng.below(10) {
        0 => blocks + rng.below(3),
        1..=4 => rng.below(blocks / 3 + 1),
        _ => rng.below(blocks),
    };
    let long = BLOCK - usize::from(rng.percent(3));
    state.buf = bytes(long, rng);
    let call = match rng.below(100) {
        0..=3 => Call::Sync,
        4..=44 => Call::Write(block as u32),
        _ => Call::Read(block as u32),
    };
    let given = state.buf.clone();
    let before = state.clone();
    let (status, _) = trial.call(call, state, rng)?;
    // The plain device refuses what is not in it, and other buffers than blocks.
    let there = block < blocks && long == BLOCK;
    let at = block * BLOCK;
    let told = match call {
        Call::Sync => (status == 0 && state.device == *plain).then(|| ()).ok_or("the synced device differs"),
        Call::Read(_) if there => (status == 0 && state.buf == plain[at..at + BLOCK]).then(|| ()).ok_or("read other bytes"),
        Call::Write(_) if there => {
            plain[at..at + BLOCK].copy_from_slice(&given);
            (status == 0).then(|| ()).ok_or("did not write")
        }
        _ => (status == 12 && *state == before).then(|| ()).ok_or("was not refused, or changed something"),
    };
    told.map_err(|what| format!("{:?} of {} blocks: {}", call, blocks, what))?;
    stands(state, plain)
}

/// Each used slot has its block of the plain device, no block is in two, no place is two slots', and the device is the plain one
/// wherever no dirty slot has the block.
fn stands(state: &State, plain: &[u8]) -> Result<(), String> {
    let (mut blocks, mut places, mut dirty) = (BTreeSet::new(), BTreeSet::new(), BTreeSet::new());
    for (i, slot) in state.slots.chunks(3).enumerate() {
        let [status, block, place] = [slot[0], slot[1], slot[2]];
        if !places.insert(place) || status != 0 && !blocks.insert(block) {
            return Err(format!("two slots with one block or place: {:?}", state.slots));
        }
        let at = block as usize * BLOCK;
        if status != 0 && state.data[i * BLOCK..(i + 1) * BLOCK] != plain[at..at + BLOCK] {
            return Err(format!("slot {} has other bytes than its block", i));
        }
        if status == 2 {
            dirty.insert(block as usize);
        }
    }
    let parts = state.device.chunks(BLOCK).zip(plain.chunks(BLOCK)).enumerate();
    for (block, (one, two)) in parts {
        if !dirty.contains(&block) && one != two {
            return Err(format!("block {} of the device is not what was written", block));
        }
    }
    Ok(())
}
