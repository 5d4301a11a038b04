//! Any words as slots, and lengths that fit or do not: damaged slots, places with gaps and up to the largest word.

use crate::model::{Call, State, BLOCK};
use crate::trial::{bytes, Trial, SLOTS};
use kit::rng::Rng;
use std::collections::BTreeSet;

/// Slots at and next to their limits, with nothing wrong but that; and start on lists of all lengths.
pub fn limits(trial: &mut Trial) -> Result<u64, String> {
    let mut cases = 0;
    for words in (0..3 * SLOTS).chain([3 * SLOTS + 200]) {
        let mut rng = Rng::of(trial.seed, words as u64);
        let noise: Vec<u32> = (0..words).map(|_| rng.next() as u32).collect();
        let slots = trial.start(&noise, &mut rng)?;
        cases += 1;
        if words > 3 * SLOTS {
            continue;
        }
        for call in [Call::Read(1), Call::Write(1), Call::Sync] {
            let (device, data) = (bytes(2 * BLOCK, &mut rng), bytes(words / 3 * BLOCK, &mut rng));
            let mut state = State { device, data, slots: slots.clone(), buf: bytes(BLOCK, &mut rng) };
            trial.call(call, &mut state, &mut rng)?;
            cases += 1;
        }
    }
    Ok(cases + large(trial)?)
}

/// A device of 8 MiB, and blocks and places that differ by powers of two alone.
fn large(trial: &mut Trial) -> Result<u64, String> {
    let mut rng = Rng::new(trial.seed);
    let slots = vec![2, 5, 256, 1, 1029, 0, 2, 2053, 1 << 31, 2, 517, 65536];
    let (device, data) = (bytes(2060 * BLOCK, &mut rng), bytes(4 * BLOCK, &mut rng));
    let mut state = State { device, data, slots, buf: bytes(BLOCK, &mut rng) };
    let calls = [Call::Read(1029), Call::Write(2053), Call::Read(1541), Call::Sync, Call::Read(2060), Call::Write(2059)];
    for call in calls {
        let (status, _) = trial.call(call, &mut state, &mut rng)?;
        if (status == 0) == (call == Call::Read(2060)) {
            return Err(format!("{:?} on a large device: {}", call, status));
        }
    }
    Ok(calls.len() as u64)
}

pub fn run(trial: &mut Trial, case: u64) -> Result<(), String> {
    let mut rng = Rng::of(!trial.seed, case);
    let (mut state, blocks) = sound(&mut rng);
    let mut block = rng.below(blocks) as u32;
    // Up to three faults at once, or none.
    for _ in 0..rng.pick(&[0, 0, 1, 1, 1, 2, 3]) {
        spoil(&mut state, &mut block, blocks, &mut rng);
    }
    let call = match rng.below(5) {
        0 => Call::Sync,
        1 | 2 => Call::Write(block),
        _ => Call::Read(block),
    };
    trial.call(call, &mut state, &mut rng).map(|_| ())
}

/// Slots that no call refuses, of any statuses, blocks and places, and how many blocks the device has.
fn sound(rng: &mut Rng) -> (State, usize) {
    let count = rng.pick(&[2, 2, 3, 5, 8, 20, 64, 64]);
    // At least as many blocks as there are slots.
    let blocks = count + rng.below(count + 2);
    let mut all: Vec<u32> = (0..blocks as u32).collect();
    rng.shuffle(&mut all);
    let mut places = BTreeSet::new();
    let wide = rng.below(4);
    while places.len() < count {
        places.insert(place(wide, rng));
    }
    let mut places: Vec<u32> = places.into_iter().collect();
    rng.shuffle(&mut places);
    let used = rng.pick(&[0, 30, 90, 100, 100]);
    let mut slots = Vec::new();
    for (block, place) in all.into_iter().zip(places) {
        match rng.percent(used) {
            true => slots.extend([1 + rng.below(2) as u32, block, place]),
            // The block of an unused slot means nothing: also none of the device, or another slot's.
            false => slots.extend([0, if rng.percent(50) { rng.below(blocks) as u32 } else { rng.next() as u32 }, place]),
        }
    }
    let tail = if rng.percent(50) { rng.below(BLOCK) } else { 0 };
    let state = State {
        device: bytes(blocks * BLOCK + tail, rng),
        data: bytes(count * BLOCK, rng),
        slots,
        buf: bytes(BLOCK, rng),
    };
    (state, blocks)
}

/// Close to each other, to a multiple of a power of two, to the largest, or anywhere.
fn place(wide: usize, rng: &mut Rng) -> u32 {
    match wide {
        0 => rng.below(80) as u32,
        1 => 256 * rng.below(400) as u32 + rng.below(2) as u32,
        2 => u32::MAX - rng.below(80) as u32,
        _ => rng.next() as u32,
    }
}

fn spoil(state: &mut State, block: &mut u32, blocks: usize, rng: &mut Rng) {
    let count = state.slots.len() / 3;
    let (i, j) = (rng.below(count.max(1)), rng.below(count.max(1)));
    let past = blocks as u32 + rng.pick(&[0, 0, 0, 1, 1 << 20, u32::MAX - 200]);
    match rng.below(12) {
        0 if count > 0 => state.slots[3 * i] = rng.pick(&[3, 3, 4, 256, 1 << 31, u32::MAX]),
        1 | 2 if i != j => state.slots[3 * i + 2] = state.slots[3 * j + 2],
        // One block in two: refused where both are used.
        3 | 4 if i != j => state.slots[3 * i + 1] = state.slots[3 * j + 1],
        5 if count > 0 => state.slots[3 * i + 1] = past,
        6 => *block = past,
        7 => state.buf = bytes(rng.pick(&[0, 1, BLOCK - 1, BLOCK + 1, 2 * BLOCK]), rng),
        8 => resize(&mut state.data, rng.pick(&[-4096, -1, 1, 4096])),
        9 => resize(&mut state.device, rng.pick(&[-4096, -4095, -1, 1, 4096])),
        10 => resize(&mut state.slots, rng.pick(&[-3, -2, -1, 1, 2, 3])),
        _ => state.slots.iter_mut().for_each(|word| *word = rng.below(3) as u32),
    }
}

/// By so much longer, with zeros, or shorter.
fn resize<T: Clone + Default>(list: &mut Vec<T>, by: isize) {
    let len = (list.len() as isize + by).max(0) as usize;
    list.resize(len, T::default());
}
