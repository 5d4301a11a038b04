//! cache_beside: the block cache of libsfs.a beside the unchanged block_cache.rs, compared after every call.
//!
//!     cache_beside [--seed S] [--runs N] [--seconds T] [--only difference|runs] [--run R]
//!
//! The Rust's `visit` never moves slot 0, so that this slot never gives way; the library's least recently used of all does. So the
//! Rust is given one slot more, which a block takes that is not asked for again: then both do the same. They also do where no block
//! gives way. On any run with as many slots both read the same and leave the same device after a sync, and only what they ask
//! of the device on the way differs: the part `difference` shows where.

mod lent;
#[path = "../files/library.rs"]
mod library;
mod model;
mod trial;

use kit::options::Options;
use kit::rng::Rng;
use kit::room;
use model::{Call, State, Traffic, BLOCK};
use rcore_fs::dev::block_cache::BlockCache;
use rcore_fs::dev::{BlockDevice, BlockId, DevResult};
use std::sync::atomic::Ordering;
use std::sync::{Arc, Mutex};
use trial::{bytes, Trial};

/// A device that remembers what it was asked for.
#[derive(Clone)]
struct Memory(Arc<Mutex<(Vec<u8>, Traffic)>>);

impl BlockDevice for Memory {
    const BLOCK_SIZE_LOG2: u8 = 12;

    fn read_at(&self, block: BlockId, buf: &mut [u8]) -> DevResult<()> {
        let (bytes, traffic) = &mut *self.0.lock().expect("one thread");
        buf.copy_from_slice(&bytes[block * BLOCK..(block + 1) * BLOCK]);
        traffic.read = Some(block as u32);
        Ok(())
    }

    fn write_at(&self, block: BlockId, buf: &[u8]) -> DevResult<()> {
        let (bytes, traffic) = &mut *self.0.lock().expect("one thread");
        bytes[block * BLOCK..(block + 1) * BLOCK].copy_from_slice(buf);
        traffic.written.push(block as u32);
        Ok(())
    }

    fn sync(&self) -> DevResult<()> {
        Ok(())
    }
}

/// The Rust's cache.
struct Unchanged {
    memory: Memory,
    cache: BlockCache<Memory>,
}

impl Unchanged {
    fn new(device: Vec<u8>, slots: usize) -> Unchanged {
        let memory = Memory(Arc::new(Mutex::new((device, Traffic::default()))));
        Unchanged { cache: BlockCache::new(memory.clone(), slots), memory }
    }

    /// What it asked the device for.
    fn call(&self, call: Call, buf: &mut [u8]) -> Traffic {
        let done = match call {
            Call::Read(block) => self.cache.read_at(block as usize, buf),
            Call::Write(block) => self.cache.write_at(block as usize, buf),
            Call::Sync => BlockDevice::sync(&self.cache),
        };
        done.expect("the device never fails");
        std::mem::take(&mut self.memory.0.lock().expect("one thread").1)
    }

    fn device(&self) -> Vec<u8> {
        self.memory.0.lock().expect("one thread").0.clone()
    }
}

/// Both, on one device.
struct Both {
    state: State,
    rust: Unchanged,
}

impl Both {
    fn new(trial: &mut Trial, blocks: usize, slots: [usize; 2], rng: &mut Rng) -> Result<Both, String> {
        let device = bytes(blocks * BLOCK, rng);
        let rust = Unchanged::new(device.clone(), slots[1]);
        let data = bytes(slots[0] * BLOCK, rng);
        let slots = trial.start(&vec![7; 3 * slots[0]], rng)?;
        Ok(Both { state: State { device, data, slots, buf: Vec::new() }, rust })
    }

    /// The same bytes are read, and a sync leaves the same device. Answers what each asked the device for.
    fn call(&mut self, trial: &mut Trial, call: Call, rng: &mut Rng) -> Result<[Traffic; 2], String> {
        let mut buf = bytes(BLOCK, rng);
        self.state.buf = buf.clone();
        let (status, ours) = trial.call(call, &mut self.state, rng)?;
        let theirs = self.rust.call(call, &mut buf);
        if status != 0 || self.state.buf != buf {
            return Err(format!("{:?}: {}, or other bytes than the Rust's", call, status));
        }
        if call == Call::Sync && self.state.device != self.rust.device() {
            return Err("after a sync the device is not the Rust's".to_string());
        }
        Ok([ours, theirs])
    }

    /// The same in all that can be seen: also each write to the device and each read of it.
    fn same(&mut self, trial: &mut Trial, call: Call, rng: &mut Rng) -> Result<(), String> {
        let [ours, theirs] = self.call(trial, call, rng)?;
        if ours != theirs || self.state.device != self.rust.device() {
            return Err(format!("{:?}: the library did {:?}, the Rust {:?}", call, ours, theirs));
        }
        Ok(())
    }
}

fn any_call(blocks: usize, rng: &mut Rng) -> Call {
    let block = if rng.percent(40) { rng.below(blocks / 3 + 1) } else { rng.below(blocks) } as u32;
    match rng.below(100) {
        0..=4 => Call::Sync,
        5..=44 => Call::Write(block),
        _ => Call::Read(block),
    }
}

#[derive(Default)]
struct Met {
    same: u64,
    other: u64,
}

fn one_run(trial: &mut Trial, case: u64, met: &mut Met) -> Result<(), String> {
    let mut rng = Rng::of(trial.seed, case);
    let slots = rng.pick(&[2, 3, 4, 8, 16, 63]);
    let blocks = slots + rng.from_to(1, slots + 1);
    let calls = rng.from_to(30, 120);
    // The Rust's slot 0 has the last block, of which the library hears nothing.
    let mut both = Both::new(trial, blocks + 1, [slots, slots + 1], &mut rng)?;
    both.rust.call(Call::Read(blocks as u32), &mut vec![0; BLOCK]);
    for _ in 0..calls {
        both.same(trial, any_call(blocks, &mut rng), &mut rng)?;
    }
    // No block gives way.
    let mut both = Both::new(trial, slots, [slots, slots], &mut rng)?;
    for _ in 0..calls {
        both.same(trial, any_call(slots, &mut rng), &mut rng)?;
    }
    // As many slots, any run: other ways, the same bytes.
    let mut both = Both::new(trial, blocks, [slots, slots], &mut rng)?;
    for _ in 0..calls {
        let [ours, theirs] = both.call(trial, any_call(blocks, &mut rng), &mut rng)?;
        *if ours == theirs { &mut met.same } else { &mut met.other } += 1;
    }
    both.call(trial, Call::Sync, &mut rng).map(|_| ())
}

/// All slots are taken by blocks to be written back, and one more is read: here the first gives way, in the Rust the second. Then each
/// misses what it gave up. As the first is asked for again and again, the Rust keeps it all the same.
fn difference(trial: &mut Trial) -> Result<u64, String> {
    let mut rng = Rng::new(trial.seed);
    for slots in 2..=64 {
        let mut both = Both::new(trial, slots + 2, [slots, slots], &mut rng)?;
        for block in 0..slots as u32 {
            both.same(trial, Call::Write(block), &mut rng)?;
        }
        let new = slots as u32;
        let expect = |told: [Traffic; 2], ours: (Option<u32>, Vec<u32>), theirs: (Option<u32>, Vec<u32>)| {
            let [ours, theirs] = [ours, theirs].map(|(read, written)| Traffic { read, written });
            let right = told == [ours, theirs];
            right.then(|| ()).ok_or_else(|| format!("{} slots: not the difference that is known: {:?}", slots, told))
        };
        expect(both.call(trial, Call::Read(new), &mut rng)?, (Some(new), vec![0]), (Some(new), vec![1]))?;
        expect(both.call(trial, Call::Read(0), &mut rng)?, (Some(0), vec![1]), (None, vec![]))?;
        if both.state.device[..BLOCK] == both.rust.device()[..BLOCK] {
            return Err(format!("{} slots: the Rust has written block 0 back", slots));
        }
        both.call(trial, Call::Sync, &mut rng)?;
    }
    Ok(63)
}

fn run(options: &Options, trial: &mut Trial) -> Result<String, String> {
    let mut told = Vec::new();
    if options.wants("difference") {
        told.push(format!("the difference with {} numbers of slots", difference(trial)?));
    }
    let mut met = Met::default();
    let runs = options.run_each(|case| one_run(trial, case, &mut met))?;
    if runs > 20 && (met.same == 0 || met.other == 0) {
        return Err("slot 0 made no difference in any run, or in each".to_string());
    }
    told.push(format!("{} runs; with as many slots {} calls go the same way, {} another", runs, met.same, met.other));
    Ok(told.join(", "))
}

fn main() {
    let options = Options::read("run", 5).unwrap_or_else(|error| {
        eprintln!("cache_beside: {}", error);
        std::process::exit(2);
    });
    room::name_case_of_touch();
    let mut trial = Trial::new(options.seed);
    match run(&options, &mut trial) {
        Ok(told) => println!("cache_beside: {} calls agree: {}", trial.tally.values().sum::<u64>(), told),
        Err(difference) => {
            println!("cache_beside: seed {} case {}: {}", options.seed, room::CASE.load(Ordering::Relaxed), difference);
            std::process::exit(1);
        }
    }
}
