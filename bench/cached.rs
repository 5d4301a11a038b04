//! The block cache: hits and misses by the library, by plain Rust with the same linear search (tests/standin), and by the
//! unchanged block_cache.rs. All slots are taken before what is measured. The device is memory for all three, so that a miss costs
//! a copy and no wait.

use crate::bytes::BLOCK;
use crate::cache;
use crate::library::{sfs_cache_read, sfs_cache_start, sfs_cache_write};
use crate::measure::Measure;
use kit::rng::Rng;
use rcore_fs::dev::block_cache::BlockCache;
use rcore_fs::dev::{BlockDevice, BlockId, DevResult};
use std::sync::{Arc, Mutex};

/// Reads or writes of a case.
const TIMES: usize = 8;

pub fn all(measure: &mut Measure) {
    for slots in [2, 16, 64] {
        let held = |rng: &mut Rng| rng.below(slots) as u32;
        let mut rng = Rng::new(5);
        let hits = [(); TIMES].map(|()| held(&mut rng));
        let mut new = slots as u32..;
        let misses = [(); TIMES].map(|()| new.next().expect("there are more"));
        let mut case = |name: &str, writes: bool, blocks: &[u32]| {
            let name = format!("{}, {} slots", name, slots);
            for _ in 0..measure.turns() {
                compare(measure, &name, slots, writes, blocks);
            }
        };
        case("cache: a read hit", false, &hits);
        case("cache: a write hit", true, &hits);
        case("cache: a read miss", false, &misses);
        case("cache: a write miss, writes back", true, &misses);
    }
}

#[derive(Clone, PartialEq)]
struct Lent {
    device: Vec<u8>,
    data: Vec<u8>,
    slots: Vec<u32>,
    buf: Vec<u8>,
}

type Call = fn(&mut Lent, bool, u32) -> u32;

/// All must answer the same and leave the same, or the program stops.
fn compare(measure: &mut Measure, case: &str, slots: usize, writes: bool, blocks: &[u32]) {
    let mut device = vec![0; (slots + TIMES) * BLOCK];
    Rng::new(6).fill(&mut device);
    let mut ours = Lent { device, data: vec![0; slots * BLOCK], slots: vec![0; 3 * slots], buf: vec![7; BLOCK] };
    // SAFETY: the pointer has as much as its length says.
    unsafe { sfs_cache_start(ours.slots.as_mut_ptr(), ours.slots.len()) };
    let rust = Unchanged::new(&ours.device, slots);
    let mut buf = ours.buf.clone();
    // Written where what gives way is to be written back.
    for block in 0..slots as u32 {
        assert_eq!(by_library(&mut ours, writes, block), 0, "{}: the library refuses", case);
        rust.put(writes, block, &mut buf);
    }
    let (mut theirs, mut none) = (ours.clone(), ours.clone());
    let mut part = |name: &str, call: Call, lent: &mut Lent| {
        measure.part(case, name, &mut || {
            for &block in blocks {
                assert_eq!(call(lent, writes, block), 0, "a call that is refused");
            }
        });
    };
    part("call", by_library, &mut ours);
    part("plain", by_plain, &mut theirs);
    part("nothing", by_nobody, &mut none);
    assert!(ours == theirs, "{}: what is left", case);
    measure.part(case, "rust", &mut || {
        for &block in blocks {
            rust.put(writes, block, &mut buf);
        }
    });
    assert!(ours.buf == buf, "{}: what the Rust reads", case);
}

fn by_library(lent: &mut Lent, writes: bool, block: u32) -> u32 {
    let Lent { device, data, slots, buf } = lent;
    let (at, bytes, words) = (device.as_mut_ptr(), data.as_mut_ptr(), slots.as_mut_ptr());
    let (len, bytes_len, words_len) = (device.len(), data.len(), slots.len());
    // SAFETY: each pointer has as much as its length says.
    unsafe {
        if writes {
            sfs_cache_write(at, len, bytes, bytes_len, words, words_len, block, buf.as_ptr(), buf.len())
        } else {
            sfs_cache_read(at, len, bytes, bytes_len, words, words_len, block, buf.as_mut_ptr(), buf.len())
        }
    }
}

fn by_plain(lent: &mut Lent, writes: bool, block: u32) -> u32 {
    let Lent { device, data, slots, buf } = lent;
    let done = if writes {
        cache::write(device, data, slots, block, buf)
    } else {
        cache::read(device, data, slots, block, buf)
    };
    done.err().unwrap_or(0)
}

/// What the program itself takes to make a call, for subtracting.
#[inline(never)]
fn by_nobody(lent: &mut Lent, writes: bool, block: u32) -> u32 {
    u32::from(lent.buf.is_empty() && writes) & block
}

#[derive(Clone)]
struct Memory(Arc<Mutex<Vec<u8>>>);

impl BlockDevice for Memory {
    const BLOCK_SIZE_LOG2: u8 = 12;

    fn read_at(&self, block: BlockId, buf: &mut [u8]) -> DevResult<()> {
        buf.copy_from_slice(&self.0.lock().expect("one thread")[block * BLOCK..(block + 1) * BLOCK]);
        Ok(())
    }

    fn write_at(&self, block: BlockId, buf: &[u8]) -> DevResult<()> {
        self.0.lock().expect("one thread")[block * BLOCK..(block + 1) * BLOCK].copy_from_slice(buf);
        Ok(())
    }

    fn sync(&self) -> DevResult<()> {
        Ok(())
    }
}

struct Unchanged(BlockCache<Memory>);

impl Unchanged {
    fn new(device: &[u8], slots: usize) -> Unchanged {
        Unchanged(BlockCache::new(Memory(Arc::new(Mutex::new(device.to_vec()))), slots))
    }

    fn put(&self, writes: bool, block: u32, buf: &mut [u8]) {
        let block = block as usize;
        let done = if writes { self.0.write_at(block, buf) } else { self.0.read_at(block, buf) };
        done.expect("the device never fails");
    }
}
