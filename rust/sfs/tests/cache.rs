//! The cache over any device, beside the library's on the whole device, and where the device fails.

use sfs::{BlockCache, Error, BLOCK_SIZE};
use std::io::{self, Cursor, Read, Seek, SeekFrom, Write};

#[allow(dead_code)]
#[path = "../src/raw.rs"]
mod raw;

/// Numbers that are the same in each run.
struct Numbers(u64);

impl Numbers {
    fn below(&mut self, n: usize) -> usize {
        self.0 = self
            .0
            .wrapping_mul(6_364_136_223_846_793_005)
            .wrapping_add(1_442_695_040_888_963_407);
        usize::try_from(self.0 >> 33).unwrap() % n
    }

    fn block(&mut self) -> Vec<u8> {
        let byte = u8::try_from(self.below(256)).unwrap();
        let mut bytes = vec![byte; BLOCK_SIZE];
        bytes[self.below(BLOCK_SIZE)] ^= 1;
        bytes
    }
}

/// A device in memory that counts what is asked of it, and fails where that is wanted.
struct Slow {
    bytes: Cursor<Vec<u8>>,
    reads: usize,
    writes: usize,
    flushes: usize,
    /// Reads, and writes.
    fail: [bool; 2],
}

impl Slow {
    fn new(bytes: Vec<u8>) -> Slow {
        Slow {
            bytes: Cursor::new(bytes),
            reads: 0,
            writes: 0,
            flushes: 0,
            fail: [false; 2],
        }
    }
}

fn may_fail(fails: bool) -> io::Result<()> {
    if fails {
        return Err(io::Error::new(io::ErrorKind::Other, "the reader is out"));
    }
    Ok(())
}

impl Read for Slow {
    fn read(&mut self, buf: &mut [u8]) -> io::Result<usize> {
        may_fail(self.fail[0])?;
        self.reads += 1;
        self.bytes.read(buf)
    }
}

impl Write for Slow {
    fn write(&mut self, buf: &[u8]) -> io::Result<usize> {
        may_fail(self.fail[1])?;
        self.writes += 1;
        self.bytes.write(buf)
    }

    fn flush(&mut self) -> io::Result<()> {
        self.flushes += 1;
        may_fail(self.fail[1])
    }
}

impl Seek for Slow {
    fn seek(&mut self, to: SeekFrom) -> io::Result<u64> {
        self.bytes.seek(to)
    }
}

/// The library's cache on the whole device.
struct Lent {
    device: Vec<u8>,
    data: Vec<u8>,
    slots: Vec<u32>,
}

impl Lent {
    fn new(device: Vec<u8>, capacity: usize) -> Lent {
        let mut slots = vec![9; 3 * capacity];
        // SAFETY: the pointer is that of a slice with its length, here and below.
        unsafe { raw::sfs_cache_start(slots.as_mut_ptr(), slots.len()) };
        let data = vec![0; capacity * BLOCK_SIZE];
        Lent { device, data, slots }
    }

    fn read(&mut self, block: u32, buf: &mut [u8]) -> u32 {
        let (device, data, slots) = (&mut self.device, &mut self.data, &mut self.slots);
        // SAFETY: as in `new`.
        unsafe {
            raw::sfs_cache_read(
                device.as_mut_ptr(),
                device.len(),
                data.as_mut_ptr(),
                data.len(),
                slots.as_mut_ptr(),
                slots.len(),
                block,
                buf.as_mut_ptr(),
                buf.len(),
            )
        }
    }

    fn write(&mut self, block: u32, buf: &[u8]) -> u32 {
        let (device, data, slots) = (&mut self.device, &mut self.data, &mut self.slots);
        // SAFETY: as in `new`.
        unsafe {
            raw::sfs_cache_write(
                device.as_mut_ptr(),
                device.len(),
                data.as_mut_ptr(),
                data.len(),
                slots.as_mut_ptr(),
                slots.len(),
                block,
                buf.as_ptr(),
                buf.len(),
            )
        }
    }

    fn sync(&mut self) -> u32 {
        let (device, data, slots) = (&mut self.device, &self.data, &mut self.slots);
        // SAFETY: as in `new`.
        unsafe {
            raw::sfs_cache_sync(
                device.as_mut_ptr(),
                device.len(),
                data.as_ptr(),
                data.len(),
                slots.as_mut_ptr(),
                slots.len(),
            )
        }
    }

    fn dirty(&self) -> usize {
        self.slots.chunks(3).filter(|slot| slot[0] == 2).count()
    }

    fn has(&self, block: u32) -> bool {
        self.slots.chunks(3).any(|slot| slot[0] != 0 && slot[1] == block)
    }
}

fn number(answer: io::Result<()>) -> u32 {
    match answer {
        Ok(()) => 0,
        Err(error) => {
            let refusal = error.get_ref().and_then(|inside| inside.downcast_ref::<Error>());
            refusal.expect("a refusal").number()
        }
    }
}

/// A run of reads, writes and syncs, refused ones among them: the same answers and bytes, and after each call the same
/// device, so that the same blocks gave way and were written back; and no read of the device but for a miss.
fn same_run(capacity: usize, blocks: usize, calls: usize) {
    let mut numbers = Numbers(capacity as u64);
    // A part of a block at the end.
    let mut bytes = vec![5; blocks * BLOCK_SIZE + 100];
    for block in bytes.chunks_mut(BLOCK_SIZE) {
        block.fill(u8::try_from(numbers.below(256)).unwrap());
    }
    let mut lent = Lent::new(bytes.clone(), capacity);
    let mut cache = BlockCache::new(Slow::new(bytes), capacity).unwrap();
    assert_eq!(cache.blocks(), blocks as u64);
    let (mut reads, mut writes, mut flushes) = (0, 0, 0);
    for _ in 0..calls {
        let block = u32::try_from(numbers.below(blocks + 1)).unwrap();
        let (was_here, dirty) = (lent.has(block), lent.dirty());
        let long = BLOCK_SIZE - usize::from(numbers.below(40) == 0);
        match numbers.below(20) {
            0 => {
                assert_eq!(number(cache.sync()), lent.sync());
                writes += dirty;
                flushes += 1;
            }
            1..=8 => {
                let data = numbers.block();
                let answer = lent.write(block, &data[..long]);
                assert_eq!(number(cache.write_at(block, &data[..long])), answer);
                let now_dirty = usize::from(answer == 0);
                writes += usize::from(answer == 0 && !was_here && dirty + now_dirty > lent.dirty());
            }
            _ => {
                let (mut a, mut b) = (vec![1; long], vec![1; long]);
                let answer = lent.read(block, &mut a);
                assert_eq!(number(cache.read_at(block, &mut b)), answer);
                assert!(a == b, "other bytes");
                reads += usize::from(answer == 0 && !was_here);
                writes += dirty - lent.dirty();
            }
        }
        let slow = cache.get_ref();
        assert!(slow.bytes.get_ref() == &lent.device, "another device");
        assert_eq!((slow.reads, slow.writes, slow.flushes), (reads, writes, flushes));
    }
}

#[test]
fn as_the_library_on_the_whole_device() {
    same_run(2, 4, 2000);
    same_run(3, 2, 100);
    same_run(3, 9, 2000);
    same_run(16, 20, 2000);
    same_run(64, 90, 2000);
}

/// Where the device fails the cache stays as it was, and nothing that was written is lost.
#[test]
fn a_device_that_fails() {
    let mut numbers = Numbers(7);
    let mut model = vec![vec![3; BLOCK_SIZE]; 9];
    let mut device = Slow::new(vec![3; 9 * BLOCK_SIZE]);
    let mut cache = BlockCache::new(&mut device, 4).unwrap();
    let (mut failed, mut done) = (0, 0);
    for _ in 0..600 {
        let i = numbers.below(9);
        let block = u32::try_from(i).unwrap();
        let fail = [numbers.below(6) == 0, numbers.below(3) == 0];
        cache.get_mut().fail = fail;
        let answer = match numbers.below(8) {
            0 => cache.sync(),
            1..=4 => {
                let data = numbers.block();
                let answer = cache.write_at(block, &data);
                if answer.is_ok() {
                    model[i] = data;
                }
                answer
            }
            _ => {
                let mut buf = vec![0; BLOCK_SIZE];
                let answer = cache.read_at(block, &mut buf);
                if answer.is_ok() {
                    assert!(buf == model[i], "other bytes");
                }
                answer
            }
        };
        match answer {
            Ok(()) => done += 1,
            Err(error) => {
                assert!(fail != [false; 2] && error.to_string() == "the reader is out");
                failed += 1;
            }
        }
    }
    assert!(failed > 50 && done > 200, "{failed} failed, {done} done");
    cache.get_mut().fail = [false; 2];
    cache.sync().unwrap();
    drop(cache);
    assert!(device.bytes.into_inner() == model.concat(), "another device");
}

#[test]
fn a_drop_writes_back() {
    let mut device = Slow::new(vec![1; 3 * BLOCK_SIZE]);
    let mut cache = BlockCache::new(&mut device, 2).unwrap();
    cache.write_at(1, &[2; BLOCK_SIZE]).unwrap();
    assert_eq!(cache.get_ref().writes, 0);
    drop(cache);
    assert_eq!(device.writes, 1);
    let bytes = device.bytes.get_ref();
    assert_eq!([bytes[0], bytes[BLOCK_SIZE], bytes[2 * BLOCK_SIZE]], [1, 2, 1]);
    // Nothing was changed: nothing is asked of a device that could not be written.
    drop(BlockCache::new(&mut device, 2).unwrap());
    assert_eq!(device.writes, 1);
}

#[test]
fn sizes() {
    for capacity in [0, 1, 65, usize::MAX] {
        let error = BlockCache::new(Cursor::new(Vec::new()), capacity).unwrap_err();
        assert_eq!(number(Err(error)), 12);
    }
    let mut cache = BlockCache::new(Cursor::new(vec![0; BLOCK_SIZE - 1]), 64).unwrap();
    assert_eq!(cache.blocks(), 0);
    assert_eq!(number(cache.read_at(0, &mut [0; BLOCK_SIZE])), 12);
    assert_eq!(format!("{cache:?}"), "BlockCache { blocks: 0, capacity: 64, .. }");
}
