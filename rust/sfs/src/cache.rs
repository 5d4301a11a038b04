use crate::error::answer;
use crate::raw;
use crate::{Error, BLOCK_SIZE};
use std::fmt;
use std::io::{self, Read, Seek, SeekFrom, Write};

const UNUSED: u32 = 0;
const DIRTY: u32 = 2;

/// A cache of blocks for a device behind a slow reader: a few blocks of it are kept in memory, and what is written goes
/// to the device later.
///
/// A block that is in no slot takes the lowest unused one, else that of the least recently used block, which is written
/// back first if it was changed. As long as nobody else writes the device, each read gives what the same reads and
/// writes straight on the device would, and after a [`sync`](BlockCache::sync) the device has it too. A part of a block
/// at the device's end is never touched.
///
/// ```
/// use sfs::{BlockCache, BLOCK_SIZE};
/// use std::io::Cursor;
///
/// let mut device = Cursor::new(vec![7; 100 * BLOCK_SIZE]);
/// let mut cache = BlockCache::new(&mut device, 16)?;
/// let mut buf = vec![0; BLOCK_SIZE];
/// cache.read_at(99, &mut buf)?;
/// buf[0] = 8;
/// cache.write_at(99, &buf)?;
/// cache.sync()?;
/// drop(cache);
/// assert_eq!(device.into_inner()[99 * BLOCK_SIZE], 8);
/// # std::io::Result::Ok(())
/// ```
///
/// **What is proved**: the library's cache works on a device that is lent as one slice, and all that is said above is
/// proved of it. Here it works on a device of its own, in memory, of one block more than there are slots. It decides on
/// hits, on which block gives way and on what is written back, and it moves the bytes between that device, its slots
/// and the caller. This type gives the blocks that are in use numbers there, fetches them from the slow device and
/// writes them to it. That part is tested against the library's cache on the whole device, and not proved.
///
/// A drop writes back what was changed, and tells nobody if that fails: call [`sync`](BlockCache::sync) before.
pub struct BlockCache<D: Read + Write + Seek> {
    device: D,
    blocks: u64,
    /// Three words a slot, as `include/sfs.h` says. Their blocks are numbers in `near`.
    slots: Vec<u32>,
    data: Vec<u8>,
    /// The library's device.
    near: Vec<u8>,
    /// The block of the slow device that each block of `near` stands for, if a used slot has it.
    far: Vec<u32>,
}

impl<D: Read + Write + Seek> BlockCache<D> {
    /// A cache with that many slots of [`BLOCK_SIZE`] bytes. To have the device back afterwards, lend it: `&mut D` is a
    /// device too.
    ///
    /// # Errors
    /// [`InvalidParam`](Error::InvalidParam), inside an [`io::Error`], for fewer than 2 slots or more than 64; and
    /// whatever the device answers when its end is looked for.
    pub fn new(mut device: D, capacity: usize) -> io::Result<BlockCache<D>> {
        if !(2..=64).contains(&capacity) {
            return Err(Error::InvalidParam.into());
        }
        let blocks = device.seek(SeekFrom::End(0))? / BLOCK_SIZE as u64;
        let mut slots = vec![0; 3 * capacity];
        // SAFETY: the slots are an exclusive slice with its length.
        unsafe { raw::sfs_cache_start(slots.as_mut_ptr(), slots.len()) };
        Ok(BlockCache {
            device,
            blocks,
            slots,
            data: vec![0; capacity * BLOCK_SIZE],
            near: vec![0; (capacity + 1) * BLOCK_SIZE],
            far: vec![0; capacity + 1],
        })
    }

    /// The whole blocks that the device had when the cache was made.
    #[must_use]
    pub fn blocks(&self) -> u64 {
        self.blocks
    }

    /// The device. It lacks what was written since the last [`sync`](BlockCache::sync).
    #[must_use]
    pub fn get_ref(&self) -> &D {
        &self.device
    }

    /// The device, for what does not change its blocks: its timeouts, say. Where bytes of it are changed, reads may
    /// give the old ones, and a block that was changed in the cache replaces the new ones.
    #[must_use]
    pub fn get_mut(&mut self) -> &mut D {
        &mut self.device
    }

    /// Reads a block.
    ///
    /// # Errors
    /// [`InvalidParam`](Error::InvalidParam), inside an [`io::Error`], if the device has no such block or the buffer is
    /// not [`BLOCK_SIZE`] bytes long: nothing is done. Else what the device answers: the cache is as it was, and the
    /// buffer may hold anything.
    pub fn read_at(&mut self, block: u32, buf: &mut [u8]) -> io::Result<()> {
        self.fits(block, buf.len())?;
        let (near, is_here) = self.place(block);
        if !is_here {
            let at = near as usize * BLOCK_SIZE;
            self.device.seek(start(block))?;
            self.device.read_exact(&mut self.near[at..at + BLOCK_SIZE])?;
        }
        self.far[near as usize] = block;
        let before = self.slots.clone();
        // SAFETY: each pointer is that of an exclusive slice with its length.
        answer(unsafe {
            raw::sfs_cache_read(
                self.near.as_mut_ptr(),
                self.near.len(),
                self.data.as_mut_ptr(),
                self.data.len(),
                self.slots.as_mut_ptr(),
                self.slots.len(),
                near,
                buf.as_mut_ptr(),
                buf.len(),
            )
        })?;
        self.write_back(before)
    }

    /// Writes a block: to the device when it gives way, or by [`sync`](BlockCache::sync).
    ///
    /// # Errors
    /// As [`read_at`](BlockCache::read_at). The device may answer for another block, which is to give way: the cache is
    /// then as it was, and this block was not written.
    pub fn write_at(&mut self, block: u32, buf: &[u8]) -> io::Result<()> {
        self.fits(block, buf.len())?;
        let (near, _) = self.place(block);
        self.far[near as usize] = block;
        let before = self.slots.clone();
        // SAFETY: each pointer is that of a slice with its length, and all but the buffer's are exclusive.
        answer(unsafe {
            raw::sfs_cache_write(
                self.near.as_mut_ptr(),
                self.near.len(),
                self.data.as_mut_ptr(),
                self.data.len(),
                self.slots.as_mut_ptr(),
                self.slots.len(),
                near,
                buf.as_ptr(),
                buf.len(),
            )
        })?;
        self.write_back(before)
    }

    /// Writes all that was changed to the device, and flushes that.
    ///
    /// # Errors
    /// What the device answers. Some blocks may have been written; all that were to be, are still to be.
    pub fn sync(&mut self) -> io::Result<()> {
        let before = self.slots.clone();
        // SAFETY: each pointer is that of a slice with its length; those of the device and the slots are exclusive.
        answer(unsafe {
            raw::sfs_cache_sync(
                self.near.as_mut_ptr(),
                self.near.len(),
                self.data.as_ptr(),
                self.data.len(),
                self.slots.as_mut_ptr(),
                self.slots.len(),
            )
        })?;
        let mut dirty = before.chunks(3).filter(|slot| slot[0] == DIRTY);
        let written = dirty.try_for_each(|slot| self.send(slot[1]));
        let done = written.and_then(|()| self.device.flush());
        if done.is_err() {
            self.slots = before;
        }
        done
    }

    /// What the library would answer of the whole device.
    fn fits(&self, block: u32, len: usize) -> Result<(), Error> {
        if u64::from(block) < self.blocks && len == BLOCK_SIZE {
            Ok(())
        } else {
            Err(Error::InvalidParam)
        }
    }

    /// The number of a block in `near`, and whether a slot has it: else it is one that no slot has. There is one more
    /// than slots.
    fn place(&self, block: u32) -> (u32, bool) {
        let mut taken = vec![false; self.far.len()];
        for slot in self.slots.chunks(3).filter(|slot| slot[0] != UNUSED) {
            if self.far[slot[1] as usize] == block {
                return (slot[1], true);
            }
            taken[slot[1] as usize] = true;
        }
        let free = (0..).zip(&taken).find(|(_, &taken)| !taken);
        (free.map_or(0, |(near, _)| near), false)
    }

    /// After a call: if a dirty block gave way, the library has put it to `near`, and it goes on to the device. If that
    /// fails it is taken back, and the slots are what they were before.
    fn write_back(&mut self, before: Vec<u32>) -> io::Result<()> {
        let mut slots = before.chunks(3).zip(self.slots.chunks(3)).enumerate();
        let gave_way = slots.find(|(_, (old, new))| old[0] == DIRTY && old[1] != new[1]);
        let (i, near) = match gave_way {
            Some((i, (old, _))) => (i, old[1]),
            None => return Ok(()),
        };
        let written = self.send(near);
        if written.is_err() {
            let at = near as usize * BLOCK_SIZE;
            self.data[i * BLOCK_SIZE..][..BLOCK_SIZE].copy_from_slice(&self.near[at..][..BLOCK_SIZE]);
            self.slots = before;
        }
        written
    }

    /// Writes a block of `near` to the one of the device that it stands for.
    fn send(&mut self, near: u32) -> io::Result<()> {
        let at = near as usize * BLOCK_SIZE;
        self.device.seek(start(self.far[near as usize]))?;
        self.device.write_all(&self.near[at..at + BLOCK_SIZE])
    }
}

fn start(block: u32) -> SeekFrom {
    SeekFrom::Start(u64::from(block) * BLOCK_SIZE as u64)
}

impl<D: Read + Write + Seek> Drop for BlockCache<D> {
    fn drop(&mut self) {
        if self.slots.chunks(3).any(|slot| slot[0] == DIRTY) {
            let _ = self.sync();
        }
    }
}

impl<D: Read + Write + Seek> fmt::Debug for BlockCache<D> {
    fn fmt(&self, f: &mut fmt::Formatter<'_>) -> fmt::Result {
        f.debug_struct("BlockCache")
            .field("blocks", &self.blocks)
            .field("capacity", &(self.slots.len() / 3))
            .finish_non_exhaustive()
    }
}
