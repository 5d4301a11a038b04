//! An image in memory as a device.

use rcore_fs::dev::{DevResult, Device};
use std::sync::atomic::{AtomicBool, Ordering};
use std::sync::{Mutex, MutexGuard};
use std::thread;

/// The length of an inode record, the only thing written while a panic unwinds that must not fall short.
const RECORD: usize = 80;

pub struct Memory {
    image: Mutex<Vec<u8>>,
    guarded: bool,
    twice: AtomicBool,
}

impl Memory {
    pub fn new(image: Vec<u8>, guarded: bool) -> Self {
        Memory {
            image: Mutex::new(image),
            guarded,
            twice: AtomicBool::new(false),
        }
    }

    /// The image back; the device is empty afterwards. A panic may have left other owners of the device.
    pub fn take(&self) -> Vec<u8> {
        std::mem::take(&mut *self.image())
    }

    /// A panic met a second one while it unwound; see `short`.
    pub fn twice(&self) -> bool {
        self.twice.load(Ordering::Relaxed)
    }

    fn image(&self) -> MutexGuard<'_, Vec<u8>> {
        self.image.lock().unwrap_or_else(|held| held.into_inner())
    }

    /// What an access past the end answers. The file system panics where it is short, and a panic while
    /// another one unwinds ends the process: then the access is answered as if whole, and noted.
    fn short(&self, done: usize, asked: usize, fatal: bool) -> usize {
        if self.guarded && done < asked && thread::panicking() {
            if fatal {
                self.twice.store(true, Ordering::Relaxed);
            }
            asked
        } else {
            done
        }
    }
}

/// The part of `asked` bytes from `offset` that lies in `len`.
fn part(len: usize, offset: usize, asked: usize) -> (usize, usize) {
    let start = offset.min(len);
    (start, asked.min(len - start))
}

impl Device for Memory {
    fn read_at(&self, offset: usize, buf: &mut [u8]) -> DevResult<usize> {
        let image = self.image();
        let (start, done) = part(image.len(), offset, buf.len());
        buf[..done].copy_from_slice(&image[start..start + done]);
        Ok(self.short(done, buf.len(), true))
    }

    fn write_at(&self, offset: usize, buf: &[u8]) -> DevResult<usize> {
        let mut image = self.image();
        let (start, done) = part(image.len(), offset, buf.len());
        image[start..start + done].copy_from_slice(&buf[..done]);
        Ok(self.short(done, buf.len(), buf.len() == RECORD))
    }

    fn sync(&self) -> DevResult<()> {
        Ok(())
    }
}
