//! The library's calls as a C program makes them, with memory that shows whatever else they touch.

use crate::library::{sfs_cache_read, sfs_cache_start, sfs_cache_sync, sfs_cache_write};
use crate::model::{Call, State};
use kit::room::Room;

pub struct Lent {
    device: Room<u8>,
    data: Room<u8>,
    slots: Room<u32>,
    buf: Room<u8>,
}

impl Lent {
    pub fn new(device: usize, data: usize, slots: usize, buf: usize) -> Lent {
        Lent { device: Room::new(device), data: Room::new(data), slots: Room::new(slots), buf: Room::new(buf) }
    }

    /// The number, and what the call left. Err tells of a touch where there may be none.
    pub fn call(&mut self, call: Call, state: &State, pattern: u32, last: bool) -> Result<(u32, State), &'static str> {
        let device = self.device.lend(&state.device, pattern as u8, last);
        let data = self.data.lend(&state.data, pattern as u8, last);
        let slots = self.slots.lend(&state.slots, pattern, last);
        let buf = self.buf.lend(&state.buf, pattern as u8, last);
        let lens = (state.device.len(), state.data.len(), state.slots.len(), state.buf.len());
        // SAFETY: each pointer has as much as its length says.
        let status = unsafe {
            match call {
                Call::Read(block) => sfs_cache_read(device, lens.0, data, lens.1, slots, lens.2, block, buf, lens.3),
                Call::Write(block) => sfs_cache_write(device, lens.0, data, lens.1, slots, lens.2, block, buf, lens.3),
                Call::Sync => sfs_cache_sync(device, lens.0, data, lens.1, slots, lens.2),
            }
        };
        let left = State {
            device: self.device.back().ok_or("wrote beside the device")?.to_vec(),
            data: self.data.back().ok_or("wrote beside the data")?.to_vec(),
            slots: self.slots.back().ok_or("wrote beside the slots")?.to_vec(),
            buf: self.buf.back().ok_or("wrote beside the buffer")?.to_vec(),
        };
        if left.buf != state.buf && !matches!(call, Call::Read(_)) {
            return Err("changed the bytes it was to write");
        }
        Ok((status, left))
    }

    pub fn start(&mut self, words: &[u32], pattern: u32, last: bool) -> Result<Vec<u32>, &'static str> {
        let slots = self.slots.lend(words, pattern, last);
        // SAFETY: as in `call`.
        unsafe { sfs_cache_start(slots, words.len()) };
        Ok(self.slots.back().ok_or("wrote beside the slots")?.to_vec())
    }
}
