//! The library's calls as a C program makes them, with memory that shows whatever else they touch.

use crate::decide::Values;
use crate::library::*;
use kit::plan::ENTRY;
use kit::room::Room;
use oracle::{Call, UNREAD};

/// The card stays lent from one call to the next; scratch, names, data and results are lent for each.
pub struct Lent {
    image: Room<u8>,
    scratch: Room<u32>,
    /// The names, or a write's data.
    given: [Room<u8>; 2],
    /// An entry, or a read's buffer.
    bytes: Room<u8>,
    pattern: u32,
}

pub struct Said {
    pub status: u32,
    pub values: Values,
    pub scratch: Vec<u32>,
}

/// What a call is given, by address.
struct At {
    image: *mut u8,
    len: usize,
    scratch: *mut u32,
    words: usize,
    given: [*const u8; 2],
    bytes: *mut u8,
    /// Every other word is a result; those between are guards.
    results: *mut u32,
}

impl At {
    fn result(&self, i: usize) -> *mut u32 {
        unsafe { self.results.add(2 + 2 * i) }
    }
}

impl Lent {
    pub fn new(image: usize, scratch: usize, data: usize) -> Lent {
        let given = [Room::new(data), Room::new(data)];
        Lent { image: Room::new(image), scratch: Room::new(scratch), given, bytes: Room::new(data), pattern: 1 }
    }

    /// A new card. `pattern`, which is not 0, is what guards and results hold before each call.
    pub fn lend(&mut self, image: &[u8], pattern: u32, last: bool) {
        self.pattern = pattern;
        self.image.lend(image, pattern as u8, last);
    }

    pub fn image(&mut self) -> &mut [u8] {
        self.image.lent()
    }

    /// Err tells of a touch where there may be none. The image is for the caller to judge.
    pub fn call(&mut self, call: &Call, scratch: &[u32], last: bool) -> Result<Said, &'static str> {
        let (first, second) = given(call);
        let guard = self.pattern as u8;
        let mut results = [self.pattern; 11];
        let before = match call {
            Call::Read { len, .. } => vec![UNREAD; *len],
            _ => vec![guard; ENTRY],
        };
        let at = At {
            image: self.image.lent().as_mut_ptr(),
            len: self.image.lent().len(),
            scratch: self.scratch.lend(scratch, self.pattern, last),
            words: scratch.len(),
            given: [self.given[0].lend(first, guard, last), self.given[1].lend(second, guard, last)],
            bytes: self.bytes.lend(&before, guard, last),
            results: results.as_mut_ptr(),
        };
        let status = unsafe { put(&at, call) };
        let values = self.values(call, &results)?;
        self.image.back().ok_or("wrote beside the image")?;
        for (room, before) in self.given.iter_mut().zip([first, second]) {
            if room.back() != Some(before) {
                return Err("changed a name or data, or wrote beside it");
            }
        }
        let scratch = self.scratch.back().ok_or("wrote beside the scratch")?.to_vec();
        Ok(Said { status, values, scratch })
    }

    /// The results, with zeros for those that the call does not have.
    fn values(&mut self, call: &Call, results: &[u32; 11]) -> Result<Values, &'static str> {
        let count = match call {
            Call::Metadata { .. } => 4,
            Call::Counts => 2,
            Call::Create { .. } | Call::Find { .. } | Call::Read { .. } | Call::Write { .. } => 1,
            _ => 0,
        };
        let guards = (0..11).filter(|i| i % 2 == 1 || *i < 2 || *i >= 2 + 2 * count);
        if guards.into_iter().any(|i| results[i] != self.pattern) {
            return Err("wrote beside a result");
        }
        let mut values = Values::none(call);
        for i in 0..count {
            values.words[i] = results[2 + 2 * i];
        }
        let bytes = self.bytes.back().ok_or("wrote beside the entry or buffer")?;
        if matches!(call, Call::Entry { .. } | Call::Read { .. }) {
            values.bytes = bytes.to_vec();
        }
        Ok(values)
    }

    pub fn format(&mut self, space: u64) -> Result<u32, &'static str> {
        let (image, len) = (self.image.lent().as_mut_ptr(), self.image.lent().len());
        let status = unsafe { sfs_format(image, len, space) };
        self.image.back().ok_or("wrote beside the image")?;
        Ok(status)
    }

    pub fn entry_name(&mut self, entry: &[u8]) -> Result<usize, &'static str> {
        let at = self.bytes.lend(entry, self.pattern as u8, true);
        let len = unsafe { sfs_entry_name(at, entry.len()) };
        if self.bytes.back() != Some(entry) {
            return Err("changed the entry, or wrote beside it");
        }
        Ok(len)
    }
}

fn given(call: &Call) -> (&[u8], &[u8]) {
    match call {
        Call::Write { data, .. } => (data, &[]),
        Call::Create { name, .. } | Call::Link { name, .. } => (name, &[]),
        Call::Unlink { name, .. } | Call::Find { name, .. } => (name, &[]),
        Call::Move { old, new, .. } => (old, new),
        _ => (&[], &[]),
    }
}

unsafe fn put(at: &At, call: &Call) -> u32 {
    let (image, len, scratch, words) = (at.image, at.len, at.scratch, at.words);
    let [first, second] = at.given;
    let one = at.result(0);
    match call {
        Call::Counts => sfs_check(image, len, scratch, words, one, at.result(1)),
        Call::Read { inode, offset, len: wanted } => {
            sfs_read(image, len, scratch, words, *inode, *offset, at.bytes, *wanted, one)
        }
        Call::Metadata { inode } => {
            let (size, blocks, links) = (at.result(1), at.result(2), at.result(3));
            sfs_metadata(image, len, scratch, words, *inode, one, size, blocks, links)
        }
        Call::Write { inode, offset, data } => {
            sfs_write(image, len, scratch, words, *inode, *offset, first, data.len(), one)
        }
        Call::Resize { inode, len: wanted } => sfs_resize(image, len, scratch, words, *inode, *wanted),
        Call::Create { dir, name, kind } => sfs_create(image, len, scratch, words, *dir, first, name.len(), *kind, one),
        Call::Link { dir, name, inode } => sfs_link(image, len, scratch, words, *dir, first, name.len(), *inode),
        Call::Unlink { dir, name } => sfs_unlink(image, len, scratch, words, *dir, first, name.len()),
        Call::Move { dir, old, target, new } => {
            sfs_move(image, len, scratch, words, *dir, first, old.len(), *target, second, new.len())
        }
        Call::Find { dir, name } => sfs_find(image, len, scratch, words, *dir, first, name.len(), one),
        Call::Entry { dir, index } => sfs_entry(image, len, scratch, words, *dir, *index, at.bytes),
        _ => panic!("no call of these tests: {:?}", call),
    }
}
