//! The library's calls as a C program makes them, with memory that shows whatever else they touch.

use crate::library::{sfs_read, sfs_resize, sfs_write};
use kit::room::Room;
use oracle::{Call, UNREAD};

/// The card stays lent from one call to the next; scratch and buffer are lent for each.
pub struct Lent {
    image: Room<u8>,
    scratch: Room<u32>,
    buf: Room<u8>,
    pattern: u32,
}

/// What the library answered. `buf` is a read's whole buffer.
pub struct Said {
    pub status: u32,
    pub count: u32,
    pub buf: Vec<u8>,
    pub scratch: Vec<u32>,
}

impl Lent {
    pub fn new(image: usize, scratch: usize, buf: usize) -> Lent {
        Lent { image: Room::new(image), scratch: Room::new(scratch), buf: Room::new(buf), pattern: 1 }
    }

    /// A new card. `pattern`, which is not 0, is what guards and results hold before each call.
    pub fn lend(&mut self, image: &[u8], pattern: u32, last: bool) {
        self.pattern = pattern;
        self.image.lend(image, pattern as u8, last);
    }

    pub fn image(&mut self) -> &mut [u8] {
        self.image.lent()
    }

    /// Err tells of a touch where there may be none. The image is for the caller to judge.
    pub fn call(&mut self, call: &Call, scratch: &[u32], last: bool) -> Result<Said, &'static str> {
        let scratch_at = self.scratch.lend(scratch, self.pattern, last);
        let (image, image_len) = (self.image.lent().as_mut_ptr(), self.image.lent().len());
        let mut results = [self.pattern; 5];
        let count = unsafe { results.as_mut_ptr().add(2) };
        let before = match call {
            Call::Read { len, .. } => vec![UNREAD; *len],
            Call::Write { data, .. } => data.clone(),
            _ => Vec::new(),
        };
        let buf = self.buf.lend(&before, self.pattern as u8, last);
        let words = scratch.len();
        let status = match *call {
            Call::Read { inode, offset, len } => unsafe {
                sfs_read(image, image_len, scratch_at, words, inode, offset, buf, len, count)
            },
            Call::Write { inode, offset, ref data } => unsafe {
                sfs_write(image, image_len, scratch_at, words, inode, offset, buf, data.len(), count)
            },
            Call::Resize { inode, len } => unsafe {
                results[2] = 0;
                sfs_resize(image, image_len, scratch_at, words, inode, len)
            },
            _ => panic!("no call of these tests: {:?}", call),
        };
        if [0, 1, 3, 4].iter().any(|&i| results[i] != self.pattern) {
            return Err("wrote beside the count");
        }
        self.image.back().ok_or("wrote beside the image")?;
        let scratch = self.scratch.back().ok_or("wrote beside the scratch")?.to_vec();
        let buf = self.buf.back().ok_or("wrote beside the buffer")?.to_vec();
        if !matches!(call, Call::Read { .. }) && buf != before {
            return Err("changed the bytes it was to write");
        }
        Ok(Said { status, count: results[2], buf, scratch })
    }
}
