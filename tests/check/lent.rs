//! The library's check, called as a C program would, with memory that shows whatever else it touches.

use crate::library::sfs_check;
use kit::room::Room;

pub struct Rooms {
    image: Room<u8>,
    scratch: Room<u32>,
}

/// What the library did. `wrong` tells of a touch where it may not.
pub struct Said {
    pub status: u32,
    pub blocks: u32,
    pub unused: u32,
    pub scratch: Vec<u32>,
    pub wrong: Option<&'static str>,
}

impl Rooms {
    pub fn new(image: usize, scratch: usize) -> Rooms {
        Rooms { image: Room::new(image), scratch: Room::new(scratch) }
    }

    /// `pattern` is what guards and results hold before the call.
    pub fn check(&mut self, image: &[u8], scratch: &[u32], pattern: u32, last: bool) -> Said {
        let image_at = self.image.lend(image, pattern as u8, last);
        let scratch_at = self.scratch.lend(scratch, pattern, last);
        let mut results = [pattern; 7];
        let status = unsafe {
            sfs_check(
                image_at,
                image.len(),
                scratch_at,
                scratch.len(),
                results.as_mut_ptr().add(2),
                results.as_mut_ptr().add(4),
            )
        };
        let mut wrong = None;
        if [0, 1, 3, 5, 6].iter().any(|&i| results[i] != pattern) {
            wrong = Some("wrote beside a result");
        }
        match self.image.back() {
            None => wrong = Some("wrote beside the image"),
            Some(now) if now != image => wrong = Some("changed the image"),
            Some(_) => (),
        }
        let after = self.scratch.back();
        if after.is_none() {
            wrong = Some("wrote beside the scratch");
        }
        let scratch = after.unwrap_or(&[]).to_vec();
        Said { status, blocks: results[2], unused: results[4], scratch, wrong }
    }
}
