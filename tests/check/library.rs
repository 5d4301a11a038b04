//! The check of libsfs.a.

#[path = "../files/library.rs"]
mod raw;

pub use raw::sfs_check;

/// Status, blocks and unused count.
pub fn check(image: &[u8], scratch: &mut [u32]) -> (u32, u32, u32) {
    let (mut blocks, mut unused) = (u32::MAX, u32::MAX);
    let status = unsafe {
        sfs_check(image.as_ptr(), image.len(), scratch.as_mut_ptr(), scratch.len(), &mut blocks, &mut unused)
    };
    (status, blocks, unused)
}
