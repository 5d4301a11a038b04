//! The calls, shorter to write.

use oracle::Call;

pub const FILE: u32 = 1;
pub const DIR: u32 = 2;
pub const SYMLINK: u32 = 3;

pub fn create(dir: u32, name: &[u8], kind: u32) -> Call {
    Call::Create { dir, name: name.to_vec(), kind }
}

pub fn link(dir: u32, name: &[u8], inode: u32) -> Call {
    Call::Link { dir, name: name.to_vec(), inode }
}

pub fn unlink(dir: u32, name: &[u8]) -> Call {
    Call::Unlink { dir, name: name.to_vec() }
}

pub fn moved(dir: u32, old: &[u8], target: u32, new: &[u8]) -> Call {
    Call::Move { dir, old: old.to_vec(), target, new: new.to_vec() }
}

pub fn find(dir: u32, name: &[u8]) -> Call {
    Call::Find { dir, name: name.to_vec() }
}

pub fn entry(dir: u32, index: u64) -> Call {
    Call::Entry { dir, index }
}
