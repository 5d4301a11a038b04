//! One call, by the library and by plain Rust. A read's bytes and an entry go to `buf`, whose length is a read's.

use crate::library::*;
use crate::{card, check, dirs, files};
use oracle::Call;

/// RULES' number of a refusal, or the call's value: 0 where it has none.
pub type Said = Result<u32, u32>;

/// The inodes that a call names, the second one again where there is one alone. The root stands for none.
pub fn inodes(call: &Call) -> [u32; 2] {
    match *call {
        Call::Format { .. } | Call::Counts => [1, 1],
        Call::Metadata { inode } | Call::Read { inode, .. } => [inode, inode],
        Call::Write { inode, .. } | Call::Resize { inode, .. } => [inode, inode],
        Call::Create { dir, .. } | Call::Unlink { dir, .. } => [dir, dir],
        Call::Find { dir, .. } | Call::Entry { dir, .. } => [dir, dir],
        Call::Link { dir, inode, .. } => [dir, inode],
        Call::Move { dir, target, .. } => [dir, target],
    }
}

pub fn by_library(image: &mut [u8], scratch: &mut [u32], call: &Call, buf: &mut [u8]) -> Said {
    let (at, len) = (image.as_mut_ptr(), image.len());
    let (words, count) = (scratch.as_mut_ptr(), scratch.len());
    let mut values = [0; 4];
    let [one, two, three, four] = &mut values;
    // SAFETY: each pointer has the memory that it is given for.
    let status = unsafe {
        match call {
            Call::Format { space } => sfs_format(at, len, *space),
            Call::Counts => sfs_check(at, len, words, count, two, one),
            Call::Metadata { inode } => sfs_metadata(at, len, words, count, *inode, one, two, three, four),
            Call::Read { inode, offset, .. } => {
                sfs_read(at, len, words, count, *inode, *offset, buf.as_mut_ptr(), buf.len(), one)
            }
            Call::Write { inode, offset, data } => {
                sfs_write(at, len, words, count, *inode, *offset, data.as_ptr(), data.len(), one)
            }
            Call::Resize { inode, len: size } => sfs_resize(at, len, words, count, *inode, *size),
            Call::Create { dir, name, kind } => {
                sfs_create(at, len, words, count, *dir, name.as_ptr(), name.len(), *kind, one)
            }
            Call::Link { dir, name, inode } => sfs_link(at, len, words, count, *dir, name.as_ptr(), name.len(), *inode),
            Call::Unlink { dir, name } => sfs_unlink(at, len, words, count, *dir, name.as_ptr(), name.len()),
            Call::Move { dir, old, target, new } => {
                let (old, old_len, new, new_len) = (old.as_ptr(), old.len(), new.as_ptr(), new.len());
                sfs_move(at, len, words, count, *dir, old, old_len, *target, new, new_len)
            }
            Call::Find { dir, name } => sfs_find(at, len, words, count, *dir, name.as_ptr(), name.len(), one),
            Call::Entry { dir, index } => sfs_entry(at, len, words, count, *dir, *index, buf.as_mut_ptr()),
        }
    };
    if status == 0 {
        Ok(values[0])
    } else {
        Err(status)
    }
}

/// The act alone: the card is taken for whole.
pub fn by_plain(image: &mut [u8], scratch: &mut [u32], call: &Call, buf: &mut [u8]) -> Said {
    match call {
        Call::Format { space } => card::format(image, *space).map(|()| 0),
        Call::Counts => match check::check(image, scratch) {
            said if said.status == 0 => Ok(said.unused),
            said => Err(said.status),
        },
        Call::Metadata { inode } => Ok(metadata(image, *inode)[0]),
        Call::Read { inode, offset, .. } => files::read(image, *inode, *offset, buf),
        Call::Write { inode, offset, data } => files::write(image, *inode, *offset, data),
        Call::Resize { inode, len } => files::resize(image, *inode, *len).map(|()| 0),
        Call::Create { dir, name, kind } => dirs::create(image, *dir, name, *kind),
        Call::Link { dir, name, inode } => dirs::link(image, *dir, name, *inode).map(|()| 0),
        Call::Unlink { dir, name } => dirs::unlink(image, *dir, name).map(|()| 0),
        Call::Move { dir, old, target, new } => dirs::move_(image, *dir, old, *target, new).map(|()| 0),
        Call::Find { dir, name } => dirs::find(image, *dir, name),
        Call::Entry { dir, index } => {
            buf.copy_from_slice(&dirs::entry(image, *dir, *index)?);
            Ok(0)
        }
    }
}

/// What the program itself takes to make a call, for subtracting.
#[inline(never)]
pub fn by_nobody(_: &mut [u8], _: &mut [u32], call: &Call, _: &mut [u8]) -> Said {
    Ok(inodes(call)[0])
}

/// Not inlined, or three of the four would be left out.
#[inline(never)]
fn metadata(image: &[u8], inode: u32) -> [u32; 4] {
    card::metadata(image, inode)
}
