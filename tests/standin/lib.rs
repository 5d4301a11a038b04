//! A stand-in for libsfs.a: all of include/sfs.h in plain Rust by RULES' rules, with nothing proved. For trying
//! what uses the library where it is not built, and as the measure for it. build.sh makes the archive.
#![allow(clippy::missing_safety_doc, clippy::too_many_arguments)]

pub mod bytes;
pub mod cache;
pub mod card;
pub mod check;
pub mod dirs;
pub mod files;

use bytes::ENTRY;
use std::slice;

/// Memory that a caller lends, by sfs.h's rules: none may come as any pointer.
unsafe fn lent<'a, T>(at: *const T, len: usize) -> &'a [T] {
    if len == 0 {
        &[]
    } else {
        slice::from_raw_parts(at, len)
    }
}

unsafe fn lent_mut<'a, T>(at: *mut T, len: usize) -> &'a mut [T] {
    if len == 0 {
        &mut []
    } else {
        slice::from_raw_parts_mut(at, len)
    }
}

/// The number of an answer; its value goes behind the pointer.
unsafe fn said(answer: Result<u32, u32>, value: *mut u32) -> u32 {
    *value = answer.unwrap_or(0);
    status(answer)
}

fn status<T>(answer: Result<T, u32>) -> u32 {
    answer.err().unwrap_or(0)
}

#[no_mangle]
pub unsafe extern "C" fn sfs_format(image: *mut u8, image_len: usize, space: u64) -> u32 {
    status(card::format(lent_mut(image, image_len), space))
}

#[no_mangle]
pub unsafe extern "C" fn sfs_check(
    image: *const u8,
    image_len: usize,
    scratch: *mut u32,
    scratch_len: usize,
    blocks: *mut u32,
    unused: *mut u32,
) -> u32 {
    let answer = check::check(lent(image, image_len), lent_mut(scratch, scratch_len));
    *blocks = answer.blocks;
    *unused = answer.unused;
    answer.status
}

#[no_mangle]
pub unsafe extern "C" fn sfs_metadata(
    image: *const u8,
    image_len: usize,
    scratch: *mut u32,
    scratch_len: usize,
    inode: u32,
    kind: *mut u32,
    size: *mut u32,
    blocks: *mut u32,
    links: *mut u32,
) -> u32 {
    let image = lent(image, image_len);
    let opened = check::open(image, lent_mut(scratch, scratch_len), &[inode]);
    let values = opened.map_or([0; 4], |()| card::metadata(image, inode));
    [*kind, *size, *blocks, *links] = values;
    status(opened)
}

#[no_mangle]
pub unsafe extern "C" fn sfs_read(
    image: *const u8,
    image_len: usize,
    scratch: *mut u32,
    scratch_len: usize,
    inode: u32,
    offset: u64,
    buf: *mut u8,
    buf_len: usize,
    count: *mut u32,
) -> u32 {
    let image = lent(image, image_len);
    let opened = check::open(image, lent_mut(scratch, scratch_len), &[inode]);
    said(
        opened.and_then(|()| files::read(image, inode, offset, lent_mut(buf, buf_len))),
        count,
    )
}

#[no_mangle]
pub unsafe extern "C" fn sfs_write(
    image: *mut u8,
    image_len: usize,
    scratch: *mut u32,
    scratch_len: usize,
    inode: u32,
    offset: u64,
    data: *const u8,
    data_len: usize,
    count: *mut u32,
) -> u32 {
    let image = lent_mut(image, image_len);
    let opened = check::open(image, lent_mut(scratch, scratch_len), &[inode]);
    said(
        opened.and_then(|()| files::write(image, inode, offset, lent(data, data_len))),
        count,
    )
}

#[no_mangle]
pub unsafe extern "C" fn sfs_resize(
    image: *mut u8,
    image_len: usize,
    scratch: *mut u32,
    scratch_len: usize,
    inode: u32,
    len: u64,
) -> u32 {
    let image = lent_mut(image, image_len);
    let opened = check::open(image, lent_mut(scratch, scratch_len), &[inode]);
    status(opened.and_then(|()| files::resize(image, inode, len)))
}

#[no_mangle]
pub unsafe extern "C" fn sfs_create(
    image: *mut u8,
    image_len: usize,
    scratch: *mut u32,
    scratch_len: usize,
    dir: u32,
    name: *const u8,
    name_len: usize,
    kind: u32,
    number: *mut u32,
) -> u32 {
    let image = lent_mut(image, image_len);
    let opened = check::open(image, lent_mut(scratch, scratch_len), &[dir]);
    said(
        opened.and_then(|()| dirs::create(image, dir, lent(name, name_len), kind)),
        number,
    )
}

#[no_mangle]
pub unsafe extern "C" fn sfs_link(
    image: *mut u8,
    image_len: usize,
    scratch: *mut u32,
    scratch_len: usize,
    dir: u32,
    name: *const u8,
    name_len: usize,
    inode: u32,
) -> u32 {
    let image = lent_mut(image, image_len);
    let opened = check::open(image, lent_mut(scratch, scratch_len), &[dir, inode]);
    status(opened.and_then(|()| dirs::link(image, dir, lent(name, name_len), inode)))
}

#[no_mangle]
pub unsafe extern "C" fn sfs_unlink(
    image: *mut u8,
    image_len: usize,
    scratch: *mut u32,
    scratch_len: usize,
    dir: u32,
    name: *const u8,
    name_len: usize,
) -> u32 {
    let image = lent_mut(image, image_len);
    let opened = check::open(image, lent_mut(scratch, scratch_len), &[dir]);
    status(opened.and_then(|()| dirs::unlink(image, dir, lent(name, name_len))))
}

#[no_mangle]
pub unsafe extern "C" fn sfs_move(
    image: *mut u8,
    image_len: usize,
    scratch: *mut u32,
    scratch_len: usize,
    dir: u32,
    old_name: *const u8,
    old_name_len: usize,
    target: u32,
    new_name: *const u8,
    new_name_len: usize,
) -> u32 {
    let image = lent_mut(image, image_len);
    let (old, new) = (lent(old_name, old_name_len), lent(new_name, new_name_len));
    let opened = check::open(image, lent_mut(scratch, scratch_len), &[dir, target]);
    status(opened.and_then(|()| dirs::move_(image, dir, old, target, new)))
}

#[no_mangle]
pub unsafe extern "C" fn sfs_find(
    image: *const u8,
    image_len: usize,
    scratch: *mut u32,
    scratch_len: usize,
    dir: u32,
    name: *const u8,
    name_len: usize,
    number: *mut u32,
) -> u32 {
    let image = lent(image, image_len);
    let opened = check::open(image, lent_mut(scratch, scratch_len), &[dir]);
    said(
        opened.and_then(|()| dirs::find(image, dir, lent(name, name_len))),
        number,
    )
}

#[no_mangle]
pub unsafe extern "C" fn sfs_entry(
    image: *const u8,
    image_len: usize,
    scratch: *mut u32,
    scratch_len: usize,
    dir: u32,
    index: u64,
    entry: *mut u8,
) -> u32 {
    let image = lent(image, image_len);
    let opened = check::open(image, lent_mut(scratch, scratch_len), &[dir]);
    let answer = opened.and_then(|()| dirs::entry(image, dir, index));
    lent_mut(entry, ENTRY).copy_from_slice(&answer.unwrap_or([0; ENTRY]));
    status(answer)
}

#[no_mangle]
pub unsafe extern "C" fn sfs_entry_name(entry: *const u8, entry_len: usize) -> usize {
    match lent(entry, entry_len) {
        entry if entry_len == ENTRY => entry[4..].iter().position(|&byte| byte == 0).unwrap_or(0),
        _ => 0,
    }
}

#[no_mangle]
pub unsafe extern "C" fn sfs_cache_start(slots: *mut u32, slots_len: usize) {
    cache::start(lent_mut(slots, slots_len));
}

#[no_mangle]
pub unsafe extern "C" fn sfs_cache_read(
    device: *mut u8,
    device_len: usize,
    data: *mut u8,
    data_len: usize,
    slots: *mut u32,
    slots_len: usize,
    block: u32,
    buf: *mut u8,
    buf_len: usize,
) -> u32 {
    let (device, data, slots) = (lent_mut(device, device_len), lent_mut(data, data_len), lent_mut(slots, slots_len));
    status(cache::read(device, data, slots, block, lent_mut(buf, buf_len)))
}

#[no_mangle]
pub unsafe extern "C" fn sfs_cache_write(
    device: *mut u8,
    device_len: usize,
    data: *mut u8,
    data_len: usize,
    slots: *mut u32,
    slots_len: usize,
    block: u32,
    buf: *const u8,
    buf_len: usize,
) -> u32 {
    let (device, data, slots) = (lent_mut(device, device_len), lent_mut(data, data_len), lent_mut(slots, slots_len));
    status(cache::write(device, data, slots, block, lent(buf, buf_len)))
}

#[no_mangle]
pub unsafe extern "C" fn sfs_cache_sync(
    device: *mut u8,
    device_len: usize,
    data: *const u8,
    data_len: usize,
    slots: *mut u32,
    slots_len: usize,
) -> u32 {
    let (device, slots) = (lent_mut(device, device_len), lent_mut(slots, slots_len));
    status(cache::sync(device, lent(data, data_len), slots))
}
