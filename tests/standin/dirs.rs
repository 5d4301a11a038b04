//! The calls on directories, with nothing proved. The card is whole and the numbers are inodes'.
//! What each does, and the order of its refusals, is RULES'.

use crate::bytes::*;
use crate::check::is_named;
use crate::files::{self, Free, Pieces};

pub fn find(image: &[u8], dir: u32, name: &[u8]) -> Result<u32, u32> {
    let dir = directory(image, dir)?;
    search(image, dir, name)
        .map(|(_, number)| number)
        .ok_or(ENTRY_NOT_FOUND)
}

pub fn entry(image: &[u8], dir: u32, index: u64) -> Result<[u8; ENTRY], u32> {
    let dir = directory(image, dir)?;
    if index >= (word(image, dir) as usize / ENTRY) as u64 {
        return Err(ENTRY_NOT_FOUND);
    }
    Ok(entry_at(image, dir, index as usize))
}

pub fn create(image: &mut [u8], dir: u32, name: &[u8], kind: u32) -> Result<u32, u32> {
    let parent = directory(image, dir)?;
    new_name(image, parent, name)?;
    let kind = match kind {
        1 => FILE,
        2 => DIR,
        3 => SYM_LINK,
        _ => return Err(INVALID_PARAM),
    };
    if kind == DIR {
        one_link_more(image, parent)?;
    }
    let own = 1 + usize::from(kind == DIR);
    room(image, own + growth(image, parent))?;
    let mut free = Free::new(image);
    let inode = free.take(image) as u32;
    let data = if kind == DIR { free.take(image) } else { 0 };
    free.store(image);
    let unused = word(image, UNUSED_AT) as usize;
    put(image, UNUSED_AT, unused - own);
    new_record(image, inode, kind, data);
    if kind == DIR {
        two_entries(image, data, inode, dir);
        add_links(image, parent, 1);
    }
    append(image, parent, inode, name);
    Ok(inode)
}

pub fn link(image: &mut [u8], dir: u32, name: &[u8], inode: u32) -> Result<(), u32> {
    let parent = directory(image, dir)?;
    new_name(image, parent, name)?;
    if kind(image, inode) == DIR {
        return Err(IS_DIR);
    }
    one_link_more(image, record(inode))?;
    room(image, growth(image, parent))?;
    append(image, parent, inode, name);
    add_links(image, record(inode), 1);
    Ok(())
}

pub fn unlink(image: &mut [u8], dir: u32, name: &[u8]) -> Result<(), u32> {
    let parent = directory(image, dir)?;
    if is_dots(name) {
        return Err(IS_DIR);
    }
    let (k, number) = search(image, parent, name).ok_or(ENTRY_NOT_FOUND)?;
    let child = record(number);
    let is_dir = kind(image, number) == DIR;
    if is_dir && word(image, child) as usize > 2 * ENTRY {
        return Err(DIR_NOT_EMPTY);
    }
    remove(image, parent, k);
    if is_dir {
        add_links(image, parent, -1);
        put_half(image, child + LINKS_AT, 0);
    } else {
        add_links(image, child, -1);
    }
    if half(image, child + LINKS_AT) == 0 {
        free_inode(image, number);
    }
    Ok(())
}

pub fn move_(image: &mut [u8], dir: u32, old: &[u8], target: u32, new: &[u8]) -> Result<(), u32> {
    let from = directory(image, dir)?;
    if is_dots(old) {
        return Err(IS_DIR);
    }
    let to = directory(image, target)?;
    new_name(image, to, new)?;
    let (k, number) = search(image, from, old).ok_or(ENTRY_NOT_FOUND)?;
    if from == to {
        files::store(image, to, ENTRY * k, &entry_bytes(number, new));
        return Ok(());
    }
    let is_dir = kind(image, number) == DIR;
    if is_dir {
        if is_at_or_below(image, target, number) {
            return Err(INVALID_PARAM);
        }
        one_link_more(image, to)?;
    }
    room(image, growth(image, to))?;
    append(image, to, number, new);
    remove(image, from, k);
    if is_dir {
        add_links(image, to, 1);
        add_links(image, from, -1);
        files::store(image, record(number), ENTRY, &target.to_le_bytes());
    }
    Ok(())
}

/// Where the record stands, if it is a directory's.
fn directory(image: &[u8], dir: u32) -> Result<usize, u32> {
    if kind(image, dir) == DIR {
        Ok(record(dir))
    } else {
        Err(NOT_DIR)
    }
}

fn is_dots(name: &[u8]) -> bool {
    name == b"." || name == b".."
}

fn is_name(name: &[u8]) -> bool {
    (1..=255).contains(&name.len()) && !name.contains(&0)
}

/// A name to be stored.
fn new_name(image: &[u8], dir: usize, name: &[u8]) -> Result<(), u32> {
    if !is_name(name) {
        return Err(BAD_NAME);
    }
    match search(image, dir, name) {
        Some(_) => Err(ENTRY_EXIST),
        None => Ok(()),
    }
}

fn one_link_more(image: &[u8], record: usize) -> Result<(), u32> {
    match half(image, record + LINKS_AT) {
        u16::MAX => Err(TOO_MANY_LINKS),
        _ => Ok(()),
    }
}

fn add_links(image: &mut [u8], record: usize, change: i32) {
    let links = i32::from(half(image, record + LINKS_AT)) + change;
    put_half(image, record + LINKS_AT, links as u16);
}

/// The blocks that one entry more takes.
fn growth(image: &[u8], dir: usize) -> usize {
    let size = word(image, dir) as usize;
    let blocks = |size: usize| (size + BLOCK - 1) / BLOCK;
    files::owned(blocks(size + ENTRY)) - files::owned(blocks(size))
}

fn room(image: &[u8], blocks: usize) -> Result<(), u32> {
    if blocks > word(image, UNUSED_AT) as usize {
        Err(NO_DEVICE_SPACE)
    } else {
        Ok(())
    }
}

/// The index and number of the entry with that name.
fn search(image: &[u8], dir: usize, name: &[u8]) -> Option<(usize, u32)> {
    if !is_name(name) {
        return None;
    }
    // The beginning of an entry that crosses into the next piece. None crosses twice: a piece that is not the
    // last has a block at least.
    let (mut cut, mut held) = ([0; ENTRY], 0);
    let mut k = 0;
    let mut pieces = Pieces::new(dir, 0, word(image, dir) as usize);
    while let Some((at, len)) = pieces.next(image) {
        let mut piece = &image[at..at + len];
        if held > 0 {
            let (rest, after) = piece.split_at(ENTRY - held);
            cut[held..].copy_from_slice(rest);
            piece = after;
            if is_named(&cut, name) {
                return Some((k, word(&cut, 0)));
            }
            k += 1;
        }
        let entries = piece.chunks_exact(ENTRY);
        let rest = entries.remainder();
        for (i, entry) in entries.enumerate() {
            if is_named(entry, name) {
                return Some((k + i, word(entry, 0)));
            }
        }
        k += piece.len() / ENTRY;
        held = rest.len();
        cut[..held].copy_from_slice(rest);
    }
    None
}

fn entry_at(image: &[u8], dir: usize, k: usize) -> [u8; ENTRY] {
    let mut entry = [0; ENTRY];
    files::load(image, dir, ENTRY * k, &mut entry);
    entry
}

fn entry_bytes(number: u32, name: &[u8]) -> [u8; ENTRY] {
    let mut entry = [0; ENTRY];
    entry[..4].copy_from_slice(&number.to_le_bytes());
    entry[4..4 + name.len()].copy_from_slice(name);
    entry
}

/// Room was judged before.
fn append(image: &mut [u8], dir: usize, number: u32, name: &[u8]) {
    let size = word(image, dir) as usize;
    let grown = files::set_length(image, dir, (size + ENTRY) as u64);
    debug_assert!(grown.is_ok());
    files::store(image, dir, size, &entry_bytes(number, name));
}

/// The last entry comes into the hole.
fn remove(image: &mut [u8], dir: usize, k: usize) {
    let size = word(image, dir) as usize;
    let last = entry_at(image, dir, size / ENTRY - 1);
    files::store(image, dir, ENTRY * k, &last);
    let cut = files::set_length(image, dir, (size - ENTRY) as u64);
    debug_assert!(cut.is_ok());
}

/// Its record keeps its fields.
fn free_inode(image: &mut [u8], number: u32) {
    let file = record(number);
    let count = word(image, file + COUNT_AT) as usize;
    files::release(image, file, count, 0);
    files::give(image, number);
    let unused = word(image, UNUSED_AT) as usize;
    put(image, UNUSED_AT, unused + files::owned(count) + 1);
}

/// A directory has its two entries in the block `data`.
pub fn new_record(image: &mut [u8], inode: u32, kind: u16, data: usize) {
    let at = record(inode);
    let record = &mut image[at..at + RECORD];
    record.fill(0);
    put_half(record, KIND_AT, kind);
    put_half(record, LINKS_AT, 1);
    put(record, DEVICE_AT, 100);
    if kind == DIR {
        put(record, 0, 2 * ENTRY);
        put_half(record, LINKS_AT, 2);
        put(record, COUNT_AT, 1);
        put(record, DIRECT_AT, data);
    }
}

pub fn two_entries(image: &mut [u8], data: usize, inode: u32, parent: u32) {
    let at = data * BLOCK;
    image[at..at + ENTRY].copy_from_slice(&entry_bytes(inode, b"."));
    image[at + ENTRY..at + 2 * ENTRY].copy_from_slice(&entry_bytes(parent, b".."));
}

fn is_at_or_below(image: &[u8], mut dir: u32, above: u32) -> bool {
    while dir != above && dir != ROOT {
        dir = word(&entry_at(image, record(dir), 1), 0);
    }
    dir == above
}
