//! Commands about the whole card: format, check, info, df.

use crate::args::Args;
use crate::cardfile::CardFile;
use crate::failure::Failure;
use crate::text::{self, clean, count, parse_size, some};
use sfs::{Error, INodeId, Info, BLOCK_SIZE, MAX_BLOCKS, MIN_BLOCKS};
use std::ffi::OsStr;
use std::fs::{self, File, OpenOptions};
use std::io::{self, Seek, SeekFrom, Write};

pub fn format(args: &Args, out: &mut dyn Write) -> Result<(), Failure> {
    let path = args.word(0);
    let name = path.to_string_lossy();
    let old_len = length(path);
    let space = match args.words.get(1) {
        Some(word) => parse_size(word).ok_or_else(|| bad_size(word))?,
        None => old_len.ok_or_else(|| Failure::usage(&name, "a new card needs a size, such as 16M"))?,
    };
    let blocks = space / BLOCK_SIZE as u64 + u64::from(space % BLOCK_SIZE as u64 > 0);
    if !(u64::from(MIN_BLOCKS)..=u64::from(MAX_BLOCKS)).contains(&blocks) {
        let what = if blocks < MIN_BLOCKS.into() { "small" } else { "large" };
        let why = format!("a card of {} is too {what}", some(space, "byte", "bytes"));
        let advice = "Give a size of 64K to 128M: a card has 16 to 32,768 blocks of 4,096 bytes.";
        return Err(Failure::refused_as(name, Error::InvalidParam, why, advice));
    }
    if old_len.is_some() && !args.has("force") && holds_something(&CardFile::read(path)?) {
        let advice = "Format would lose what it holds. Give -f if that is wanted.";
        return Err(Failure::host_text(
            name,
            "this file is neither new nor an empty card",
            advice,
        ));
    }
    if let Err(failure) = format_file(path, space, blocks * BLOCK_SIZE as u64) {
        restore(path, old_len);
        return Err(failure);
    }
    let size = some(blocks, "block", "blocks");
    writeln!(out, "{}: an empty card of {size}", clean(name.as_bytes())).map_err(Failure::output)
}

/// By its end: a device has its length nowhere else.
fn length(path: &OsStr) -> Option<u64> {
    File::open(path).and_then(|mut file| file.seek(SeekFrom::End(0))).ok()
}

/// Anything but zeros and an empty card.
fn holds_something(file: &CardFile) -> bool {
    match file.card.entry(INodeId::ROOT, 2) {
        Err(Error::EntryNotFound) => false,
        _ => file.card.image().iter().any(|&byte| byte != 0),
    }
}

fn format_file(path: &OsStr, space: u64, len: u64) -> Result<(), Failure> {
    let host = |e: io::Error| Failure::host(path.to_string_lossy(), &e);
    let opened = OpenOptions::new()
        .read(true)
        .write(true)
        .create(true)
        .truncate(false)
        .open(path);
    let file = opened.map_err(host)?;
    let meta = file.metadata().map_err(host)?;
    if meta.is_file() && meta.len() < len {
        file.set_len(len).map_err(host)?;
    }
    let mut file = CardFile::of(file, path, true)?;
    file.card
        .format(space)
        .map_err(|e| Failure::refused(path.to_string_lossy(), e))?;
    file.finish()
}

/// A file that was not there is not left behind, and one that grew is cut again.
fn restore(path: &OsStr, old_len: Option<u64>) {
    let _ = match old_len {
        None => fs::remove_file(path),
        Some(len) => OpenOptions::new()
            .write(true)
            .open(path)
            .and_then(|file| file.set_len(len)),
    };
}

pub fn bad_size(word: &OsStr) -> Failure {
    Failure::usage(
        word.to_string_lossy(),
        "this is no size; give bytes, or a number with K, M or G",
    )
}

pub fn info_of(file: &CardFile) -> Result<Info, Failure> {
    file.card.info().map_err(|e| file.refused_card(e))
}

pub fn check(args: &Args, out: &mut dyn Write) -> Result<(), Failure> {
    let file = CardFile::read(args.word(0))?;
    let info = info_of(&file)?;
    let (path, blocks) = (
        clean(args.word(0).to_string_lossy().as_bytes()),
        some(info.blocks.into(), "block", "blocks"),
    );
    writeln!(out, "{path}: whole, {blocks}, {} unused", count(info.unused.into())).map_err(Failure::output)
}

pub fn info(args: &Args, out: &mut dyn Write) -> Result<(), Failure> {
    let file = CardFile::read(args.word(0))?;
    match args.words.get(1) {
        None => card_info(&file, out),
        Some(path) => path_info(&file, path, out),
    }
}

fn card_info(file: &CardFile, out: &mut dyn Write) -> Result<(), Failure> {
    let info = info_of(file)?;
    let bytes = |blocks: u32| count(u64::from(blocks) * BLOCK_SIZE as u64);
    let used = info.blocks - info.unused;
    let lines = [("blocks", info.blocks), ("used", used), ("unused", info.unused)];
    writeln!(out, "{:8} {:>7}   of {} bytes", "block", 1, count(BLOCK_SIZE as u64)).map_err(Failure::output)?;
    for (name, blocks) in lines {
        let (text, bytes) = (count(blocks.into()), bytes(blocks));
        writeln!(out, "{name:8} {text:>7}   {bytes} bytes").map_err(Failure::output)?;
    }
    Ok(())
}

fn path_info(file: &CardFile, path: &OsStr, out: &mut dyn Write) -> Result<(), Failure> {
    let inode = file.find(path)?;
    let meta = file.card.metadata(inode).map_err(|e| file.refused(path, e))?;
    let (_, kind) = text::kind(meta.kind);
    let (size, blocks, links) = (
        count(meta.size.into()),
        count(meta.blocks.into()),
        count(meta.links.into()),
    );
    write!(
        out,
        "inode   {inode}\nkind    {kind}\nsize    {size}\nblocks  {blocks}\nlinks   {links}\n"
    )
    .map_err(Failure::output)
}

pub fn df(args: &Args, out: &mut dyn Write) -> Result<(), Failure> {
    for (i, path) in args.words.iter().enumerate() {
        let info = info_of(&CardFile::read(path)?)?;
        if i == 0 {
            writeln!(out, "{:>10} {:>10} {:>10} {:>5}  card", "KiB", "used", "unused", "use")
                .map_err(Failure::output)?;
        }
        let kib = |blocks: u32| u64::from(blocks) * 4;
        let used = info.blocks - info.unused;
        // Rounded down, so that only a full card has 100 %.
        let percent = 100 * used / info.blocks;
        let name = clean(path.to_string_lossy().as_bytes());
        writeln!(
            out,
            "{:>10} {:>10} {:>10} {percent:>3} %  {name}",
            kib(info.blocks),
            kib(used),
            kib(info.unused)
        )
        .map_err(Failure::output)?;
    }
    Ok(())
}
