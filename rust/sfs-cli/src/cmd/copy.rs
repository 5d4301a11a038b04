//! A whole card from a slow reader: copy.

use crate::args::Args;
use crate::failure::Failure;
use crate::host::Beside;
use crate::lookup::{blocks, refused_card};
use crate::progress::Progress;
use crate::sys::{self, Map, SignalsHeld};
use crate::text::{clean, count, some};
use sfs::{BlockCache, Card, Error, Info, BLOCK_SIZE};
use std::ffi::OsStr;
use std::fs::File;
use std::io::{self, Seek, SeekFrom, Write};
use std::os::unix::ffi::OsStrExt;
use std::path::Path;

/// Of the cache.
const SLOTS: usize = 16;
/// What is written at once.
const PIECE: usize = 64 * BLOCK_SIZE;

pub fn copy(args: &Args, out: &mut dyn Write) -> Result<(), Failure> {
    let (from, to) = (args.word(0), Path::new(args.word(1)));
    let quiet = args.has("quiet");
    let mut slow = Slow::open(from)?;
    let blocks = slow.blocks()?;
    // What is begun is removed before a signal that came in the meantime ends the command.
    let _held = SignalsHeld::ending();
    let mut new = Beside::new(to, args.has("force"), &slow.own)?;
    let progress = if quiet {
        Progress::none()
    } else {
        Progress::new(blocks.into())
    };
    fill(new.file(), to, &mut slow, blocks, progress)?;
    let info = check(new.file(), from, blocks)?;
    new.take_its_name().map_err(|e| not_made(to, &e))?;
    if quiet {
        return Ok(());
    }
    let (path, blocks) = (
        clean(to.as_os_str().as_bytes()),
        some(info.blocks.into(), "block", "blocks"),
    );
    let unused = count(info.unused.into());
    writeln!(out, "{path}: copied, whole, {blocks}, {unused} unused").map_err(Failure::output)
}

fn fill(new: &mut File, to: &Path, slow: &mut Slow, blocks: u32, mut progress: Progress) -> Result<(), Failure> {
    let mut piece = Vec::with_capacity(PIECE);
    for block in 0..blocks {
        let start = piece.len();
        piece.resize(start + BLOCK_SIZE, 0);
        slow.read(block, blocks, &mut piece[start..])?;
        if piece.len() == PIECE || block + 1 == blocks {
            new.write_all(&piece).map_err(|e| not_made(to, &e))?;
            piece.clear();
        }
        if sys::is_to_end() {
            return Err(Failure::host_text(to.display(), "the copy was ended", AS_IT_WAS));
        }
        progress.step(1, slow.path.as_bytes());
    }
    Ok(())
}

fn not_made(to: &Path, error: &io::Error) -> Failure {
    Failure::host(to.display(), error).note(AS_IT_WAS)
}

const AS_IT_WAS: &str = "No new card was made, and one that was there is as it was.";

/// The slow reader, by the cache.
struct Slow<'a> {
    path: &'a OsStr,
    cache: BlockCache<File>,
    len: u64,
    own: std::fs::Metadata,
}

impl Slow<'_> {
    fn open(path: &OsStr) -> Result<Slow<'_>, Failure> {
        let host = |e: io::Error| Failure::host(path.to_string_lossy(), &e);
        let mut file = File::open(path).map_err(host)?;
        let own = file.metadata().map_err(host)?;
        if own.is_dir() {
            let advice = "Give the file or device of a card.";
            return Err(Failure::host_text(
                path.to_string_lossy(),
                "this is a directory",
                advice,
            ));
        }
        sys::lock(&file, false).map_err(host)?;
        let len = file.seek(SeekFrom::End(0)).map_err(host)?;
        let cache = BlockCache::new(file, SLOTS).map_err(host)?;
        Ok(Slow { path, cache, len, own })
    }

    /// The blocks of its card, by the first one. Whether the card is whole is known only when all of it is here.
    fn blocks(&mut self) -> Result<u32, Failure> {
        let mut first = vec![0; BLOCK_SIZE];
        let name = self.path.to_string_lossy();
        if self.cache.blocks() == 0 {
            return Err(refused_card(name, Error::Damaged, &[], self.len));
        }
        self.read(0, 1, &mut first)?;
        if Card::new(&first).check() == Err(Error::WrongFs) {
            return Err(refused_card(name, Error::WrongFs, &first, self.len));
        }
        match blocks(&first) {
            Some(blocks) if u64::from(blocks) <= self.cache.blocks() => Ok(blocks),
            _ => Err(refused_card(name, Error::Damaged, &first, self.len)),
        }
    }

    fn read(&mut self, block: u32, of: u32, buf: &mut [u8]) -> Result<(), Failure> {
        self.cache.read_at(block, buf).map_err(|e| {
            let failure = Failure::host(self.path.to_string_lossy(), &e);
            let note = format!("Block {block} of {of} could not be read.");
            failure.note(note).note(AS_IT_WAS)
        })
    }
}

/// Whether the copy is whole: what was written is read back.
fn check(file: &mut File, from: &OsStr, blocks: u32) -> Result<Info, Failure> {
    let name = from.to_string_lossy();
    let map = Map::private(file, blocks as usize * BLOCK_SIZE).map_err(|e| Failure::host(&name, &e).note(AS_IT_WAS))?;
    let info = Card::new(map).info();
    info.map_err(|e| Failure::refused(&name, e).note(AS_IT_WAS))
}
