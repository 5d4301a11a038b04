//! A card in a file.
//!
//! The calls work on a private mapping, so whatever ends the command early, the file has only what `save` wrote, and
//! `save` comes after calls that were done. A mapping that shares the file's pages would spare the comparison, but
//! Ctrl-C in the middle of a call would leave half of a call in the file.
//!
//! `save` writes the blocks that differ. First those that were free: until others name them, the card is the old one.
//! Then the few that were in use, while signals wait. Only a kill that cannot wait, or power that fails, among these
//! leaves a part of a change.

use crate::failure::Failure;
use crate::sys::{self, Map, SignalsHeld};
use sfs::{Card, BLOCK_SIZE, MAX_BLOCKS};
use std::ffi::OsStr;
use std::fs::{File, Metadata, OpenOptions};
use std::io::{self, Seek, SeekFrom};
use std::ops::Range;
use std::os::unix::fs::{FileExt, MetadataExt};
use std::path::{Path, PathBuf};

pub struct CardFile {
    pub card: Card<Map>,
    path: PathBuf,
    file: File,
    len: usize,
}

impl CardFile {
    /// For commands that change nothing.
    pub fn read(path: &OsStr) -> Result<CardFile, Failure> {
        let file = File::open(path).map_err(|e| not_opened(path, &e))?;
        CardFile::of(file, path, false)
    }

    pub fn write(path: &OsStr) -> Result<CardFile, Failure> {
        let file = OpenOptions::new().read(true).write(true).open(path);
        CardFile::of(file.map_err(|e| not_opened(path, &e))?, path, true)
    }

    pub fn of(mut file: File, path: &OsStr, exclusive: bool) -> Result<CardFile, Failure> {
        let path = PathBuf::from(path);
        if path.is_dir() {
            return Err(Failure::host_text(
                path.display(),
                "this is a directory",
                "Give the file of a card.",
            ));
        }
        let opened = sys::lock(&file, exclusive).and_then(|()| {
            // Not by its metadata: a device has its length at its end only.
            let len = usize::try_from(file.seek(SeekFrom::End(0))?).unwrap_or(usize::MAX);
            let len = len.min(MAX_BLOCKS as usize * BLOCK_SIZE);
            Ok((Map::private(&file, len)?, len))
        });
        let (map, len) = opened.map_err(|e| Failure::host(path.display(), &e))?;
        Ok(CardFile {
            card: Card::new(map),
            path,
            file,
            len,
        })
    }

    pub fn path(&self) -> &Path {
        &self.path
    }

    /// Whether that is the card's own file.
    pub fn is_at(&self, place: &Metadata) -> bool {
        let same = |own: Metadata| (own.dev(), own.ino()) == (place.dev(), place.ino());
        self.file.metadata().map_or(false, same)
    }

    /// Writes the changed blocks to the file.
    pub fn save(&mut self) -> Result<(), Failure> {
        self.write_changed().map_err(|e| {
            let failure = Failure::host(self.path.display(), &e);
            failure.note("The file may have a part of the change only: run `sfs check`.")
        })
    }

    /// Writes the changed blocks, and waits until they are on the disk.
    pub fn finish(mut self) -> Result<(), Failure> {
        self.save()?;
        self.file
            .sync_data()
            .map_err(|e| Failure::host(self.path.display(), &e))
    }

    /// Goes back to what the file has.
    pub fn give_up(&mut self) -> Result<(), Failure> {
        let map = Map::private(&self.file, self.len).map_err(|e| Failure::host(self.path.display(), &e))?;
        self.card = Card::new(map);
        Ok(())
    }

    fn write_changed(&self) -> io::Result<()> {
        let (fresh, used) = self.changed()?;
        self.write_runs(&fresh)?;
        if !fresh.is_empty() && !used.is_empty() {
            self.file.sync_data()?;
        }
        let _held = SignalsHeld::new();
        self.write_runs(&used)
    }

    fn write_runs(&self, runs: &[Run]) -> io::Result<()> {
        let image = self.card.image();
        runs.iter()
            .try_for_each(|run| self.file.write_all_at(&image[run.clone()], run.start as u64))
    }

    /// The blocks that differ from the file's: those that its map has as free, and the others.
    fn changed(&self) -> io::Result<(Vec<Run>, Vec<Run>)> {
        let (mut fresh, mut used) = (Vec::new(), Vec::new());
        let image = self.card.image();
        let mut map = vec![0; BLOCK_SIZE];
        if image.len() >= 3 * BLOCK_SIZE {
            self.file.read_exact_at(&mut map, 2 * BLOCK_SIZE as u64)?;
        }
        let mut old = vec![0; 256 * BLOCK_SIZE];
        for (i, new) in image.chunks(old.len()).enumerate() {
            let start = i * old.len();
            let old = &mut old[..new.len()];
            self.file.read_exact_at(old, start as u64)?;
            for (j, (a, b)) in old.chunks(BLOCK_SIZE).zip(new.chunks(BLOCK_SIZE)).enumerate() {
                let block = start / BLOCK_SIZE + j;
                let is_free = map[block / 8] >> (block % 8) & 1 == 1;
                if a != b {
                    let at = block * BLOCK_SIZE;
                    add(if is_free { &mut fresh } else { &mut used }, at..at + b.len());
                }
            }
        }
        Ok((fresh, used))
    }
}

fn not_opened(path: &OsStr, error: &io::Error) -> Failure {
    let failure = Failure::host(path.to_string_lossy(), error);
    match error.kind() {
        io::ErrorKind::NotFound => failure.advise("Give the file of a card. `sfs format` makes a new one."),
        _ => failure,
    }
}

/// Bytes of the file that are written at once.
type Run = Range<usize>;

fn add(runs: &mut Vec<Run>, next: Run) {
    match runs.last_mut() {
        Some(last) if last.end == next.start => last.end = next.end,
        _ => runs.push(next),
    }
}
