//! Paths on a card file, and what is said where one leads nowhere or is refused.

use crate::cardfile::CardFile;
use crate::failure::Failure;
use crate::path::{self, Stop};
use crate::text::count;
use sfs::{Error, INodeId, BLOCK_SIZE, MAX_BLOCKS, MIN_BLOCKS};
use std::ffi::OsStr;
use std::fmt::Display;

/// The bytes of the smallest card.
const LEAST: u64 = MIN_BLOCKS as u64 * BLOCK_SIZE as u64;

/// A name of this machine is neither empty nor has it a NUL: it is too long.
pub fn bad_name(subject: impl Display, len: usize) -> Failure {
    let why = format!("a name has at most 255 bytes, and this one has {len}");
    Failure::refused_as(subject, Error::BadName, why, "Choose a shorter name.")
}

impl CardFile {
    pub fn find(&self, path: &OsStr) -> Result<INodeId, Failure> {
        path::find(&self.card, path).map_err(|stop| self.stopped(path, &stop))
    }

    /// The directory that a path leads to, and the last name.
    pub fn parent<'p>(&self, path: &'p OsStr) -> Result<(INodeId, &'p [u8]), Failure> {
        path::parent(&self.card, path).map_err(|stop| self.stopped(path, &stop))
    }

    /// The same for a new name: a directory that is missing on the way can be made.
    pub fn place<'p>(&self, path: &'p OsStr) -> Result<(INodeId, &'p [u8]), Failure> {
        let dir = path::before_last(path).unwrap_or_else(|| OsStr::new("/"));
        self.parent(path)
            .map_err(|failure| failure.advise_for(Error::EntryNotFound, self.make_first(dir)))
    }

    /// What helps where a directory is missing.
    pub fn make_first(&self, dir: &OsStr) -> String {
        let (card, dir) = (self.path().display(), dir.to_string_lossy());
        format!("`sfs mkdir -p {card} {dir}` makes the directory.")
    }

    /// How messages name a place on the card.
    pub fn at(&self, path: &OsStr) -> String {
        let path = if path.is_empty() { OsStr::new("/") } else { path };
        format!("{}:{}", self.path().display(), path.to_string_lossy())
    }

    /// Which part of a path is missing, or is no directory.
    pub fn stopped(&self, path: &OsStr, stop: &Stop) -> Failure {
        let at = stop.at.to_string_lossy();
        let (why, advice) = match stop.error {
            Error::EntryNotFound if !stop.is_end => (format!("\"{at}\" is not there"), "`sfs ls` shows what is there."),
            Error::NotDir if !stop.is_end => (
                format!("\"{at}\" is not a directory"),
                "Every part of a path but the last must be a directory; symbolic links are not followed.",
            ),
            error => return self.refused(path, error),
        };
        Failure::refused_as(self.at(path), stop.error, why, advice)
    }

    /// A refusal about a path on the card.
    pub fn refused(&self, path: &OsStr, error: Error) -> Failure {
        match error {
            Error::WrongFs | Error::Damaged => self.refused_card(error),
            _ => Failure::refused(self.at(path), error),
        }
    }

    /// A refusal by a call on the directory before a path's last name.
    pub fn refused_entry(&self, path: &OsStr, error: Error) -> Failure {
        match error {
            Error::NotDir => {
                let at = path::before_last(path).unwrap_or_else(|| OsStr::new("/"));
                let is_end = false;
                self.stopped(path, &Stop { error, at, is_end })
            }
            Error::EntryExist if path::last(path).is_none() => {
                Failure::refused_as(self.at(path), error, "the root directory is always there", "")
            }
            Error::BadName => bad_name(self.at(path), path::last(path).map_or(0, <[u8]>::len)),
            _ => self.refused(path, error),
        }
    }

    /// A refusal of the card itself. Where its file is too short, that is the cause.
    pub fn refused_card(&self, error: Error) -> Failure {
        let image = self.card.image();
        refused_card(self.path().display(), error, image, image.len() as u64)
    }
}

/// A refusal of a card in a file of that many bytes, of which the first ones are given.
pub fn refused_card(subject: impl Display, error: Error, first: &[u8], len: u64) -> Failure {
    let whole = whole_len(first, len);
    if error != Error::Damaged || len >= whole {
        return Failure::refused(subject, error);
    }
    let (there, all) = (count(len), count(whole));
    let (why, advice) = if len < LEAST {
        let why = format!("a card has at least {all} bytes, and this file has {there}");
        (why, "Give the file of a card. `sfs format` makes a new one.")
    } else {
        let why = format!("the file ends before its card does: {there} of {all} bytes are there");
        (why, "Nothing was changed. Copy the card again from where it came.")
    };
    Failure::refused_as(subject, error, why, advice)
}

/// The fewest bytes that a file must have for what it begins with.
fn whole_len(first: &[u8], len: u64) -> u64 {
    match blocks(first) {
        Some(blocks) if len >= LEAST => u64::from(blocks) * BLOCK_SIZE as u64,
        _ => LEAST,
    }
}

/// The card's blocks by its first bytes, if that is a number that a card can have.
pub fn blocks(first: &[u8]) -> Option<u32> {
    let word = first.get(4..8)?.try_into().ok()?;
    Some(u32::from_le_bytes(word)).filter(|blocks| (MIN_BLOCKS..=MAX_BLOCKS).contains(blocks))
}
