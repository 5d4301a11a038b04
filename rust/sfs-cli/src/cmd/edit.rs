//! Commands that change names and lengths: mkdir, ln, rm, mv, resize. What a command was asked for is done altogether
//! or not at all: the file is written when all calls were done.

use super::card::bad_size;
use crate::args::Args;
use crate::cardfile::CardFile;
use crate::failure::Failure;
use crate::path;
use crate::text::{count, parse_size};
use crate::walk;
use sfs::{Error, FileType, INodeId};
use std::ffi::OsStr;
use std::fmt::Display;
use std::io::Write;
use std::os::unix::ffi::OsStrExt;

pub fn mkdir(args: &Args, _: &mut dyn Write) -> Result<(), Failure> {
    let mut file = CardFile::write(args.word(0))?;
    for path in &args.words[1..] {
        if args.has("parents") {
            make_all(&mut file, path)?;
        } else {
            let help = "Give -p to make the directories on the way too.";
            let place = file.parent(path);
            let (dir, name) = place.map_err(|failure| failure.advise_for(Error::EntryNotFound, help))?;
            file.card
                .create(dir, name, FileType::Dir)
                .map_err(|e| file.refused_entry(path, e))?;
        }
    }
    file.finish()
}

/// Makes those parts of a path that are missing.
fn make_all(file: &mut CardFile, path: &OsStr) -> Result<(), Failure> {
    let mut dir = INodeId::ROOT;
    for part in path::beginnings(path) {
        let name = path::last(part).unwrap_or(b".");
        let made = match file.card.create(dir, name, FileType::Dir) {
            Err(Error::EntryExist) => file.card.find(dir, name),
            made => made,
        };
        dir = made.map_err(|e| file.refused_entry(part, e))?;
    }
    match file.card.metadata(dir).map_err(|e| file.refused(path, e))?.kind {
        FileType::Dir => Ok(()),
        _ => Err(file.refused(path, Error::EntryExist)),
    }
}

fn kind_at(file: &CardFile, path: &OsStr) -> Result<FileType, Failure> {
    let meta = file.card.metadata(file.find(path)?);
    Ok(meta.map_err(|e| file.refused(path, e))?.kind)
}

pub fn ln(args: &Args, _: &mut dyn Write) -> Result<(), Failure> {
    let mut file = CardFile::write(args.word(0))?;
    let (old, new) = (args.word(1), args.word(2));
    let (dir, name) = file.place(new)?;
    if args.has("symbolic") {
        // Refused or done, the file is written only after both calls.
        let made = file.card.create(dir, name, FileType::SymLink);
        let made = made.and_then(|inode| file.card.write_at(inode, 0, old.as_bytes()));
        made.map_err(|e| file.refused_entry(new, e))?;
    } else {
        let inode = file.find(old)?;
        let linked = file.card.link(dir, name, inode);
        linked.map_err(|e| match e {
            Error::IsDir => {
                let why = "a directory gets no second name";
                Failure::refused_as(file.at(old), e, why, "Make a symbolic link, by `sfs ln -s`.")
            }
            _ => file.refused_entry(new, e),
        })?;
    }
    file.finish()
}

pub fn rm(args: &Args, _: &mut dyn Write) -> Result<(), Failure> {
    let mut file = CardFile::write(args.word(0))?;
    for path in &args.words[1..] {
        let (dir, name) = file.parent(path)?;
        if args.has("recursive") {
            empty(&mut file, path)?;
        }
        file.card
            .unlink(dir, name)
            .map_err(|e| refused_old(&file, path, "removed", e))?;
    }
    file.finish()
}

/// A refusal about something that was to be removed or moved.
fn refused_old(file: &CardFile, path: &OsStr, done: &str, error: Error) -> Failure {
    let (what, advice) = match path::last(path) {
        None => ("the root directory", "`sfs format -f` makes an empty card."),
        Some(_) => ("\".\" and \"..\"", "Give the directory by its name."),
    };
    match error {
        Error::IsDir => Failure::refused_as(file.at(path), error, format!("{what} cannot be {done}"), advice),
        _ => file.refused_entry(path, error),
    }
}

/// Removes all that is in a directory, the deepest first.
fn empty(file: &mut CardFile, path: &OsStr) -> Result<(), Failure> {
    let name = path::last(path).unwrap_or(b".");
    if name == b"." || name == b".." {
        return Err(refused_old(file, path, "removed", Error::IsDir));
    }
    if kind_at(file, path)? != FileType::Dir {
        return Ok(());
    }
    let dir = file.find(path)?;
    let items = walk::below(&file.card, dir).map_err(|e| file.refused(path, e))?;
    for item in items.iter().rev() {
        file.card
            .unlink(item.parent, item.entry.name())
            .map_err(|e| file.refused(path, e))?;
    }
    Ok(())
}

pub fn mv(args: &Args, _: &mut dyn Write) -> Result<(), Failure> {
    let mut file = CardFile::write(args.word(0))?;
    let (old, new) = (&args.words[1..args.words.len() - 1], args.word(args.words.len() - 1));
    let into = directory_at(&file, new, old.len() > 1)?;
    for path in old {
        let (dir, name) = file.parent(path)?;
        let (target, new_name) = match into {
            Some(target) => (target, name),
            None => file.place(new)?,
        };
        file.card
            .rename(dir, name, target, new_name)
            .map_err(|e| refused_move(&file, path, new, e))?;
    }
    file.finish()
}

fn refused_move(file: &CardFile, old: &OsStr, new: &OsStr, error: Error) -> Failure {
    match error {
        Error::InvalidParam => {
            let why = "a directory cannot go into itself or below";
            Failure::refused_as(file.at(old), error, why, "Choose a place outside of it.")
        }
        Error::EntryNotFound | Error::IsDir => refused_old(file, old, "moved", error),
        _ => file.refused_entry(new, error),
    }
}

/// The directory that a path names, if it names one. It must if several things go there, or if a slash is at its end.
pub fn directory_at(file: &CardFile, path: &OsStr, several: bool) -> Result<Option<INodeId>, Failure> {
    let must = several || path.as_bytes().ends_with(b"/");
    let inode = match path::find(&file.card, path) {
        Ok(inode) => inode,
        Err(stop) if stop.error == Error::EntryNotFound && !must => return Ok(None),
        Err(stop) => {
            let failure = file.stopped(path, &stop);
            return Err(failure.advise_for(Error::EntryNotFound, file.make_first(path)));
        }
    };
    match file.card.metadata(inode).map_err(|e| file.refused(path, e))?.kind {
        FileType::Dir => Ok(Some(inode)),
        _ if several => Err(file
            .refused(path, Error::NotDir)
            .advise("Several things go into a directory only.")),
        _ if must => Err(file.refused(path, Error::NotDir)),
        _ => Ok(None),
    }
}

pub fn resize(args: &Args, _: &mut dyn Write) -> Result<(), Failure> {
    let (path, word) = (args.word(1), args.word(2));
    let len = parse_size(word).ok_or_else(|| bad_size(word))?;
    let mut file = CardFile::write(args.word(0))?;
    let inode = file.find(path)?;
    file.card.resize(inode, len).map_err(|e| match e {
        Error::InvalidParam => too_long(file.at(path), len),
        _ => file.refused(path, e),
    })?;
    file.finish()
}

/// A length that no file can have.
pub fn too_long(subject: impl Display, len: u64) -> Failure {
    let why = format!(
        "a file has at most 4,294,967,295 bytes, and this would have {}",
        count(len)
    );
    Failure::refused_as(subject, Error::InvalidParam, why, "")
}
