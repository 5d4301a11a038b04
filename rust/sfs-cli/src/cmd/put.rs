//! Onto the card: put.

use super::card::info_of;
use super::edit::{directory_at, too_long};
use crate::args::Args;
use crate::cardfile::CardFile;
use crate::failure::Failure;
use crate::lookup::bad_name;
use crate::plan::{self, Kind, Source};
use crate::progress::Progress;
use crate::text::{self, some};
use sfs::{Error, FileType, INodeId, BLOCK_SIZE};
use std::ffi::{OsStr, OsString};
use std::fs;
use std::io::{self, Read, Write};
use std::os::unix::ffi::OsStrExt;
use std::path::Path;
use std::time::{Duration, Instant};

/// How long changes may wait in memory before they are written to the card file.
const WAIT: Duration = Duration::from_secs(1);

pub fn put(args: &Args, _: &mut dyn Write) -> Result<(), Failure> {
    let file = CardFile::write(args.word(0))?;
    let (paths, to) = (&args.words[1..args.words.len() - 1], args.word(args.words.len() - 1));
    let into = directory_at(&file, to, paths.len() > 1)?;
    let (dir, name) = match into {
        Some(dir) => (dir, None),
        None => new_place(&file, to)?,
    };
    let plan = plan(paths, name, args.has("recursive"))?;
    let mut putting = Putting::new(file, args.has("force"));
    match putting.all(&plan, dir) {
        Ok(()) => putting.file.finish(),
        // What was put before stays, so it goes to the file too.
        Err((done, failure)) => {
            putting.file.finish()?;
            Err(failure.note(left_by(done)))
        }
    }
}

/// The directory that a new name goes into, and the name.
fn new_place<'p>(file: &CardFile, to: &'p OsStr) -> Result<(INodeId, Option<&'p [u8]>), Failure> {
    let (dir, name) = file.place(to)?;
    match file.card.metadata(dir).map_err(|e| file.refused(to, e))?.kind {
        FileType::Dir => Ok((dir, Some(name))),
        _ => Err(file.refused_entry(to, Error::NotDir)),
    }
}

fn left_by(done: usize) -> String {
    if done == 0 {
        return "Nothing was put: the card is as it was.".to_string();
    }
    let before = some(done as u64, "thing was", "things were");
    format!("The card is as it was before this one; {before} put before it.")
}

fn plan(paths: &[OsString], name: Option<&[u8]>, trees: bool) -> Result<Vec<Source>, Failure> {
    let mut sources = Vec::new();
    for path in paths {
        let path = Path::new(path);
        // Standard input has no name of its own.
        let named = path.file_name().filter(|_| path.as_os_str() != "-");
        let own = || named.map(|name| name.as_bytes().to_vec());
        let name = name.map(<[u8]>::to_vec).or_else(own);
        let name = name.ok_or_else(|| Failure::usage(path.display(), "this has no name of its own; give a new one"))?;
        plan::add(&mut sources, path, name, trees)?;
    }
    Ok(sources)
}

struct Putting {
    file: CardFile,
    force: bool,
    /// At least so many blocks are unused.
    room: u64,
    /// Whether the card has changes that its file has not.
    unsaved: bool,
    saved_at: Instant,
}

impl Putting {
    fn new(file: CardFile, force: bool) -> Putting {
        Putting {
            file,
            force,
            room: 0,
            unsaved: false,
            saved_at: Instant::now(),
        }
    }

    /// Stops at the first failure, and tells how many went well before.
    fn all(&mut self, plan: &[Source], dir: INodeId) -> Result<(), (usize, Failure)> {
        let mut numbers: Vec<INodeId> = Vec::with_capacity(plan.len());
        let mut progress = Progress::new(plan.iter().map(Source::len).sum());
        for (i, source) in plan.iter().enumerate() {
            progress.step(0, source.path.as_os_str().as_bytes());
            let parent = source.parent.map_or(dir, |parent| numbers[parent]);
            let number = self.one(parent, source).map_err(|failure| (i, failure))?;
            numbers.push(number);
            progress.step(source.len(), source.path.as_os_str().as_bytes());
        }
        Ok(())
    }

    fn one(&mut self, dir: INodeId, source: &Source) -> Result<INodeId, Failure> {
        // Read before the card is touched. What cannot fit is not read, only its length is asked for.
        let most = self.file.card.image().len() as u64;
        let data = match &source.kind {
            Kind::File { len } if *len > most => None,
            _ => Some(read(source, most)?),
        };
        let len = data.as_ref().map_or(source.len(), |data| data.len() as u64);
        self.reserve(len)?;
        let clean = !self.unsaved;
        let made = self.make(dir, source, len, data.as_deref());
        if made.is_err() && clean {
            self.file.give_up()?;
        }
        self.unsaved |= made.is_ok();
        if self.unsaved && self.saved_at.elapsed() > WAIT {
            self.save()?;
        }
        made.map_err(|error| self.refused(dir, source, error))
    }

    /// Before something that may not fit, all changes are saved, so that giving up goes back to just before it.
    fn reserve(&mut self, len: u64) -> Result<(), Failure> {
        let blocks = len / BLOCK_SIZE as u64 + 1;
        // An inode, pointer blocks, and an entry in a directory that may take pointer blocks too.
        let need = blocks + blocks / 1024 + 10;
        if self.room < need {
            self.save()?;
            let info = info_of(&self.file)?;
            self.room = info.unused.into();
        }
        self.room = self.room.saturating_sub(need);
        Ok(())
    }

    fn save(&mut self) -> Result<(), Failure> {
        if self.unsaved {
            self.file.save()?;
        }
        self.unsaved = false;
        self.saved_at = Instant::now();
        Ok(())
    }

    fn make(&mut self, dir: INodeId, source: &Source, len: u64, data: Option<&[u8]>) -> Result<INodeId, Error> {
        let kind = kind_on_card(source);
        let card = &mut self.file.card;
        let inode = match card.create(dir, &source.name, kind) {
            Err(Error::EntryExist) => return self.replace(dir, source, kind, len, data),
            other => other?,
        };
        if kind == FileType::Dir || len == 0 {
            return Ok(inode);
        }
        let written = match data {
            Some(data) => card.write_at(inode, 0, data).map(|_| ()),
            None => card.resize(inode, len),
        };
        if let Err(error) = written {
            card.unlink(dir, &source.name)?;
            return Err(error);
        }
        Ok(inode)
    }

    /// A directory is gone on with. A file is replaced if that is wanted: once it has its new length, which may be
    /// refused, a write of that length cannot be.
    fn replace(
        &mut self,
        dir: INodeId,
        source: &Source,
        kind: FileType,
        len: u64,
        data: Option<&[u8]>,
    ) -> Result<INodeId, Error> {
        let card = &mut self.file.card;
        let inode = card.find(dir, &source.name)?;
        if card.metadata(inode)?.kind != kind {
            return Err(Error::EntryExist);
        }
        if kind == FileType::Dir {
            return Ok(inode);
        }
        if !self.force {
            return Err(Error::EntryExist);
        }
        card.resize(inode, len)?;
        card.write_at(inode, 0, data.unwrap_or(&[]))?;
        Ok(inode)
    }

    fn refused(&self, dir: INodeId, source: &Source, error: Error) -> Failure {
        let subject = format!("{}: {}", self.file.path().display(), source.path.display());
        match error {
            Error::WrongFs | Error::Damaged => self.file.refused_card(error),
            Error::BadName => bad_name(subject, source.name.len()),
            Error::InvalidParam => too_long(subject, source.len()),
            Error::EntryExist => self.is_there(dir, source, &subject),
            _ => Failure::refused(subject, error),
        }
    }

    /// Something else has the name on the card.
    fn is_there(&self, dir: INodeId, source: &Source, subject: &str) -> Failure {
        let card = &self.file.card;
        let there = card.find(dir, &source.name).and_then(|inode| card.metadata(inode));
        let (_, kind) = there.map_or(('?', "something"), |meta| text::kind(meta.kind));
        let why = format!("the name is that of a {kind} on the card already");
        let advice = if there.map_or(false, |meta| meta.kind == kind_on_card(source)) {
            "Give -f to replace it."
        } else {
            "Choose another name, or remove what has it by `sfs rm`."
        };
        Failure::refused_as(subject, Error::EntryExist, why, advice)
    }
}

fn kind_on_card(source: &Source) -> FileType {
    match source.kind {
        Kind::Dir => FileType::Dir,
        Kind::SymLink { .. } => FileType::SymLink,
        Kind::File { .. } | Kind::StandardInput => FileType::File,
    }
}

/// The bytes that go to the card. Of standard input one byte more than fits is enough to be refused.
fn read(source: &Source, most: u64) -> Result<Vec<u8>, Failure> {
    match &source.kind {
        Kind::Dir => Ok(Vec::new()),
        Kind::SymLink { text } => Ok(text.clone()),
        Kind::File { .. } => fs::read(&source.path).map_err(|e| Failure::host(source.path.display(), &e)),
        Kind::StandardInput => {
            let mut bytes = Vec::new();
            let read = io::stdin().lock().take(most + 1).read_to_end(&mut bytes);
            read.map(|_| bytes).map_err(|e| Failure::host("standard input", &e))
        }
    }
}
