//! Files of this machine that `get` and `copy` write. What is there is kept until what replaces it is complete.

use crate::cardfile::CardFile;
use crate::failure::Failure;
use crate::sys::SignalsHeld;
use std::ffi::OsStr;
use std::fs::{self, File, FileType, Metadata, OpenOptions, Permissions};
use std::io::{self, Write};
use std::os::unix::ffi::OsStrExt;
use std::os::unix::fs::{symlink, FileTypeExt, MetadataExt, OpenOptionsExt};
use std::path::{Path, PathBuf};

/// How the files are to be written.
pub struct Target<'c> {
    pub card: &'c CardFile,
    /// Whether files that are there are replaced.
    pub force: bool,
}

impl Target<'_> {
    /// Writes a file's bytes: a new file, one in the place of that which is there, or into a device or pipe. A symbolic
    /// link is kept, and what it names is written; but not where `named` is false, which is so for the files of a tree:
    /// their names come from the card.
    pub fn file(&self, to: &Path, named: bool, bytes: &[u8]) -> Result<(), Failure> {
        let host = |e: io::Error| Failure::host(to.display(), &e);
        match fs::symlink_metadata(to) {
            Err(e) if e.kind() != io::ErrorKind::NotFound => Err(host(e)),
            Err(_) if is_for_directory(to) => {
                let why = "there is no such directory";
                Err(Failure::host_text(
                    to.display(),
                    why,
                    "Make it first, or give a name without the slash.",
                ))
            }
            Err(_) => write_new(to, bytes).map_err(host),
            Ok(meta) if meta.file_type().is_symlink() => self.through(to, named, bytes),
            Ok(meta) => self.over(to, &meta, bytes),
        }
    }

    fn through(&self, to: &Path, named: bool, bytes: &[u8]) -> Result<(), Failure> {
        let meta = match fs::metadata(to) {
            _ if !named => {
                let why = "a symbolic link has this name here";
                return Err(Failure::host_text(
                    to.display(),
                    why,
                    "Remove it first: with -r none is followed.",
                ));
            }
            Err(e) if e.kind() == io::ErrorKind::NotFound => {
                let why = "this is a symbolic link to what is not there";
                return Err(Failure::host_text(to.display(), why, "Give the name that it leads to."));
            }
            Err(e) => return Err(Failure::host(to.display(), &e)),
            Ok(meta) => meta,
        };
        if !meta.is_file() {
            return self.over(to, &meta, bytes);
        }
        let real = fs::canonicalize(to).map_err(|e| Failure::host(to.display(), &e))?;
        self.over(&real, &meta, bytes)
    }

    fn over(&self, to: &Path, there: &Metadata, bytes: &[u8]) -> Result<(), Failure> {
        self.may_replace(to, there)?;
        if there.is_file() {
            return replace(to, |beside| new_file(beside, &there.permissions(), bytes));
        }
        let opened = OpenOptions::new().write(true).open(to);
        let written = opened.and_then(|mut file| file.write_all(bytes));
        written.map_err(|e| Failure::host(to.display(), &e))
    }

    /// Makes a symbolic link, in the place of a file or symbolic link that is there.
    pub fn symlink(&self, to: &Path, text: &[u8]) -> Result<(), Failure> {
        let text = OsStr::from_bytes(text);
        let there = match fs::symlink_metadata(to) {
            Err(_) => return symlink(text, to).map_err(|e| Failure::host(to.display(), &e)),
            Ok(there) => there,
        };
        self.may_replace(to, &there)?;
        if !there.is_file() && !there.file_type().is_symlink() {
            let why = "a symbolic link does not take the place of a device or pipe";
            return Err(Failure::host_text(to.display(), why, "Choose another name."));
        }
        replace(to, |beside| symlink(text, beside))
    }

    fn may_replace(&self, to: &Path, there: &Metadata) -> Result<(), Failure> {
        let (why, advice) = if there.is_dir() {
            ("this is a directory", "Choose another name.")
        } else if self.card.is_at(there) {
            ("this is the card itself", "Choose another name.")
        } else if !self.force && !can_be_added_to(there.file_type()) {
            (
                "this is there already",
                "Choose another name, or give -f to replace it.",
            )
        } else {
            return Ok(());
        };
        Err(Failure::host_text(to.display(), why, advice))
    }
}

/// A path with a slash at its end.
fn is_for_directory(path: &Path) -> bool {
    path.as_os_str().as_bytes().ends_with(b"/")
}

/// What is written to there replaces nothing.
fn can_be_added_to(kind: FileType) -> bool {
    kind.is_char_device() || kind.is_fifo()
}

/// A file that could not be written to its end is not left behind. Signals wait meanwhile, and so in `replace`.
fn write_new(to: &Path, bytes: &[u8]) -> io::Result<()> {
    let _held = SignalsHeld::new();
    let mut new = OpenOptions::new().write(true).create_new(true).open(to)?;
    new.write_all(bytes).map_err(|e| {
        let _ = fs::remove_file(to);
        e
    })
}

/// Makes the new one beside the old one, and gives it the old one's name when it is complete.
fn replace(to: &Path, make: impl Fn(&Path) -> io::Result<()>) -> Result<(), Failure> {
    let _held = SignalsHeld::new();
    let done = made_beside(to, make).and_then(|beside| {
        fs::rename(&beside, to).map_err(|e| {
            let _ = fs::remove_file(&beside);
            e
        })
    });
    done.map_err(|e| {
        let note = "The old one is as it was; it is replaced only when a new one is complete beside it.";
        Failure::host(to.display(), &e).note(note)
    })
}

/// By a name that nothing has.
fn made_beside(to: &Path, mut make: impl FnMut(&Path) -> io::Result<()>) -> io::Result<PathBuf> {
    let mut i = 0;
    loop {
        let beside = to.with_file_name(format!(".sfs-{}-{i}", std::process::id()));
        match make(&beside) {
            Err(e) if e.kind() == io::ErrorKind::AlreadyExists && i < 99 => i += 1,
            done => return done.map(|()| beside),
        }
    }
}

/// A complete file, on the disk too: only then may it replace another.
fn new_file(path: &Path, permissions: &Permissions, bytes: &[u8]) -> io::Result<()> {
    let mut file = OpenOptions::new().write(true).create_new(true).mode(0o600).open(path)?;
    let filled = fill(&mut file, permissions, bytes);
    if filled.is_err() {
        let _ = fs::remove_file(path);
    }
    filled
}

fn fill(file: &mut File, permissions: &Permissions, bytes: &[u8]) -> io::Result<()> {
    file.write_all(bytes)?;
    // Some file systems have no permissions to set.
    let _ = file.set_permissions(permissions.clone());
    file.sync_all()
}

/// A file that is made beside another, and removed again unless it takes that one's name.
pub struct Beside {
    file: File,
    path: PathBuf,
    to: PathBuf,
    /// Those of the file that is there.
    permissions: Option<Permissions>,
}

impl Beside {
    /// For a new file, or with `force` one in the place of a file that is there. A symbolic link is kept, and what it names
    /// is replaced; `own` is what is not to be replaced.
    pub fn new(to: &Path, force: bool, own: &Metadata) -> Result<Beside, Failure> {
        let host = |e: &io::Error| Failure::host(to.display(), e);
        let there = match fs::symlink_metadata(to) {
            Err(e) if e.kind() == io::ErrorKind::NotFound && !is_for_directory(to) => None,
            Err(e) => return Err(host(&e)),
            Ok(_) => Some(fs::metadata(to).map_err(|e| host(&e))?),
        };
        let real = match &there {
            None => to.to_path_buf(),
            Some(there) => {
                may_replace(to, there, force, own)?;
                fs::canonicalize(to).map_err(|e| host(&e))?
            }
        };
        let mut file = None;
        let mut options = OpenOptions::new();
        options.read(true).write(true).create_new(true);
        if there.is_some() {
            options.mode(0o600);
        }
        let made = made_beside(&real, |beside| {
            file = Some(options.open(beside)?);
            Ok(())
        });
        match (made, file) {
            (Ok(path), Some(file)) => Ok(Beside {
                file,
                path,
                to: real,
                permissions: there.map(|there| there.permissions()),
            }),
            (Err(e), _) => Err(host(&e)),
            (Ok(_), None) => unreachable!("it was opened"),
        }
    }

    pub fn file(&mut self) -> &mut File {
        &mut self.file
    }

    /// It is complete: on the disk too, and then by the name that it is for.
    pub fn take_its_name(mut self) -> io::Result<()> {
        if let Some(permissions) = self.permissions.take() {
            // Some file systems have no permissions to set.
            let _ = self.file.set_permissions(permissions);
        } else if fs::symlink_metadata(&self.to).is_ok() {
            // Somebody made one in the meantime.
            return Err(io::ErrorKind::AlreadyExists.into());
        }
        self.file.sync_all()?;
        fs::rename(&self.path, &self.to)?;
        self.path = PathBuf::new();
        Ok(())
    }
}

impl Drop for Beside {
    fn drop(&mut self) {
        if !self.path.as_os_str().is_empty() {
            let _ = fs::remove_file(&self.path);
        }
    }
}

fn may_replace(to: &Path, there: &Metadata, force: bool, own: &Metadata) -> Result<(), Failure> {
    let (why, advice) = if there.is_dir() {
        ("this is a directory", "Give the name of the new file.")
    } else if (there.dev(), there.ino()) == (own.dev(), own.ino()) {
        ("this is the card itself", "Choose another name.")
    } else if !there.is_file() {
        ("this is neither new nor a file", "Choose another name.")
    } else if !force {
        (
            "this is there already",
            "Choose another name, or give -f to replace it.",
        )
    } else {
        return Ok(());
    };
    Err(Failure::host_text(to.display(), why, advice))
}
