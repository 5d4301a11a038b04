//! From the card: cat and get.

use crate::args::Args;
use crate::cardfile::CardFile;
use crate::failure::Failure;
use crate::host::Target;
use crate::path;
use crate::progress::Progress;
use crate::walk::{self, Item};
use sfs::{FileType, INodeId, Metadata};
use std::ffi::OsStr;
use std::fs;
use std::io::{self, Write};
use std::os::unix::ffi::OsStrExt;
use std::path::{Path, PathBuf};

/// The longest path of this machine, with its NUL.
const PATH_MAX: usize = 4096;

pub fn cat(args: &Args, out: &mut dyn Write) -> Result<(), Failure> {
    let file = CardFile::read(args.word(0))?;
    args.words[1..].iter().try_for_each(|path| print(&file, path, out))
}

fn print(file: &CardFile, path: &OsStr, out: &mut dyn Write) -> Result<(), Failure> {
    let bytes = bytes_of(file, path, file.find(path)?)?;
    out.write_all(&bytes).map_err(Failure::output)
}

/// What is to be got, and its place on this machine.
struct Wanted<'a> {
    inode: INodeId,
    meta: Metadata,
    /// Its path on the card, or that of the tree it is in.
    path: &'a OsStr,
    to: PathBuf,
    /// Whether the command names it: not what is in a tree.
    named: bool,
}

pub fn get(args: &Args, out: &mut dyn Write) -> Result<(), Failure> {
    let file = CardFile::read(args.word(0))?;
    let (paths, to) = (
        &args.words[1..args.words.len() - 1],
        Path::new(args.word(args.words.len() - 1)),
    );
    if is_standard_output(to) {
        return match paths {
            [path] => print(&file, path, out),
            _ => Err(Failure::usage(
                "-",
                "standard output takes one file; `sfs cat` prints several",
            )),
        };
    }
    if paths.len() > 1 && !to.is_dir() {
        let why = if to.exists() {
            "this is not a directory"
        } else {
            "there is no such directory"
        };
        return Err(Failure::host_text(
            to.display(),
            why,
            "Several things go into a directory only.",
        ));
    }
    let mut wanted = Vec::new();
    for path in paths {
        let to = if to.is_dir() {
            to.join(own_name(path)?)
        } else {
            to.to_path_buf()
        };
        want(&file, path, to, args.has("recursive"), &mut wanted)?;
    }
    let total = wanted.iter().map(|w| u64::from(w.meta.size)).sum();
    let mut progress = Progress::new(total);
    let target = Target {
        card: &file,
        force: args.has("force"),
    };
    for w in &wanted {
        progress.step(0, w.to.as_os_str().as_bytes());
        get_one(&target, w)?;
        progress.step(w.meta.size.into(), w.to.as_os_str().as_bytes());
    }
    Ok(())
}

fn is_standard_output(to: &Path) -> bool {
    to == Path::new("-") || to == Path::new("/dev/stdout")
}

fn own_name(path: &OsStr) -> Result<&OsStr, Failure> {
    match path::last(path) {
        Some(name) if name != b"." && name != b".." => Ok(OsStr::from_bytes(name)),
        _ => Err(Failure::usage(
            path.to_string_lossy(),
            "this has no name of its own; give a new directory's name",
        )),
    }
}

/// Lists a file, or a directory with all that is below it, each directory before what is in it.
fn want<'a>(
    file: &CardFile,
    path: &'a OsStr,
    to: PathBuf,
    trees: bool,
    wanted: &mut Vec<Wanted<'a>>,
) -> Result<(), Failure> {
    let refused = |e| file.refused(path, e);
    let inode = file.find(path)?;
    let meta = file.card.metadata(inode).map_err(refused)?;
    if meta.kind == FileType::Dir && !trees {
        return Err(Failure::host_text(
            file.at(path),
            "this is a directory",
            "Give -r to get whole trees.",
        ));
    }
    // The places of the directories on the way down.
    let mut places = vec![to.clone()];
    wanted.push(Wanted {
        inode,
        meta,
        path,
        to,
        named: true,
    });
    if meta.kind != FileType::Dir {
        return Ok(());
    }
    for item in walk::below(&file.card, inode).map_err(refused)? {
        places.truncate(item.depth);
        let to = places[item.depth - 1].join(host_name(file, path, &item)?);
        if to.as_os_str().len() >= PATH_MAX {
            let advice = "Nothing was copied. Get a directory that is further down.";
            return Err(Failure::host_text(
                file.at(path),
                "directories nest deeper than they can here",
                advice,
            ));
        }
        places.push(to.clone());
        wanted.push(Wanted {
            inode: item.entry.inode(),
            meta: item.meta,
            path,
            to,
            named: false,
        });
    }
    Ok(())
}

/// A card's names may hold slashes; such a name would lead out of its directory here.
fn host_name<'i>(file: &CardFile, path: &OsStr, item: &'i Item) -> Result<&'i OsStr, Failure> {
    let name = item.entry.name();
    if name.contains(&b'/') {
        let subject = format!("{}: {}", file.at(path), String::from_utf8_lossy(name));
        let why = "the name holds a slash, which no file here can have";
        return Err(Failure::host_text(
            subject,
            why,
            "Nothing was copied. Get the other files by their paths.",
        ));
    }
    Ok(OsStr::from_bytes(name))
}

fn get_one(target: &Target, wanted: &Wanted) -> Result<(), Failure> {
    let (file, to) = (target.card, &wanted.to);
    if wanted.meta.kind == FileType::Dir {
        return match fs::create_dir(to) {
            Err(e) if e.kind() == io::ErrorKind::AlreadyExists && is_real_dir(to) => Ok(()),
            other => other.map_err(|e| Failure::host(to.display(), &e)),
        };
    }
    let bytes = bytes_of(file, wanted.path, wanted.inode)?;
    match wanted.meta.kind {
        FileType::SymLink => target.symlink(to, &bytes),
        _ => target.file(to, wanted.named, &bytes),
    }
}

fn bytes_of(file: &CardFile, path: &OsStr, inode: INodeId) -> Result<Vec<u8>, Failure> {
    file.card.read_as_vec(inode).map_err(|e| file.refused(path, e))
}

/// One that is a directory itself, and not a symbolic link to one.
fn is_real_dir(path: &Path) -> bool {
    fs::symlink_metadata(path).map_or(false, |meta| meta.is_dir())
}
