//! ls and tree.

use crate::args::Args;
use crate::cardfile::CardFile;
use crate::failure::Failure;
use crate::sys;
use crate::text::{self, clean, some};
use crate::walk::{self, Item};
use sfs::{Entry, FileType, INodeId, Metadata};
use std::ffi::{OsStr, OsString};
use std::io::{self, Write};
use std::os::unix::ffi::OsStrExt;

/// A name as it is for programs, and harmless for terminals.
fn shown(name: &[u8]) -> Vec<u8> {
    if sys::is_terminal(&io::stdout()) {
        clean(name).into_bytes()
    } else {
        name.to_vec()
    }
}

fn line(out: &mut dyn Write, parts: &[&[u8]]) -> Result<(), Failure> {
    for part in parts {
        out.write_all(part).map_err(Failure::output)?;
    }
    out.write_all(b"\n").map_err(Failure::output)
}

pub fn ls(args: &Args, out: &mut dyn Write) -> Result<(), Failure> {
    let file = CardFile::read(args.word(0))?;
    let root = [OsString::from("/")];
    let paths = if args.words.len() > 1 {
        &args.words[1..]
    } else {
        &root[..]
    };
    let mut after_dir = false;
    for path in paths {
        let inode = file.find(path)?;
        let meta = file.card.metadata(inode).map_err(|e| file.refused(path, e))?;
        let entries = match meta.kind {
            FileType::Dir => Some(entries_of(&file, path, inode, args)?),
            _ => None,
        };
        // A heading comes when what it is for is known to be there.
        let gap: &[u8] = if after_dir { b"\n" } else { b"" };
        match entries {
            None => {
                out.write_all(gap).map_err(Failure::output)?;
                ls_line(&file, path, (path.as_bytes(), inode), args, out)?;
            }
            Some(entries) => {
                if paths.len() > 1 {
                    line(out, &[gap, &shown(path.as_bytes()), b":"])?;
                }
                for entry in entries {
                    ls_line(&file, path, (entry.name(), entry.inode()), args, out)?;
                }
            }
        }
        after_dir = meta.kind == FileType::Dir;
    }
    Ok(())
}

fn entries_of(file: &CardFile, path: &OsStr, inode: INodeId, args: &Args) -> Result<Vec<Entry>, Failure> {
    let entries = if args.has("all") {
        walk::all(&file.card, inode)
    } else {
        walk::list(&file.card, inode)
    };
    entries.map_err(|e| file.refused(path, e))
}

/// A name with the number that it names, by the path that it was found by.
fn ls_line(
    file: &CardFile,
    path: &OsStr,
    (name, inode): (&[u8], INodeId),
    args: &Args,
    out: &mut dyn Write,
) -> Result<(), Failure> {
    if !args.has("long") {
        return line(out, &[&shown(name)]);
    }
    let meta = file.card.metadata(inode).map_err(|e| file.refused(path, e))?;
    let arrow = match meta.kind {
        FileType::SymLink => arrow(file, path, inode)?,
        _ => Vec::new(),
    };
    line(out, &[long(inode, &meta).as_bytes(), &shown(name), &arrow])
}

fn long(inode: INodeId, meta: &Metadata) -> String {
    let (kind, _) = text::kind(meta.kind);
    format!("{kind} {inode:>6} {:>5} {:>10}  ", meta.links, meta.size)
}

/// Where a symbolic link leads to.
fn arrow(file: &CardFile, path: &OsStr, inode: INodeId) -> Result<Vec<u8>, Failure> {
    let text = file.card.read_as_vec(inode).map_err(|e| file.refused(path, e))?;
    Ok([b" -> ", &shown(&text)[..]].concat())
}

pub fn tree(args: &Args, out: &mut dyn Write) -> Result<(), Failure> {
    let file = CardFile::read(args.word(0))?;
    let root = OsString::from("/");
    let path = args.words.get(1).unwrap_or(&root);
    let dir = file.find(path)?;
    let items = walk::below(&file.card, dir).map_err(|e| file.refused(path, e))?;
    line(out, &[&shown(path.as_bytes())])?;
    // For each directory on the way down, whether more of it is to come.
    let mut open: Vec<bool> = Vec::new();
    for item in &items {
        open.truncate(item.depth - 1);
        tree_line(&file, path, item, &open, out)?;
        open.push(!item.last);
    }
    let dirs = items.iter().filter(|item| item.is_dir()).count();
    let (dirs, files) = (dirs as u64, (items.len() - dirs) as u64);
    let (dirs, files) = (some(dirs, "directory", "directories"), some(files, "file", "files"));
    writeln!(out, "\n{dirs}, {files}").map_err(Failure::output)
}

fn tree_line(file: &CardFile, path: &OsStr, item: &Item, open: &[bool], out: &mut dyn Write) -> Result<(), Failure> {
    for &more in open {
        out.write_all(if more { b"|   " } else { b"    " })
            .map_err(Failure::output)?;
    }
    let branch: &[u8] = if item.last { b"`-- " } else { b"|-- " };
    let end = match item.meta.kind {
        FileType::Dir => b"/".to_vec(),
        FileType::SymLink => arrow(file, path, item.entry.inode())?,
        _ => format!("  {}", item.meta.size).into_bytes(),
    };
    line(out, &[branch, &shown(item.entry.name()), &end])
}
