//! What of this machine's files is to be put on a card.

use crate::failure::Failure;
use std::ffi::OsStr;
use std::fs;
use std::os::unix::ffi::{OsStrExt, OsStringExt};
use std::path::{Path, PathBuf};

pub enum Kind {
    Dir,
    File { len: u64 },
    SymLink { text: Vec<u8> },
    StandardInput,
}

pub struct Source {
    pub path: PathBuf,
    /// Its name on the card.
    pub name: Vec<u8>,
    /// Which source of the plan is its directory; none for those that go where the command says.
    pub parent: Option<usize>,
    pub kind: Kind,
}

impl Source {
    pub fn len(&self) -> u64 {
        match &self.kind {
            Kind::File { len } => *len,
            Kind::SymLink { text } => text.len() as u64,
            Kind::Dir | Kind::StandardInput => 0,
        }
    }
}

/// Adds a source and all that is below it, each directory before what is in it.
pub fn add(plan: &mut Vec<Source>, path: &Path, name: Vec<u8>, trees: bool) -> Result<(), Failure> {
    let mut waiting = vec![(path.to_path_buf(), name, None)];
    while let Some((path, name, parent)) = waiting.pop() {
        let kind = kind(&path)?;
        if matches!(kind, Kind::Dir) {
            if !trees {
                return Err(Failure::host_text(
                    path.display(),
                    "this is a directory",
                    "Give -r to put whole trees.",
                ));
            }
            let below = entries(&path)?;
            waiting.extend(below.into_iter().map(|(path, name)| (path, name, Some(plan.len()))));
        }
        plan.push(Source {
            path,
            name,
            parent,
            kind,
        });
    }
    Ok(())
}

fn kind(path: &Path) -> Result<Kind, Failure> {
    if path.as_os_str() == OsStr::new("-") {
        return Ok(Kind::StandardInput);
    }
    let meta = fs::symlink_metadata(path).map_err(|e| Failure::host(path.display(), &e))?;
    let file_type = meta.file_type();
    if file_type.is_dir() {
        Ok(Kind::Dir)
    } else if file_type.is_file() {
        Ok(Kind::File { len: meta.len() })
    } else if file_type.is_symlink() {
        let text = fs::read_link(path).map_err(|e| Failure::host(path.display(), &e))?;
        Ok(Kind::SymLink {
            text: text.into_os_string().into_vec(),
        })
    } else {
        let why = "this is neither a file nor a directory nor a symbolic link";
        Err(Failure::host_text(
            path.display(),
            why,
            "Leave it out: a card has no such thing.",
        ))
    }
}

/// Names in falling order, since the last one is taken first.
fn entries(dir: &Path) -> Result<Vec<(PathBuf, Vec<u8>)>, Failure> {
    let failed = |e: std::io::Error| Failure::host(dir.display(), &e);
    let mut found = Vec::new();
    for entry in fs::read_dir(dir).map_err(failed)? {
        let name = entry.map_err(failed)?.file_name();
        found.push((dir.join(&name), name.as_bytes().to_vec()));
    }
    found.sort_by(|a, b| b.1.cmp(&a.1));
    Ok(found)
}
