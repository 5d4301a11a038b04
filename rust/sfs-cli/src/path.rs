//! Paths on a card: names parted by slashes, looked up one by one from the root.

use sfs::{Card, Error, INodeId};
use std::ffi::OsStr;
use std::os::unix::ffi::OsStrExt;

/// Where a path leads no further.
pub struct Stop<'p> {
    pub error: Error,
    /// The beginning of the path that is missing, or that is no directory.
    pub at: &'p OsStr,
    /// Whether that is all of the path.
    pub is_end: bool,
}

/// All beginnings of a path, the shortest first: `a/b` gives `a` and `a/b`.
pub fn beginnings(path: &OsStr) -> Vec<&OsStr> {
    let bytes = path.as_bytes();
    let ends = (1..=bytes.len()).filter(|&i| bytes[i - 1] != b'/' && bytes.get(i).map_or(true, |&b| b == b'/'));
    ends.map(|end| OsStr::from_bytes(&bytes[..end])).collect()
}

/// The last name of a path, as in a listing. The root has none.
pub fn last(path: &OsStr) -> Option<&[u8]> {
    path.as_bytes()
        .rsplit(|&byte| byte == b'/')
        .find(|name| !name.is_empty())
}

/// The path of the directory before the last name, if there is one besides the root.
pub fn before_last(path: &OsStr) -> Option<&OsStr> {
    beginnings(path).iter().rev().nth(1).copied()
}

fn follow<'p, I: AsRef<[u8]>>(card: &Card<I>, parts: &[&'p OsStr]) -> Result<INodeId, Stop<'p>> {
    let mut inode = INodeId::ROOT;
    for (i, part) in parts.iter().enumerate() {
        inode = card.find(inode, last(part).unwrap_or(b".")).map_err(|error| {
            // What is no directory is the part before the name that was looked for.
            let stop = if error == Error::NotDir { i.saturating_sub(1) } else { i };
            Stop {
                error,
                at: parts[stop],
                is_end: stop + 1 == parts.len(),
            }
        })?;
    }
    Ok(inode)
}

pub fn find<'p, I: AsRef<[u8]>>(card: &Card<I>, path: &'p OsStr) -> Result<INodeId, Stop<'p>> {
    follow(card, &beginnings(path))
}

/// The directory before the last name, and that name. The root has none: it is "." in itself.
pub fn parent<'p, I: AsRef<[u8]>>(card: &Card<I>, path: &'p OsStr) -> Result<(INodeId, &'p [u8]), Stop<'p>> {
    let mut parts = beginnings(path);
    parts.pop();
    let dir = follow(card, &parts).map_err(|stop| Stop { is_end: false, ..stop })?;
    Ok((dir, last(path).unwrap_or(b".")))
}

#[cfg(test)]
mod tests {
    use super::*;

    #[test]
    fn parts() {
        assert_eq!(last(OsStr::new("//a/b//c/")), Some(&b"c"[..]));
        assert_eq!(last(OsStr::new("/")), None);
        assert_eq!(beginnings(OsStr::new("/a//b/")), ["/a", "/a//b"]);
        assert_eq!(beginnings(OsStr::new("a")), ["a"]);
        assert_eq!(before_last(OsStr::new("/a//b/")), Some(OsStr::new("/a")));
        assert_eq!(before_last(OsStr::new("a/")), None);
    }
}
