//! Directories of a card, listed by the library's calls: one for each entry, and one more for its numbers.

use sfs::{Card, Entry, Error, FileType, INodeId, Metadata};

/// The entries of a directory by name, without "." and "..".
pub fn list<I: AsRef<[u8]>>(card: &Card<I>, dir: INodeId) -> Result<Vec<Entry>, Error> {
    let mut entries = all(card, dir)?;
    entries.retain(|entry| !entry.is_dots());
    Ok(entries)
}

/// The entries of a directory by name.
pub fn all<I: AsRef<[u8]>>(card: &Card<I>, dir: INodeId) -> Result<Vec<Entry>, Error> {
    let mut entries = card.entries(dir).collect::<Result<Vec<Entry>, Error>>()?;
    entries.sort_by(|a, b| a.name().cmp(b.name()));
    Ok(entries)
}

/// Something below a directory.
pub struct Item {
    pub parent: INodeId,
    pub entry: Entry,
    pub meta: Metadata,
    /// How far below: 1 is in the directory itself.
    pub depth: usize,
    /// Whether it is the last of its directory.
    pub last: bool,
}

impl Item {
    pub fn is_dir(&self) -> bool {
        self.meta.kind == FileType::Dir
    }
}

/// All that is below a directory, each before what is in it. Directories may nest some 16,000 deep, so the way down is
/// kept in a list.
pub fn below<I: AsRef<[u8]>>(card: &Card<I>, dir: INodeId) -> Result<Vec<Item>, Error> {
    let mut items = Vec::new();
    let mut ways = vec![(dir, list(card, dir)?.into_iter())];
    while let Some((parent, entries)) = ways.last_mut() {
        let (parent, next) = (*parent, entries.next());
        let last = entries.len() == 0;
        if let Some(entry) = next {
            let meta = card.metadata(entry.inode())?;
            items.push(Item {
                parent,
                entry,
                meta,
                depth: ways.len(),
                last,
            });
            if meta.kind == FileType::Dir {
                ways.push((entry.inode(), list(card, entry.inode())?.into_iter()));
            }
        } else {
            ways.pop();
        }
    }
    Ok(items)
}
