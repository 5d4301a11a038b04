use crate::{raw, Card, Error, INodeId, ENTRY_SIZE};
use std::fmt;
use std::iter::FusedIterator;

/// A directory entry: a name and the inode that it names.
#[derive(Clone, Copy, PartialEq, Eq, Hash)]
pub struct Entry {
    bytes: [u8; ENTRY_SIZE],
}

impl Entry {
    pub(crate) fn new(bytes: &[u8; ENTRY_SIZE]) -> Entry {
        Entry { bytes: *bytes }
    }

    /// The number of the inode that it names.
    #[must_use]
    pub fn inode(&self) -> INodeId {
        let [a, b, c, d, ..] = self.bytes;
        INodeId(u32::from_le_bytes([a, b, c, d]))
    }

    /// The name: 1 to 255 bytes, which need not be UTF-8.
    #[must_use]
    pub fn name(&self) -> &[u8] {
        // SAFETY: the pointer has the 260 bytes of the length, which are only read, and only during the call.
        let len = unsafe { raw::sfs_entry_name(self.bytes.as_ptr(), self.bytes.len()) };
        &self.bytes[4..4 + len]
    }

    /// Whether it is "." or "..".
    #[must_use]
    pub fn is_dots(&self) -> bool {
        matches!(self.name(), b"." | b"..")
    }

    /// The entry as it stands on the card.
    #[must_use]
    pub fn as_bytes(&self) -> &[u8; ENTRY_SIZE] {
        &self.bytes
    }
}

impl fmt::Debug for Entry {
    fn fmt(&self, f: &mut fmt::Formatter<'_>) -> fmt::Result {
        let name = String::from_utf8_lossy(self.name());
        f.debug_struct("Entry")
            .field("inode", &self.inode())
            .field("name", &name)
            .finish()
    }
}

/// The entries of a directory in the order of the card, by [`Card::entries`]. It ends after a refusal.
#[must_use = "each entry is asked for when it is taken"]
pub struct Entries<'a, I, S> {
    card: &'a Card<I, S>,
    dir: INodeId,
    next: Option<u64>,
}

impl<'a, I, S> Entries<'a, I, S> {
    pub(crate) fn new(card: &'a Card<I, S>, dir: INodeId) -> Entries<'a, I, S> {
        Entries {
            card,
            dir,
            next: Some(0),
        }
    }
}

impl<I, S> fmt::Debug for Entries<'_, I, S> {
    fn fmt(&self, f: &mut fmt::Formatter<'_>) -> fmt::Result {
        f.debug_struct("Entries")
            .field("dir", &self.dir)
            .field("next", &self.next)
            .finish_non_exhaustive()
    }
}

impl<I: AsRef<[u8]>, S: AsMut<[u32]>> Iterator for Entries<'_, I, S> {
    type Item = Result<Entry, Error>;

    fn next(&mut self) -> Option<Self::Item> {
        let index = self.next.take()?;
        match self.card.entry(self.dir, index) {
            Ok(entry) => {
                self.next = Some(index + 1);
                Some(Ok(entry))
            }
            Err(Error::EntryNotFound) => None,
            Err(error) => Some(Err(error)),
        }
    }
}

impl<I: AsRef<[u8]>, S: AsMut<[u32]>> FusedIterator for Entries<'_, I, S> {}
