use crate::UnknownNumber;
use std::fmt;

/// The number of an inode. It may name another file after an unlink: only a number that is no inode now is refused.
#[derive(Clone, Copy, PartialEq, Eq, PartialOrd, Ord, Hash, Debug)]
pub struct INodeId(pub u32);

impl INodeId {
    /// The root directory of every card.
    pub const ROOT: INodeId = INodeId(1);
}

impl fmt::Display for INodeId {
    fn fmt(&self, f: &mut fmt::Formatter<'_>) -> fmt::Result {
        self.0.fmt(f)
    }
}

/// What an inode is. Later versions may know more kinds.
#[derive(Clone, Copy, PartialEq, Eq, Hash, Debug)]
#[non_exhaustive]
#[repr(u32)]
pub enum FileType {
    /// A file of bytes.
    File = 1,
    /// A directory: its entries come by [`Card::entries`](crate::Card::entries).
    Dir = 2,
    /// Its bytes are the path that it stands for. No call follows it.
    SymLink = 3,
}

impl FileType {
    /// The kind's number on the card. `TryFrom<u32>` goes back.
    #[must_use]
    pub fn number(self) -> u32 {
        self as u32
    }
}

impl From<FileType> for u32 {
    fn from(kind: FileType) -> u32 {
        kind.number()
    }
}

/// The kind with that number on the card.
///
/// ```
/// use sfs::{FileType, UnknownNumber};
/// assert_eq!(FileType::try_from(2), Ok(FileType::Dir));
/// assert_eq!(FileType::try_from(0), Err(UnknownNumber(0)));
/// ```
impl TryFrom<u32> for FileType {
    type Error = UnknownNumber;

    fn try_from(number: u32) -> Result<FileType, UnknownNumber> {
        match number {
            1 => Ok(FileType::File),
            2 => Ok(FileType::Dir),
            3 => Ok(FileType::SymLink),
            _ => Err(UnknownNumber(number)),
        }
    }
}

/// An inode's numbers. Later versions may have more fields.
#[derive(Clone, Copy, PartialEq, Eq, Hash, Debug)]
#[non_exhaustive]
pub struct Metadata {
    /// What it is.
    pub kind: FileType,
    /// In bytes.
    pub size: u32,
    /// The blocks of its bytes, without pointer blocks and the inode's own.
    pub blocks: u32,
    /// The entries that name it; for a directory 2 plus its subdirectories.
    pub links: u32,
}

/// A card's numbers, in blocks of [`BLOCK_SIZE`](crate::BLOCK_SIZE) bytes. Later versions may have more fields.
#[derive(Clone, Copy, PartialEq, Eq, Hash, Debug)]
#[non_exhaustive]
pub struct Info {
    /// All blocks, with those of the superblock, the map and the inodes.
    pub blocks: u32,
    /// The free ones.
    pub unused: u32,
}
