use std::fmt;
use std::io;

/// Why a call was refused, by the rules' numbers and names. A refused call leaves the image and the buffers untouched.
///
/// Later versions may know more refusals.
#[derive(Clone, Copy, PartialEq, Eq, Hash, Debug)]
#[non_exhaustive]
#[repr(u32)]
pub enum Error {
    /// Fewer than 4 words of scratch a block.
    ScratchShort = 1,
    /// The magic number is another: this is no card.
    WrongFs = 2,
    /// The card is not whole.
    Damaged = 3,
    /// A number given is no inode of this card.
    NoInode = 4,
    /// Read, write or resize of a directory.
    NotFile = 5,
    /// A directory call on something else.
    NotDir = 6,
    /// "." or ".." unlinked or moved; a link to a directory.
    IsDir = 7,
    /// A name to be stored is empty, longer than 255 bytes or holds a NUL.
    BadName = 8,
    /// A name to be stored is there already.
    EntryExist = 9,
    /// No such name or entry index.
    EntryNotFound = 10,
    /// A directory to be unlinked holds entries besides "." and "..".
    DirNotEmpty = 11,
    /// A length above 4,294,967,295; a directory moved into itself or below; a card of another size than format makes; a
    /// block, a buffer or a number of slots that a [`BlockCache`](crate::BlockCache) does not take.
    InvalidParam = 12,
    /// A link count of 65,535 would rise.
    TooManyLinks = 13,
    /// The call takes more blocks than are unused.
    NoDeviceSpace = 14,
}

impl Error {
    /// All refusals of this version, by rising number from 1 on.
    pub const ALL: &'static [Error] = &[
        Error::ScratchShort,
        Error::WrongFs,
        Error::Damaged,
        Error::NoInode,
        Error::NotFile,
        Error::NotDir,
        Error::IsDir,
        Error::BadName,
        Error::EntryExist,
        Error::EntryNotFound,
        Error::DirNotEmpty,
        Error::InvalidParam,
        Error::TooManyLinks,
        Error::NoDeviceSpace,
    ];

    /// The rules' number, from 1 on. `TryFrom<u32>` goes back.
    #[must_use]
    pub fn number(self) -> u32 {
        self as u32
    }

    /// The rules' name.
    ///
    /// ```
    /// assert_eq!(sfs::Error::NoDeviceSpace.name(), "NoDeviceSpace");
    /// ```
    #[must_use]
    pub fn name(self) -> &'static str {
        match self {
            Error::ScratchShort => "ScratchShort",
            Error::WrongFs => "WrongFs",
            Error::Damaged => "Damaged",
            Error::NoInode => "NoInode",
            Error::NotFile => "NotFile",
            Error::NotDir => "NotDir",
            Error::IsDir => "IsDir",
            Error::BadName => "BadName",
            Error::EntryExist => "EntryExist",
            Error::EntryNotFound => "EntryNotFound",
            Error::DirNotEmpty => "DirNotEmpty",
            Error::InvalidParam => "InvalidParam",
            Error::TooManyLinks => "TooManyLinks",
            Error::NoDeviceSpace => "NoDeviceSpace",
        }
    }

    /// The same as in `include/sfs.h`.
    fn sentence(self) -> &'static str {
        match self {
            Error::ScratchShort => "the scratch memory is too short: 4 words a block are needed",
            Error::WrongFs => "this is no card: its magic number is another",
            Error::Damaged => "the card is damaged: it breaks a rule of a whole card",
            Error::NoInode => "the number is no inode of this card",
            Error::NotFile => "this is a directory, which has no bytes to read, write or resize",
            Error::NotDir => "this is not a directory",
            Error::IsDir => "\".\" and \"..\" are neither removed nor moved, and a directory gets no second name",
            Error::BadName => "a name has 1 to 255 bytes, and no NUL among them",
            Error::EntryExist => "the name is there already",
            Error::EntryNotFound => "there is no such entry",
            Error::DirNotEmpty => "the directory is not empty",
            Error::InvalidParam => "a size or kind is outside its limits, or a directory would go into itself or below",
            Error::TooManyLinks => "the link count is at its limit of 65,535",
            Error::NoDeviceSpace => "the card has too few unused blocks",
        }
    }
}

/// A sentence for people, as `sfs_text` of `include/sfs.h` has it.
impl fmt::Display for Error {
    fn fmt(&self, f: &mut fmt::Formatter<'_>) -> fmt::Result {
        f.pad(self.sentence())
    }
}

impl std::error::Error for Error {}

/// The refusal with that number.
///
/// ```
/// use sfs::Error;
/// assert_eq!(Error::try_from(14), Ok(Error::NoDeviceSpace));
/// assert!(Error::try_from(0).is_err());
/// ```
impl TryFrom<u32> for Error {
    type Error = UnknownNumber;

    fn try_from(number: u32) -> Result<Error, UnknownNumber> {
        let found = Error::ALL.iter().find(|error| error.number() == number);
        found.copied().ok_or(UnknownNumber(number))
    }
}

impl From<Error> for u32 {
    fn from(error: Error) -> u32 {
        error.number()
    }
}

/// For programs that have all their failures as [`io::Error`]: the refusal is inside, and the kind is the nearest one.
///
/// ```
/// use sfs::{Card, Error, INodeId};
/// use std::io;
///
/// fn read(image: &[u8]) -> io::Result<Vec<u8>> {
///     let card = Card::new(image);
///     let file = card.find(INodeId::ROOT, "log")?;
///     Ok(card.read_as_vec(file)?)
/// }
/// let error = read(&[0; 65_536]).unwrap_err();
/// assert_eq!(error.kind(), io::ErrorKind::InvalidData);
/// let inside = error.get_ref().and_then(|inside| inside.downcast_ref::<Error>());
/// assert_eq!(inside, Some(&Error::WrongFs));
/// ```
impl From<Error> for io::Error {
    fn from(error: Error) -> io::Error {
        let kind = match error {
            Error::WrongFs | Error::Damaged => io::ErrorKind::InvalidData,
            Error::NoInode | Error::EntryNotFound => io::ErrorKind::NotFound,
            Error::EntryExist => io::ErrorKind::AlreadyExists,
            Error::ScratchShort
            | Error::NotFile
            | Error::NotDir
            | Error::IsDir
            | Error::BadName
            | Error::InvalidParam => io::ErrorKind::InvalidInput,
            // Kinds of their own are newer than the oldest compiler that this crate is for.
            Error::DirNotEmpty | Error::TooManyLinks | Error::NoDeviceSpace => io::ErrorKind::Other,
        };
        io::Error::new(kind, error)
    }
}

/// A number that stands for nothing here: what a [`TryFrom<u32>`](TryFrom) of this crate answers.
#[derive(Clone, Copy, PartialEq, Eq, Hash, Debug)]
pub struct UnknownNumber(pub u32);

impl fmt::Display for UnknownNumber {
    fn fmt(&self, f: &mut fmt::Formatter<'_>) -> fmt::Result {
        write!(f, "the number {} stands for nothing here", self.0)
    }
}

impl std::error::Error for UnknownNumber {}

/// A call's answer from the library's number.
pub(crate) fn answer(number: u32) -> Result<(), Error> {
    match number {
        0 => Ok(()),
        _ => Err(Error::try_from(number).expect("libsfs.a answers by another sfs.h than this crate's")),
    }
}
