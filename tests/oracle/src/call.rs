//! The calls, and what comes back of them.

use rcore_fs::vfs::FsError;

/// One call on an image. Numbers are inode numbers, kinds those on the card, names any bytes.
#[derive(Clone, Debug, PartialEq, Eq)]
pub enum Call {
    Format {
        space: u64,
    },
    Counts,
    Metadata {
        inode: u32,
    },
    /// The buffer is `len` bytes of `UNREAD` beforehand.
    Read {
        inode: u32,
        offset: u64,
        len: usize,
    },
    Write {
        inode: u32,
        offset: u64,
        data: Vec<u8>,
    },
    Resize {
        inode: u32,
        len: u64,
    },
    Create {
        dir: u32,
        name: Vec<u8>,
        kind: u32,
    },
    Link {
        dir: u32,
        name: Vec<u8>,
        inode: u32,
    },
    Unlink {
        dir: u32,
        name: Vec<u8>,
    },
    Move {
        dir: u32,
        old: Vec<u8>,
        target: u32,
        new: Vec<u8>,
    },
    Find {
        dir: u32,
        name: Vec<u8>,
    },
    Entry {
        dir: u32,
        index: u64,
    },
}

/// What a read's buffer holds beforehand.
pub const UNREAD: u8 = 0xa5;

/// The results of a call that is done.
#[derive(Clone, Debug, PartialEq, Eq)]
pub enum Value {
    Nothing,
    Counts {
        blocks: u32,
        unused: u32,
    },
    Metadata {
        kind: u32,
        size: u32,
        blocks: u32,
        links: u32,
    },
    /// The whole buffer, of which the first `count` bytes were read.
    Read {
        count: usize,
        buf: Vec<u8>,
    },
    Written {
        count: usize,
    },
    Number(u32),
    /// All 260 bytes as stored; `name` is what the Rust answers.
    Entry {
        number: u32,
        name: Vec<u8>,
        bytes: Vec<u8>,
    },
}

#[derive(Clone, Debug, PartialEq, Eq)]
pub enum Answer {
    Done(Value),
    Error(FsError),
    Panic(String),
    /// Not put to the Rust: it has no such value, or the process would not survive or answer for it.
    Unposed(&'static str),
}

#[derive(Clone, Debug, PartialEq, Eq)]
pub struct Outcome {
    pub answer: Answer,
    /// A second panic followed while the first unwound. Outside the judge it ends the process.
    pub twice: bool,
}

impl Outcome {
    /// The number of RULES for this answer; none for a panic or an error that RULES does not have.
    pub fn number(&self) -> Option<u32> {
        match &self.answer {
            Answer::Done(_) => Some(0),
            Answer::Error(error) => number_of(*error),
            Answer::Panic(_) | Answer::Unposed(_) => None,
        }
    }
}

/// The one place where the Rust's errors become RULES' numbers.
pub fn number_of(error: FsError) -> Option<u32> {
    match error {
        FsError::WrongFs => Some(2),
        FsError::NotFile => Some(5),
        FsError::NotDir => Some(6),
        FsError::IsDir => Some(7),
        FsError::EntryExist => Some(9),
        FsError::EntryNotFound => Some(10),
        FsError::DirNotEmpty => Some(11),
        FsError::InvalidParam => Some(12),
        FsError::NoDeviceSpace => Some(14),
        // Not in the base of RULES.
        FsError::DirRemoved
        | FsError::NotSameFs
        | FsError::IOCTLError
        | FsError::DeviceError(_) => None,
    }
}
