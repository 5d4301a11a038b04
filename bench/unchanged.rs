//! The unchanged Rust with a card open, as it is used: the card is opened and the handles of the call's inodes are taken
//! before what is measured, and the records, the map and the counts that it holds back are stored after it.

use crate::calls::{inodes, Said};
use crate::device::Memory;
use by_number::ByNumber;
use oracle::{number_of, Call};
use rcore_fs::dev::Device;
use rcore_fs::vfs::{FileType, FsError, INode};
use rcore_fs_sfs::SimpleFileSystem;
use std::sync::Arc;

pub struct Opened {
    memory: Arc<Memory>,
    /// None for a card that is yet to be formatted.
    fs: Option<Arc<SimpleFileSystem>>,
    /// For each call.
    held: Vec<[Arc<dyn INode>; 2]>,
}

impl Opened {
    pub fn new(image: Vec<u8>, calls: &[Call]) -> Opened {
        let memory = Arc::new(Memory::new(image, false));
        let device: Arc<dyn Device> = memory.clone();
        if let [Call::Format { .. }] = calls {
            return Opened { memory, fs: None, held: Vec::new() };
        }
        let fs = SimpleFileSystem::open(device).expect("the Rust opens the card");
        let held = calls.iter().map(|call| inodes(call).map(|number| fs.inode(number as usize))).collect();
        Opened { memory, fs: Some(fs), held }
    }

    /// What the calls answer.
    pub fn put(&self, calls: &[Call], buf: &mut [u8], said: &mut Vec<Said>) {
        if let [Call::Format { space }] = calls {
            let device: Arc<dyn Device> = self.memory.clone();
            // Dropped, it stores what it holds back.
            said.push(numbered(SimpleFileSystem::create(device, *space as usize).map(|_| 0)));
        }
        for (call, [first, second]) in calls.iter().zip(&self.held) {
            said.push(numbered(act(call, first, second, buf)));
        }
    }

    pub fn close(self) -> Vec<u8> {
        drop(self.held);
        drop(self.fs);
        self.memory.take()
    }
}

fn numbered(answer: Result<u32, FsError>) -> Said {
    answer.map_err(|error| number_of(error).unwrap_or(u32::MAX))
}

fn act(call: &Call, first: &Arc<dyn INode>, second: &Arc<dyn INode>, buf: &mut [u8]) -> Result<u32, FsError> {
    let nothing = |()| 0;
    match call {
        Call::Format { .. } | Call::Counts => unreachable!("no call on an inode"),
        Call::Metadata { .. } => first.metadata().map(|data| kind(data.type_)),
        Call::Read { offset, .. } => first.read_at(*offset as usize, buf).map(|count| count as u32),
        Call::Write { offset, data, .. } => first.write_at(*offset as usize, data).map(|count| count as u32),
        Call::Resize { len, .. } => first.resize(*len as usize).map(nothing),
        Call::Create { name, kind, .. } => {
            let kind = if *kind == 2 { FileType::Dir } else { FileType::File };
            let new = first.create2(text(name), kind, 0o777, 0)?;
            Ok(new.metadata()?.inode as u32)
        }
        Call::Link { name, .. } => first.link(text(name), second).map(nothing),
        Call::Unlink { name, .. } => first.unlink(text(name)).map(nothing),
        Call::Move { old, new, .. } => first.move_(text(old), second, text(new)).map(nothing),
        Call::Find { name, .. } => Ok(first.find(text(name))?.metadata()?.inode as u32),
        Call::Entry { index, .. } => {
            let name = first.get_entry(*index as usize)?;
            buf[4..4 + name.len()].copy_from_slice(name.as_bytes());
            Ok(0)
        }
    }
}

fn kind(kind: FileType) -> u32 {
    match kind {
        FileType::File => 1,
        FileType::Dir => 2,
        _ => 3,
    }
}

fn text(name: &[u8]) -> &str {
    std::str::from_utf8(name).expect("the names here are text")
}
