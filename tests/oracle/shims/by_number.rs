//! What the judge needs of the file system beyond its public calls.

use rcore_fs::vfs::INode;
use std::sync::Arc;

pub trait ByNumber {
    /// The handle of an inode number.
    fn inode(&self, number: usize) -> Arc<dyn INode>;
    /// The bytes of entry `index` of a directory: its number and its 256 bytes of name.
    fn entry_bytes(&self, dir: usize, index: usize) -> Vec<u8>;
}
