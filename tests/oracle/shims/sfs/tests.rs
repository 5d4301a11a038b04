//! Stands where the file system declares its module of tests, which is not among the given sources. A child
//! module may use the private functions of its parent, so the parent stays unchanged.

use super::*;
use by_number::ByNumber;

impl ByNumber for SimpleFileSystem {
    fn inode(&self, number: usize) -> Arc<dyn INode> {
        self.get_inode(number)
    }

    fn entry_bytes(&self, dir: usize, index: usize) -> Vec<u8> {
        let entry = self.get_inode(dir).read_direntry(index).unwrap();
        entry.as_buf().to_vec()
    }
}
