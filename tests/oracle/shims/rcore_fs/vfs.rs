//! The traits that the file system implements, and the values it answers with.

use crate::dev::DevError;
use std::any::Any;
use std::sync::Arc;

pub type Result<T> = std::result::Result<T, FsError>;

#[derive(Debug, Clone, Copy, PartialEq, Eq)]
pub enum FsError {
    NotFile,
    IsDir,
    NotDir,
    EntryNotFound,
    EntryExist,
    NotSameFs,
    InvalidParam,
    NoDeviceSpace,
    DirRemoved,
    DirNotEmpty,
    WrongFs,
    IOCTLError,
    DeviceError(i32),
}

impl From<DevError> for FsError {
    fn from(error: DevError) -> Self {
        FsError::DeviceError(error.0)
    }
}

#[derive(Debug, Clone, Copy, PartialEq, Eq)]
pub enum FileType {
    File,
    Dir,
    SymLink,
    CharDevice,
    BlockDevice,
}

#[derive(Debug, Clone, Copy, PartialEq, Eq)]
pub struct Timespec {
    pub sec: i64,
    pub nsec: i32,
}

#[derive(Debug, Clone)]
pub struct Metadata {
    pub dev: usize,
    pub inode: usize,
    pub size: usize,
    pub blk_size: usize,
    pub blocks: usize,
    pub atime: Timespec,
    pub mtime: Timespec,
    pub ctime: Timespec,
    pub type_: FileType,
    pub mode: u16,
    pub nlinks: usize,
    pub uid: usize,
    pub gid: usize,
    pub rdev: usize,
}

#[derive(Debug, Clone)]
pub struct FsInfo {
    pub magic: usize,
    pub bsize: usize,
    pub frsize: usize,
    pub blocks: usize,
    pub bfree: usize,
    pub bavail: usize,
    pub files: usize,
    pub ffree: usize,
    pub namemax: usize,
}

pub trait INode: Any + Sync + Send {
    fn read_at(&self, offset: usize, buf: &mut [u8]) -> Result<usize>;
    fn write_at(&self, offset: usize, buf: &[u8]) -> Result<usize>;
    fn metadata(&self) -> Result<Metadata>;
    fn set_metadata(&self, metadata: &Metadata) -> Result<()>;
    fn sync_all(&self) -> Result<()>;
    fn sync_data(&self) -> Result<()>;
    fn resize(&self, len: usize) -> Result<()>;
    fn create2(
        &self,
        name: &str,
        type_: FileType,
        mode: u16,
        data: usize,
    ) -> Result<Arc<dyn INode>>;
    fn link(&self, name: &str, other: &Arc<dyn INode>) -> Result<()>;
    fn unlink(&self, name: &str) -> Result<()>;
    fn move_(&self, old_name: &str, target: &Arc<dyn INode>, new_name: &str) -> Result<()>;
    fn find(&self, name: &str) -> Result<Arc<dyn INode>>;
    fn get_entry(&self, id: usize) -> Result<String>;
    fn io_control(&self, cmd: u32, data: usize) -> Result<()>;
    fn fs(&self) -> Arc<dyn FileSystem>;
    fn as_any_ref(&self) -> &dyn Any;
}

impl dyn INode {
    pub fn downcast_ref<T: INode>(&self) -> Option<&T> {
        self.as_any_ref().downcast_ref::<T>()
    }
}

pub trait FileSystem: Sync + Send {
    fn sync(&self) -> Result<()>;
    fn root_inode(&self) -> Arc<dyn INode>;
    fn info(&self) -> FsInfo;
}
