//! Devices. A device that ends before the bytes asked for answers how many it did, as a file does.

pub mod block_cache;

#[derive(Debug, Clone, Copy, PartialEq, Eq)]
pub struct DevError(pub i32);

pub type DevResult<T> = Result<T, DevError>;

pub const EIO: i32 = 5;

pub trait Device: Send + Sync {
    fn read_at(&self, offset: usize, buf: &mut [u8]) -> DevResult<usize>;
    fn write_at(&self, offset: usize, buf: &[u8]) -> DevResult<usize>;
    fn sync(&self) -> DevResult<()>;
}

pub type BlockId = usize;

pub trait BlockDevice: Send + Sync {
    const BLOCK_SIZE_LOG2: u8;
    fn read_at(&self, block_id: BlockId, buf: &mut [u8]) -> DevResult<()>;
    fn write_at(&self, block_id: BlockId, buf: &[u8]) -> DevResult<()>;
    fn sync(&self) -> DevResult<()>;
}
