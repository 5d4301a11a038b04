use crate::error::answer;
use crate::{raw, Card, Error, FileType, INodeId};

/// The calls that change the image. One that refuses leaves it as it was, byte for byte.
impl<I: AsMut<[u8]>, S: AsMut<[u32]>> Card<I, S> {
    /// A call with the image and scratch.
    fn edit<T>(&mut self, call: impl FnOnce(&mut [u8], &mut [u32]) -> T) -> T {
        call(self.image.as_mut(), self.scratch.get_mut().as_mut())
    }

    /// Makes an empty card of `space` bytes, rounded up to blocks, at the image's start. Bytes that the empty card does
    /// not need stay as they are.
    ///
    /// # Errors
    /// [`InvalidParam`](Error::InvalidParam) if that is fewer than [`MIN_BLOCKS`](crate::MIN_BLOCKS) or more than
    /// [`MAX_BLOCKS`](crate::MAX_BLOCKS), or if the image is shorter.
    ///
    /// ```
    /// use sfs::{Card, Error};
    /// let mut image = vec![0; 65_536];
    /// let mut card = Card::new(&mut image[..]);
    /// assert_eq!(card.format(61_440), Err(Error::InvalidParam));
    /// card.format(65_535)?;
    /// assert_eq!(card.info()?.blocks, 16);
    /// # Ok::<(), Error>(())
    /// ```
    pub fn format(&mut self, space: u64) -> Result<(), Error> {
        let image = self.image.as_mut();
        // SAFETY: the slice is borrowed exclusively over the call, with its length.
        answer(unsafe { raw::sfs_format(image.as_mut_ptr(), image.len(), space) })
    }

    /// Writes from a byte on, growing the file if it ends before, and answers how many bytes: all. A gap between the
    /// old end and `offset` is zeros.
    ///
    /// # Errors
    /// As [`resize`](Card::resize) to the end of what is written.
    pub fn write_at(&mut self, inode: INodeId, offset: u64, data: &[u8]) -> Result<usize, Error> {
        let mut count = 0;
        // SAFETY: the data is a slice with its length; the count is a local result.
        unsafe {
            call!(
                self.edit,
                sfs_write(inode.0, offset, data.as_ptr(), data.len(), &mut count)
            )
        }?;
        Ok(count as usize)
    }

    /// Gives a file a new length. The bytes by which it grows are zeros.
    ///
    /// # Errors
    /// As [`check`](Card::check); then [`NoInode`](Error::NoInode), [`NotFile`](Error::NotFile) for a directory,
    /// [`InvalidParam`](Error::InvalidParam) above 4,294,967,295 bytes, and [`NoDeviceSpace`](Error::NoDeviceSpace).
    pub fn resize(&mut self, inode: INodeId, len: u64) -> Result<(), Error> {
        // SAFETY: the call has no pointer of its own.
        unsafe { call!(self.edit, sfs_resize(inode.0, len)) }
    }

    /// Makes an empty file, directory or symbolic link, and answers its number. The text of a symbolic link is written
    /// to it like the bytes of a file.
    ///
    /// # Errors
    /// As [`check`](Card::check); then [`NoInode`](Error::NoInode), [`NotDir`](Error::NotDir) if `dir` is no directory,
    /// [`BadName`](Error::BadName), [`EntryExist`](Error::EntryExist), [`TooManyLinks`](Error::TooManyLinks) for a
    /// directory if `dir` has as many links as it can, and [`NoDeviceSpace`](Error::NoDeviceSpace).
    ///
    /// ```
    /// # use sfs::{Card, Error, FileType, INodeId};
    /// # let mut image = vec![0; 65_536];
    /// # let mut card = Card::new(&mut image[..]);
    /// # card.format(65_536)?;
    /// let dir = card.create(INodeId::ROOT, "d", FileType::Dir)?;
    /// let file = card.create(dir, "f", FileType::File)?;
    /// assert_eq!(card.create(dir, "f", FileType::File), Err(Error::EntryExist));
    /// assert_eq!(card.find(dir, "f"), Ok(file));
    /// # Ok::<(), Error>(())
    /// ```
    pub fn create(&mut self, dir: INodeId, name: impl AsRef<[u8]>, kind: FileType) -> Result<INodeId, Error> {
        let mut number = 0;
        let (name, kind) = (name.as_ref(), kind.number());
        // SAFETY: the name is a slice with its length; the number is a local result.
        unsafe {
            call!(
                self.edit,
                sfs_create(dir.0, name.as_ptr(), name.len(), kind, &mut number)
            )
        }?;
        Ok(INodeId(number))
    }

    /// Gives a file or symbolic link another name.
    ///
    /// # Errors
    /// As [`check`](Card::check); then [`NoInode`](Error::NoInode), [`NotDir`](Error::NotDir) if `dir` is no directory,
    /// [`BadName`](Error::BadName), [`EntryExist`](Error::EntryExist), [`IsDir`](Error::IsDir) if `inode` is a
    /// directory, [`TooManyLinks`](Error::TooManyLinks), and [`NoDeviceSpace`](Error::NoDeviceSpace).
    pub fn link(&mut self, dir: INodeId, name: impl AsRef<[u8]>, inode: INodeId) -> Result<(), Error> {
        let name = name.as_ref();
        // SAFETY: the name is a slice with its length.
        unsafe { call!(self.edit, sfs_link(dir.0, name.as_ptr(), name.len(), inode.0)) }
    }

    /// Removes a name. With the last name of a file, or with an empty directory, goes all that it owns. The directory's
    /// last entry takes the place of the removed one.
    ///
    /// # Errors
    /// As [`check`](Card::check); then [`NoInode`](Error::NoInode), [`NotDir`](Error::NotDir) if `dir` is no directory,
    /// [`IsDir`](Error::IsDir) for "." and "..", [`EntryNotFound`](Error::EntryNotFound), and
    /// [`DirNotEmpty`](Error::DirNotEmpty).
    pub fn unlink(&mut self, dir: INodeId, name: impl AsRef<[u8]>) -> Result<(), Error> {
        let name = name.as_ref();
        // SAFETY: the name is a slice with its length.
        unsafe { call!(self.edit, sfs_unlink(dir.0, name.as_ptr(), name.len())) }
    }

    /// Moves an entry to another directory, name or both. Unlike [`std::fs::rename`] it replaces nothing: a name that is
    /// there is refused.
    ///
    /// # Errors
    /// As [`check`](Card::check); then [`NoInode`](Error::NoInode), [`NotDir`](Error::NotDir) if `dir` is no directory,
    /// [`IsDir`](Error::IsDir) for "." and "..", [`NotDir`](Error::NotDir) if `target` is none,
    /// [`BadName`](Error::BadName) and [`EntryExist`](Error::EntryExist) for the new name,
    /// [`EntryNotFound`](Error::EntryNotFound) for the old one, [`InvalidParam`](Error::InvalidParam) for a directory
    /// into itself or below, [`TooManyLinks`](Error::TooManyLinks), and [`NoDeviceSpace`](Error::NoDeviceSpace).
    pub fn rename(
        &mut self,
        dir: INodeId,
        old_name: impl AsRef<[u8]>,
        target: INodeId,
        new_name: impl AsRef<[u8]>,
    ) -> Result<(), Error> {
        let (old, new) = (old_name.as_ref(), new_name.as_ref());
        // SAFETY: the names are slices with their lengths; they are only read, and may be one.
        unsafe {
            call!(
                self.edit,
                sfs_move(dir.0, old.as_ptr(), old.len(), target.0, new.as_ptr(), new.len())
            )
        }
    }
}
