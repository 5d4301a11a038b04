use crate::{Entries, Entry, Error, FileType, INodeId, Info, Metadata, BLOCK_SIZE, ENTRY_SIZE, MAX_BLOCKS};
use std::cell::RefCell;
use std::fmt;

/// The words of scratch that calls on an image of that many bytes need at most: 4 a block.
#[must_use]
pub fn scratch_words(image_len: usize) -> usize {
    4 * (image_len / BLOCK_SIZE).min(MAX_BLOCKS as usize)
}

/// A card image, and the scratch memory that each call on it needs.
///
/// The image is lent, as `&mut [u8]`, or as `&[u8]` for the calls that only read; a `Vec<u8>` serves too. Each call
/// judges the image anew, so nothing is asked of it here: [`check`](Card::check) tells whether it is a whole card.
///
/// ```
/// use sfs::{Card, Error};
/// let image = [0; 65_536];
/// assert_eq!(Card::new(&image[..]).check(), Err(Error::WrongFs));
/// ```
pub struct Card<I, S = Vec<u32>> {
    pub(crate) image: I,
    /// Each call writes here, also one that only reads the image.
    pub(crate) scratch: RefCell<S>,
}

impl<I: AsRef<[u8]>> Card<I> {
    /// A card with scratch of its own.
    #[must_use]
    pub fn new(image: I) -> Card<I> {
        let words = scratch_words(image.as_ref().len());
        Card::with_scratch(image, vec![0; words])
    }
}

impl<I, S> Card<I, S> {
    /// A card with scratch that is lent, of any content: [`scratch_words`] tells how many are enough.
    ///
    /// ```
    /// use sfs::{scratch_words, Card, Error};
    /// let mut image = vec![0; 65_536];
    /// let mut scratch = vec![0; scratch_words(image.len())];
    /// let mut card = Card::with_scratch(&mut image[..], &mut scratch[..]);
    /// card.format(65_536)?;
    /// assert_eq!(card.info()?.unused, 12);
    /// # Ok::<(), Error>(())
    /// ```
    #[must_use]
    pub fn with_scratch(image: I, scratch: S) -> Card<I, S> {
        Card {
            image,
            scratch: RefCell::new(scratch),
        }
    }

    /// Gives the image back.
    #[must_use]
    pub fn into_image(self) -> I {
        self.image
    }
}

impl<I: AsRef<[u8]>, S> fmt::Debug for Card<I, S> {
    fn fmt(&self, f: &mut fmt::Formatter<'_>) -> fmt::Result {
        f.debug_struct("Card")
            .field("image_len", &self.image.as_ref().len())
            .finish_non_exhaustive()
    }
}

/// The calls that only read the image.
impl<I: AsRef<[u8]>, S: AsMut<[u32]>> Card<I, S> {
    /// The image's bytes.
    #[must_use]
    pub fn image(&self) -> &[u8] {
        self.image.as_ref()
    }

    /// A call with the image and scratch.
    fn look<T>(&self, call: impl FnOnce(&[u8], &mut [u32]) -> T) -> T {
        call(self.image.as_ref(), self.scratch.borrow_mut().as_mut())
    }

    /// Whether the card is whole, by all rules.
    ///
    /// # Errors
    /// [`WrongFs`](Error::WrongFs) if the image is no card, [`Damaged`](Error::Damaged) if it is not whole, and
    /// [`ScratchShort`](Error::ScratchShort) if scratch has fewer words than [`scratch_words`] tells.
    pub fn check(&self) -> Result<(), Error> {
        self.info().map(|_| ())
    }

    /// The card's counts of blocks.
    ///
    /// # Errors
    /// As [`check`](Card::check).
    pub fn info(&self) -> Result<Info, Error> {
        let (mut blocks, mut unused) = (0, 0);
        // SAFETY: the call's own pointers are those of local results.
        unsafe { call!(self.look, sfs_check(&mut blocks, &mut unused)) }?;
        Ok(Info { blocks, unused })
    }

    /// Kind, size, blocks and links of an inode.
    ///
    /// # Errors
    /// As [`check`](Card::check); then [`NoInode`](Error::NoInode).
    pub fn metadata(&self, inode: INodeId) -> Result<Metadata, Error> {
        let (mut kind, mut size, mut blocks, mut links) = (0, 0, 0, 0);
        // SAFETY: the call's own pointers are those of local results.
        unsafe {
            call!(
                self.look,
                sfs_metadata(inode.0, &mut kind, &mut size, &mut blocks, &mut links)
            )
        }?;
        Ok(Metadata {
            // A whole card has no other kinds than these.
            kind: FileType::try_from(kind).map_err(|_| Error::Damaged)?,
            size,
            blocks,
            links,
        })
    }

    /// Reads from a byte on, and answers how many bytes there were: fewer than the buffer has at the end of the file,
    /// and 0 past it.
    ///
    /// # Errors
    /// As [`check`](Card::check); then [`NoInode`](Error::NoInode), and [`NotFile`](Error::NotFile) for a directory.
    pub fn read_at(&self, inode: INodeId, offset: u64, buf: &mut [u8]) -> Result<usize, Error> {
        let mut count = 0;
        // SAFETY: the buffer is an exclusive slice with its length; the count is a local result.
        unsafe {
            call!(
                self.look,
                sfs_read(inode.0, offset, buf.as_mut_ptr(), buf.len(), &mut count)
            )
        }?;
        Ok(count as usize)
    }

    /// All bytes of a file or symbolic link. Two calls.
    ///
    /// # Errors
    /// As [`read_at`](Card::read_at).
    pub fn read_as_vec(&self, inode: INodeId) -> Result<Vec<u8>, Error> {
        let mut bytes = vec![0; self.metadata(inode)?.size as usize];
        let count = self.read_at(inode, 0, &mut bytes)?;
        bytes.truncate(count);
        Ok(bytes)
    }

    /// The inode that a directory's entry of that name names, "." and ".." too.
    ///
    /// # Errors
    /// As [`check`](Card::check); then [`NoInode`](Error::NoInode), [`NotDir`](Error::NotDir) if `dir` is no directory,
    /// and [`EntryNotFound`](Error::EntryNotFound).
    pub fn find(&self, dir: INodeId, name: impl AsRef<[u8]>) -> Result<INodeId, Error> {
        let mut number = 0;
        let name = name.as_ref();
        // SAFETY: the name is a slice with its length; the number is a local result.
        unsafe { call!(self.look, sfs_find(dir.0, name.as_ptr(), name.len(), &mut number)) }?;
        Ok(INodeId(number))
    }

    /// A directory's entry by its index: 0 is ".", 1 is "..".
    ///
    /// # Errors
    /// As [`find`](Card::find): [`EntryNotFound`](Error::EntryNotFound) if the directory has no more entries.
    pub fn entry(&self, dir: INodeId, index: u64) -> Result<Entry, Error> {
        let mut entry = [0; ENTRY_SIZE];
        // SAFETY: the entry is a local of as many bytes as the call writes.
        unsafe { call!(self.look, sfs_entry(dir.0, index, entry.as_mut_ptr())) }?;
        Ok(Entry::new(&entry))
    }

    /// All entries of a directory, "." and ".." first. Each step is a call and so costs a check of the card.
    ///
    /// ```
    /// # use sfs::{Card, Error, FileType, INodeId};
    /// # let mut image = vec![0; 65_536];
    /// # let mut card = Card::new(&mut image[..]);
    /// # card.format(65_536)?;
    /// card.create(INodeId::ROOT, "d", FileType::Dir)?;
    /// for entry in card.entries(INodeId::ROOT) {
    ///     let entry = entry?;
    ///     let name = String::from_utf8_lossy(entry.name()).into_owned();
    ///     println!("{} {}", card.metadata(entry.inode())?.size, name);
    /// }
    /// # Ok::<(), Error>(())
    /// ```
    pub fn entries(&self, dir: INodeId) -> Entries<'_, I, S> {
        Entries::new(self, dir)
    }
}
