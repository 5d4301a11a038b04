//! Files on a card image in the SFS layout, by the proved library `libsfs.a`.
//!
//! A [`Card`] borrows an image: any bytes, of 16 to 32,768 blocks of 4,096. Each call first checks the whole card, does
//! what it was asked for or refuses with an [`Error`], and keeps nothing: the image is the only state.
//!
//! ```
//! use sfs::{Card, Error, FileType, INodeId};
//!
//! fn main() -> Result<(), Error> {
//!     let mut image = vec![0; 16 * sfs::BLOCK_SIZE];
//!     let mut card = Card::new(&mut image[..]);
//!     card.format(16 * sfs::BLOCK_SIZE as u64)?;
//!     let file = card.create(INodeId::ROOT, "log", FileType::File)?;
//!     card.write_at(file, 0, b"first record\n")?;
//!     assert_eq!(card.read_as_vec(file)?, b"first record\n");
//!     // Too much for the card: refused, and nothing changed.
//!     assert_eq!(card.write_at(file, 13, &[7; 65_536]), Err(Error::NoDeviceSpace));
//!     assert_eq!(card.metadata(file)?.size, 13);
//!     card.check()
//! }
//! ```
//!
//! What is proved is the library behind the calls (`docs/PROOFS.md`): what each answers and which bytes the image has
//! afterwards, for any image and request. This crate adds the types of Rust and proves nothing.
//!
//! **What a call costs**: it walks the whole card first, so a read of one byte costs as much as a check. Read and write
//! in few large pieces. [`Card::entries`] makes one call for each entry.
//!
//! A [`BlockCache`] keeps some blocks of a slow device in memory.
#![warn(missing_docs, missing_debug_implementations)]
#![warn(clippy::pedantic)]
#![deny(unsafe_op_in_unsafe_fn)]

#[macro_use]
mod call;
mod cache;
mod card;
mod edit;
mod entry;
mod error;
mod meta;
mod raw;

pub use cache::BlockCache;
pub use card::{scratch_words, Card};
pub use entry::{Entries, Entry};
pub use error::{Error, UnknownNumber};
pub use meta::{FileType, INodeId, Info, Metadata};

/// The bytes of a block.
pub const BLOCK_SIZE: usize = 4096;
/// The bytes of a directory entry.
pub const ENTRY_SIZE: usize = 260;
/// The fewest blocks of a card.
pub const MIN_BLOCKS: u32 = 16;
/// The most blocks of a card.
pub const MAX_BLOCKS: u32 = 32_768;
