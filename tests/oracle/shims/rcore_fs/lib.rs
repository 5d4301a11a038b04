//! The crate `rcore_fs` as far as the file system uses it. `util` and `dev::block_cache` are the given
//! sources, laid beside this file by the build; the other modules are written here.

extern crate alloc;

pub mod dev;
pub mod dirty;
pub mod util;
pub mod vfs;
