//! libsfs.a, by the crate's own declarations of include/sfs.h: they are written once.
#![allow(dead_code)]

#[path = "../../rust/sfs/src/raw.rs"]
mod raw;

pub use raw::*;

#[link(name = "sfs", kind = "static")]
extern "C" {}
