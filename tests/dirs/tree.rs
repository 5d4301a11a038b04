//! The tree on a whole card, read from its bytes by the layout of RULES, "The card".

use crate::look::content;
use kit::plan::{BLOCK, ENTRY};
use std::collections::{BTreeMap, BTreeSet};

pub const ROOT: u32 = 1;

pub type Entries = Vec<(u32, Vec<u8>)>;

#[derive(Default)]
pub struct Tree {
    /// Each directory with its entries in their order, "." and ".." too.
    pub dirs: BTreeMap<u32, Entries>,
    /// Files and symbolic links.
    pub others: BTreeSet<u32>,
    /// The directory in which each directory stands; none for the root.
    parents: BTreeMap<u32, u32>,
}

impl Tree {
    pub fn read(image: &[u8]) -> Tree {
        let mut tree = Tree::default();
        let mut waiting = vec![ROOT];
        while let Some(dir) = waiting.pop() {
            let entries = entries(image, dir);
            for (number, _) in &entries[2..] {
                if image[*number as usize * BLOCK + 4] == 2 {
                    waiting.push(*number);
                    tree.parents.insert(*number, dir);
                } else {
                    tree.others.insert(*number);
                }
            }
            tree.dirs.insert(dir, entries);
        }
        tree
    }

    pub fn has(&self, inode: u32) -> bool {
        self.dirs.contains_key(&inode) || self.others.contains(&inode)
    }

    pub fn inodes(&self) -> BTreeSet<u32> {
        self.dirs.keys().chain(&self.others).copied().collect()
    }

    /// The directories above one, from itself to the root.
    pub fn up_from(&self, dir: u32) -> Vec<u32> {
        let mut way = vec![dir];
        while let Some(&parent) = self.parents.get(&way[way.len() - 1]) {
            way.push(parent);
        }
        way
    }

    /// Names that the unchanged Rust can read back.
    pub fn readable(&self) -> bool {
        self.dirs.values().flatten().all(|(_, name)| std::str::from_utf8(name).is_ok())
    }
}

fn entries(image: &[u8], dir: u32) -> Entries {
    content(image, dir)
        .chunks_exact(ENTRY)
        .map(|entry| {
            let number = u32::from_le_bytes([entry[0], entry[1], entry[2], entry[3]]);
            (number, entry[4..].iter().copied().take_while(|&byte| byte != 0).collect())
        })
        .collect()
}
