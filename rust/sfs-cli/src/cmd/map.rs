//! A picture of the card: which file owns which block.

use super::card::info_of;
use crate::args::Args;
use crate::cardfile::CardFile;
use crate::failure::Failure;
use crate::layout::{self, Owner};
use crate::text::{clean, some};
use std::io::Write;

const WIDTH: usize = 64;
const LETTERS: &[u8] = b"abcdefghijklmnopqrstuvwxyzABCDEFGHIJKLMNOPQRSTUVWXYZ0123456789";

pub fn map(args: &Args, out: &mut dyn Write) -> Result<(), Failure> {
    let file = CardFile::read(args.word(0))?;
    let info = info_of(&file)?;
    let image = &file.card.image()[..info.blocks as usize * sfs::BLOCK_SIZE];
    let owners = layout::owners(image);
    match args.words.get(1) {
        None => {
            picture(&owners, info.blocks as usize, out)?;
            (0..owners.len()).try_for_each(|i| legend(&owners, i, out))
        }
        Some(path) => {
            let inode = file.find(path)?;
            let found = owners.iter().position(|owner| owner.inode == inode.0);
            found.map_or(Ok(()), |i| details(&owners, i, out))
        }
    }
}

fn letter(i: usize) -> u8 {
    LETTERS[i % LETTERS.len()]
}

fn picture(owners: &[Owner], blocks: usize, out: &mut dyn Write) -> Result<(), Failure> {
    let mut cells = vec![b'.'; blocks];
    cells[0] = b'$';
    cells[2] = b'%';
    for (i, owner) in owners.iter().enumerate() {
        for block in owner.blocks() {
            if let Some(cell) = cells.get_mut(block as usize) {
                *cell = letter(i);
            }
        }
    }
    let mut before: &[u8] = &[];
    let mut skipped = false;
    for (i, row) in cells.chunks(WIDTH).enumerate() {
        // As in a hex dump, rows like the one before are one star.
        if row == before {
            if !skipped {
                writeln!(out, "{:>6}", "*").map_err(Failure::output)?;
            }
            skipped = true;
            continue;
        }
        (before, skipped) = (row, false);
        writeln!(out, "{:>6} {}", i * WIDTH, String::from_utf8_lossy(row)).map_err(Failure::output)?;
    }
    writeln!(out, "{blocks:>6}\n\n$ superblock  % map  . free").map_err(Failure::output)
}

fn legend(owners: &[Owner], i: usize, out: &mut dyn Write) -> Result<(), Failure> {
    let mut blocks: Vec<u32> = owners[i].blocks().collect();
    blocks.sort_unstable();
    let (letter, path) = (char::from(letter(i)), clean(&layout::path(owners, i)));
    writeln!(out, "{letter} {path}  {}", ranges(&blocks)).map_err(Failure::output)
}

fn details(owners: &[Owner], i: usize, out: &mut dyn Write) -> Result<(), Failure> {
    let owner = &owners[i];
    let path = clean(&layout::path(owners, i));
    let all = some(owner.blocks().count() as u64, "block", "blocks");
    let (pointers, data) = (ranges(&owner.pointers), ranges(&owner.data));
    write!(
        out,
        "{path}: {all}\ninode     {}\npointers  {pointers}\ndata      {data}\n",
        owner.inode
    )
    .map_err(Failure::output)
}

/// `3 5-9`; blocks in the order of the file.
fn ranges(blocks: &[u32]) -> String {
    let mut runs: Vec<(u32, u32)> = Vec::new();
    for &block in blocks {
        match runs.last_mut() {
            Some((_, last)) if *last + 1 == block => *last = block,
            _ => runs.push((block, block)),
        }
    }
    let texts: Vec<String> = runs
        .iter()
        .map(|&(first, last)| {
            if first == last {
                first.to_string()
            } else {
                format!("{first}-{last}")
            }
        })
        .collect();
    if texts.is_empty() {
        "none".to_string()
    } else {
        texts.join(" ")
    }
}
