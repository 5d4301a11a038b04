//! The rules' tried examples, by the crate.

use sfs::{Card, Error, FileType, INodeId, BLOCK_SIZE};

const ROOT: INodeId = INodeId::ROOT;

fn card(blocks: usize) -> Card<Vec<u8>> {
    let space = blocks * BLOCK_SIZE;
    let mut card = Card::new(vec![0; space]);
    card.format(space as u64).unwrap();
    card
}

fn map_byte(card: &Card<Vec<u8>>, i: usize) -> u8 {
    card.image()[2 * BLOCK_SIZE + i]
}

fn unused(card: &Card<Vec<u8>>) -> u32 {
    card.info().unwrap().unused
}

#[test]
fn formatted() {
    let card = card(16);
    let info = card.info().unwrap();
    assert_eq!((info.blocks, info.unused), (16, 12));
    assert_eq!((map_byte(&card, 0), map_byte(&card, 1)), (0xf0, 0xff));
    let root = card.metadata(ROOT).unwrap();
    assert_eq!(
        (root.kind, root.size, root.blocks, root.links),
        (FileType::Dir, 520, 1, 2)
    );
}

#[test]
fn created_and_grown() {
    let mut card = card(16);
    let a = card.create(ROOT, "a", FileType::File).unwrap();
    assert_eq!((a, unused(&card), map_byte(&card, 0)), (INodeId(4), 11, 0xe0));
    assert_eq!(card.metadata(ROOT).unwrap().size, 780);
    card.resize(a, 4_097).unwrap();
    assert_eq!((unused(&card), map_byte(&card, 0)), (9, 0x80));
    assert_eq!(card.metadata(a).unwrap().blocks, 2);
}

#[test]
fn filled_to_the_last_block() {
    let mut small = card(16);
    let a = small.create(ROOT, "a", FileType::File).unwrap();
    assert_eq!(small.resize(a, 45_057), Err(Error::NoDeviceSpace));
    small.resize(a, 45_056).unwrap();
    assert_eq!(unused(&small), 0);
    let mut larger = card(18);
    let a = larger.create(ROOT, "a", FileType::File).unwrap();
    larger.resize(a, 45_057).unwrap();
    assert_eq!(unused(&larger), 0);
}

#[test]
fn directory() {
    let mut card = card(16);
    assert_eq!(card.create(ROOT, "d", FileType::Dir), Ok(INodeId(4)));
    assert_eq!((card.metadata(ROOT).unwrap().links, unused(&card)), (3, 10));
}

#[test]
fn lengths_at_their_limit() {
    let mut card = card(16);
    let a = card.create(ROOT, "a", FileType::File).unwrap();
    assert_eq!(card.resize(a, 4_294_967_295), Err(Error::NoDeviceSpace));
    assert_eq!(card.resize(a, 4_294_967_296), Err(Error::InvalidParam));
    assert_eq!(card.write_at(a, u64::MAX, b"x"), Err(Error::InvalidParam));
}

#[test]
fn reads_at_the_end_and_past_it() {
    let mut card = card(16);
    let a = card.create(ROOT, "a", FileType::File).unwrap();
    assert_eq!(card.write_at(a, 0, b"hello"), Ok(5));
    let mut buf = [9; 4];
    assert_eq!(card.read_at(a, 3, &mut buf), Ok(2));
    assert_eq!(&buf, b"lo\x09\x09");
    assert_eq!(card.read_at(a, 5, &mut buf), Ok(0));
    assert_eq!(card.read_at(a, u64::MAX, &mut buf), Ok(0));
}

#[test]
fn names_at_their_limit() {
    let mut card = card(16);
    card.create(ROOT, "n".repeat(255), FileType::File).unwrap();
    assert_eq!(card.create(ROOT, "n".repeat(256), FileType::File), Err(Error::BadName));
    assert_eq!(card.find(ROOT, "n".repeat(256)), Err(Error::EntryNotFound));
    assert_eq!(card.entry(ROOT, 2).unwrap().name().len(), 255);
}

#[test]
fn entries_that_cross_into_another_block() {
    let mut card = card(32);
    for i in 0..13 {
        card.create(ROOT, format!("f{i}"), FileType::File).unwrap();
    }
    assert_eq!(card.metadata(ROOT).map(|root| (root.size, root.blocks)), Ok((3_900, 1)));
    let last = card.create(ROOT, "f13", FileType::File).unwrap();
    assert_eq!(card.metadata(ROOT).map(|root| (root.size, root.blocks)), Ok((4_160, 2)));
    assert_eq!(card.find(ROOT, "f13"), Ok(last));
    assert_eq!(card.entries(ROOT).last().unwrap().unwrap().inode(), last);
}

#[test]
fn format_rounds_up() {
    let mut card = Card::new(vec![0; 65_536]);
    assert_eq!(card.format(61_440), Err(Error::InvalidParam));
    assert_eq!(card.format(65_537), Err(Error::InvalidParam));
    assert!(card.image().iter().all(|&byte| byte == 0));
    card.format(65_535).unwrap();
    assert_eq!(card.info().unwrap().blocks, 16);
}
