//! Directories: listing, linking, moving, removing; and that what is freed serves again.

use sfs::{Card, Error, FileType, INodeId, BLOCK_SIZE};

const ROOT: INodeId = INodeId::ROOT;

fn names<I: AsRef<[u8]>, S: AsMut<[u32]>>(card: &Card<I, S>, dir: INodeId) -> Vec<String> {
    card.entries(dir)
        .map(|entry| String::from_utf8_lossy(entry.unwrap().name()).into_owned())
        .collect()
}

fn formatted(image: &mut [u8]) -> Card<&mut [u8]> {
    let space = image.len() as u64;
    let mut card = Card::new(image);
    card.format(space).unwrap();
    card
}

#[test]
fn entries_of_a_directory() {
    let mut image = vec![0; 64 * BLOCK_SIZE];
    let mut card = formatted(&mut image);
    let dir = card.create(ROOT, "dir", FileType::Dir).unwrap();
    for name in ["one", "two", "three"] {
        card.create(dir, name, FileType::File).unwrap();
    }
    assert_eq!(names(&card, dir), [".", "..", "one", "two", "three"]);
    // The last entry takes the hole.
    card.unlink(dir, "one").unwrap();
    assert_eq!(names(&card, dir), [".", "..", "three", "two"]);
    let dots: Vec<bool> = card.entries(dir).map(|entry| entry.unwrap().is_dots()).collect();
    assert_eq!(dots, [true, true, false, false]);
}

#[test]
fn entries_of_no_directory_end_after_the_refusal() {
    let mut image = vec![0; 16 * BLOCK_SIZE];
    let mut card = formatted(&mut image);
    let file = card.create(ROOT, "f", FileType::File).unwrap();
    let mut entries = card.entries(file);
    assert_eq!(entries.next(), Some(Err(Error::NotDir)));
    assert_eq!(entries.next(), None);
}

#[test]
fn a_file_lives_as_long_as_its_names() {
    let mut image = vec![0; 16 * BLOCK_SIZE];
    let mut card = formatted(&mut image);
    let empty = card.info().unwrap();
    let file = card.create(ROOT, "a", FileType::File).unwrap();
    card.write_at(file, 0, b"kept").unwrap();
    card.link(ROOT, "b", file).unwrap();
    card.unlink(ROOT, "a").unwrap();
    assert_eq!(card.find(ROOT, "b"), Ok(file));
    assert_eq!(card.read_as_vec(file), Ok(b"kept".to_vec()));
    card.unlink(ROOT, "b").unwrap();
    assert_eq!(card.metadata(file), Err(Error::NoInode));
    assert_eq!(card.info(), Ok(empty));
}

#[test]
fn a_moved_directory_has_its_new_parent() {
    let mut image = vec![0; 32 * BLOCK_SIZE];
    let mut card = formatted(&mut image);
    let a = card.create(ROOT, "a", FileType::Dir).unwrap();
    let b = card.create(ROOT, "b", FileType::Dir).unwrap();
    card.rename(ROOT, "a", b, "c").unwrap();
    assert_eq!(card.find(b, "c"), Ok(a));
    assert_eq!(card.find(a, ".."), Ok(b));
    assert_eq!(
        (card.metadata(ROOT).unwrap().links, card.metadata(b).unwrap().links),
        (3, 3)
    );
    assert_eq!(names(&card, ROOT), [".", "..", "b"]);
}

#[test]
fn a_symbolic_link_holds_its_text() {
    let mut image = vec![0; 16 * BLOCK_SIZE];
    let mut card = formatted(&mut image);
    let link = card.create(ROOT, "l", FileType::SymLink).unwrap();
    card.write_at(link, 0, b"../x").unwrap();
    assert_eq!(card.metadata(link).unwrap().kind, FileType::SymLink);
    assert_eq!(card.read_as_vec(link), Ok(b"../x".to_vec()));
}

/// Through both levels of pointer blocks, in one call and in pieces.
#[test]
fn a_long_file_comes_back() {
    let mut image = vec![0; 3_000 * BLOCK_SIZE];
    let mut card = formatted(&mut image);
    // 2,100 blocks and 17 bytes.
    let bytes: Vec<u8> = (0..8_601_617_u32)
        .map(|i| (i.wrapping_mul(2_654_435_761) >> 24) as u8)
        .collect();
    let file = card.create(ROOT, "long", FileType::File).unwrap();
    assert_eq!(card.write_at(file, 0, &bytes), Ok(bytes.len()));
    assert!(card.read_as_vec(file).unwrap() == bytes);
    let mut piece = vec![0; 9_999];
    assert_eq!(card.read_at(file, 1_035 * BLOCK_SIZE as u64 - 3, &mut piece), Ok(9_999));
    assert!(piece == bytes[1_035 * BLOCK_SIZE - 3..][..9_999]);
    card.resize(file, 12).unwrap();
    assert_eq!(card.read_as_vec(file).unwrap(), bytes[..12]);
    card.check().unwrap();
}

/// The same numbers on a card that is only lent for reading.
#[test]
fn a_card_can_be_read_only() {
    let mut image = vec![0; 16 * BLOCK_SIZE];
    formatted(&mut image).create(ROOT, "f", FileType::File).unwrap();
    let mut scratch = [0; 64];
    let card = Card::with_scratch(&image[..], &mut scratch[..]);
    assert_eq!(names(&card, ROOT), [".", "..", "f"]);
}
