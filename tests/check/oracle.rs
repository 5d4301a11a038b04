//! check_oracle: made cards, put to the unchanged Rust. It opens each, gives the counts, lists every directory,
//! and reads every file by the blocks that the card's maker gave it. So the maker's idea of the layout is the
//! Rust's, and not only that of the rules beside it.

use kit::plan::{Card, Inode, Kind, BLOCK};
use kit::{cards, rules};
use oracle::{run, Answer, Call, Value};

fn main() {
    let cards: u64 = std::env::args().nth(1).and_then(|word| word.parse().ok()).unwrap_or(100);
    let mut entries = 0;
    for seed in 0..cards {
        let mut card = cards::from_seed(seed, 3000, true);
        let answer = rules::check(&card.image, 4 * 3000);
        assert_eq!(answer.status, 0, "card {}: not whole by the rules: {}", seed, answer.why);
        entries += compare(&mut card, seed);
    }
    println!("check_oracle: the Rust reads {} made cards with {} entries as they were meant", cards, entries);
}

/// Stops at the first difference; else answers how many entries were listed.
fn compare(card: &mut Card, seed: u64) -> usize {
    let mut image = std::mem::take(&mut card.image);
    let before = image.clone();
    let mut ask = |call: Call| match run(&mut image, &call).answer {
        Answer::Done(value) => value,
        other => panic!("card {}: {:?} for {:?}", seed, other, call),
    };
    match ask(Call::Counts) {
        Value::Counts { blocks, unused } => {
            assert_eq!((blocks, unused), (card.blocks, card.free.len() as u32), "card {}: counts", seed)
        }
        other => panic!("card {}: {:?} for the counts", seed, other),
    }
    let mut listed = 0;
    for n in &card.inodes {
        match ask(Call::Metadata { inode: n.number }) {
            Value::Metadata { kind, size, blocks, links } => assert_eq!(
                (kind, size, blocks as usize, links),
                (n.kind as u32, n.size, n.data.len(), u32::from(n.links)),
                "card {}: inode {}",
                seed,
                n.number
            ),
            other => panic!("card {}: {:?} for inode {}", seed, other, n.number),
        }
        if n.kind == Kind::Dir {
            listed += list(card, n, &mut ask);
        } else {
            let len = n.size as usize;
            match ask(Call::Read { inode: n.number, offset: 0, len }) {
                Value::Read { count, buf } => {
                    assert_eq!(count, len, "card {}: length of {}", seed, n.number);
                    assert!(buf == content(&before, n), "card {}: bytes of {}", seed, n.number);
                }
                other => panic!("card {}: {:?} reading {}", seed, other, n.number),
            }
        }
    }
    assert!(image == before, "card {}: looking at it changed it", seed);
    listed
}

fn list(card: &Card, dir: &Inode, ask: &mut impl FnMut(Call) -> Value) -> usize {
    let own = (b".".to_vec(), dir.number);
    let up = (b"..".to_vec(), card.inodes[dir.parent].number);
    let rest = dir.entries.iter().map(|(name, node)| (name.clone(), card.inodes[*node].number));
    let mut listed = 0;
    for (expected_name, expected) in [own, up].into_iter().chain(rest) {
        match ask(Call::Entry { dir: dir.number, index: listed }) {
            Value::Entry { number, name, .. } => {
                assert_eq!((number, &name), (expected, &expected_name), "entry {} of {}", listed, dir.number)
            }
            other => panic!("{:?} for entry {} of {}", other, listed, dir.number),
        }
        match ask(Call::Find { dir: dir.number, name: expected_name }) {
            Value::Number(number) => assert_eq!(number, expected, "found in {}", dir.number),
            other => panic!("{:?} for a name in {}", other, dir.number),
        }
        listed += 1;
    }
    listed as usize
}

fn content(image: &[u8], file: &Inode) -> Vec<u8> {
    let mut bytes = Vec::new();
    for &b in &file.data {
        bytes.extend_from_slice(&image[b as usize * BLOCK..][..BLOCK]);
    }
    bytes.truncate(file.size as usize);
    bytes
}
