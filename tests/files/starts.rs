//! The cards on which days begin: made ones, random trees, and ones that the unchanged Rust has lived on.

use crate::expect::{expected, unused};
use kit::cards;
use kit::plan::{owned, Fill, Kind, Plan, BLOCK, ROOT};
use kit::rng::Rng;
use oracle::{image, Answer, Call, Value};

/// Some days have a card on which files reach the second level.
fn is_large(day: u64) -> bool {
    day % 24 == 5 || day % 24 == 16
}

/// A whole card with one file at least.
pub fn image(rng: &mut Rng, day: u64) -> Vec<u8> {
    if is_large(day) {
        let blocks = rng.from_to(3400, 5000);
        return made(rng, blocks, &[1030, 1036, 1100, 2050, 2060]);
    }
    let blocks = match rng.below(100) {
        0..=9 => 16,
        10..=49 => rng.from_to(16, 64),
        50..=84 => rng.from_to(64, 300),
        _ => rng.from_to(300, 1500),
    };
    match rng.below(3) {
        0 if blocks <= 300 => lived(rng, blocks as u64),
        1 => tree(rng, blocks).unwrap_or_else(|| made(rng, blocks, &[])),
        _ => made(rng, blocks, &[]),
    }
}

/// A symbolic link, and some files if they fit, the first of about one of these counts of blocks if there are any.
fn made(rng: &mut Rng, blocks: usize, counts: &[usize]) -> Vec<u8> {
    let mut plan = Plan::new(blocks);
    let mut dir = ROOT;
    plan.file(Kind::Symlink, ROOT, b"to", rng.below(60)).expect("room");
    if !counts.is_empty() {
        let len = BLOCK * rng.pick(counts) - rng.below(BLOCK);
        plan.file(Kind::File, ROOT, b"large", len).expect("room");
    }
    for i in 0..rng.from_to(1, 5) {
        if rng.percent(30) {
            dir = plan.dir(dir, format!("d{}", i).as_bytes()).unwrap_or(dir);
        }
        let share = plan.left() / rng.from_to(2, 6);
        let len = BLOCK * rng.below(share + 1) + rng.pick(&[0, 1, 4095]) * rng.below(2);
        let _ = plan.file(Kind::File, dir, format!("f{}", i).as_bytes(), len);
    }
    let fill = rng.pick(&[Fill::Noise, Fill::Noise, Fill::Numbers, Fill::Ones]);
    let scattered = rng.percent(75);
    let mut card = plan.card(rng, fill, scattered);
    card.image[12..44].copy_from_slice(b"a day\0 with noise after its text");
    card.image
}

/// A random tree with hard links; None where it has no file.
fn tree(rng: &mut Rng, blocks: usize) -> Option<Vec<u8>> {
    let card = cards::from_seed(rng.next(), blocks, true);
    card.inodes.iter().find(|inode| inode.kind != Kind::Dir)?;
    Some(card.image)
}

/// The Rust formats, creates, grows, shrinks and unlinks, so that free blocks are scattered and full of what was there.
fn lived(rng: &mut Rng, blocks: u64) -> Vec<u8> {
    let mut image = vec![0; blocks as usize * BLOCK];
    rng.fill(&mut image);
    done(&mut image, &Call::Format { space: blocks * BLOCK as u64 });
    let mut files = vec![(b"kept".to_vec(), create(&mut image, b"kept", 1))];
    for turn in 0..rng.from_to(5, 40) {
        // A file, a second block of the root's, and one to spare.
        if rng.percent(40) && unused(&image) >= 1 + owned(2) {
            let name = format!("f{}", turn).into_bytes();
            let kind = rng.pick(&[1, 1, 3]);
            let number = create(&mut image, &name, kind);
            files.push((name, number));
        } else if rng.percent(25) && files.len() > 1 {
            let (name, _) = files.swap_remove(rng.from_to(1, files.len() - 1));
            done(&mut image, &Call::Unlink { dir: 1, name });
        } else {
            let (_, inode) = files[rng.below(files.len())];
            let mut data = vec![0; rng.below(BLOCK * blocks as usize / 4)];
            rng.fill(&mut data);
            let call = if rng.percent(50) {
                Call::Write { inode, offset: 0, data }
            } else {
                Call::Resize { inode, len: data.len() as u64 }
            };
            if expected(&image, &image::inodes(&image), &call).status == 0 {
                done(&mut image, &call);
            }
        }
    }
    image
}

fn create(image: &mut Vec<u8>, name: &[u8], kind: u32) -> u32 {
    match done(image, &Call::Create { dir: 1, name: name.to_vec(), kind }) {
        Value::Number(number) => number,
        other => panic!("{:?} from create", other),
    }
}

fn done(image: &mut Vec<u8>, call: &Call) -> Value {
    match oracle::run(image, call).answer {
        Answer::Done(value) => value,
        other => panic!("{:?} while a card is made", other),
    }
}
