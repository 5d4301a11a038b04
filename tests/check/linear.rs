//! Cards on which a check may spend quadratic time or run out of stack. Each is checked in a thread of little
//! stack and must end within a bound that only such a check exceeds; the times are reported, no more.

use crate::library;
use kit::plan::{put16, put32, Card, Fill, Kind, Plan, BLOCK, ROOT};
use kit::rng::Rng;
use kit::rules;
use std::sync::mpsc;
use std::time::{Duration, Instant};

const BLOCKS: usize = 32768;
const STACK: usize = 128 * 1024;
const BOUND: Duration = Duration::from_secs(100);
/// Names of one file; the most is 65,535.
const NAMES_A_FILE: usize = 65_000;

type Make = fn() -> Card;

/// Each with the status it must get, known from its making.
const CARDS: [(&str, u32, Make); 10] = [
    ("16,000 directories, each in the one before", 0, nested),
    ("440,000 names: visit-000123", 0, || many_names(440_000, |k| format!("visit-{:06}", k).into_bytes())),
    ("440,000 names: 200 equal letters first", 0, || many_names(440_000, late_difference)),
    ("440,000 names: 200 equal letters last", 0, || many_names(440_000, early_difference)),
    ("360,000 names: the same letters in another order", 0, || many_names(360_000, permutation)),
    ("440,000 names: one letter, and its place", 0, || many_names(440_000, two_letters)),
    ("440,000 equal names", 3, || many_names(440_000, |_| b"the same".to_vec())),
    ("8,000 directories sharing a body of 10,000 blocks", 3, shared_directory),
    ("8,000 files sharing a body of 20,000 blocks", 3, shared_file),
    ("10,000 files claiming 4 GiB", 3, claiming),
];

pub fn run() -> bool {
    let mut passed = true;
    println!("{:<52} {:>6} {:>10} {:>28}", "card of 32,768 blocks", "status", "ms", "times a sum of all its words");
    for (name, expected, make) in CARDS {
        let card = make();
        let rules = rules::check(&card.image, 4 * BLOCKS).status;
        let measure = sum_time(&card.image);
        match timed(card) {
            Some((status, time)) => {
                let times = time.as_secs_f64() / measure.as_secs_f64();
                println!("{:<52} {:>6} {:>10} {:>28.2}", name, status, time.as_millis(), times);
                if status != expected || rules != expected {
                    println!("check_fuzz: {}: status {}, by the rules {}, and should be {}", name, status, rules, expected);
                    passed = false;
                }
            }
            // The thread cannot be stopped; the process ends with it.
            None => {
                println!("check_fuzz: {}: no answer within {} seconds", name, BOUND.as_secs());
                return false;
            }
        }
    }
    if passed {
        println!("check_fuzz: {} hostile cards within bounds", CARDS.len());
    }
    passed
}

/// The status and the time; None where the bound passes. A status of 99 tells of wrong results or scratch.
fn timed(card: Card) -> Option<(u32, Duration)> {
    let (tell, told) = mpsc::channel();
    let check = move || {
        let mut scratch = vec![0x5a5a_5a5a; 4 * BLOCKS + 1];
        let started = Instant::now();
        let (status, blocks, unused) = library::check(&card.image, &mut scratch);
        let time = started.elapsed();
        let results = if status == 0 { (card.blocks, card.free.len() as u32) } else { (0, 0) };
        let cleared = scratch[..4 * BLOCKS].iter().all(|&word| word == 0) && scratch[4 * BLOCKS] == 0x5a5a_5a5a;
        let right = (blocks, unused) == results && cleared;
        let _ = tell.send((if right { status } else { 99 }, time));
    };
    let thread = std::thread::Builder::new().stack_size(STACK).spawn(check).expect("a thread");
    let answer = told.recv_timeout(BOUND).ok()?;
    thread.join().expect("the thread has answered");
    Some(answer)
}

fn sum_time(image: &[u8]) -> Duration {
    let started = Instant::now();
    let sum = image.chunks_exact(4).fold(0u32, |sum, w| sum.wrapping_add(u32::from_le_bytes([w[0], w[1], w[2], w[3]])));
    // A look that the compiler must not leave out, or the sum would be left out too.
    unsafe { std::ptr::read_volatile(&sum) };
    started.elapsed()
}

fn made(plan: &Plan) -> Card {
    plan.card(&mut Rng::new(7), Fill::Zeros, true)
}

fn nested() -> Card {
    let mut plan = Plan::new(BLOCKS);
    let mut dir = ROOT;
    for _ in 0..16_000 {
        dir = plan.dir(dir, b"d").expect("planned to fit");
    }
    made(&plan)
}

/// One directory with so many hard links to a few files.
fn many_names(count: usize, name: fn(usize) -> Vec<u8>) -> Card {
    let mut plan = Plan::new(BLOCKS);
    let dir = plan.dir(ROOT, b"names").expect("planned to fit");
    let mut file = ROOT;
    for k in 0..count {
        if k % NAMES_A_FILE == 0 {
            file = plan.file(Kind::File, ROOT, &[b'a' + (k / NAMES_A_FILE) as u8], 5000).expect("planned to fit");
        }
        plan.link(dir, &name(k), file).expect("planned to fit");
    }
    made(&plan)
}

fn late_difference(k: usize) -> Vec<u8> {
    format!("{}{}", "x".repeat(200), k).into_bytes()
}

fn early_difference(k: usize) -> Vec<u8> {
    format!("{}{}", k, "x".repeat(200)).into_bytes()
}

/// Nine letters in the k-th of their 362,880 orders.
fn permutation(k: usize) -> Vec<u8> {
    let mut letters = b"abcdefghi".to_vec();
    let mut rest = k;
    let mut name = Vec::new();
    while !letters.is_empty() {
        name.push(letters.remove(rest % letters.len()));
        rest /= letters.len() + 1;
    }
    name
}

/// One length, two letters, a place: what differs is a few bits at one of many places.
fn two_letters(k: usize) -> Vec<u8> {
    let mut name = vec![b'm'; 240];
    name[k % 240] = 1 + (k / 240 % 108) as u8;
    name[(k + 7) % 240] = b'n' + (k / 240 / 108) as u8;
    name
}

/// `count` things beside one with the wanted body, whose record then serves all: nobody may read it so often.
fn shared(plan: &Plan, big: usize) -> Card {
    let mut card = made(plan);
    let from = card.inodes[big].field(0);
    let (head, slots) = (card.image[from..from + 12].to_vec(), card.image[from + 12..from + 68].to_vec());
    for n in card.inodes.iter().filter(|n| n.kind == card.inodes[big].kind && n.number != 1) {
        let at = n.field(0);
        card.image[at..at + 4].copy_from_slice(&head[..4]);
        card.image[at + 8..at + 12].copy_from_slice(&head[8..]);
        card.image[at + 12..at + 68].copy_from_slice(&slots);
    }
    card
}

fn shared_directory() -> Card {
    let mut plan = Plan::new(BLOCKS);
    for k in 0..8_000 {
        plan.dir(ROOT, format!("d{}", k).as_bytes()).expect("planned to fit");
    }
    let file = plan.file(Kind::File, ROOT, b"file", 0).expect("planned to fit");
    let other = plan.file(Kind::File, ROOT, b"other", 0).expect("planned to fit");
    let third = plan.file(Kind::File, ROOT, b"third", 0).expect("planned to fit");
    let big = plan.dir(ROOT, b"big").expect("planned to fit");
    for k in 0..157_000 {
        let to = [file, other, third][k % 3];
        plan.link(big, format!("n{}", k).as_bytes(), to).expect("planned to fit");
    }
    shared(&plan, big)
}

fn shared_file() -> Card {
    let mut plan = Plan::new(BLOCKS);
    let dir = plan.dir(ROOT, b"files").expect("planned to fit");
    for k in 0..8_000 {
        plan.file(Kind::File, dir, format!("f{}", k).as_bytes(), 0).expect("planned to fit");
    }
    let big = plan.file(Kind::File, ROOT, b"big", 20_000 * BLOCK).expect("planned to fit");
    shared(&plan, big)
}

/// The pointer blocks hold each other's numbers, so that no number is out of range.
fn claiming() -> Card {
    let mut plan = Plan::new(BLOCKS);
    let dir = plan.dir(ROOT, b"files").expect("planned to fit");
    for k in 0..10_000 {
        plan.file(Kind::File, dir, format!("f{}", k).as_bytes(), 0).expect("planned to fit");
    }
    let big = plan.file(Kind::File, ROOT, b"big", 4 * BLOCK).expect("planned to fit");
    let mut card = made(&plan);
    let pointers = card.inodes[big].data.clone();
    for &block in &pointers {
        for slot in 0..1024 {
            put32(&mut card.image, block as usize * BLOCK + 4 * slot, pointers[slot % 4]);
        }
    }
    for n in card.inodes.iter().filter(|n| n.kind == Kind::File) {
        put32(&mut card.image, n.field(0), u32::MAX);
        put16(&mut card.image, n.field(6), 1);
        put32(&mut card.image, n.field(8), 1_048_576);
        put32(&mut card.image, n.field(60), pointers[0]);
        put32(&mut card.image, n.field(64), pointers[1]);
    }
    card
}
