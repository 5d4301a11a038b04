//! check_fuzz: the library's check beside RULES, "When a card is whole", on whole cards that were changed.
//!
//!     check_fuzz [--seed S] [--cases N] [--seconds T] [--case C] [--save DIR]
//!     check_fuzz --time-linear
//!
//! Stops at N cases or after T seconds. A difference is printed with its case, the image is saved, and the
//! program ends with 1; --case runs that case alone.

mod lent;
mod library;
mod linear;
mod mutate;
mod mutate_blocks;
mod mutate_entries;

use kit::rng::Rng;
use kit::rules::Answer;
use kit::{cards, plan, room, rules};
use lent::{Rooms, Said};
use std::collections::BTreeMap;
use std::time::{Duration, Instant};

/// Cases on one base card: making a card costs more than checking it.
const PER_CARD: u64 = 48;
/// Blocks of the largest base card.
const MOST: usize = 3000;

struct Options {
    seed: u64,
    cases: u64,
    seconds: u64,
    only: Option<u64>,
    save: String,
    linear: bool,
}

fn options() -> Result<Options, String> {
    let mut options = Options { seed: 1, cases: u64::MAX, seconds: 60, only: None, save: "target".into(), linear: false };
    let mut words = std::env::args().skip(1);
    while let Some(word) = words.next() {
        let mut value = || words.next().ok_or(format!("{} lacks its value", word));
        let number = |text: String| text.parse::<u64>().map_err(|_| format!("{} is no number", text));
        match word.as_str() {
            "--seed" => options.seed = number(value()?)?,
            "--cases" => options.cases = number(value()?)?,
            "--seconds" => options.seconds = number(value()?)?,
            "--case" => options.only = Some(number(value()?)?),
            "--save" => options.save = value()?,
            "--time-linear" => options.linear = true,
            _ => return Err(format!("{} is no option", word)),
        }
    }
    Ok(options)
}

fn main() {
    let options = options().unwrap_or_else(|error| {
        eprintln!("check_fuzz: {}", error);
        std::process::exit(2);
    });
    let passed = if options.linear { linear::run() } else { fuzz(&options) };
    std::process::exit(if passed { 0 } else { 1 });
}

/// How often each answer was given, by status and the first rule found broken.
type Table = BTreeMap<(u32, &'static str), u64>;

fn fuzz(options: &Options) -> bool {
    room::name_case_of_touch();
    let started = Instant::now();
    let mut rooms = Rooms::new((MOST + 4) * plan::BLOCK, 4 * 32768 + 256);
    let mut base = None;
    let mut table = Table::new();
    let mut done = 0;
    let cases = match options.only {
        Some(case) => case..case + 1,
        None => 0..options.cases,
    };
    for case in cases {
        if done > 0 && started.elapsed() >= Duration::from_secs(options.seconds) {
            break;
        }
        let group = case / PER_CARD;
        if base.as_ref().map(|(of, _)| *of) != Some(group) {
            let seed = Rng::of(options.seed, group).next();
            base = Some((group, cards::from_seed(seed, MOST, false)));
        }
        let card = &base.as_ref().expect("made above").1;
        room::CASE.store(case, std::sync::atomic::Ordering::Relaxed);
        match one_case(card, options.seed, case, &mut rooms) {
            Ok(answer) => *table.entry((answer.status, answer.why)).or_default() += 1,
            Err(difference) => {
                let path = format!("{}/check_fuzz-{}-{}.image", options.save, options.seed, case);
                println!("check_fuzz: seed {} case {}: {}", options.seed, case, difference.text);
                match std::fs::write(&path, &difference.image) {
                    Ok(()) => println!("check_fuzz: the image is {}", path),
                    Err(error) => println!("check_fuzz: the image could not be saved to {}: {}", path, error),
                }
                return false;
            }
        }
        done += 1;
    }
    print_table(&table);
    println!("check_fuzz: {} cases agree", done);
    true
}

struct Difference {
    text: String,
    image: Vec<u8>,
}

fn one_case(card: &plan::Card, seed: u64, case: u64, rooms: &mut Rooms) -> Result<Answer, Difference> {
    let mut rng = Rng::of(!seed, case);
    let mut hand = mutate::Hand { card, image: card.image.clone(), rng: &mut rng };
    // The first case of a card is the card itself: that it is whole is known from its making.
    let untouched = case % PER_CARD == 0;
    let change = if untouched { "none".to_string() } else { mutate::change(&mut hand) };
    let image = hand.image;
    let scratch = some_scratch(&image, untouched, &mut rng);
    let pattern = rng.next() as u32 | 1;
    let said = rooms.check(&image, &scratch, pattern, rng.percent(50));
    let answer = rules::check(&image, scratch.len());
    let mut found = difference(&said, &answer, &rules::scratch_after(&scratch, &answer));
    if untouched && (answer.status, answer.blocks, answer.unused) != (0, card.blocks, card.free.len() as u32) {
        found = Some("the rules find the card not whole that was made so".to_string());
    }
    match found {
        None => Ok(answer),
        Some(text) => {
            let text = format!(
                "{}\n  change: {}; {} bytes of image, {} words of scratch\n  library: status {} blocks {} free {}\n  \
                 rules:   status {} blocks {} free {} ({})",
                text,
                change,
                image.len(),
                scratch.len(),
                said.status,
                said.blocks,
                said.unused,
                answer.status,
                answer.blocks,
                answer.unused,
                answer.why
            );
            Err(Difference { text, image })
        }
    }
}

/// Random words: as many as the block count on the card asks for, one fewer, some more, or none.
fn some_scratch(image: &[u8], enough: bool, rng: &mut Rng) -> Vec<u32> {
    let blocks = image.get(4..8).map_or(16, |b| u32::from_le_bytes([b[0], b[1], b[2], b[3]]));
    let exact = 4 * (blocks as usize).clamp(1, 32768);
    let len = match rng.below(100) {
        0..=7 if !enough => exact - 1,
        8..=9 if !enough => rng.below(exact),
        10 if !enough => 0,
        11..=40 => exact + rng.from_to(1, 200),
        _ => exact,
    };
    (0..len).map(|_| rng.next() as u32).collect()
}

fn difference(said: &Said, answer: &Answer, scratch: &[u32]) -> Option<String> {
    if let Some(wrong) = said.wrong {
        return Some(format!("the library {}", wrong));
    }
    if (said.status, said.blocks, said.unused) != (answer.status, answer.blocks, answer.unused) {
        return Some("the answers differ".to_string());
    }
    let at = said.scratch.iter().zip(scratch).position(|(now, expected)| now != expected)?;
    Some(format!("scratch word {} is {:#x} and should be {:#x}", at, said.scratch[at], scratch[at]))
}

fn print_table(table: &Table) {
    let all: u64 = table.values().sum();
    for status in 0..4 {
        let of_status: Vec<_> = table.iter().filter(|((s, _), _)| *s == status).collect();
        let count: u64 = of_status.iter().map(|(_, count)| **count).sum();
        println!("status {}: {:>8} cases, {:>2} of 100", status, count, 100 * count / all.max(1));
        for ((_, why), count) in of_status {
            if !why.is_empty() {
                println!("    {:>8}  rule {}", count, why);
            }
        }
    }
}
