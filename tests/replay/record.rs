//! record FILE: writes a recording of calls on cards, and of what the unchanged Rust answered to each, for the program `replay`.

#[path = "../dirs/calls.rs"]
mod calls;
mod days;
#[path = "../dirs/decide.rs"]
mod decide;
#[allow(dead_code)]
#[path = "../files/expect.rs"]
mod expect;
mod frame;
#[path = "../files/gap.rs"]
mod gap;
mod judge;
#[allow(dead_code)]
#[path = "../files/look.rs"]
mod look;
mod made;
#[path = "../dirs/mend.rs"]
mod mend;
#[path = "../dirs/tree.rs"]
mod tree;

use frame::Recording;
use judge::Judge;

const CARDS: u64 = 24;

fn main() {
    let file = std::env::args().nth(1).unwrap_or_else(|| {
        eprintln!("usage: record FILE");
        std::process::exit(2);
    });
    let mut judge = Judge::new();
    let mut recording = Recording::default();
    for card in 0..CARDS {
        if let Err(error) = days::run(&mut judge, &mut recording, card) {
            println!("record: card {}, call {}: {}", card, recording.calls, error);
            std::process::exit(1);
        }
    }
    std::fs::write(&file, &recording.bytes).unwrap_or_else(|error| {
        println!("record: {}: {}", file, error);
        std::process::exit(1);
    });
    for (number, [rust, alone]) in &judge.tally {
        println!("{:>2}: {:>5} by the Rust, {:>4} by RULES", number, rust, alone);
    }
    let alone: usize = judge.tally.values().map(|by| by[1]).sum();
    println!(
        "record: {} cards, {} calls, {} of them by the Rust ({} but for a gap)",
        recording.cards,
        recording.calls,
        recording.calls - alone,
        judge.gaps
    );
}
