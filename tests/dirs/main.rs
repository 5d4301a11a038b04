//! dirs_test: the directory calls and format of libsfs.a beside the unchanged Rust, compared after every call.
//!
//!     dirs_test [--seed S] [--days N] [--seconds T] [--long] [--only edges|cases|days] [--day D]
//!
//! Edges and cases are fixed; --long takes larger directories too. Then days of random calls are run until N are done or
//! T seconds have gone. --day runs one day again. A difference is printed with its case and ends the program with 1.

mod calls;
mod cases;
mod crossing;
mod days;
mod decide;
mod edges;
#[allow(dead_code)]
#[path = "../files/expect.rs"]
mod expect;
#[path = "../files/gap.rs"]
mod gap;
mod lent;
#[path = "../files/library.rs"]
mod library;
#[allow(dead_code)]
#[path = "../files/look.rs"]
mod look;
mod mend;
#[allow(dead_code)]
mod pair;
mod tree;

use kit::options::Options;
use kit::room;
use pair::Pair;
use std::sync::atomic::Ordering;

fn main() {
    let options = Options::read("day", 35).unwrap_or_else(|error| {
        eprintln!("dirs_test: {}", error);
        std::process::exit(2);
    });
    room::name_case_of_touch();
    let mut pair = Pair::new(options.seed, pair::MOST);
    match run(&options, &mut pair) {
        Ok(told) => {
            for ((call, status), times) in &pair.tally {
                println!("{:>8} {:>2}: {:>8} times", call, status, times);
            }
            let calls: u64 = pair.tally.values().sum();
            println!(
                "dirs_test: {} calls agree, {} of them with the Rust too ({} but for a gap): {}",
                calls, pair.asked, pair.gaps, told
            );
        }
        Err(difference) => {
            println!("dirs_test: seed {} case {}: {}", options.seed, room::CASE.load(Ordering::Relaxed), difference);
            std::process::exit(1);
        }
    }
}

fn run(options: &Options, pair: &mut Pair) -> Result<String, String> {
    let mut told = Vec::new();
    if options.wants("cases") {
        told.push(format!("{} cases", cases::run(pair)?));
    }
    if options.wants("edges") {
        told.push(format!("{} edges", edges::run(pair, options.seed, options.long)?));
        told.push(format!("{} crossings", crossing::run(pair, options.seed)?));
    }
    let days = options.run_each(|day| days::run(pair, day, options.seed))?;
    told.push(format!("{} days", days));
    Ok(told.join(", "))
}
