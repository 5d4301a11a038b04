//! files_test: read, write and resize of libsfs.a beside the unchanged Rust, compared after every call.
//!
//!     files_test [--seed S] [--days N] [--seconds T] [--long] [--day D]
//!         [--only edges|bytes|growth|refusals|maps|days]
//!
//! The edges, bytes, growths, refusals and maps are fixed; --long takes all pairs of lengths at the edges. Then days of random calls are
//! run until N are done or T seconds have gone. --day runs one day again. A difference is printed with its case and
//! ends the program with 1.

mod bytes;
mod days;
mod edges;
mod expect;
mod gap;
mod growth;
mod lent;
mod library;
mod look;
mod maps;
mod model;
mod pair;
mod refusals;
mod starts;

use kit::options::Options;
use kit::room;
use pair::Pair;
use std::sync::atomic::Ordering;

fn main() {
    let options = Options::read("day", 40).unwrap_or_else(|error| {
        eprintln!("files_test: {}", error);
        std::process::exit(2);
    });
    room::name_case_of_touch();
    let mut pair = Pair::new(options.seed);
    match run(&options, &mut pair) {
        Ok(told) => {
            for ((call, status), times) in &pair.tally {
                println!("{:>6} {:>2}: {:>8} times", call, status, times);
            }
            let calls: u64 = pair.tally.values().sum();
            println!("files_test: {} calls agree ({} but for a gap): {}", calls, pair.gaps, told);
        }
        Err(difference) => {
            println!("files_test: seed {} case {}: {}", options.seed, room::CASE.load(Ordering::Relaxed), difference);
            std::process::exit(1);
        }
    }
}

fn run(options: &Options, pair: &mut Pair) -> Result<String, String> {
    let mut told = Vec::new();
    if options.wants("bytes") {
        told.push(format!("{} cases of bytes", bytes::run(pair, options.seed)?));
    }
    if options.wants("growth") {
        told.push(format!("{} growths", growth::run(pair, options.seed)?));
    }
    if options.wants("refusals") {
        told.push(format!("{} refusals", refusals::run(pair, options.seed)?));
    }
    if options.wants("maps") {
        told.push(format!("{} maps", maps::run(pair, options.seed)?));
    }
    if options.wants("edges") {
        let edges = edges::edges(options.long);
        for (case, &edge) in edges.iter().enumerate() {
            room::CASE.store(case as u64, Ordering::Relaxed);
            edges::run(pair, edge, options.seed).map_err(|error| format!("{:?}: {}", edge, error))?;
        }
        told.push(format!("{} edges", edges.len()));
    }
    let mut returned = 0;
    let days = options.run_each(|day| {
        returned += u64::from(days::returns(day));
        days::run(pair, day, options.seed)
    })?;
    told.push(format!("{} days, {} of which return", days, returned));
    Ok(told.join(", "))
}
