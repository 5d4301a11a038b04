//! cache_test: the block cache of libsfs.a beside its rules and beside a plain device, compared after every call.
//!
//!     cache_test [--seed S] [--runs N] [--seconds T] [--only limits|runs] [--run R]
//!
//! The limits are fixed. Then runs from slots that start made, and after each of them calls on any slots, until N are done or T
//! seconds have gone. --run does one again. A difference is printed with its case and ends the program with 1.

mod any;
mod lent;
#[path = "../files/library.rs"]
mod library;
mod model;
mod runs;
mod trial;

use kit::options::Options;
use kit::room;
use std::sync::atomic::Ordering;
use trial::Trial;

/// Calls on any slots after each run.
const CALLS: u64 = 100;

fn main() {
    let options = Options::read("run", 20).unwrap_or_else(|error| {
        eprintln!("cache_test: {}", error);
        std::process::exit(2);
    });
    room::name_case_of_touch();
    let mut trial = Trial::new(options.seed);
    match run(&options, &mut trial) {
        Ok(told) => {
            for ((call, status, did), times) in &trial.tally {
                println!("{:>6} {:>2}: {:>8} times {}", call, status, times, did);
            }
            println!("cache_test: {} calls agree: {}", trial.tally.values().sum::<u64>(), told);
        }
        Err(difference) => {
            println!("cache_test: seed {} case {}: {}", options.seed, room::CASE.load(Ordering::Relaxed), difference);
            std::process::exit(1);
        }
    }
}

fn run(options: &Options, trial: &mut Trial) -> Result<String, String> {
    let mut told = Vec::new();
    if options.wants("limits") {
        told.push(format!("{} at the limits", any::limits(trial)?));
    }
    let runs = options.run_each(|case| {
        runs::run(trial, case)?;
        (case * CALLS..(case + 1) * CALLS).try_for_each(|call| any::run(trial, call))
    })?;
    told.push(format!("{} runs, and {} calls on any slots", runs, runs * CALLS));
    Ok(told.join(", "))
}
