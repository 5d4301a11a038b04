//! Measures the parts of a benchmark's cases. What the program prints depends on its word:
//!
//!     time     CASE|PART|NANOSECONDS, the least of several turns
//!     marks    CASE|PART on standard error, then three calls of getppid with nothing between the first two and the part
//!              between the last two: see insn.rs
//!     each     CASE|PART of each call of the function `measured`, in their order, for a profiler that counts by that name

use std::collections::BTreeMap;
use std::time::{Duration, Instant};

enum How {
    Time,
    Marks,
    Each,
}

pub struct Measure {
    how: How,
    /// In the order in which they were met.
    parts: Vec<String>,
    least: BTreeMap<String, Duration>,
}

impl Measure {
    pub fn from_words() -> Measure {
        let words: Vec<String> = std::env::args().skip(1).collect();
        let words: Vec<&str> = words.iter().map(String::as_str).collect();
        let how = match words[..] {
            ["time"] => How::Time,
            ["marks"] => How::Marks,
            ["each"] => How::Each,
            _ => {
                eprintln!("usage: time | marks | each");
                std::process::exit(2);
            }
        };
        Measure { how, parts: Vec::new(), least: BTreeMap::new() }
    }

    /// How often the cases are to be run.
    pub fn turns(&self) -> usize {
        match self.how {
            How::Time => 25,
            _ => 1,
        }
    }

    pub fn part(&mut self, case: &str, part: &str, work: &mut dyn FnMut()) {
        let name = format!("{}|{}", case, part);
        match self.how {
            How::Time => {
                let started = Instant::now();
                measured(work);
                let time = started.elapsed();
                let least = self.least.entry(name.clone()).or_insert(time);
                *least = time.min(*least);
            }
            How::Marks => {
                eprintln!("part {}", name);
                mark();
                measured(&mut || ());
                mark();
                measured(work);
                mark();
            }
            How::Each => measured(work),
        }
        if !self.parts.contains(&name) {
            self.parts.push(name);
        }
    }

    pub fn end(self) {
        for name in &self.parts {
            match self.how {
                How::Time => println!("{}|{}", name, self.least[name].as_nanos()),
                How::Marks => (),
                How::Each => println!("{}", name),
            }
        }
    }
}

fn mark() {
    let _ = std::os::unix::process::parent_id();
}

/// Under a name of its own, so that a profiler finds it.
#[no_mangle]
#[inline(never)]
pub fn measured(work: &mut dyn FnMut()) {
    work();
}
