//! The words that files_test, dirs_test and calls_test take, and the loop over their days or cards.

use crate::room::CASE;
use std::sync::atomic::Ordering;
use std::time::{Duration, Instant};

pub struct Options {
    /// What the loop counts, as in --days and --day.
    unit: &'static str,
    pub seed: u64,
    pub most: u64,
    pub seconds: u64,
    pub long: bool,
    pub only: Option<String>,
    pub one: Option<u64>,
}

impl Options {
    /// From the program's own words. Err tells of one that is none.
    pub fn read(unit: &'static str, seconds: u64) -> Result<Options, String> {
        let mut options = Options { unit, seed: 1, most: u64::MAX, seconds, long: false, only: None, one: None };
        let (several, one) = (format!("--{}s", unit), format!("--{}", unit));
        let mut words = std::env::args().skip(1);
        while let Some(word) = words.next() {
            let mut value = || words.next().ok_or(format!("{} lacks its value", word));
            let number = |text: String| text.parse::<u64>().map_err(|_| format!("{} is no number", text));
            match word.as_str() {
                "--seed" => options.seed = number(value()?)?,
                "--seconds" => options.seconds = number(value()?)?,
                "--long" => options.long = true,
                "--only" => options.only = Some(value()?),
                given if given == several => options.most = number(value()?)?,
                given if given == one => options.one = Some(number(value()?)?),
                _ => return Err(format!("{} is no option", word)),
            }
        }
        Ok(options)
    }

    pub fn wants(&self, part: &str) -> bool {
        self.one.is_none() && self.only.as_ref().map_or(true, |only| only == part)
    }

    /// Runs the days or cards that are asked for, until the time is up; how many there were.
    pub fn run_each(&self, mut run: impl FnMut(u64) -> Result<(), String>) -> Result<u64, String> {
        let started = Instant::now();
        let cases = match self.one {
            Some(case) => case..case + 1,
            None if self.wants(&format!("{}s", self.unit)) => 0..self.most,
            None => 0..0,
        };
        let mut done = 0;
        for case in cases {
            if done > 0 && started.elapsed() >= Duration::from_secs(self.seconds) {
                break;
            }
            CASE.store(case, Ordering::Relaxed);
            run(case).map_err(|error| format!("{} {}: {}", self.unit, case, error))?;
            done += 1;
        }
        Ok(done)
    }
}
