//! A bar on standard error, if that is a terminal.

use crate::sys;
use crate::text::clean;
use std::io::{self, Write};
use std::time::{Duration, Instant};

const WIDTH: u64 = 30;
const PAUSE: Duration = Duration::from_millis(100);

pub struct Progress {
    shown: bool,
    total: u64,
    done: u64,
    next: Instant,
}

impl Progress {
    pub fn new(total: u64) -> Progress {
        Progress::shown(total, sys::is_terminal(&io::stderr()))
    }

    /// None, wherever standard error goes.
    pub fn none() -> Progress {
        Progress::shown(0, false)
    }

    fn shown(total: u64, shown: bool) -> Progress {
        Progress {
            shown,
            total,
            done: 0,
            next: Instant::now(),
        }
    }

    /// So much more is done, and this comes next.
    pub fn step(&mut self, done: u64, next: &[u8]) {
        self.done += done;
        if self.shown && Instant::now() >= self.next {
            self.next = Instant::now() + PAUSE;
            self.draw(next);
        }
    }

    fn draw(&self, next: &[u8]) {
        let total = self.total.max(1);
        let done = self.done.min(total);
        let bar: String = (0..WIDTH)
            .map(|i| if i < WIDTH * done / total { '#' } else { '.' })
            .collect();
        let name: String = clean(next).chars().take(36).collect();
        // A bar that cannot be drawn is no reason to stop.
        let _ = write!(io::stderr(), "\r[{bar}] {:3} % {name}\x1b[K", 100 * done / total);
    }
}

impl Drop for Progress {
    fn drop(&mut self) {
        if self.shown {
            let _ = write!(io::stderr(), "\r\x1b[K");
        }
    }
}
