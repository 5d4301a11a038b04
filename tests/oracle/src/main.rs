//! Reads a script from standard input, one call a line, puts each call to the Rust and prints its answer.
//!
//! An answer is RULES' number and the call's results, `error NAME` for an error RULES does not number, or
//! `panic: TEXT`. README.md lists the commands. Ends with 1 if an `expect` or `differs` failed, 2 if the
//! script makes no sense.

mod answers;
mod words;

use oracle::{image, Call};
use std::collections::{BTreeMap, BTreeSet};
use std::io::{self, BufRead, Write};
use std::process;
use words::{bytes, hex, number, number32, Parsed};

const PROFILE: &str = if cfg!(debug_assertions) {
    "debug"
} else {
    "release"
};

/// The image, and every block that was an inode's since the image was made.
#[derive(Clone, Default)]
struct Card {
    image: Vec<u8>,
    inodes: BTreeSet<u32>,
}

#[derive(Default)]
struct Driver {
    card: Card,
    saved: BTreeMap<String, Card>,
    answer: String,
    failed: usize,
}

fn main() {
    let mut driver = Driver::default();
    for (i, line) in io::stdin().lock().lines().enumerate() {
        let result = match line {
            Ok(line) => driver.line(&line),
            Err(error) => Err(error.to_string()),
        };
        if let Err(error) = result {
            println!("line {}: {}", i + 1, error);
            process::exit(2);
        }
    }
    if driver.failed > 0 {
        println!("{} failed", driver.failed);
        process::exit(1);
    }
}

impl Driver {
    fn line(&mut self, line: &str) -> Parsed<()> {
        let words = words::words(line)?;
        let words: Vec<&str> = words.iter().map(String::as_str).collect();
        match words.split_first() {
            None => {}
            Some((&"expect", rest)) => self.judge(rest, true)?,
            Some((&"differs", rest)) => self.judge(rest, false)?,
            _ => {
                println!("> {}", words.join(" "));
                // A call that ends the process must still be seen.
                io::stdout().flush().map_err(|error| error.to_string())?;
                self.answer = self.command(&words, 1)?;
                if !self.answer.is_empty() {
                    println!("{}", self.answer);
                }
            }
        }
        Ok(())
    }

    /// RULES' answer: the last answer begins with these words, or, for `differs`, does not.
    fn judge(&mut self, words: &[&str], agrees: bool) -> Parsed<()> {
        let (profile, wanted) = match words.split_first() {
            Some((&first, rest)) if first == "debug" || first == "release" => (first, rest),
            _ => (PROFILE, words),
        };
        if wanted.is_empty() || self.answer.is_empty() {
            return Err("nothing to compare".to_string());
        }
        if profile != PROFILE {
            return Ok(());
        }
        let wanted = wanted.join(" ");
        let begins = format!("{} ", self.answer).starts_with(&format!("{} ", wanted));
        if begins != agrees {
            self.failed += 1;
            println!("  FAILED: RULES says {}", wanted);
        } else if agrees {
            println!("  RULES says {}, so does the Rust", wanted);
        } else if self.answer.starts_with("not put") {
            println!("  RULES says {}, the Rust is not asked", wanted);
        } else {
            println!("  RULES says {}, the Rust does not", wanted);
        }
        Ok(())
    }

    fn command(&mut self, words: &[&str], turn: u64) -> Parsed<String> {
        match words {
            ["blocks", n] => {
                let len = number(n)? as usize * image::BLOCK;
                self.card = Card::default();
                self.card.image = vec![0; len];
                Ok(String::new())
            }
            ["length", n] => {
                self.card.image.resize(number(n)? as usize, 0);
                Ok(String::new())
            }
            ["fill", byte] => {
                let byte = number(byte)? as u8;
                self.card.image.iter_mut().for_each(|b| *b = byte);
                Ok(String::new())
            }
            ["poke", offset, data] => {
                let data = bytes(data, turn)?;
                let at = number(offset)? as usize;
                let place = self.card.image.get_mut(at..at.saturating_add(data.len()));
                place.ok_or("past the image")?.copy_from_slice(&data);
                Ok(String::new())
            }
            ["bytes", offset, len] => {
                let at = number(offset)? as usize;
                let end = at.saturating_add(number(len)? as usize);
                Ok(hex(self.card.image.get(at..end).ok_or("past the image")?))
            }
            ["word", offset] => {
                let word = image::word(&self.card.image, number(offset)? as usize);
                Ok(word.ok_or("past the image")?.to_string())
            }
            ["state"] => Ok(self.state()),
            ["save", name] => {
                self.saved.insert(name.to_string(), self.card.clone());
                Ok(String::new())
            }
            ["restore", name] => {
                self.card = self.saved.get(*name).ok_or("nothing saved so")?.clone();
                Ok(String::new())
            }
            ["changed", name] => {
                let saved = self.saved.get(*name).ok_or("nothing saved so")?;
                let inodes = saved.inodes.union(&self.card.inodes).copied();
                let same = image::same_but_padding(&saved.image, &self.card.image, inodes);
                Ok(same.map_or_else(|at| format!("yes, first at {}", at), |()| "no".to_string()))
            }
            ["repeat", times, rest @ ..] => {
                let mut last = String::new();
                for turn in 1..=number(times)? {
                    last = self.command(rest, turn)?;
                }
                Ok(last)
            }
            ["unlink_while_open", dir, name, held] => {
                let (dir, held) = (number32(dir)?, number32(held)?);
                let name = bytes(name, turn)?;
                let outcome = oracle::unlink_while_open(&mut self.card.image, dir, &name, held);
                Ok(self.done(&outcome))
            }
            ["names", inode, count] => {
                let (inode, count) = (number32(inode)?, number(count)? as usize);
                let outcome = oracle::add_names(&mut self.card.image, inode, count);
                Ok(self.done(&outcome))
            }
            ["unguarded", rest @ ..] => {
                let call = call(rest, turn)?;
                let outcome = oracle::run_unguarded(&mut self.card.image, &call);
                Ok(self.done(&outcome))
            }
            _ => {
                let call = call(words, turn)?;
                let outcome = oracle::run(&mut self.card.image, &call);
                Ok(self.done(&outcome))
            }
        }
    }

    fn done(&mut self, outcome: &oracle::Outcome) -> String {
        self.card.inodes.extend(image::inodes(&self.card.image));
        answers::print(outcome)
    }

    /// The superblock's counts, and a checksum of the image without the undefined padding.
    fn state(&self) -> String {
        let image = &self.card.image;
        let field = |at| image::word(image, at).map_or("none".to_string(), |n| n.to_string());
        let sum = image::checksum(image, &self.card.inodes);
        format!("blocks {} unused {} fnv {:016x}", field(4), field(8), sum)
    }
}

fn call(words: &[&str], turn: u64) -> Parsed<Call> {
    Ok(match words {
        ["format", space] => Call::Format {
            space: number(space)?,
        },
        ["counts"] => Call::Counts,
        ["metadata", inode] => Call::Metadata {
            inode: number32(inode)?,
        },
        ["read", inode, offset, len] => Call::Read {
            inode: number32(inode)?,
            offset: number(offset)?,
            len: number(len)? as usize,
        },
        ["write", inode, offset, data] => Call::Write {
            inode: number32(inode)?,
            offset: number(offset)?,
            data: bytes(data, turn)?,
        },
        ["resize", inode, len] => Call::Resize {
            inode: number32(inode)?,
            len: number(len)?,
        },
        ["create", dir, name, kind] => Call::Create {
            dir: number32(dir)?,
            name: bytes(name, turn)?,
            kind: number32(kind)?,
        },
        ["link", dir, name, inode] => Call::Link {
            dir: number32(dir)?,
            name: bytes(name, turn)?,
            inode: number32(inode)?,
        },
        ["unlink", dir, name] => Call::Unlink {
            dir: number32(dir)?,
            name: bytes(name, turn)?,
        },
        ["move", dir, old, target, new] => Call::Move {
            dir: number32(dir)?,
            old: bytes(old, turn)?,
            target: number32(target)?,
            new: bytes(new, turn)?,
        },
        ["find", dir, name] => Call::Find {
            dir: number32(dir)?,
            name: bytes(name, turn)?,
        },
        ["entry", dir, index] => Call::Entry {
            dir: number32(dir)?,
            index: number(index)?,
        },
        _ => return Err(format!("no such command: {}", words.join(" "))),
    })
}
