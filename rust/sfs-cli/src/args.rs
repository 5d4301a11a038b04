//! The words after a command: options, and the rest.

use std::ffi::{OsStr, OsString};
use std::os::unix::ffi::OsStrExt;

/// An option: its letter and its long name.
pub type Flag = (char, &'static str);

pub struct Args {
    given: Vec<&'static str>,
    pub words: Vec<OsString>,
}

impl Args {
    /// Options may stand anywhere before a word "--". A lone "-" is a word.
    pub fn parse(flags: &[Flag], words: Vec<OsString>) -> Result<Args, String> {
        let mut args = Args {
            given: Vec::new(),
            words: Vec::new(),
        };
        let mut words = words.into_iter();
        while let Some(word) = words.next() {
            match word.as_bytes() {
                b"--" => args.words.extend(words.by_ref()),
                [b'-', b'-', long @ ..] => args.given.push(by_long(flags, long)?),
                [b'-', letters @ ..] if !letters.is_empty() => {
                    for &letter in letters {
                        args.given.push(by_letter(flags, letter)?);
                    }
                }
                _ => args.words.push(word),
            }
        }
        Ok(args)
    }

    pub fn has(&self, long: &str) -> bool {
        self.given.contains(&long)
    }

    /// A word that the command's count of words promises.
    pub fn word(&self, i: usize) -> &OsStr {
        &self.words[i]
    }
}

fn by_long(flags: &[Flag], long: &[u8]) -> Result<&'static str, String> {
    let found = flags.iter().find(|flag| flag.1.as_bytes() == long);
    match found {
        Some(flag) => Ok(flag.1),
        None if long == b"help" => Ok("help"),
        None => Err(format!("there is no option --{}", String::from_utf8_lossy(long))),
    }
}

fn by_letter(flags: &[Flag], letter: u8) -> Result<&'static str, String> {
    let found = flags.iter().find(|flag| flag.0 == char::from(letter));
    match found {
        Some(flag) => Ok(flag.1),
        None if letter == b'h' => Ok("help"),
        None => Err(format!("there is no option -{}", char::from(letter))),
    }
}
