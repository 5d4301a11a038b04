//! What went wrong: on which file, why, and what to do.

use crate::text::clean;
use sfs::Error;
use std::fmt::Display;
use std::io;

/// Exit statuses besides the refusals' numbers, as in sysexits.h.
const USAGE: u8 = 64;
const HOST: u8 = 74;

enum Cause {
    /// The library's refusal, and why, where that is known better than by its number.
    Refused(Error, Option<String>),
    /// The machine's own files.
    Host(String),
    Usage(String),
    /// There is nothing to tell: the exit status alone.
    Silent(u8),
}

pub struct Failure {
    command: &'static str,
    subject: String,
    cause: Cause,
    advice: String,
}

impl Failure {
    fn new(subject: impl Display, cause: Cause, advice: &str) -> Failure {
        Failure {
            command: "",
            subject: clean(subject.to_string().as_bytes()),
            cause,
            advice: advice.to_string(),
        }
    }

    /// The library's refusal, with what helps most often.
    pub fn refused(subject: impl Display, error: Error) -> Failure {
        Failure::new(subject, Cause::Refused(error, None), advice(error))
    }

    /// The library's refusal with the one cause that it has here, in the place of its sentence for all of them.
    pub fn refused_as(subject: impl Display, error: Error, why: impl Display, advice: impl Display) -> Failure {
        let why = clean(why.to_string().as_bytes());
        Failure::new(subject, Cause::Refused(error, Some(why)), "").advise(advice)
    }

    pub fn host(subject: impl Display, error: &io::Error) -> Failure {
        let advice = match error.kind() {
            io::ErrorKind::NotFound => "Give a path that is there.",
            io::ErrorKind::PermissionDenied => "Ask for the right to use it, or work on a copy.",
            io::ErrorKind::AlreadyExists => "Choose another name, or give -f to replace it.",
            _ => "",
        };
        Failure::new(subject, Cause::Host(error.to_string()), advice)
    }

    pub fn host_text(subject: impl Display, why: &str, advice: &str) -> Failure {
        Failure::new(subject, Cause::Host(why.to_string()), advice)
    }

    pub fn usage(subject: impl Display, why: &str) -> Failure {
        Failure::new(subject, Cause::Usage(why.to_string()), "")
    }

    /// Wrong usage of which the user was told already.
    pub fn told() -> Failure {
        Failure::new("", Cause::Silent(USAGE), "")
    }

    /// Whoever closed the pipe that we write to has enough.
    #[allow(clippy::needless_pass_by_value)] // As `map_err` gives it.
    pub fn output(error: io::Error) -> Failure {
        match error.kind() {
            io::ErrorKind::BrokenPipe => Failure::new("", Cause::Silent(0), ""),
            _ => Failure::host("standard output", &error),
        }
    }

    pub fn of_command(mut self, name: &'static str) -> Failure {
        self.command = name;
        self
    }

    pub fn advise(mut self, advice: impl Display) -> Failure {
        self.advice = clean(advice.to_string().as_bytes());
        self
    }

    /// Other advice, if that is the refusal.
    pub fn advise_for(self, error: Error, advice: impl Display) -> Failure {
        match self.cause {
            Cause::Refused(refusal, _) if refusal == error => self.advise(advice),
            _ => self,
        }
    }

    /// Adds a sentence to what is advised.
    pub fn note(mut self, sentence: impl Display) -> Failure {
        if !self.advice.is_empty() {
            self.advice.push(' ');
        }
        self.advice.push_str(&sentence.to_string());
        self
    }

    pub fn status(&self) -> u8 {
        match self.cause {
            Cause::Refused(error, _) => u8::try_from(error.number()).unwrap_or(u8::MAX),
            Cause::Host(_) => HOST,
            Cause::Usage(_) => USAGE,
            Cause::Silent(status) => status,
        }
    }

    pub fn print(&self) {
        let why = match &self.cause {
            Cause::Refused(error, why) => {
                let why = why.clone().unwrap_or_else(|| error.to_string());
                format!("{why} ({} {})", error.number(), error.name())
            }
            Cause::Host(why) | Cause::Usage(why) => why.clone(),
            Cause::Silent(_) => return,
        };
        let command = if self.command.is_empty() {
            String::new()
        } else {
            format!("{}: ", self.command)
        };
        let advice = if self.advice.is_empty() {
            String::new()
        } else {
            format!("\n  {}", self.advice)
        };
        eprintln!("sfs: {command}{}: {why}.{advice}", self.subject);
    }
}

fn advice(error: Error) -> &'static str {
    match error {
        Error::ScratchShort | Error::NoInode => "This is a fault of the command sfs: please report it.",
        Error::WrongFs => "Give the file of a card. `sfs format` makes a new card, and loses what the file holds.",
        Error::Damaged => "Nothing was changed. Keep a copy of the file as it is, and go back to one that is whole.",
        Error::NotFile => "Give a file. `sfs get -r` copies a directory, `sfs ls` lists one.",
        Error::NotDir => "Give a directory; symbolic links are not followed.",
        Error::IsDir => "Give the directory by its name.",
        Error::BadName => "Choose a shorter name.",
        Error::EntryExist => "Choose another name, or remove what has it by `sfs rm`.",
        Error::EntryNotFound => "`sfs ls` shows what is there.",
        Error::DirNotEmpty => "`sfs rm -r` removes it with all that is in it.",
        Error::InvalidParam => "A card has 65,536 to 134,217,728 bytes, a file at most 4,294,967,295.",
        Error::TooManyLinks => "Make a copy instead of a link.",
        Error::NoDeviceSpace => "`sfs df` shows the room. Remove something by `sfs rm`, or use a larger card.",
        _ => "",
    }
}
