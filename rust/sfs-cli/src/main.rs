//! The command `sfs`: card files in the SFS layout, by the proved library. docs/CLI.md shows a day with it.

#![warn(clippy::pedantic)]

mod args;
mod cardfile;
mod cmd;
mod failure;
mod help;
mod host;
mod layout;
mod lookup;
mod path;
mod plan;
mod progress;
mod sys;
mod text;
mod walk;

use args::Args;
use failure::Failure;
use std::ffi::OsString;
use std::io::{self, BufWriter, Write};
use std::process::ExitCode;

fn main() -> ExitCode {
    let words: Vec<OsString> = std::env::args_os().skip(1).collect();
    let mut out = BufWriter::new(io::stdout());
    let done = run(words, &mut out);
    let flushed = out.flush().map_err(Failure::output);
    match done.and(flushed) {
        Ok(()) => ExitCode::SUCCESS,
        Err(failure) => {
            failure.print();
            ExitCode::from(failure.status())
        }
    }
}

fn run(words: Vec<OsString>, out: &mut dyn Write) -> Result<(), Failure> {
    let mut words = words.into_iter();
    let first = words.next().unwrap_or_default();
    let rest: Vec<OsString> = words.collect();
    match first.to_str() {
        Some("--help" | "-h" | "help") => help_for(&rest, out),
        Some("--version" | "-V") => writeln!(out, "sfs {}", env!("CARGO_PKG_VERSION")).map_err(Failure::output),
        Some("") | None => {
            eprintln!("{}", help::OVERVIEW);
            Err(Failure::told())
        }
        Some(name) => run_command(command_named(name)?, rest, out),
    }
}

fn command_named(name: &str) -> Result<&'static cmd::Command, Failure> {
    cmd::by_name(name).ok_or_else(|| Failure::usage(name, "there is no such command; `sfs --help` lists them"))
}

fn help_for(words: &[OsString], out: &mut dyn Write) -> Result<(), Failure> {
    let text = match words.first().and_then(|word| word.to_str()) {
        None => help::OVERVIEW,
        Some(name) => command_named(name)?.help,
    };
    writeln!(out, "{text}").map_err(Failure::output)
}

fn run_command(command: &cmd::Command, words: Vec<OsString>, out: &mut dyn Write) -> Result<(), Failure> {
    let usage = |why: &str| {
        let failure = Failure::usage(
            command.name,
            &format!("{why}; `sfs {} --help` tells more", command.name),
        );
        failure.advise(command.help.lines().next().unwrap_or(""))
    };
    let args = Args::parse(command.flags, words).map_err(|why| usage(&why))?;
    if args.has("help") {
        return writeln!(out, "{}", command.help).map_err(Failure::output);
    }
    let (least, most) = command.words;
    if args.words.len() < least {
        return Err(usage("something is missing after the command"));
    }
    if args.words.len() > most {
        return Err(usage("there is more after the command than it takes"));
    }
    (command.run)(&args, out).map_err(|failure| failure.of_command(command.name))
}
