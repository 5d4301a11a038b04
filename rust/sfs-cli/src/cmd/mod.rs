//! The commands.

mod card;
mod copy;
mod edit;
mod get;
mod list;
mod map;
mod put;

use crate::args::{Args, Flag};
use crate::failure::Failure;
use crate::help;
use std::io::Write;

pub struct Command {
    pub name: &'static str,
    pub help: &'static str,
    pub flags: &'static [Flag],
    /// The fewest and the most words that it takes.
    pub words: (usize, usize),
    pub run: fn(&Args, &mut dyn Write) -> Result<(), Failure>,
}

const MANY: usize = usize::MAX;
const FORCE: Flag = ('f', "force");
const RECURSIVE: Flag = ('r', "recursive");

#[rustfmt::skip]
const COMMANDS: [Command; 16] = [
    Command { name: "format", help: help::FORMAT, flags: &[FORCE], words: (1, 2), run: card::format },
    Command { name: "check", help: help::CHECK, flags: &[], words: (1, 1), run: card::check },
    Command { name: "info", help: help::INFO, flags: &[], words: (1, 2), run: card::info },
    Command { name: "df", help: help::DF, flags: &[], words: (1, MANY), run: card::df },
    Command { name: "ls", help: help::LS, flags: &[('l', "long"), ('a', "all")], words: (1, MANY), run: list::ls },
    Command { name: "tree", help: help::TREE, flags: &[], words: (1, 2), run: list::tree },
    Command { name: "map", help: help::MAP, flags: &[], words: (1, 2), run: map::map },
    Command { name: "cat", help: help::CAT, flags: &[], words: (2, MANY), run: get::cat },
    Command { name: "get", help: help::GET, flags: &[RECURSIVE, FORCE], words: (3, MANY), run: get::get },
    Command { name: "put", help: help::PUT, flags: &[RECURSIVE, FORCE], words: (3, MANY), run: put::put },
    Command { name: "copy", help: help::COPY, flags: &[FORCE, ('q', "quiet")], words: (2, 2), run: copy::copy },
    Command { name: "mkdir", help: help::MKDIR, flags: &[('p', "parents")], words: (2, MANY), run: edit::mkdir },
    Command { name: "ln", help: help::LN, flags: &[('s', "symbolic")], words: (3, 3), run: edit::ln },
    Command { name: "rm", help: help::RM, flags: &[RECURSIVE], words: (2, MANY), run: edit::rm },
    Command { name: "mv", help: help::MV, flags: &[], words: (3, MANY), run: edit::mv },
    Command { name: "resize", help: help::RESIZE, flags: &[], words: (3, 3), run: edit::resize },
];

pub fn by_name(name: &str) -> Option<&'static Command> {
    COMMANDS.iter().find(|command| command.name == name)
}
