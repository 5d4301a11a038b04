//! A card, and what the unchanged Rust tells of a call on it; RULES where docs/DIFFERENCES.md has a row.

use crate::decide::{decide, Decided, Values};
use crate::mend::Mend;
use crate::tree::{Tree, ROOT};
use kit::plan::ENTRY;
use kit::rules;
use oracle::{image::word, Answer, Call, Outcome, Value, UNREAD};
use std::collections::BTreeMap;

/// What a call gives. `bytes` is a read's buffer or an entry, as it is before in a refusal.
#[derive(Clone, PartialEq, Eq, Debug, Default)]
pub struct Told {
    pub number: u32,
    pub words: [u32; 4],
    pub bytes: Option<Vec<u8>>,
}

impl Told {
    fn refused(call: &Call, number: u32) -> Told {
        let bytes = match call {
            Call::Read { len, .. } => Some(vec![UNREAD; *len]),
            Call::Entry { .. } => Some(vec![0; ENTRY]),
            _ => None,
        };
        Told { number, words: [0; 4], bytes }
    }
}

pub struct Judge {
    pub image: Vec<u8>,
    pub tree: Tree,
    /// How often each number was told, by the Rust and by RULES alone.
    pub tally: BTreeMap<u32, [usize; 2]>,
    /// How many calls grew a file within its last block, where the Rust's bytes are others.
    pub gaps: usize,
}

impl Judge {
    pub fn new() -> Judge {
        Judge { image: Vec::new(), tree: Tree::default(), tally: BTreeMap::new(), gaps: 0 }
    }

    pub fn blocks(&self) -> usize {
        word(&self.image, 4).unwrap_or(0) as usize
    }

    /// A whole card to begin from.
    pub fn start(&mut self, image: Vec<u8>) {
        self.tree = Tree::read(&image);
        self.image = image;
    }

    /// The call's answer; the card is as RULES leaves it afterwards.
    pub fn tell(&mut self, call: &Call, scratch: usize) -> Result<Told, String> {
        let decided = self.decided(call, scratch);
        let told = if decided.rust {
            self.ask_rust(call, &decided)
        } else if decided.status == 0 {
            Err("a fault of the recorder: nobody to ask".to_string())
        } else {
            Ok(Told::refused(call, decided.status))
        };
        self.tally.entry(decided.status).or_default()[usize::from(!decided.rust)] += 1;
        told.map_err(|error| format!("{:?}: {}", call, error))
    }

    /// "Every call on an image but format first tests .."; of these answers the Rust has only the magic's.
    fn decided(&self, call: &Call, scratch: usize) -> Decided {
        let said = |status, rust| Decided { status, values: Values::none(call), rust };
        if let Call::Format { space } = call {
            let blocks = (u128::from(*space) + 4095) / 4096;
            let fits = (16..=32_768).contains(&blocks) && self.image.len() as u128 >= 4096 * blocks;
            return said(if fits { 0 } else { 12 }, fits);
        }
        let opened = rules::check(&self.image, scratch);
        if opened.status != 0 {
            return said(opened.status, opened.status == 2);
        }
        decide(&self.image, &self.tree, call)
    }

    /// The Rust must answer as RULES does, or the recorder is wrong.
    fn ask_rust(&mut self, call: &Call, decided: &Decided) -> Result<Told, String> {
        if let Call::Format { .. } = call {
            // Nothing of the old card is kept.
            self.tree = Tree::default();
        }
        let mend = Mend::before(&self.image, &self.tree, call);
        let outcome = oracle::run(&mut self.image, call);
        let (mut told, name) = told_of(call, outcome)?;
        let bytes = decided.values.bytes.is_empty() || told.bytes.as_ref() == Some(&decided.values.bytes);
        if told.number != decided.status || told.words != decided.values.words || !bytes {
            return Err(format!("the Rust: {:?}, and RULES: {:?}", told, decided));
        }
        let done = told.number == 0;
        let made = match call {
            Call::Format { .. } => Some(ROOT),
            Call::Create { .. } if done => Some(told.words[0]),
            _ => None,
        };
        self.gaps += usize::from(done && mend.has_gap());
        mend.after(&mut self.image, done, made)?;
        if let Some(len) = name {
            told.words[0] = len;
        }
        if done && changes(call) {
            self.changed()?;
        }
        Ok(told)
    }

    fn changed(&mut self) -> Result<(), String> {
        self.tree = Tree::read(&self.image);
        let answer = rules::check(&self.image, usize::MAX);
        if answer.status == 0 {
            Ok(())
        } else {
            Err(format!("the card is no longer whole: {}", answer.why))
        }
    }
}

/// What the Rust told, and how long the name is that it found in an entry.
fn told_of(call: &Call, outcome: Outcome) -> Result<(Told, Option<u32>), String> {
    let number = outcome.number().ok_or_else(|| format!("the Rust: {:?}", outcome.answer))?;
    let mut told = Told::refused(call, number);
    match outcome.answer {
        Answer::Done(Value::Number(number)) => told.words[0] = number,
        Answer::Done(Value::Written { count }) => told.words[0] = count as u32,
        Answer::Done(Value::Counts { blocks, unused }) => told.words = [blocks, unused, 0, 0],
        Answer::Done(Value::Metadata { kind, size, blocks, links }) => told.words = [kind, size, blocks, links],
        Answer::Done(Value::Read { count, buf }) => {
            told.words[0] = count as u32;
            told.bytes = Some(buf);
        }
        Answer::Done(Value::Entry { bytes, name, .. }) => {
            told.bytes = Some(bytes);
            return Ok((told, Some(name.len() as u32)));
        }
        _ => (),
    }
    Ok((told, None))
}

fn changes(call: &Call) -> bool {
    use Call::*;
    !matches!(call, Counts | Metadata { .. } | Read { .. } | Find { .. } | Entry { .. })
}
