//! Answers as lines of text.

use crate::words::{hex, quote};
use oracle::{Answer, Outcome, Value};

/// Read bytes above this many are printed as the first of them.
const SHOWN: usize = 32;

pub fn print(outcome: &Outcome) -> String {
    let text = match &outcome.answer {
        Answer::Done(value) => format!("0{}", results(value)),
        Answer::Error(error) => match outcome.number() {
            Some(number) => format!("{} {:?}", number, error),
            None => format!("error {:?}", error),
        },
        // A text of several lines would not stay one answer.
        Answer::Panic(text) => format!("panic: {}", text.replace('\n', " ")),
        Answer::Unposed(reason) => format!("not put to the Rust: {}", reason),
    };
    if outcome.twice {
        format!("{}; then a second panic, which ends the process", text)
    } else {
        text
    }
}

fn results(value: &Value) -> String {
    match value {
        Value::Nothing => String::new(),
        Value::Counts { blocks, unused } => format!(" blocks {} unused {}", blocks, unused),
        Value::Metadata {
            kind,
            size,
            blocks,
            links,
        } => format!(
            " kind {} size {} blocks {} links {}",
            kind, size, blocks, links
        ),
        Value::Read { count, buf } => {
            let got = &buf[..*count];
            match got.len() {
                0 => " count 0".to_string(),
                n if n <= SHOWN => format!(" count {} bytes {}", n, hex(got)),
                n => format!(" count {} bytes {} ..", n, hex(&got[..SHOWN])),
            }
        }
        Value::Written { count } => format!(" count {}", count),
        Value::Number(number) => format!(" number {}", number),
        Value::Entry { number, name, .. } => format!(" number {} name {}", number, quote(name)),
    }
}
