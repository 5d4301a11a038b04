//! The words of a script line: numbers, and bytes in three spellings.
//!
//! Bytes are text in quotes (`\"`, `\\` and `\xNN` inside), or hexadecimal after an x (`x00ff`); either may
//! be followed by `*N` for N times. A `%` in quoted text stands for the turn of a `repeat`, from 1.

pub type Parsed<T> = Result<T, String>;

/// Cuts a line into words at spaces outside quotes, and drops a comment.
pub fn words(line: &str) -> Parsed<Vec<String>> {
    let mut words = Vec::new();
    let mut word = String::new();
    let mut quoted = false;
    let mut chars = line.chars();
    while let Some(c) = chars.next() {
        match c {
            '\\' if quoted => {
                word.push(c);
                word.extend(chars.next());
            }
            '"' => {
                quoted = !quoted;
                word.push(c);
            }
            '#' if !quoted => break,
            ' ' if !quoted => {
                if !word.is_empty() {
                    words.push(std::mem::take(&mut word));
                }
            }
            _ => word.push(c),
        }
    }
    if quoted {
        return Err("a quote is not closed".to_string());
    }
    if !word.is_empty() {
        words.push(word);
    }
    Ok(words)
}

pub fn number(word: &str) -> Parsed<u64> {
    let result = match word.strip_prefix("0x") {
        Some(digits) => u64::from_str_radix(digits, 16),
        None => word.parse(),
    };
    result.map_err(|_| format!("not a number: {}", word))
}

pub fn number32(word: &str) -> Parsed<u32> {
    let wide = number(word)?;
    if wide > u64::from(u32::MAX) {
        return Err(format!("not a number of 32 bits: {}", word));
    }
    Ok(wide as u32)
}

pub fn bytes(word: &str, turn: u64) -> Parsed<Vec<u8>> {
    let (once, times) = match word.rfind('*') {
        Some(at) if !word[at..].contains('"') => (&word[..at], number(&word[at + 1..])?),
        _ => (word, 1),
    };
    let part = if let Some(digits) = once.strip_prefix('x') {
        hexadecimal(digits)?
    } else if once.len() >= 2 && once.starts_with('"') && once.ends_with('"') {
        quoted(&once[1..once.len() - 1], turn)?
    } else {
        return Err(format!("not bytes: {}", word));
    };
    Ok(part.repeat(times as usize))
}

fn hexadecimal(digits: &str) -> Parsed<Vec<u8>> {
    let wrong = || format!("not hexadecimal: {}", digits);
    if digits.len() % 2 != 0 || !digits.is_ascii() {
        return Err(wrong());
    }
    (0..digits.len())
        .step_by(2)
        .map(|i| u8::from_str_radix(&digits[i..i + 2], 16).map_err(|_| wrong()))
        .collect()
}

fn quoted(text: &str, turn: u64) -> Parsed<Vec<u8>> {
    let mut bytes = Vec::new();
    let mut rest = text.as_bytes();
    while let Some((&byte, after)) = rest.split_first() {
        rest = after;
        match byte {
            b'%' => bytes.extend(turn.to_string().into_bytes()),
            b'\\' => match rest.split_first() {
                Some((b'x', digits)) if digits.len() >= 2 => {
                    let pair = std::str::from_utf8(&digits[..2]).unwrap_or("");
                    bytes.extend(hexadecimal(pair)?);
                    rest = &digits[2..];
                }
                Some((&literal, after)) => {
                    bytes.push(literal);
                    rest = after;
                }
                None => return Err("a text ends in its escape".to_string()),
            },
            _ => bytes.push(byte),
        }
    }
    Ok(bytes)
}

/// Bytes for printing: hexadecimal in pairs.
pub fn hex(bytes: &[u8]) -> String {
    let pairs: Vec<String> = bytes.iter().map(|byte| format!("{:02x}", byte)).collect();
    pairs.join(" ")
}

/// A name for printing, in the spelling that `bytes` reads.
pub fn quote(name: &[u8]) -> String {
    let mut text = String::from("\"");
    for &byte in name {
        match byte {
            b'"' | b'\\' | b'%' => text.push_str(&format!("\\{}", byte as char)),
            0x20..=0x7e => text.push(byte as char),
            _ => text.push_str(&format!("\\x{:02x}", byte)),
        }
    }
    text.push('"');
    text
}
