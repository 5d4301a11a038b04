//! Sizes and names as people read and write them.

use sfs::FileType;
use std::ffi::OsStr;

/// Bytes, or a number with K, M or G for the powers of 1,024.
pub fn parse_size(word: &OsStr) -> Option<u64> {
    let word = word.to_str()?;
    let digits = word.trim_end_matches(|c: char| c.is_ascii_alphabetic());
    let factor = match &word[digits.len()..] {
        "" | "B" => 1,
        "K" | "k" | "KiB" => 1 << 10,
        "M" | "m" | "MiB" => 1 << 20,
        "G" | "g" | "GiB" => 1 << 30,
        _ => return None,
    };
    digits.parse::<u64>().ok()?.checked_mul(factor)
}

/// With commas between thousands.
pub fn count(number: u64) -> String {
    let digits = number.to_string();
    let mut text = String::new();
    for (i, digit) in digits.chars().enumerate() {
        if i > 0 && (digits.len() - i) % 3 == 0 {
            text.push(',');
        }
        text.push(digit);
    }
    text
}

/// A word with its count.
pub fn some(number: u64, one: &str, many: &str) -> String {
    format!("{} {}", count(number), if number == 1 { one } else { many })
}

/// What an inode is: its letter in long listings, and the word for it.
pub fn kind(kind: FileType) -> (char, &'static str) {
    match kind {
        FileType::File => ('-', "file"),
        FileType::Dir => ('d', "directory"),
        FileType::SymLink => ('l', "symbolic link"),
        _ => ('?', "another kind"),
    }
}

/// For messages and terminals: a name cannot move the cursor or begin a line.
pub fn clean(name: &[u8]) -> String {
    String::from_utf8_lossy(name)
        .chars()
        .map(|c| if c.is_control() { '?' } else { c })
        .collect()
}

#[cfg(test)]
mod tests {
    use super::*;

    #[test]
    fn sizes() {
        let size = |word: &str| parse_size(OsStr::new(word));
        assert_eq!(size("65536"), Some(65_536));
        assert_eq!(size("16M"), Some(16 << 20));
        assert_eq!(size("64k"), Some(65_536));
        assert_eq!(size("99999999999G"), None);
        for word in ["", "M", "1T", "-1", "1.5M", "1 M"] {
            assert_eq!(size(word), None, "{word}");
        }
    }

    #[test]
    fn counts() {
        assert_eq!(
            [0, 999, 1_000, 32_768, 1_234_567].map(count),
            ["0", "999", "1,000", "32,768", "1,234,567"]
        );
    }

    #[test]
    fn names_are_harmless() {
        assert_eq!(clean(b"a\x1b[2J\nb"), "a?[2J?b");
    }
}
