//! check_examples FILE DIR: makes the inputs that the file describes, as DIR/NAME.in with DIR/NAME.expected, and
//! tests that the lines written by hand are those of the rules. Edits know the layout and no rule.

use kit::rules;
use std::collections::BTreeMap;

const BLOCK: usize = 4096;
const ENTRY: usize = 260;

type Made<T> = Result<T, String>;

fn main() {
    let words: Vec<String> = std::env::args().skip(1).collect();
    let told = match &words[..] {
        [file, dir] => make(file, dir),
        _ => Err("usage: check_examples FILE DIR".to_string()),
    };
    match told {
        Ok(count) => println!("check_examples: {} lines written by hand are those of the rules", count),
        Err(error) => {
            println!("check_examples: {}", error);
            std::process::exit(1);
        }
    }
}

fn make(file: &str, dir: &str) -> Made<usize> {
    let text = std::fs::read_to_string(file).map_err(|error| format!("{}: {}", file, error))?;
    let mut bases = BTreeMap::new();
    bases.insert("nothing".to_string(), Vec::new());
    bases.insert("fresh".to_string(), fresh()?);
    let mut names: Vec<String> = Vec::new();
    for line in lines(&text) {
        let parts: Vec<&str> = line.split('|').map(str::trim).collect();
        let bad = |error: String| format!("{}: {}", parts[0], error);
        match (parts[0].strip_prefix("base "), &parts[..]) {
            (Some(name), [_, edits]) => {
                let image = edited(&bases, edits).map_err(bad)?;
                bases.insert(name.to_string(), image);
            }
            (None, [name, edits, expected]) => {
                let image = edited(&bases, edits).map_err(bad)?;
                let by_rules = line_of(&image);
                if by_rules != *expected {
                    return Err(format!("{}: {} by the rules, {} by hand", name, by_rules, expected));
                }
                if names.iter().any(|old| old == name) {
                    return Err(format!("{}: stands twice", name));
                }
                names.push(name.to_string());
                write(dir, name, "in", &image)?;
                write(dir, name, "expected", format!("{}\n", expected).as_bytes())?;
            }
            _ => return Err(format!("no such line: {}", line)),
        }
    }
    Ok(names.len())
}

fn write(dir: &str, name: &str, kind: &str, bytes: &[u8]) -> Made<()> {
    let path = format!("{}/{}.{}", dir, name, kind);
    std::fs::write(&path, bytes).map_err(|error| format!("{}: {}", path, error))
}

/// The program reads at most 65,536 bytes and has scratch for as many.
fn line_of(image: &[u8]) -> String {
    let answer = rules::check(&image[..image.len().min(65_536)], 4 * 16);
    format!("status {} blocks {} free {}", answer.status, answer.blocks, answer.unused)
}

/// Lines without comments, with those that begin with a space joined to the one before.
fn lines(text: &str) -> Vec<String> {
    let mut lines: Vec<String> = Vec::new();
    for line in text.lines().filter(|line| !line.starts_with('#') && !line.trim().is_empty()) {
        match lines.last_mut() {
            Some(last) if line.starts_with(' ') => last.push_str(line),
            _ => lines.push(line.to_string()),
        }
    }
    lines
}

/// RULES' first tried example: 16 blocks formatted.
fn fresh() -> Made<Vec<u8>> {
    let mut image = vec![0; 16 * BLOCK];
    let edits = "put32 0 0x2f8dbe2b; put32 4 16; put32 8 12; put32 44 1; put8 2:0 0xf0; put8 2:1 0xff; \
                 record 1 2 520 2 1 3; entry 3 0 1 .; entry 3 1 1 ..";
    for words in edits.split(';') {
        edit(&mut image, &words.split_whitespace().collect::<Vec<_>>())?;
    }
    image[12..30].copy_from_slice(b"simple file system");
    Ok(image)
}

fn edited(bases: &BTreeMap<String, Vec<u8>>, edits: &str) -> Made<Vec<u8>> {
    let mut image = Vec::new();
    for text in edits.split(';') {
        let words: Vec<&str> = text.split_whitespace().collect();
        match &words[..] {
            [] => (),
            [base] => image = bases.get(*base).ok_or(format!("no base {}", base))?.clone(),
            _ => edit(&mut image, &words).map_err(|error| format!("{}: {}", text.trim(), error))?,
        }
    }
    Ok(image)
}

fn edit(image: &mut Vec<u8>, words: &[&str]) -> Made<()> {
    match words {
        ["length", len] => image.resize(number(len)?, 0),
        ["put8", at, value] => put(image, place(at)?, &(number(value)? as u8).to_le_bytes())?,
        ["put16", at, value] => put(image, place(at)?, &(number(value)? as u16).to_le_bytes())?,
        ["put32", at, value] => put(image, place(at)?, &(number(value)? as u32).to_le_bytes())?,
        ["fill", at, len, byte] => put(image, place(at)?, &vec![number(byte)? as u8; number(len)?])?,
        ["flip", block] => flip(image, number(block)?)?,
        ["take", block] => {
            flip(image, number(block)?)?;
            step_unused(image, u32::MAX)?;
        }
        ["give", block] => {
            flip(image, number(block)?)?;
            step_unused(image, 1)?;
        }
        ["record", block, kind, size, links, count, slots @ ..] => {
            let mut record = [0; 80];
            record[..4].copy_from_slice(&(number(size)? as u32).to_le_bytes());
            record[4..6].copy_from_slice(&(number(kind)? as u16).to_le_bytes());
            record[6..8].copy_from_slice(&(number(links)? as u16).to_le_bytes());
            record[8..12].copy_from_slice(&(number(count)? as u32).to_le_bytes());
            for (i, slot) in slots.iter().enumerate() {
                record[12 + 4 * i..16 + 4 * i].copy_from_slice(&(number(slot)? as u32).to_le_bytes());
            }
            record[72] = 100;
            put(image, number(block)? * BLOCK, &record)?;
        }
        ["entry", blocks, k, inode, name] => {
            let blocks = blocks.split('+').map(number).collect::<Made<Vec<usize>>>()?;
            let mut bytes = (number(inode)? as u32).to_le_bytes().to_vec();
            bytes.extend(name_bytes(name)?);
            bytes.resize(ENTRY, 0);
            for (i, byte) in bytes.iter().enumerate() {
                let at = ENTRY * number(k)? + i;
                let block = blocks.get(at / BLOCK).ok_or("the entry is past these blocks")?;
                put(image, block * BLOCK + at % BLOCK, &[*byte])?;
            }
        }
        _ => return Err("no such edit".to_string()),
    }
    Ok(())
}

fn put(image: &mut [u8], at: usize, bytes: &[u8]) -> Made<()> {
    let place = image.get_mut(at..at + bytes.len()).ok_or("past the end")?;
    place.copy_from_slice(bytes);
    Ok(())
}

fn flip(image: &mut [u8], block: usize) -> Made<()> {
    let byte = image.get_mut(2 * BLOCK + block / 8).ok_or("past the end")?;
    *byte ^= 1 << (block % 8);
    Ok(())
}

fn step_unused(image: &mut [u8], step: u32) -> Made<()> {
    let old = u32::from_le_bytes([image[8], image[9], image[10], image[11]]);
    put(image, 8, &old.wrapping_add(step).to_le_bytes())
}

fn name_bytes(name: &str) -> Made<Vec<u8>> {
    match name.split_once('*') {
        _ if name == "-" => Ok(Vec::new()),
        Some((letter, times)) => Ok(letter.repeat(number(times)?).into_bytes()),
        None => Ok(name.as_bytes().to_vec()),
    }
}

fn place(text: &str) -> Made<usize> {
    match text.split_once(':') {
        Some((block, byte)) => Ok(number(block)? * BLOCK + number(byte)?),
        None => number(text),
    }
}

fn number(text: &str) -> Made<usize> {
    let read = match text.strip_prefix("0x") {
        Some(digits) => usize::from_str_radix(digits, 16),
        None => text.parse(),
    };
    read.map_err(|_| format!("{} is no number", text))
}
