//! The check of a card once more, from RULES, "When a card is whole", rule by rule: the inodes are gathered by closure,
//! everything owned is listed and sorted, and each rule is a function over that. It marks nothing while it walks.
//!
//! Any bytes may be given. A damaged card may claim any size: nothing is read before its numbers are below
//! the block count, and no more is listed than the card has blocks, since each block has one owner at most.

use std::collections::BTreeMap;

const BLOCK: usize = 4096;
const ENTRY: usize = 260;
const MAGIC: u32 = 0x2f8d_be2b;
const ROOT: u32 = 1;
const MAP: u32 = 2;
const DIR: u16 = 2;

/// What the call answers. `why` names the first rule found broken; several may be.
#[derive(Clone, Copy, PartialEq, Eq, Debug)]
pub struct Answer {
    pub status: u32,
    pub blocks: u32,
    pub unused: u32,
    /// How many words of scratch are zero afterwards; the others stay.
    pub cleared: usize,
    pub why: &'static str,
}

type Rule = Result<(), &'static str>;

fn rule(holds: bool, why: &'static str) -> Rule {
    if holds {
        Ok(())
    } else {
        Err(why)
    }
}

pub fn check(image: &[u8], scratch_len: usize) -> Answer {
    let refused = |status, why| Answer { status, blocks: 0, unused: 0, cleared: 0, why };
    // "Every call on an image but format first tests: fewer than 4,096 bytes (3), magic (2), block count, F
    // or slice length (3), scratch (1), the other rules of a whole card (3)".
    if image.len() < BLOCK {
        return refused(3, "1: fewer than 4,096 bytes");
    }
    if word(image, 0) != MAGIC {
        return refused(2, "1: magic");
    }
    let card = Card { image, blocks: word(image, 4) };
    if let Err(why) = rule_1(&card) {
        return refused(3, why);
    }
    // "fewer than 4 words of scratch a block"; "Scratch is .. untouched if refused up to the scratch test".
    let cleared = 4 * card.blocks as usize;
    if scratch_len < cleared {
        return refused(1, "scratch");
    }
    // "otherwise its first 4 a block are zero afterwards".
    match the_rest(&card) {
        Ok(()) => Answer { status: 0, blocks: card.blocks, unused: word(image, 8), cleared, why: "" },
        Err(why) => Answer { cleared, ..refused(3, why) },
    }
}

/// What scratch holds after the call.
pub fn scratch_after(before: &[u32], answer: &Answer) -> Vec<u32> {
    let mut after = before.to_vec();
    after[..answer.cleared].fill(0);
    after
}

fn the_rest(card: &Card) -> Rule {
    rule_2(card)?;
    let inodes = rule_3(card)?;
    rule_5(card, &inodes)?;
    rule_6(&inodes)?;
    rule_7(&inodes)
}

struct Card<'a> {
    image: &'a [u8],
    blocks: u32,
}

impl Card<'_> {
    /// "block i is bit i mod 8, lowest first, of byte i / 8. Set means free."
    fn is_free(&self, i: u32) -> bool {
        self.image[MAP as usize * BLOCK + i as usize / 8] >> (i % 8) & 1 == 1
    }

    /// The bytes of a block. Rule 5: "Every number in use is below the block count."
    fn block(&self, number: u32) -> Result<&[u8], &'static str> {
        rule(number < self.blocks, "5: a number in use is not below the block count")?;
        let start = number as usize * BLOCK;
        Ok(&self.image[start..start + BLOCK])
    }
}

/// "The magic is right; blocks and F are as above; the slice is long enough." The magic has its own answer.
fn rule_1(card: &Card) -> Rule {
    rule((16..=32_768).contains(&card.blocks), "1: block count")?;
    rule(word(card.image, 44) == 1, "1: F")?;
    rule(card.image.len() / BLOCK >= card.blocks as usize, "1: slice length")
}

/// "Map bits at or past the block count, and those of blocks 0, 1 and the map, are clear. Unused equals the
/// number of set bits."
fn rule_2(card: &Card) -> Rule {
    let past = card.blocks..8 * BLOCK as u32;
    rule(!past.into_iter().any(|i| card.is_free(i)), "2: a bit at or past the block count")?;
    rule(![0, ROOT, MAP].iter().any(|&i| card.is_free(i)), "2: a reserved bit")?;
    let set = (0..card.blocks).filter(|&i| card.is_free(i)).count();
    rule(set == word(card.image, 8) as usize, "2: unused")
}

struct Inode {
    size: u32,
    kind: u16,
    links: u16,
    count: u32,
    /// Its own block, its pointer blocks and its data blocks.
    owned: Vec<u32>,
    /// A directory's bytes.
    body: Vec<u8>,
}

impl Inode {
    fn entry(&self, k: usize) -> (u32, &[u8]) {
        let bytes = &self.body[ENTRY * k..ENTRY * (k + 1)];
        let name = bytes[4..].split(|&byte| byte == 0).next().unwrap_or(&[]);
        (word(bytes, 0), name)
    }

    fn entries(&self) -> usize {
        self.body.len() / ENTRY
    }

    /// The numbers of all entries but "." and "..".
    fn children(&self) -> impl Iterator<Item = u32> + '_ {
        (2..self.entries()).map(move |k| self.entry(k).0)
    }
}

type Inodes = BTreeMap<u32, Inode>;

/// "The inodes are the root, which is a directory, and all that entries name, walking down from it and
/// skipping "." and ".."."
fn rule_3(card: &Card) -> Result<Inodes, &'static str> {
    let mut inodes = Inodes::new();
    let mut named = vec![ROOT];
    let mut total = 0;
    while let Some(number) = named.pop() {
        if inodes.contains_key(&number) {
            continue;
        }
        let inode = read_inode(card, number, &mut total)?;
        named.extend(inode.children().filter(|child| !inodes.contains_key(child)));
        inodes.insert(number, inode);
    }
    rule(inodes[&ROOT].kind == DIR, "3: the root is no directory")?;
    Ok(inodes)
}

/// `total` has the blocks owned by all inodes so far, to be no more than the card has (rule 5).
fn read_inode(card: &Card, number: u32, total: &mut u64) -> Result<Inode, &'static str> {
    let record = card.block(number)?;
    let mut inode = Inode {
        size: word(record, 0),
        kind: half(record, 4),
        links: half(record, 6),
        count: word(record, 8),
        owned: vec![number],
        body: Vec::new(),
    };
    let (indirect, double) = (word(record, 60), word(record, 64));
    rule_4(&inode, indirect, double)?;
    *total += 1 + u64::from(inode.count);
    rule(*total <= u64::from(card.blocks), "5: more blocks owned than there are")?;

    let mut data = Vec::new();
    let count = inode.count as usize;
    data.extend((0..count.min(12)).map(|i| word(record, 12 + 4 * i)));
    // "A pointer block is taken one block before it is needed": at 12 and 1,036 it has no slot in use.
    if count >= 12 {
        inode.owned.push(indirect);
        data.extend(slots(card.block(indirect)?, count - 12));
    }
    if count >= 1036 {
        inode.owned.push(double);
        let seconds = slots(card.block(double)?, 1 + (count - 1036) / 1024);
        for (j, second) in seconds.into_iter().enumerate() {
            inode.owned.push(second);
            data.extend(slots(card.block(second)?, count - 1036 - 1024 * j));
        }
    }
    for &b in &data {
        let bytes = card.block(b)?;
        if inode.kind == DIR {
            inode.body.extend_from_slice(bytes);
        }
    }
    inode.body.truncate(inode.size as usize);
    inode.owned.append(&mut data);
    Ok(inode)
}

/// The first slots of a pointer block, `wanted` of them or all 1,024.
fn slots(block: &[u8], wanted: usize) -> Vec<u32> {
    block.chunks_exact(4).take(wanted).map(|bytes| word(bytes, 0)).collect()
}

/// "Each inode has a kind of the three, blocks = size / 4,096 rounded up, indirect nonzero exactly from 12
/// blocks, double indirect exactly from 1,036."
fn rule_4(inode: &Inode, indirect: u32, double: u32) -> Rule {
    rule((1..=3).contains(&inode.kind), "4: kind")?;
    let whole = inode.size / BLOCK as u32;
    let begun = u32::from(inode.size % BLOCK as u32 > 0);
    rule(inode.count == whole + begun, "4: block count of an inode")?;
    rule((indirect != 0) == (inode.count >= 12), "4: indirect")?;
    rule((double != 0) == (inode.count >= 1036), "4: double indirect")
}

/// "Each block is superblock, map, an inode, a pointer block or a data block of one inode, once only, or has
/// its bit set, and never both. A file named by several entries is one inode."
fn rule_5(card: &Card, inodes: &Inodes) -> Rule {
    let mut owned = vec![0, MAP];
    for inode in inodes.values() {
        owned.extend_from_slice(&inode.owned);
    }
    owned.sort_unstable();
    rule(owned.windows(2).all(|pair| pair[0] != pair[1]), "5: a block is used twice")?;
    rule(!owned.iter().any(|&b| card.is_free(b)), "5: a block in use has its bit set")?;
    let clear: Vec<u32> = (0..card.blocks).filter(|&b| !card.is_free(b)).collect();
    rule(owned == clear, "5: a block without owner has its bit clear")?;
    // "Set bits and owned blocks are counted separately, and their sum is the block count."
    rule(owned.len() + word(card.image, 8) as usize == card.blocks as usize, "the sum")
}

/// "A directory's size is a multiple of 260 and at least 520. Entry 0 is "." with its own number, entry 1 ".."
/// with its parent's (the root's is itself). Names differ and have 1 to 255 bytes before the NUL. Besides
/// these two, one entry at most names a given directory and none names the root."
fn rule_6(inodes: &Inodes) -> Rule {
    let mut parents = BTreeMap::new();
    parents.insert(ROOT, ROOT);
    for (&number, dir) in directories(inodes) {
        for child in dir.children().filter(|child| inodes[child].kind == DIR) {
            rule(parents.insert(child, number).is_none(), "6: a directory is named twice")?;
        }
    }
    for (&number, dir) in directories(inodes) {
        rule(dir.size % ENTRY as u32 == 0 && dir.size >= 520, "6: a directory's size")?;
        rule(dir.entry(0) == (number, b"."), "6: \".\"")?;
        rule(dir.entry(1) == (parents[&number], b".."), "6: \"..\"")?;
        let mut names: Vec<&[u8]> = (0..dir.entries()).map(|k| dir.entry(k).1).collect();
        rule(names.iter().all(|name| (1..=255).contains(&name.len())), "6: a name's length")?;
        names.sort_unstable();
        rule(names.windows(2).all(|pair| pair[0] != pair[1]), "6: a name stands twice")?;
    }
    Ok(())
}

/// "A file's or symbolic link's links equal the entries naming it; a directory's are 2 plus its subdirectories."
fn rule_7(inodes: &Inodes) -> Rule {
    let mut naming: BTreeMap<u32, usize> = BTreeMap::new();
    for (_, dir) in directories(inodes) {
        let mut subdirectories = 0;
        for child in dir.children() {
            *naming.entry(child).or_default() += 1;
            subdirectories += usize::from(inodes[&child].kind == DIR);
        }
        rule(usize::from(dir.links) == 2 + subdirectories, "7: a directory's links")?;
    }
    let mut others = inodes.iter().filter(|(_, inode)| inode.kind != DIR);
    rule(others.all(|(number, inode)| naming.get(number) == Some(&inode.links.into())), "7: a file's links")
}

fn directories(inodes: &Inodes) -> impl Iterator<Item = (&u32, &Inode)> {
    inodes.iter().filter(|(_, inode)| inode.kind == DIR)
}

fn word(bytes: &[u8], at: usize) -> u32 {
    u32::from_le_bytes([bytes[at], bytes[at + 1], bytes[at + 2], bytes[at + 3]])
}

fn half(bytes: &[u8], at: usize) -> u16 {
    u16::from_le_bytes([bytes[at], bytes[at + 1]])
}
