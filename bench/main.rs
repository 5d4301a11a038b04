//! bench: the library's calls beside plain ones in Rust (tests/standin) and beside the unchanged Rust, all in one run.
//! measure.rs says what is printed.
//!
//! Parts of a case: `call` the library's calls; `check` as many of its checks on the card as it is before them, since
//! every call first checks the card; `plain` the plain acts without a check; `opening` as many plain checks; `rust` the
//! calls of the unchanged Rust on a card that it has open; `nothing` the same loop with no call. The check has no part
//! `check`, nor have format, which checks nothing, and the cache; and the Rust has no check.

#[path = "../tests/standin/bytes.rs"]
#[allow(dead_code)]
mod bytes;
#[path = "../tests/standin/cache.rs"]
#[allow(dead_code)]
mod cache;
mod cached;
mod calls;
#[path = "../tests/standin/card.rs"]
mod card;
mod cards;
mod cases;
#[path = "../tests/standin/check.rs"]
#[allow(dead_code)]
mod check;
#[path = "../tests/oracle/src/device.rs"]
#[allow(dead_code)]
mod device;
#[path = "../tests/standin/dirs.rs"]
mod dirs;
#[allow(dead_code)]
#[path = "../tests/files/expect.rs"]
mod expect;
#[path = "../tests/standin/files.rs"]
mod files;
#[path = "../tests/files/gap.rs"]
mod gap;
#[path = "../tests/files/library.rs"]
mod library;
#[allow(dead_code)]
#[path = "../tests/files/look.rs"]
mod look;
mod measure;
mod unchanged;

use calls::{by_library, by_nobody, by_plain, inodes, Said};
use gap::Gap;
use measure::Measure;
use oracle::image::same_but_padding;
use oracle::Call;
use unchanged::Opened;

fn main() {
    let mut measure = Measure::from_words();
    cases::all(&mut measure);
    measure.end();
}

/// What was left by one of those that are compared.
struct Left {
    image: Vec<u8>,
    buf: Vec<u8>,
    said: Vec<Said>,
}

impl Left {
    /// The buffer is of a read's length, or an entry's.
    fn new(image: &[u8], calls: &[Call]) -> Left {
        let buf = match calls[0] {
            Call::Read { len, .. } => len,
            Call::Entry { .. } => bytes::ENTRY,
            _ => 0,
        };
        Left { image: image.to_vec(), buf: vec![0; buf], said: Vec::with_capacity(calls.len()) }
    }
}

/// The parts of one case. All must answer the same and leave the same card, or the program stops.
fn compare(measure: &mut Measure, case: &str, image: &[u8], calls: &[Call]) {
    let mut scratch = vec![0x5a5a_5a5a; 4 * (image.len() / bytes::BLOCK)];
    let (mut ours, mut theirs) = (Left::new(image, calls), Left::new(image, calls));
    measure.part(case, "call", &mut || {
        for call in calls {
            ours.said.push(by_library(&mut ours.image, &mut scratch, call, &mut ours.buf));
        }
    });
    measure.part(case, "plain", &mut || {
        for call in calls {
            theirs.said.push(by_plain(&mut theirs.image, &mut scratch, call, &mut theirs.buf));
        }
    });
    let mut none = Left::new(&[], calls);
    measure.part(case, "nothing", &mut || {
        for call in calls {
            none.said.push(by_nobody(&mut none.image, &mut scratch, call, &mut none.buf));
        }
    });
    assert!(ours.said.iter().all(Result::is_ok), "{}: the library refuses: {:?}", case, ours.said);
    assert_eq!(ours.said, theirs.said, "{}: the answers", case);
    assert!(ours.image == theirs.image && ours.buf == theirs.buf, "{}: the bytes left", case);
    if !matches!(calls[0], Call::Counts | Call::Format { .. }) {
        checks(measure, case, image, &mut scratch, calls);
    }
    if !matches!(calls[0], Call::Counts) {
        rust(measure, case, image, calls, &ours);
    }
}

/// Several calls in one case change no record, so that each of their checks costs what the first one does.
fn checks(measure: &mut Measure, case: &str, image: &[u8], scratch: &mut [u32], calls: &[Call]) {
    let mut copy = image.to_vec();
    measure.part(case, "check", &mut || {
        for _ in calls {
            assert!(by_library(&mut copy, scratch, &Call::Counts, &mut []).is_ok(), "the library's check");
        }
    });
    measure.part(case, "opening", &mut || {
        for call in calls {
            assert_eq!(check::open(image, scratch, &inodes(call)), Ok(()), "the plain check");
        }
    });
}

fn rust(measure: &mut Measure, case: &str, image: &[u8], calls: &[Call], ours: &Left) {
    let mut left = Left::new(image, calls);
    let opened = Opened::new(std::mem::take(&mut left.image), calls);
    measure.part(case, "rust", &mut || opened.put(calls, &mut left.buf, &mut left.said));
    let mut after = opened.close();
    assert_eq!(ours.said, left.said, "{}: the Rust's answers", case);
    mend(image, calls, &mut after);
    let mut records = oracle::image::inodes(image);
    records.extend(oracle::image::inodes(&ours.image));
    assert_eq!(same_but_padding(&ours.image, &after, records), Ok(()), "{}: the card that the Rust leaves", case);
}

/// Where the Rust's bytes are others by docs/DIFFERENCES.md they are set to RULES'. Only a call alone changes a length.
#[inline(never)]
fn mend(image: &[u8], calls: &[Call], after: &mut [u8]) {
    if let [call @ (Call::Write { .. } | Call::Resize { .. })] = calls {
        if let Some(gap) = Gap::before(image, call) {
            gap.after(after).expect("the Rust's card");
        }
    }
}
