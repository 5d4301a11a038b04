//! Memory to lend, which shows whatever else is touched.

use std::sync::atomic::{AtomicU64, Ordering};

extern "C" {
    fn mmap(at: *mut u8, len: usize, protection: i32, flags: i32, file: i32, offset: i64) -> *mut u8;
    fn mprotect(at: *mut u8, len: usize, protection: i32) -> i32;
    fn signal(number: i32, act: usize) -> usize;
    fn write(file: i32, bytes: *const u8, len: usize) -> isize;
    fn _exit(status: i32) -> !;
}

const PAGE: usize = 65536;
const GUARD: usize = 64;
const SEGV: i32 = 11;
const BUS: i32 = 7;

/// Memory that is followed by a page nobody may touch, and filled with a pattern around what is lent.
/// That stands at the very end, or GUARD items before it.
pub struct Room<T> {
    start: *mut T,
    items: usize,
    from: usize,
    to: usize,
    guard: T,
}

impl<T: Copy + PartialEq + Default> Room<T> {
    pub fn new(most: usize) -> Room<T> {
        let item = std::mem::size_of::<T>();
        let len = ((most + 2 * GUARD) * item + PAGE - 1) / PAGE * PAGE;
        let (read_write, private_anonymous) = (3, 0x22);
        let start = unsafe {
            let at = mmap(std::ptr::null_mut(), len + PAGE, read_write, private_anonymous, -1, 0);
            assert!(at as isize != -1, "no memory");
            assert_eq!(mprotect(at.add(len), PAGE, 0), 0, "no guard page");
            at as *mut T
        };
        let items = len / item;
        Room { start, items, from: items, to: items, guard: T::default() }
    }

    /// The whole room, guards and all.
    fn all(&mut self) -> &mut [T] {
        unsafe { std::slice::from_raw_parts_mut(self.start, self.items) }
    }

    /// Lends a copy; `last` puts it right before the forbidden page. Answers where it begins.
    pub fn lend(&mut self, content: &[T], guard: T, last: bool) -> *mut T {
        let to = self.items - if last { 0 } else { GUARD };
        let from = to - content.len();
        (self.from, self.to, self.guard) = (from, to, guard);
        let all = self.all();
        all[from..to].copy_from_slice(content);
        all[from - GUARD..from].fill(guard);
        all[to..].fill(guard);
        unsafe { self.start.add(from) }
    }

    pub fn lent(&mut self) -> &mut [T] {
        let (from, to) = (self.from, self.to);
        &mut self.all()[from..to]
    }

    /// What the lent part holds now; None where a guard was overwritten.
    pub fn back(&mut self) -> Option<&[T]> {
        let (from, to, guard) = (self.from, self.to, self.guard);
        let all = self.all();
        let whole = all[from - GUARD..from].iter().chain(&all[to..]).all(|&item| item == guard);
        if whole {
            Some(self.lent())
        } else {
            None
        }
    }
}

/// The case that runs now, for the message of a touch that ends the process.
pub static CASE: AtomicU64 = AtomicU64::new(0);

extern "C" fn touched(_signal: i32) {
    // No allocation and no lock in here: the digits are laid out by hand.
    let mut text = *b"forbidden memory was touched in case ....................\n";
    let mut case = CASE.load(Ordering::Relaxed);
    for place in (text.len() - 21..text.len() - 1).rev() {
        text[place] = b'0' + (case % 10) as u8;
        case /= 10;
    }
    unsafe {
        write(2, text.as_ptr(), text.len());
        _exit(1)
    }
}

/// From now on a touch of forbidden memory names its case and ends the program.
pub fn name_case_of_touch() {
    unsafe {
        signal(SEGV, touched as extern "C" fn(i32) as usize);
        signal(BUS, touched as extern "C" fn(i32) as usize);
    }
}
