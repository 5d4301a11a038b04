//! The few calls of the C library that Rust's does not have: mapping, locking, holding signals and asking for them,
//! and asking for a terminal. All that is unsafe in the command is in this file. For Linux on machines of 64 bits.

use std::fs::File;
use std::io;
use std::os::raw::{c_int, c_void};
use std::os::unix::io::AsRawFd;
use std::ptr;
use std::slice;

#[cfg(not(all(target_os = "linux", target_pointer_width = "64")))]
compile_error!("the numbers in sys.rs are those of Linux on machines of 64 bits");

const PROT_READ: c_int = 1;
const PROT_WRITE: c_int = 2;
const MAP_PRIVATE: c_int = 2;
const LOCK_SH: c_int = 1;
const LOCK_EX: c_int = 2;
const SIG_BLOCK: c_int = 0;
const SIG_SETMASK: c_int = 2;
const SIG_IGN: u64 = 1;
/// The signals of a closed terminal, of Ctrl-C and Ctrl-\\, of `kill`, and of a file that would be too long.
const ENDING: [c_int; 5] = [1, 2, 3, 15, 25];

/// 1,024 bits, as in glibc and musl; signals count from 1.
#[repr(C)]
struct SigSet([u64; 16]);

/// What is done about a signal, as in glibc and musl: the handler, a set of signals, and flags.
#[repr(C)]
struct SigAction([u64; 19]);

extern "C" {
    fn mmap(at: *mut c_void, len: usize, prot: c_int, flags: c_int, fd: c_int, offset: i64) -> *mut c_void;
    fn munmap(at: *mut c_void, len: usize) -> c_int;
    fn flock(fd: c_int, operation: c_int) -> c_int;
    fn isatty(fd: c_int) -> c_int;
    fn sigfillset(set: *mut SigSet) -> c_int;
    fn sigprocmask(how: c_int, set: *const SigSet, old: *mut SigSet) -> c_int;
    fn sigpending(set: *mut SigSet) -> c_int;
    fn sigaction(signal: c_int, new: *const SigAction, old: *mut SigAction) -> c_int;
}

/// A file's first bytes in memory. Changes stay in memory: the mapping is private.
pub struct Map {
    at: *mut u8,
    len: usize,
}

impl Map {
    pub fn private(file: &File, len: usize) -> io::Result<Map> {
        if len == 0 {
            return Ok(Map {
                at: ptr::NonNull::dangling().as_ptr(),
                len,
            });
        }
        let (prot, fd) = (PROT_READ | PROT_WRITE, file.as_raw_fd());
        // SAFETY: a mapping at a place that the system chooses takes no memory that is in use.
        let at = unsafe { mmap(ptr::null_mut(), len, prot, MAP_PRIVATE, fd, 0) };
        if at as isize == -1 {
            return Err(io::Error::last_os_error());
        }
        Ok(Map { at: at.cast(), len })
    }
}

impl AsRef<[u8]> for Map {
    fn as_ref(&self) -> &[u8] {
        // SAFETY: `len` bytes are mapped from `at` until the drop, and are changed by `as_mut` only: the lock on the
        // file keeps other commands from changing what is under them. (Without bytes any place but null is right.)
        unsafe { slice::from_raw_parts(self.at, self.len) }
    }
}

impl AsMut<[u8]> for Map {
    fn as_mut(&mut self) -> &mut [u8] {
        // SAFETY: as in `as_ref`; the mapping may be written, and `self` is borrowed exclusively.
        unsafe { slice::from_raw_parts_mut(self.at, self.len) }
    }
}

impl Drop for Map {
    fn drop(&mut self) {
        if self.len > 0 {
            // SAFETY: it was mapped with this length in `private`, and no slice of it outlives it.
            unsafe { munmap(self.at.cast(), self.len) };
        }
    }
}

/// Waits until no other program has the file locked. The lock ends with the file's handle.
pub fn lock(file: &File, exclusive: bool) -> io::Result<()> {
    let operation = if exclusive { LOCK_EX } else { LOCK_SH };
    loop {
        // SAFETY: the call takes no memory; the descriptor is open as long as `file`.
        if unsafe { flock(file.as_raw_fd(), operation) } == 0 {
            return Ok(());
        }
        let error = io::Error::last_os_error();
        if error.kind() != io::ErrorKind::Interrupted {
            return Err(error);
        }
    }
}

pub fn is_terminal(file: &impl AsRawFd) -> bool {
    // SAFETY: the call takes no memory, and any number may be asked for.
    unsafe { isatty(file.as_raw_fd()) == 1 }
}

/// While it lives, signals such as that of Ctrl-C wait.
pub struct SignalsHeld {
    old: SigSet,
}

impl SignalsHeld {
    pub fn new() -> SignalsHeld {
        let mut all = SigSet([0; 16]);
        // SAFETY: the set is a local as large as the C library's.
        unsafe { sigfillset(&mut all) };
        SignalsHeld::of(&all)
    }

    /// Only those that end a command, for work that takes long: `is_to_end` is to be asked now and then.
    pub fn ending() -> SignalsHeld {
        let mut set = SigSet([0; 16]);
        set.0[0] = ENDING.iter().fold(0, |bits, signal| bits | bit(*signal));
        SignalsHeld::of(&set)
    }

    fn of(set: &SigSet) -> SignalsHeld {
        let mut old = SigSet([0; 16]);
        // SAFETY: both sets are as large as the C library's.
        unsafe { sigprocmask(SIG_BLOCK, set, &mut old) };
        SignalsHeld { old }
    }
}

fn bit(signal: c_int) -> u64 {
    1 << (signal - 1)
}

/// Whether a signal waits that will end the command.
pub fn is_to_end() -> bool {
    let mut waiting = SigSet([0; 16]);
    // SAFETY: the set is a local as large as the C library's.
    let known = unsafe { sigpending(&mut waiting) } == 0;
    let is_waiting = |signal: c_int| waiting.0[0] & bit(signal) != 0 && !is_ignored(signal);
    known && ENDING.into_iter().any(is_waiting)
}

fn is_ignored(signal: c_int) -> bool {
    let mut action = SigAction([0; 19]);
    // SAFETY: nothing is set, and what is told goes to a local as large as the C library's.
    unsafe { sigaction(signal, ptr::null(), &mut action) == 0 && action.0[0] == SIG_IGN }
}

impl Drop for SignalsHeld {
    fn drop(&mut self) {
        // SAFETY: the set is the one that `new` was given; the old one is not asked for.
        unsafe { sigprocmask(SIG_SETMASK, &self.old, ptr::null_mut()) };
    }
}
