//! The locks of the crate `spin` that the file system uses.
//!
//! The judge uses each file system from one thread. There a lock that is held stays held, so where the
//! original would wait for ever this one panics. Like the original, a guard dropped by a panic frees its lock.

use std::cell::UnsafeCell;
use std::fmt::{Debug, Formatter, Result};
use std::ops::{Deref, DerefMut};
use std::sync::atomic::{AtomicUsize, Ordering};

const WRITER: usize = usize::MAX;

pub struct RwLock<T> {
    /// The number of readers, or WRITER.
    holders: AtomicUsize,
    value: UnsafeCell<T>,
}

unsafe impl<T: Send> Send for RwLock<T> {}
unsafe impl<T: Send + Sync> Sync for RwLock<T> {}

pub struct RwLockReadGuard<'a, T>(&'a RwLock<T>);
pub struct RwLockWriteGuard<'a, T>(&'a RwLock<T>);

impl<T> RwLock<T> {
    pub fn new(value: T) -> Self {
        RwLock {
            holders: AtomicUsize::new(0),
            value: UnsafeCell::new(value),
        }
    }

    #[inline]
    pub fn read(&self) -> RwLockReadGuard<'_, T> {
        let before = self.holders.load(Ordering::Relaxed);
        let entered = before < WRITER - 1
            && self
                .holders
                .compare_exchange(before, before + 1, Ordering::Acquire, Ordering::Relaxed)
                .is_ok();
        assert!(entered, "a lock held for writing is read: waits for ever");
        RwLockReadGuard(self)
    }

    #[inline]
    pub fn write(&self) -> RwLockWriteGuard<'_, T> {
        let entered = self
            .holders
            .compare_exchange(0, WRITER, Ordering::Acquire, Ordering::Relaxed)
            .is_ok();
        assert!(entered, "a held lock is taken for writing: waits for ever");
        RwLockWriteGuard(self)
    }
}

impl<T: Debug> Debug for RwLock<T> {
    fn fmt(&self, f: &mut Formatter) -> Result {
        write!(f, "RwLock {{ data: {:?} }}", *self.read())
    }
}

impl<'a, T> Deref for RwLockReadGuard<'a, T> {
    type Target = T;

    #[inline]
    fn deref(&self) -> &T {
        unsafe { &*self.0.value.get() }
    }
}

impl<'a, T> Deref for RwLockWriteGuard<'a, T> {
    type Target = T;

    #[inline]
    fn deref(&self) -> &T {
        unsafe { &*self.0.value.get() }
    }
}

impl<'a, T> DerefMut for RwLockWriteGuard<'a, T> {
    #[inline]
    fn deref_mut(&mut self) -> &mut T {
        unsafe { &mut *self.0.value.get() }
    }
}

impl<'a, T: Debug> Debug for RwLockReadGuard<'a, T> {
    fn fmt(&self, f: &mut Formatter) -> Result {
        (**self).fmt(f)
    }
}

impl<'a, T: Debug> Debug for RwLockWriteGuard<'a, T> {
    fn fmt(&self, f: &mut Formatter) -> Result {
        (**self).fmt(f)
    }
}

impl<'a, T> Drop for RwLockReadGuard<'a, T> {
    #[inline]
    fn drop(&mut self) {
        self.0.holders.fetch_sub(1, Ordering::Release);
    }
}

impl<'a, T> Drop for RwLockWriteGuard<'a, T> {
    #[inline]
    fn drop(&mut self) {
        self.0.holders.store(0, Ordering::Release);
    }
}

/// Used by the block cache only.
pub struct Mutex<T>(RwLock<T>);

pub type MutexGuard<'a, T> = RwLockWriteGuard<'a, T>;

impl<T> Mutex<T> {
    pub fn new(value: T) -> Self {
        Mutex(RwLock::new(value))
    }

    pub fn lock(&self) -> MutexGuard<'_, T> {
        self.0.write()
    }

    pub fn try_lock(&self) -> Option<MutexGuard<'_, T>> {
        let entered = self
            .0
            .holders
            .compare_exchange(0, WRITER, Ordering::Acquire, Ordering::Relaxed)
            .is_ok();
        if entered {
            Some(RwLockWriteGuard(&self.0))
        } else {
            None
        }
    }
}
