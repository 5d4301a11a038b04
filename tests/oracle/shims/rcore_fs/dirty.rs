//! A value that knows whether it was lent for change since it was last stored.
//!
//! A value dropped dirty is no error here. An assertion would add nothing: every path that ends well
//! stores first, and on one that panics a second panic would end the process.

use std::fmt::{Debug, Formatter, Result};
use std::ops::{Deref, DerefMut};

pub struct Dirty<T> {
    value: T,
    dirty: bool,
}

impl<T> Dirty<T> {
    pub fn new(value: T) -> Self {
        Dirty {
            value,
            dirty: false,
        }
    }

    pub fn new_dirty(value: T) -> Self {
        Dirty { value, dirty: true }
    }

    #[inline]
    pub fn dirty(&self) -> bool {
        self.dirty
    }

    #[inline]
    pub fn sync(&mut self) {
        self.dirty = false;
    }
}

impl<T> Deref for Dirty<T> {
    type Target = T;

    #[inline]
    fn deref(&self) -> &T {
        &self.value
    }
}

impl<T> DerefMut for Dirty<T> {
    #[inline]
    fn deref_mut(&mut self) -> &mut T {
        self.dirty = true;
        &mut self.value
    }
}

impl<T: Debug> Debug for Dirty<T> {
    fn fmt(&self, f: &mut Formatter) -> Result {
        let tag = if self.dirty { "Dirty" } else { "Clean" };
        write!(f, "[{}] {:?}", tag, self.value)
    }
}
