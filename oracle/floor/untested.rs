//! What the floor has where the crate's text tests: tables whose rows are found
//! by a number that is not held against their length, and answers that are taken
//! to be there. `oracle/build-floor` lays this file out as a module of the crate.
//!
//! Nothing here is safe for a caller that is wrong. The floor makes runs that the
//! oracle makes too, with every test, and to the same sums.
#![allow(unsafe_code)]

use std::ops::{Deref, DerefMut, Index, IndexMut};

/// A table that is read and written without a test of the row's number.
pub struct Untested<T>(pub T);

/// A table of either kind, so that one wrapper does for both.
pub trait Table {
    type Row;

    fn rows(&self) -> &[Self::Row];
    fn rows_mut(&mut self) -> &mut [Self::Row];
}

impl<R> Table for Vec<R> {
    type Row = R;

    fn rows(&self) -> &[R] {
        self
    }

    fn rows_mut(&mut self) -> &mut [R] {
        self
    }
}

impl<R, const N: usize> Table for [R; N] {
    type Row = R;

    fn rows(&self) -> &[R] {
        self
    }

    fn rows_mut(&mut self) -> &mut [R] {
        self
    }
}

impl<T: Table> Index<usize> for Untested<T> {
    type Output = T::Row;

    fn index(&self, at: usize) -> &T::Row {
        unsafe { self.0.rows().get_unchecked(at) }
    }
}

impl<T: Table> IndexMut<usize> for Untested<T> {
    fn index_mut(&mut self, at: usize) -> &mut T::Row {
        unsafe { self.0.rows_mut().get_unchecked_mut(at) }
    }
}

impl<T> Deref for Untested<T> {
    type Target = T;

    fn deref(&self) -> &T {
        &self.0
    }
}

impl<T> DerefMut for Untested<T> {
    fn deref_mut(&mut self) -> &mut T {
        &mut self.0
    }
}

/// An answer that is taken to be there.
pub trait Answer {
    type Value;

    fn untested(self) -> Self::Value;
}

impl<V> Answer for Option<V> {
    type Value = V;

    fn untested(self) -> V {
        unsafe { self.unwrap_unchecked() }
    }
}

impl<V, E> Answer for Result<V, E> {
    type Value = V;

    fn untested(self) -> V {
        unsafe { self.unwrap_unchecked() }
    }
}
