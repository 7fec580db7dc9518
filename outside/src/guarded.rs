//! Memory that is lent with a page behind it and one before it that nobody may touch. A table lies against one of the two pages, so that a read
//! or a write one element past that end stops the program; the signal handler in `alarm.rs` then says where it was.

use std::ffi::c_void;

extern "C" {
    fn mmap(addr: *mut c_void, length: usize, prot: i32, flags: i32, fd: i32, offset: i64) -> *mut c_void;
    fn mprotect(addr: *mut c_void, length: usize, prot: i32) -> i32;
    fn munmap(addr: *mut c_void, length: usize) -> i32;
}

const PAGE: usize = 4096;
const NOBODY: i32 = 0;
const READ_WRITE: i32 = 3;
const PRIVATE_ANONYMOUS: i32 = 0x22;

/// How many bytes of the side that has no page next to it are watched.
const WATCHED: usize = 64;
const MARK: u8 = 0xA5;

#[derive(Clone, Copy, Debug, PartialEq)]
pub enum Edge {
    /// The table ends where the page behind begins.
    Behind,
    /// The table begins where the page before ends.
    Before,
}

pub struct Guarded<T> {
    base: *mut u8,
    data: usize,
    first: *mut T,
    length: usize,
    edge: Edge,
}

impl<T: Copy> Guarded<T> {
    pub fn new(length: usize) -> Guarded<T> {
        let mut table = Guarded { base: std::ptr::null_mut(), data: 0, first: std::ptr::null_mut(), length: 0, edge: Edge::Behind };
        table.lay(length, Edge::Behind);
        table
    }

    /// Lends `length` elements from now on, against the given page. What they hold is left over.
    pub fn lay(&mut self, length: usize, edge: Edge) {
        let bytes = length * size_of::<T>();
        if self.base.is_null() || bytes + WATCHED > self.data {
            self.map((bytes + WATCHED).next_multiple_of(PAGE));
        }
        (self.length, self.edge) = (length, edge);
        // The pages belong to this value, and the table with its watched side fits them.
        unsafe {
            let start = self.base.add(PAGE);
            self.first = match edge {
                Edge::Behind => start.add(self.data - bytes) as *mut T,
                Edge::Before => start as *mut T,
            };
            self.watched().write_bytes(MARK, WATCHED);
        }
    }

    fn map(&mut self, data: usize) {
        self.unmap();
        unsafe {
            let base = mmap(std::ptr::null_mut(), data + 2 * PAGE, NOBODY, PRIVATE_ANONYMOUS, -1, 0);
            assert!(base as isize != -1, "no memory for a table");
            assert!(mprotect((base as *mut u8).add(PAGE) as *mut c_void, data, READ_WRITE) == 0);
            self.base = base as *mut u8;
        }
        self.data = data;
    }

    fn unmap(&mut self) {
        if !self.base.is_null() {
            unsafe { munmap(self.base as *mut c_void, self.data + 2 * PAGE) };
        }
    }

    /// The side that no page guards.
    unsafe fn watched(&self) -> *mut u8 {
        match self.edge {
            Edge::Behind => (self.first as *mut u8).sub(WATCHED),
            Edge::Before => self.first.add(self.length) as *mut u8,
        }
    }

    /// Says whether the watched bytes beside the table are as they were laid.
    pub fn untouched_beside(&self) -> bool {
        unsafe { std::slice::from_raw_parts(self.watched(), WATCHED) }.iter().all(|b| *b == MARK)
    }

    pub fn pointer(&mut self) -> *mut T {
        self.first
    }

    pub fn len(&self) -> usize {
        self.length
    }

    pub fn words(&self) -> &[T] {
        unsafe { std::slice::from_raw_parts(self.first, self.length) }
    }

    pub fn words_mut(&mut self) -> &mut [T] {
        unsafe { std::slice::from_raw_parts_mut(self.first, self.length) }
    }
}

impl<T> Drop for Guarded<T> {
    fn drop(&mut self) {
        if !self.base.is_null() {
            unsafe { munmap(self.base as *mut c_void, self.data + 2 * PAGE) };
        }
    }
}
