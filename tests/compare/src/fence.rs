//! Memory that ends at a page that cannot be touched, so that a call that reads or writes past a lent slice stops the run.

use std::marker::PhantomData;

const PAGE: usize = 4096;

extern "C" {
    fn mmap(at: *mut u8, length: usize, protection: i32, flags: i32, file: i32, offset: i64) -> *mut u8;
    fn mprotect(at: *mut u8, length: usize, protection: i32) -> i32;
    fn munmap(at: *mut u8, length: usize) -> i32;
}

const NONE: i32 = 0;
const READ: i32 = 1;
const READ_WRITE: i32 = 3;
const PRIVATE_ANONYMOUS: i32 = 0x22;

/// Room for slices of T, each laid so that it ends at the fence.
pub struct Fence<T> {
    base: *mut u8,
    pages: usize,
    kind: PhantomData<T>,
}

impl<T: Copy + PartialEq> Fence<T> {
    pub fn new(pages: usize) -> Fence<T> {
        // SAFETY: new anonymous memory, and the protection of its own last page.
        unsafe {
            let base = mmap(std::ptr::null_mut(), (pages + 1) * PAGE, READ_WRITE, PRIVATE_ANONYMOUS, -1, 0);
            assert!(base as isize != -1, "no memory");
            assert_eq!(mprotect(base.add(pages * PAGE), PAGE, NONE), 0);
            Fence { base, pages, kind: PhantomData }
        }
    }

    /// Copies the items to the end, and says where they start. An empty slice starts at the fence itself.
    pub fn lend(&mut self, items: &[T]) -> *mut T {
        let bytes = std::mem::size_of_val(items);
        assert!(bytes <= self.pages * PAGE, "a fence with too little room");
        // SAFETY: the last `bytes` bytes before the fence are ours; T's alignment divides the page, and T's size.
        unsafe {
            let start = self.base.add(self.pages * PAGE - bytes) as *mut T;
            start.copy_from_nonoverlapping(items.as_ptr(), items.len());
            start
        }
    }

    /// The same, and while the call runs nothing there can be written: a call that does stops the run.
    pub fn sealed<R>(&mut self, items: &[T], call: impl FnOnce(*mut T) -> R) -> R {
        self.protected(READ, items, call)
    }

    /// The same, and nothing there can be read either.
    pub fn hidden<R>(&mut self, items: &[T], call: impl FnOnce(*mut T) -> R) -> R {
        self.protected(NONE, items, call)
    }

    fn protected<R>(&mut self, protection: i32, items: &[T], call: impl FnOnce(*mut T) -> R) -> R {
        let start = self.lend(items);
        self.protect(protection);
        let result = call(start);
        self.protect(READ_WRITE);
        result
    }

    fn protect(&mut self, protection: i32) {
        // SAFETY: the pages before the fence are ours.
        assert_eq!(unsafe { mprotect(self.base, self.pages * PAGE, protection) }, 0);
    }

    /// The last `count` items before the fence.
    pub fn held(&self, count: usize) -> &[T] {
        // SAFETY: as in `lend`.
        unsafe {
            let start = self.base.add(self.pages * PAGE - count * std::mem::size_of::<T>()) as *const T;
            std::slice::from_raw_parts(start, count)
        }
    }
}

/// The call runs with so many items of which nothing can be read or written. They take up no memory, however many they are.
pub fn out_of_reach<T, R>(items: usize, call: impl FnOnce(*const T) -> R) -> R {
    let bytes = items * std::mem::size_of::<T>();
    // SAFETY: new anonymous memory, which no one else has and which starts at a page.
    unsafe {
        let base = mmap(std::ptr::null_mut(), bytes, NONE, PRIVATE_ANONYMOUS, -1, 0);
        assert!(base as isize != -1, "no room for {items} items");
        let result = call(base as *const T);
        assert_eq!(munmap(base, bytes), 0);
        result
    }
}

/// The same, but the first items, which hold these, can be read and written, and come back as the call leaves them.
pub fn first_in_reach<T: Copy, R>(first: &[T], items: usize, call: impl FnOnce(*mut T) -> R) -> (R, Vec<T>) {
    assert_eq!(std::mem::size_of_val(first), PAGE, "items that fill a page");
    out_of_reach(items, |at: *const T| {
        let at = at as *mut T;
        // SAFETY: the first page of memory that no one else has.
        unsafe {
            assert_eq!(mprotect(at as *mut u8, PAGE, READ_WRITE), 0);
            at.copy_from_nonoverlapping(first.as_ptr(), first.len());
            let result = call(at);
            (result, std::slice::from_raw_parts(at, first.len()).to_vec())
        }
    })
}
