//! Memory between two guards: pages that can be neither read nor written. A call that reads or writes right before or
//! right after what it is lent there ends the program.

use std::cell::RefCell;
use std::ffi::{c_int, c_void};
use std::mem::size_of_val;
use std::{array, ptr, slice};

/// The length of each guard, in bytes; a multiple of every usual size of a page.
const GUARD: usize = 65_536;

/// The most bytes between the guards.
const ROOM: usize = 2 * GUARD;

/// The names that Linux has for these numbers.
const PROT_NONE: c_int = 0;
const PROT_READ_AND_WRITE: c_int = 3;
const MAP_PRIVATE_AND_ANONYMOUS: c_int = 0x22;

extern "C" {
    fn mmap(at: *mut c_void, len: usize, protection: c_int, flags: c_int, file: c_int, from: i64) -> *mut c_void;
    fn mprotect(at: *mut c_void, len: usize, protection: c_int) -> c_int;
    fn munmap(at: *mut c_void, len: usize) -> c_int;
}

thread_local! {
    static OF_THREAD: RefCell<[Guarded; 3]> = RefCell::new(array::from_fn(|_| Guarded::new()));
}

/// Some memory with a guard on both sides.
pub struct Guarded {
    whole: *mut u8,
}

impl Guarded {
    fn new() -> Self {
        // Safety: this is new memory, which nothing else uses.
        unsafe {
            let whole = mmap(ptr::null_mut(), ROOM + 2 * GUARD, PROT_NONE, MAP_PRIVATE_AND_ANONYMOUS, -1, 0);
            assert!(whole as isize != -1, "no memory");
            assert_eq!(mprotect(whole.byte_add(GUARD), ROOM, PROT_READ_AND_WRITE), 0, "no memory between the guards");
            Guarded { whole: whole.cast() }
        }
    }

    /// A copy of some bytes or numbers, right before the second guard, or right after the first one. If they are too
    /// many, it is they themselves.
    pub fn copy<'a, T: Copy>(&'a mut self, list: &'a [T], at_end: bool) -> &'a [T] {
        let len = size_of_val(list);
        if len > ROOM {
            return list;
        }
        let at = GUARD + if at_end { ROOM - len } else { 0 };
        // Safety: the part is between the guards, its place and its length are multiples of the size of a T, and it is
        // borrowed as long as the slice is.
        let part = unsafe { slice::from_raw_parts_mut(self.whole.add(at).cast::<T>(), list.len()) };
        part.copy_from_slice(list);
        part
    }
}

impl Drop for Guarded {
    fn drop(&mut self) {
        // Safety: no slice of it is borrowed any more.
        unsafe { munmap(self.whole.cast(), ROOM + 2 * GUARD) };
    }
}

/// Lends three pieces of guarded memory.
pub fn with_guards<R>(run: impl FnOnce(&mut [Guarded; 3]) -> R) -> R {
    OF_THREAD.with_borrow_mut(run)
}
