//! How often memory is asked for: malloc, calloc and realloc stand here in place of the C library's, count, and pass
//! the question on to it.

use std::cell::Cell;
use std::ffi::c_void;
use std::hint::black_box;

use crate::Outcome;

thread_local! {
    static ASKED: Cell<u64> = const { Cell::new(0) };
}

unsafe extern "C" {
    fn __libc_malloc(size: usize) -> *mut c_void;
    fn __libc_calloc(number: usize, size: usize) -> *mut c_void;
    fn __libc_realloc(old: *mut c_void, size: usize) -> *mut c_void;
}

/// How often this thread asks for memory while it does the work.
pub fn allocations(work: impl FnOnce()) -> u64 {
    let before = ASKED.get();
    work();
    ASKED.get() - before
}

/// Counts what is known to ask for memory once; an error if that is not what is found.
pub fn control() -> Outcome<()> {
    match allocations(|| drop(black_box(Box::new(1u64)))) {
        1 => Ok(()),
        found => Err(format!("one allocation is counted as {found}")),
    }
}

fn count() {
    ASKED.set(ASKED.get() + 1);
}

/// `malloc` of the C library.
#[unsafe(no_mangle)]
extern "C" fn malloc(size: usize) -> *mut c_void {
    count();
    // SAFETY: any size may be asked for.
    unsafe { __libc_malloc(size) }
}

/// `calloc` of the C library.
#[unsafe(no_mangle)]
extern "C" fn calloc(number: usize, size: usize) -> *mut c_void {
    count();
    // SAFETY: any number and size may be asked for.
    unsafe { __libc_calloc(number, size) }
}

/// `realloc` of the C library.
///
/// # Safety
///
/// `old` is null or was allocated and not freed.
#[unsafe(no_mangle)]
unsafe extern "C" fn realloc(old: *mut c_void, size: usize) -> *mut c_void {
    count();
    // SAFETY: as the caller promises.
    unsafe { __libc_realloc(old, size) }
}

#[cfg(test)]
mod tests {
    use super::*;

    #[test]
    fn an_allocation_is_counted() {
        assert_eq!(control(), Ok(()));
    }

    #[test]
    fn work_without_one_counts_none() {
        assert_eq!(allocations(|| ()), 0);
    }

    #[test]
    fn memory_that_is_zeroed_or_grown_is_counted() {
        let growing = || {
            let mut numbers = vec![0u8; 100];
            numbers.reserve_exact(10_000);
            black_box(numbers);
        };
        assert_eq!(allocations(growing), 2);
    }
}
