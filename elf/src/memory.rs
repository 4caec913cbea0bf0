//! What happens if memory runs out: what may be large is an error, and all else ends the run with a line and status 1.

use crate::report::{Error, Result, WRONG_FILE};
use std::alloc::{GlobalAlloc, Layout, System};
use std::io::{self, Write};
use std::sync::atomic::{AtomicBool, Ordering::Relaxed};

/// Makes room for that many more items, or says that memory ran out.
pub fn reserve<T>(items: &mut Vec<T>, count: usize) -> Result<()> {
    fallible(|| items.try_reserve(count)).map_err(|_| Error::NoMemory)
}

/// A copy of these bytes.
pub fn copied(bytes: &[u8]) -> Result<Vec<u8>> {
    let mut copy = Vec::new();
    fallible(|| copy.try_reserve_exact(bytes.len())).map_err(|_| Error::NoMemory)?;
    copy.extend_from_slice(bytes);
    Ok(copy)
}

static MAY_FAIL: AtomicBool = AtomicBool::new(false);

/// Makes a call that handles requests for memory that fail.
pub fn fallible<T>(call: impl FnOnce() -> T) -> T {
    MAY_FAIL.store(true, Relaxed);
    let result = call();
    MAY_FAIL.store(false, Relaxed);
    result
}

/// The system's allocator. Rust would end the run by a signal.
struct Allocator;

#[global_allocator]
static ALLOCATOR: Allocator = Allocator;

fn expect(block: *mut u8) -> *mut u8 {
    if block.is_null() && !MAY_FAIL.swap(true, Relaxed) {
        let _ = io::stderr().write_all(b"dwarf_elf: memory ran out\n");
        std::process::exit(WRONG_FILE.into());
    }
    block
}

// SAFETY: each call is the system's, with its arguments.
#[allow(unsafe_code)]
unsafe impl GlobalAlloc for Allocator {
    unsafe fn alloc(&self, layout: Layout) -> *mut u8 {
        expect(System.alloc(layout))
    }

    unsafe fn alloc_zeroed(&self, layout: Layout) -> *mut u8 {
        expect(System.alloc_zeroed(layout))
    }

    unsafe fn realloc(&self, block: *mut u8, layout: Layout, size: usize) -> *mut u8 {
        expect(System.realloc(block, layout, size))
    }

    unsafe fn dealloc(&self, block: *mut u8, layout: Layout) {
        System.dealloc(block, layout);
    }
}
