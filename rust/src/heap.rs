//! The three functions through which the library requests memory, over those of the C library.

use core::ffi::c_void;
use core::ptr::NonNull;

extern "C" {
    fn malloc(size: usize) -> *mut c_void;
    fn realloc(block: *mut c_void, size: usize) -> *mut c_void;
    fn free(block: *mut c_void);
}

/// Whether the allocation succeeded, and the block. `dwarf_read_heap.h` says why it is never null.
#[repr(C)]
pub struct Tried {
    is_block: bool,
    block: NonNull<c_void>,
}

fn tried(block: *mut c_void) -> Tried {
    let block = NonNull::new(block);
    Tried { is_block: block.is_some(), block: block.unwrap_or(NonNull::dangling()) }
}

// A block of no bytes has as many as its alignment, so that null means that the allocation failed.
fn size_of(size: usize, align: usize) -> usize {
    if size == 0 {
        align
    } else {
        size
    }
}

// SAFETY of the three: only the proved code calls them. It passes to the second and the third each block that it got
// from the first two, as long as it has not freed it, and sizes that a block can have.

#[no_mangle]
unsafe extern "C" fn rattle_alloc(size: usize, align: usize) -> Tried {
    tried(malloc(size_of(size, align)))
}

#[no_mangle]
unsafe extern "C" fn rattle_realloc(
    block: *mut c_void, _kept: usize, size: usize, align: usize,
) -> Tried {
    tried(realloc(block, size_of(size, align)))
}

#[no_mangle]
unsafe extern "C" fn rattle_dealloc(block: *mut c_void) {
    free(block)
}

#[cfg(test)]
mod tests {
    use super::*;

    // The pointer that the library gets is never null.
    #[test]
    fn null_is_no_block() {
        let none = tried(core::ptr::null_mut());
        assert!(!none.is_block);
        let mut byte = 0_u8;
        let place: *mut c_void = (&mut byte as *mut u8).cast();
        let one = tried(place);
        assert!(one.is_block && one.block.as_ptr() == place);
    }

    #[test]
    fn a_block_has_its_bytes_and_keeps_them() {
        for (size, align) in [(0, 1), (0, 16), (1, 1), (24, 8), (4096, 16)] {
            assert_eq!(size_of(size, align), if size == 0 { align } else { size });
            // SAFETY: each block has as many bytes as are written, and is freed once.
            unsafe {
                let first = rattle_alloc(size, align);
                assert!(first.is_block && first.block.as_ptr() as usize % align == 0);
                first.block.as_ptr().cast::<u8>().write_bytes(7, size);
                let more = rattle_realloc(first.block.as_ptr(), size, size + 4096, align);
                let bytes = core::slice::from_raw_parts(more.block.as_ptr().cast::<u8>(), size);
                assert!(more.is_block && bytes.iter().all(|it| *it == 7));
                rattle_dealloc(more.block.as_ptr());
            }
        }
    }

    // A block that is larger than what malloc has isn't one.
    #[test]
    fn a_refused_block_is_none() {
        // SAFETY: no block is made, and the first is freed once.
        unsafe {
            assert!(!rattle_alloc(isize::MAX as usize, 8).is_block);
            let block = rattle_alloc(8, 8).block.as_ptr();
            assert!(!rattle_realloc(block, 8, isize::MAX as usize, 8).is_block);
            rattle_dealloc(block);
        }
    }
}
