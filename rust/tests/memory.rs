//! What a table takes of memory, by an allocator that counts, and that can refuse large blocks.

use dwarf_read::{tables, ErrorKind, Table};
use std::alloc::{GlobalAlloc, Layout, System};
use std::cell::Cell;

struct Counting;

// Those of a test, which has a thread of its own: how many bytes it keeps, how many blocks it has
// requested, other than those of another size, and how large a block may be.
thread_local! {
    static KEPT: Cell<usize> = const { Cell::new(0) };
    static BLOCKS: Cell<usize> = const { Cell::new(0) };
    static LIMIT: Cell<usize> = const { Cell::new(usize::MAX) };
}

unsafe impl GlobalAlloc for Counting {
    unsafe fn alloc(&self, layout: Layout) -> *mut u8 {
        if layout.size() > LIMIT.with(Cell::get) {
            return std::ptr::null_mut();
        }
        BLOCKS.with(|it| it.set(it.get() + 1));
        KEPT.with(|it| it.set(it.get().wrapping_add(layout.size())));
        System.alloc(layout)
    }

    unsafe fn dealloc(&self, block: *mut u8, layout: Layout) {
        KEPT.with(|it| it.set(it.get().wrapping_sub(layout.size())));
        System.dealloc(block, layout)
    }

    unsafe fn realloc(&self, block: *mut u8, layout: Layout, size: usize) -> *mut u8 {
        if size > LIMIT.with(Cell::get) {
            return std::ptr::null_mut();
        }
        KEPT.with(|it| it.set(it.get().wrapping_sub(layout.size()).wrapping_add(size)));
        System.realloc(block, layout, size)
    }
}

#[global_allocator]
static ALLOCATOR: Counting = Counting;

// Bytes of an abbreviation, and of an attribute.
const ROW: usize = 32;
const ATTRIBUTE: usize = 16;

// A table with the codes from 1 to the count, of which each has one attribute.
fn counting(count: u8) -> Vec<u8> {
    (1..=count).flat_map(|it| [it, 0x2e, 0, 3, 8, 0, 0]).chain([0]).collect()
}

// What a call returns, how many blocks it requests, and how many bytes it keeps.
fn counted<T>(call: impl FnOnce() -> T) -> (T, usize, usize) {
    let (blocks, kept) = (BLOCKS.with(Cell::get), KEPT.with(Cell::get));
    let made = call();
    (made, BLOCKS.with(Cell::get) - blocks, KEPT.with(Cell::get).wrapping_sub(kept))
}

#[test]
fn a_table_keeps_what_it_needs() {
    // A table that fills its section, and one after which the section has much more. What needs less
    // than half of its room is copied: the attributes of the first, and all of the second.
    for (section, count, wanted) in
        [(counting(100), 100, 3), ([counting(3), vec![0; 10_000]].concat(), 3, 4)]
    {
        let (table, blocks, kept) = counted(|| Table::read(&section, 0).unwrap());
        assert_eq!((table.len(), kept), (count, count * (ROW + ATTRIBUTE)));
        assert_eq!(blocks, wanted);
    }
}

// The room that is made at first, however large the section is.
const USUAL: usize = 8000 * ROW + 32000 * ATTRIBUTE;

#[test]
fn a_large_section_takes_no_more_than_a_small_one() {
    let section = [counting(3), vec![0; 1_000_000]].concat();
    let mut again = Table::default();
    LIMIT.with(|it| it.set(32000 * ATTRIBUTE));
    let (table, blocks, kept) = counted(|| Table::read(&section, 0).unwrap());
    let ((), more, more_kept) = counted(|| again.read_again(&section, 0).unwrap());
    LIMIT.with(|it| it.set(usize::MAX));
    assert_eq!((table.len(), blocks, kept), (3, 4, 3 * (ROW + ATTRIBUTE)));
    assert_eq!((again.len(), more, more_kept), (3, 2, USUAL));
}

#[test]
fn reading_again_reserves_nothing() {
    let section = [counting(3), counting(100), counting(50)].concat();
    let mut table = Table::read(&[], 0).unwrap();
    let ((), blocks, kept) = counted(|| table.read_again(&section, 0).unwrap());
    assert_eq!((blocks, kept), (2, section.len() / 5 * ROW + section.len() / 2 * ATTRIBUTE));
    for count in [100, 50] {
        let end = table.end();
        let ((), blocks, _) = counted(|| table.read_again(&section, end).unwrap());
        assert_eq!((blocks, table.len()), (0, count));
    }
}

#[test]
fn tables_keep_what_they_need() {
    let section = [counting(3), counting(50), vec![0], counting(100)].concat();
    let mut all = Vec::with_capacity(4);
    let ((), blocks, kept) = counted(|| all.extend(tables(&section).map(Result::unwrap)));
    assert_eq!(all.iter().map(Table::len).collect::<Vec<_>>(), [3, 50, 0, 100]);
    assert_eq!(kept, 153 * (ROW + ATTRIBUTE));
    // Two blocks of room, and two for each copy that isn't empty.
    assert_eq!(blocks, 2 + 2 * 3);
}

#[test]
fn a_table_is_read_in_little_memory() {
    let section = [counting(3), vec![0; 10_000]].concat();
    let wanted = Table::read(&section, 0).unwrap();
    for (limit, is_enough) in [(3 * ROW, true), (3 * ROW - 1, false)] {
        let mut again = Table::read(&[], 0).unwrap();
        LIMIT.with(|it| it.set(limit));
        let found = [
            Table::read(&section, 0),
            again.read_again(&section, 0).map(|()| again.clone()),
            tables(&section).next().unwrap(),
        ];
        LIMIT.with(|it| it.set(usize::MAX));
        for it in found {
            match it {
                Ok(table) => assert!(is_enough && table == wanted),
                Err(error) => assert!(!is_enough && error.kind() == ErrorKind::OutOfMemory),
            }
        }
    }
    LIMIT.with(|it| it.set(3 * ROW - 1));
    let mut all = tables(&section);
    let (first, second) = (all.next().unwrap().is_err(), all.next().is_none());
    LIMIT.with(|it| it.set(usize::MAX));
    assert!(first && second);
}
