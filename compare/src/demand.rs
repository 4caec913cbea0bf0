//! Reads the tables of a large section one by one, as a debugger does, in threads, and tells what that takes of the
//! processor's time, the kernel's included, and of page faults. Instructions alone leave the kernel out.

use dwarf_read::{tables, Table};
use gimli::{DebugAbbrev, DebugAbbrevOffset, LittleEndian};
use std::thread;

type Bytes = &'static [u8];
type Places = &'static [usize];
type Reading = fn(Bytes, Places) -> usize;

/// How often each is measured. The median is told.
const TURNS: usize = 5;
/// How often the section follows itself.
const TIMES: usize = 8;

/// The `struct rusage` of Linux.
#[repr(C)]
#[derive(Default)]
struct Usage {
    user: [i64; 2],
    system: [i64; 2],
    memory: [i64; 4],
    faults: i64,
    others: [i64; 9],
}

extern "C" {
    fn getrusage(who: i32, usage: &mut Usage) -> i32;
}

/// The seconds of the processor, and the page faults, of this process up to now.
fn used() -> (f64, i64) {
    let mut usage = Usage::default();
    unsafe { getrusage(0, &mut usage) };
    let seconds = |[whole, millionths]: [i64; 2]| whole as f64 + millionths as f64 / 1e6;
    (seconds(usage.user) + seconds(usage.system), usage.faults)
}

fn here(section: Bytes, offset: usize) -> Table {
    Table::read(section, offset).expect("a table that was read before")
}

fn gimlis(section: Bytes, offset: usize) -> gimli::Abbreviations {
    let section = DebugAbbrev::new(section, LittleEndian);
    section.abbreviations(DebugAbbrevOffset(offset)).expect("a table that was read before")
}

/// What is read: of gimli, and of the crate for Rust.
const WAYS: [(&str, Reading, Reading); 3] = [
    (
        "each on demand",
        |s, o| o.iter().map(|it| std::hint::black_box(gimlis(s, *it)).get(1).is_some() as usize).sum(),
        |s, o| o.iter().map(|it| std::hint::black_box(here(s, *it)).get(1).is_some() as usize).sum(),
    ),
    (
        "each on demand, and kept",
        |s, o| o.iter().map(|it| gimlis(s, *it)).collect::<Vec<_>>().len(),
        |s, o| o.iter().map(|it| here(s, *it)).collect::<Vec<_>>().len(),
    ),
    (
        "by `tables`",
        |s, o| o.iter().map(|it| std::hint::black_box(gimlis(s, *it)).get(1).is_some() as usize).sum(),
        |s, _| tables(s).map_while(Result::ok).filter(|it| std::hint::black_box(it).get(1).is_some()).count(),
    ),
];

/// The median time and the median count of faults of a reading that each of the threads makes, and what it returns.
fn cost(threads: usize, reading: Reading, section: Bytes, offsets: Places) -> (f64, i64, usize) {
    let (mut times, mut faults, mut sum) = (Vec::new(), Vec::new(), 0);
    for _ in 0..TURNS {
        let before = used();
        let all: Vec<_> = (0..threads).map(|_| thread::spawn(move || reading(section, offsets))).collect();
        sum = all.into_iter().map(|it| it.join().expect("a reading doesn't panic")).sum();
        let after = used();
        times.push(after.0 - before.0);
        faults.push(after.1 - before.1);
    }
    times.sort_by(f64::total_cmp);
    faults.sort_unstable();
    (times[TURNS / 2], faults[TURNS / 2], sum)
}

/// Prints a row for each way and count of threads.
pub fn demand(section: &[u8]) -> Result<(), String> {
    let section: Bytes = Vec::leak(section.repeat(TIMES));
    let found: Result<Vec<usize>, _> = tables(section).map(|it| it.map(|it| it.offset())).collect();
    let offsets: Places = Vec::leak(found.map_err(|error| format!("the section has no tables: {error}"))?);
    println!("{} tables in {} bytes", offsets.len(), section.len());
    for (name, gimlis, here) in WAYS {
        for threads in [1, 4] {
            let (gimli, ours) = (cost(threads, gimlis, section, offsets), cost(threads, here, section, offsets));
            if gimli.2 != ours.2 {
                return Err(format!("{name}: gimli has {}, and the library {}", gimli.2, ours.2));
            }
            println!(
                "| {name}, threads: {threads} | {:.3} s | {} | {:.3} s | {} | {:.2} |",
                gimli.0,
                gimli.1,
                ours.0,
                ours.1,
                ours.0 / gimli.0
            );
        }
    }
    Ok(())
}
