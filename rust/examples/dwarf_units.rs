//! Prints a line for each unit of a little-endian `.debug_info`: its offset, version and address
//! size, how many abbreviations its table has, and the tag of its first entry. Units may share a
//! table, which is then read once.
//!
//! ```text
//! dwarf_units DEBUG_INFO DEBUG_ABBREV    two files, each with the bytes of a section
//! ```

use dwarf_read::{uleb128, units, ByteOrder, Table, Unit};
use std::collections::btree_map::{BTreeMap, Entry};
use std::error::Error;
use std::process::ExitCode;

/// The tables that were read, by their offsets.
struct Tables<'s> {
    debug_abbrev: &'s [u8],
    read: BTreeMap<usize, Table>,
}

impl Tables<'_> {
    fn of(&mut self, unit: &Unit) -> dwarf_read::Result<&Table> {
        let offset = unit.debug_abbrev_offset();
        match self.read.entry(offset) {
            Entry::Occupied(it) => Ok(it.into_mut()),
            Entry::Vacant(it) => Ok(it.insert(Table::read(self.debug_abbrev, offset)?)),
        }
    }
}

fn print_units(debug_info: &[u8], debug_abbrev: &[u8]) -> dwarf_read::Result<()> {
    let mut tables = Tables { debug_abbrev, read: BTreeMap::new() };
    for unit in units(debug_info, ByteOrder::Little) {
        let unit = unit?;
        let table = tables.of(&unit)?;
        let (code, _) = uleb128(unit.entries())?;
        let tag = table.get(code).and_then(|it| it.tag().static_string());
        let encoding = unit.encoding();
        println!(
            "unit at {}: version {}, address size {}, {} abbreviations, {}",
            unit.offset(),
            encoding.version,
            encoding.address_size,
            table.len(),
            tag.unwrap_or("unnamed")
        );
    }
    Ok(())
}

fn main() -> Result<ExitCode, Box<dyn Error>> {
    let words: Vec<String> = std::env::args().skip(1).collect();
    if let [debug_info, debug_abbrev] = words.as_slice() {
        print_units(&std::fs::read(debug_info)?, &std::fs::read(debug_abbrev)?)?;
        Ok(ExitCode::SUCCESS)
    } else {
        eprintln!("usage: dwarf_units DEBUG_INFO DEBUG_ABBREV");
        Ok(ExitCode::from(2))
    }
}
