//! The units of a section, and what they say of the other sections.

use crate::memory::reserve;
use crate::package::Package;
use crate::relocations::{Fault, Relocations, Why};
use crate::report::{malformed, Result};
use crate::sections::{name_in, DebugFile, Section};
use dwarf_read::{type_units, units, Format, Unit};
use std::borrow::Cow;
use std::collections::{BTreeMap, BTreeSet};
use std::fmt::Display;

/// A section of units, with the relocations that can't be applied.
pub struct Units<'f, 'd> {
    file: &'f DebugFile<'d>,
    pub section: &'f Section<'d>,
    tables: Vec<Relocations<'d>>,
    bytes: Cow<'d, [u8]>,
    faults: Vec<Fault>,
}

impl<'f, 'd> Units<'f, 'd> {
    pub fn read(file: &'f DebugFile<'d>, section: &'f Section<'d>) -> Result<Units<'f, 'd>> {
        let tables = file.relocations_of(section)?;
        let (mut faults, mut kept) = (Vec::new(), Ok(()));
        let bytes = file.relocated(section, &tables, &mut |fault| match reserve(&mut faults, 1) {
            // Those of other bytes don't matter here.
            Ok(()) if fault.why == Why::PastEnd => file.report.error(format_args!("{section} {fault}")),
            Ok(()) => faults.push(fault),
            Err(error) => kept = Err(error),
        })?;
        kept?;
        faults.sort_unstable_by_key(|fault| fault.place);
        Ok(Units { file, section, tables, bytes, faults })
    }

    /// The units, each of which begins where the one before ends. What is wrong with one is reported.
    pub fn iter(&self) -> impl Iterator<Item = Unit<'_>> + '_ {
        let units_of = if self.section.is_one_of(&["debug_types"]) { type_units } else { units };
        let mut units = units_of(&self.bytes, self.file.elf.order());
        std::iter::from_fn(move || loop {
            let offset = units.offset()?;
            match units.next()? {
                Ok(unit) => match self.fault_before(offset, unit.entries_offset()) {
                    None => return Some(unit),
                    Some(fault) => self.error(offset, fault),
                },
                Err(_) if is_padding(&self.bytes[offset..]) => {
                    // Four zero bytes are a unit of no bytes.
                    while units.resume() && units.offset().map_or(false, |at| is_padding(&self.bytes[at..])) {
                        units.next();
                    }
                    let (section, count) = (self.section, units.offset().unwrap_or(offset) - offset);
                    let text = "are zero, and passed over";
                    self.file.report.error(format_args!("the {count} bytes at 0x{offset:x} of {section} {text}"));
                }
                Err(error) if units.resume() => self.error(offset, format_args!("is malformed: {error}")),
                Err(error) => self.error(offset, format_args!("is malformed: {error}, and what follows isn't read")),
            }
        })
    }

    /// The first relocation of a header that isn't applied.
    fn fault_before(&self, start: usize, end: usize) -> Option<&Fault> {
        let first = self.faults.partition_point(|fault| fault.place < start as u64);
        self.faults.get(first).filter(|fault| fault.place < end as u64)
    }

    /// Reports what is wrong with the unit at an offset.
    pub fn error(&self, offset: usize, error: impl Display) {
        self.file.report.error(format_args!("the unit at 0x{offset:x} of {} {error}", self.section));
    }

    /// Which of these sections a unit's table is in: the one that its relocation names.
    fn home<'h>(&self, unit: &Unit<'_>, homes: &[Home<'h, 'd>]) -> Result<Home<'h, 'd>> {
        match homes {
            [] => {
                let name = name_in(self.section.family(), b"debug_abbrev");
                return Err(malformed(format!("names a table, but there is no section {name}")));
            }
            [home] => return Ok(*home),
            _ => {}
        }
        let encoding = unit.encoding();
        let length_bytes = if encoding.format == Format::Dwarf64 { 12 } else { 4 };
        // From DWARF 5 on the unit's type and address size are before the offset of the table.
        let place = unit.offset() as u64 + length_bytes + if encoding.version < 5 { 2 } else { 4 };
        let number = self.tables.iter().find_map(|table| table.section_at(place));
        let found = number.and_then(|number| homes.iter().find(|(home, _)| home.header.number == u64::from(number)));
        found
            .copied()
            .ok_or_else(|| malformed(format!("doesn't say in which of {} sections its table is", homes.len())))
    }

    /// Where a unit's table is in its section: in a package the unit counts from its contribution.
    pub fn table(&self, unit: &Unit<'_>) -> Result<u64> {
        let table = unit.debug_abbrev_offset() as u64;
        let package = match self.file.package_of(self.section.family()) {
            Some(package) => package,
            None => return Ok(table),
        };
        match package.of_unit(self.section.base, unit.offset() as u64, b"debug_abbrev") {
            None => Err(malformed("has no row with a table in the package's index, so its table isn't found")),
            Some(range) if table >= range.end - range.start => {
                let size = range.end - range.start;
                Err(malformed(format!(
                    "names the table at 0x{table:x} of its contribution, which has 0x{size:x} bytes"
                )))
            }
            Some(range) => Ok(range.start + table),
        }
    }
}

/// Whether four zero bytes come first.
pub fn is_padding(bytes: &[u8]) -> bool {
    bytes.starts_with(&[0; 4])
}

/// A section of tables, with its size.
type Home<'h, 'd> = (&'h Section<'d>, u64);

/// The offsets of the tables that units name, by the number of the section of tables.
pub type Tables = BTreeMap<u64, BTreeSet<u64>>;

/// The tables that the units of a file name. An offset past the end of its section is reported.
pub fn tables(file: &DebugFile<'_>) -> Tables {
    let mut found = Tables::new();
    for family in [(false, false), (false, true), (true, false), (true, true)] {
        // An error of such a section is told where it is listed.
        let with_size = |home| (home, file.size(home).unwrap_or(u64::MAX));
        let homes: Vec<Home<'_, '_>> = file.named("debug_abbrev", family).map(with_size).collect();
        // Nothing says where the contributions of a unit are if the indexes have no rows.
        let has_rows = file.package_of(family).map_or(true, Package::has_rows);
        for section in file.units_of(family).filter(|_| has_rows) {
            match Units::read(file, section) {
                Ok(units) => add_tables(&units, &homes, &mut found),
                Err(error) => file.report.error(format_args!("{section} {error}")),
            }
        }
    }
    found
}

fn add_tables(units: &Units<'_, '_>, homes: &[Home<'_, '_>], found: &mut Tables) {
    for unit in units.iter() {
        match units.home(&unit, homes).and_then(|home| Ok((home, units.table(&unit)?))) {
            Ok(((home, size), table)) => {
                let is_first = found.entry(home.header.number).or_default().insert(table);
                if is_first && table > size {
                    let past = "past the end of";
                    units.error(
                        unit.offset(),
                        format_args!("names the table at 0x{table:x}, {past} {home} (0x{size:x} bytes)"),
                    );
                }
            }
            Err(error) => units.error(unit.offset(), error),
        }
    }
}

/// What matters of a unit for its sets: whether these have no header, the size of an address, and of an offset.
#[derive(Debug, Clone, Copy, Default, PartialEq, Eq, PartialOrd, Ord)]
pub struct SetLayout {
    pub has_no_headers: bool,
    pub address_size: u8,
    pub word_size: u8,
}

/// How units use a section of sets, with the offset of what they use, which isn't known of each.
pub type Layouts = BTreeSet<(Option<u64>, SetLayout)>;

/// How units use a section. In a package the rows say what they use, and else it is all.
pub fn layouts(file: &DebugFile<'_>, sets: &Section<'_>) -> Layouts {
    let mut found = Layouts::new();
    let package = file.package_of(sets.family());
    for section in file.units_of(sets.family()) {
        let units = match Units::read(file, section) {
            Ok(units) => units,
            Err(error) => {
                file.report.error(format_args!("{section} {error}"));
                continue;
            }
        };
        for unit in units.iter() {
            let start = match package {
                Some(package) => {
                    package.of_unit(section.base, unit.offset() as u64, sets.base).map(|range| range.start)
                }
                None => Some(0),
            };
            let encoding = unit.encoding();
            let (address_size, word_size) = (encoding.address_size, encoding.format.word_size());
            found.insert((start, SetLayout { has_no_headers: encoding.version < 5, address_size, word_size }));
        }
    }
    found
}
