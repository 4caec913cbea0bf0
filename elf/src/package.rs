//! The indexes of a package of split objects.

use crate::elf::number_of;
use crate::memory::reserve;
use crate::order::Order;
use crate::report::{malformed, unlisted, Result};
use object::Endianness;
use std::borrow::Cow;
use std::ops::Range;

/// The sections that have contributions, and the columns of theirs in the index: DW_SECT_INFO, DW_SECT_TYPES,
/// DW_SECT_ABBREV and DW_SECT_STR_OFFSETS. The other columns aren't needed here.
const COLUMNS: [(&str, u64); 4] =
    [("debug_info", 1), ("debug_types", 2), ("debug_abbrev", 3), ("debug_str_offsets", 6)];

fn column(base: &[u8]) -> Option<usize> {
    COLUMNS.iter().position(|(name, _)| name.as_bytes() == base)
}

/// The indexes of a package.
#[derive(Debug)]
pub struct Package<'d> {
    // A row is for a unit, so there aren't more.
    most_rows: u64,
    indexes: Vec<Index<'d>>,
}

/// An index, whose rows say where the contributions of a unit are, or of the units of a type. They stay where they are,
/// since there may be millions.
#[derive(Debug)]
struct Index<'d> {
    body: Cow<'d, [u8]>,
    endian: Endianness,
    column_count: u64,
    row_count: u32,
    // The column of each section, and that of the section of units.
    columns: [Option<u64>; COLUMNS.len()],
    units: usize,
    // Where the offsets begin, and the sizes.
    offsets: u64,
    sizes: u64,
    // The order of where the units of the rows begin.
    order: Order,
}

impl<'d> Package<'d> {
    pub fn new(most_rows: u64) -> Package<'d> {
        Package { most_rows, indexes: Vec::new() }
    }

    pub fn has_rows(&self) -> bool {
        self.indexes.iter().any(|index| index.row_count > 0)
    }

    /// The contribution to a section of the unit at an offset of a section of units. Of several rows for units at one
    /// place the last counts.
    pub fn of_unit(&self, units: &[u8], offset: u64, base: &[u8]) -> Option<Range<u64>> {
        let (units, wanted) = (column(units)?, column(base)?);
        let found = self.indexes.iter().rev().filter(|index| index.units == units).find_map(|index| index.row(offset));
        found.and_then(|(index, row)| index.contribution(row, wanted))
    }

    /// Where the contributions to a section are, in order, each once.
    pub fn contributions(&self, base: &[u8]) -> Result<Vec<(u32, u32)>> {
        let mut found = Vec::new();
        let wanted = match column(base) {
            Some(wanted) => wanted,
            None => return Ok(found),
        };
        for index in &self.indexes {
            reserve(&mut found, index.row_count as usize)?;
            let ranges = (0..index.row_count).filter_map(|row| index.contribution(row, wanted));
            found.extend(ranges.map(|range| (range.start as u32, (range.end - range.start) as u32)));
        }
        found.sort_unstable();
        found.dedup();
        Ok(found)
    }

    /// Adds an index. Its hash table isn't needed to list all.
    pub fn add(&mut self, body: Cow<'d, [u8]>, endian: Endianness) -> Result<()> {
        let number = |at: usize| number_of(body.get(at..at + 4).unwrap_or_default(), endian);
        // One is for compilation units, and one for type units.
        if self.indexes.len() == 2 {
            return Err(malformed("is a third index, and isn't read"));
        }
        if body.len() < 16 {
            return Err(malformed("is too short for its header"));
        }
        // From DWARF 5 on the version has two bytes, and padding follows.
        let short = number_of(&body[..2], endian);
        let is_new = number(0) != 2;
        if is_new && short != 5 {
            return Err(unlisted(format!("has the unknown version {short}, and isn't read")));
        }
        let (column_count, rows, slots) = (number(4), number(8), number(12));
        // The products are less than 2^68 together, so they are counted wide.
        let table = |count: u64| 4 * u128::from(column_count) * u128::from(count);
        let columns_at = 16 + 12 * u128::from(slots);
        if columns_at + table(1) + 2 * table(rows) > body.len() as u128 {
            return Err(malformed(format!("is too short for its {slots} slots and {rows} rows, and isn't read")));
        }
        if rows > 0 && column_count == 0 {
            return Err(malformed("has no columns, and isn't read"));
        }
        if rows > self.most_rows {
            let most = self.most_rows;
            return Err(malformed(format!("has {rows} rows, and isn't read: the units are at most {most}")));
        }
        // All these are places in the body now.
        let mut columns = [None; COLUMNS.len()];
        for at in 0..column_count {
            let found = number((columns_at as u64 + 4 * at) as usize);
            // DWARF 5 has no section of types, and the column's number is reserved.
            if let Some(known) = COLUMNS.iter().position(|(_, id)| *id == found && (*id != 2 || !is_new)) {
                columns[known] = Some(at);
            }
        }
        let units = usize::from(columns[0].is_none());
        let (row_count, offsets) = (rows as u32, (columns_at + table(1)) as u64);
        let sizes = offsets + table(rows) as u64;
        let mut index =
            Index { body, endian, column_count, row_count, columns, units, offsets, sizes, order: Order::default() };
        index.order = Order::new(row_count, |row| index.start(row))?;
        self.indexes.push(index);
        Ok(())
    }
}

impl Index<'_> {
    /// The contribution of a row to a section.
    fn contribution(&self, row: u32, wanted: usize) -> Option<Range<u64>> {
        let at = (u64::from(row) * self.column_count + self.columns[wanted]?) * 4;
        let number = |table: u64| number_of(&self.body[(table + at) as usize..][..4], self.endian);
        let start = number(self.offsets);
        Some(start..start + number(self.sizes))
    }

    /// Where the units of a row begin.
    fn start(&self, row: u32) -> u64 {
        self.contribution(row, self.units).map_or(0, |range| range.start)
    }

    /// The row of the unit at an offset.
    fn row(&self, offset: u64) -> Option<(&Self, u32)> {
        let row = self.order.split(|row| self.start(row) <= offset).0?;
        self.contribution(row, self.units).filter(|range| range.contains(&offset)).map(|_| (self, row))
    }
}
