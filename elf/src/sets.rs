//! The sets of addresses and of string offsets, with a header or without.

use crate::arguments::Command;
use crate::elf::slice;
use crate::listing::{Listed, Listing};
use crate::report::{malformed, Result};
use crate::sections::Section;
use crate::text::{bits, put_string, put_title};
use crate::units::{is_padding, layouts, Layouts, SetLayout};
use dwarf_read::{address, address_sets, str_offset, str_offset_sets, Error, Format, Set};
use std::collections::BTreeSet;
use std::fmt::Write;
use std::ops::Range;
use std::rc::Rc;

impl<'f, 'd> Listing<'f, 'd> {
    fn has_addresses(&self) -> bool {
        self.request.command == Command::Addr
    }

    /// How units use a section of sets.
    fn layouts_of(&mut self, listed: &Listed<'_, 'd>) -> Rc<Layouts> {
        let (file, section) = (self.file, listed.section);
        let found = self.layouts.entry(section.family()).or_insert_with(|| Rc::new(layouts(file, section)));
        Rc::clone(found)
    }

    /// The contributions that a package's index has to a section, and the parts between them. What is wrong with them is
    /// reported. Of a file that is no package it is the whole section.
    pub fn check_contributions(&self, listed: &Listed<'_, 'd>) -> Result<Vec<Range<u64>>> {
        let (section, len) = (listed.section, listed.len());
        let mut ranges = Vec::new();
        let package = match self.file.package_of(section.family()) {
            Some(package) => package,
            None => {
                ranges.push(0..len);
                return Ok(ranges);
            }
        };
        let is_same = |other: &&Section<'_>| other.base == section.base && other.family() == section.family();
        if self.file.sections.iter().filter(is_same).nth(1).is_some() {
            return Err(malformed("is one of several such sections, and the index doesn't say which it is for"));
        }
        let mut end = 0;
        let contributions = package.contributions(section.base)?;
        let contributions = contributions.into_iter().map(|(start, size)| (u64::from(start), u64::from(size)));
        for (start, size) in contributions.chain([(len, 0)]) {
            if start > end {
                let part = format!("from 0x{end:x} to 0x{start:x}");
                self.report.error(format_args!("{section}: no row of the index has the bytes {part}"));
                ranges.push(end.min(len)..start.min(len));
            }
            if start + size > len {
                self.report.error(format_args!("{section}: the contribution at 0x{start:x} is past the end"));
            }
            if start < end && size > 0 {
                self.report.error(format_args!("{section}: the contribution at 0x{start:x} begins in another one"));
            } else {
                ranges.push(start.min(len)..len.min(start + size));
            }
            end = end.max(start + size);
        }
        Ok(ranges)
    }

    /// Lists the sets in turn, unless some have no header, or one is malformed and an index has the others.
    pub fn list_sets(&mut self, listed: &Listed<'_, 'd>) -> Result<()> {
        let layouts = self.layouts_of(listed);
        let has_none = |(_, layout): &(Option<u64>, SetLayout)| layout.has_no_headers;
        let some_have_none = layouts.iter().any(has_none);
        let all_have_none = some_have_none && layouts.iter().all(has_none);
        let is_package = self.file.package_of(listed.section.family()).is_some();
        if !some_have_none && !is_package || !all_have_none && self.are_well_formed(listed) {
            return self.list_sets_in(listed, 0..listed.len());
        }
        for range in self.check_contributions(listed)? {
            self.list_contribution(listed, &layouts, range, some_have_none)?;
        }
        Ok(())
    }

    // Lists the sets of a contribution by the units that use it.
    fn list_contribution(
        &self, listed: &Listed<'_, 'd>, layouts: &Layouts, range: Range<u64>, needs_unit: bool,
    ) -> Result<()> {
        let start = Some(range.start);
        let own = layouts.range((start, SetLayout::default())..).take_while(|(of, _)| *of == start);
        let own = own.map(|(_, layout)| *layout);
        let own: BTreeSet<SetLayout> = own.collect();
        let count = own.iter().filter(|layout| layout.has_no_headers).count();
        if count == 0 {
            // Of bytes that no unit uses it isn't known whether they have a header.
            return if own.is_empty() && needs_unit { Ok(()) } else { self.list_sets_in(listed, range) };
        }
        if count < own.len() {
            let why = "since a unit of DWARF 4 may have them, as a set without a header";
            let part = format!("from 0x{:x} to 0x{:x}", range.start, range.end);
            self.report.error(format_args!("{}: the bytes {part} aren't listed, {why}", listed.section));
            return Ok(());
        }
        match self.size_of_entries(listed, &own) {
            Some(size) => self.list_entries(listed, range, size),
            None => Ok(()),
        }
    }

    /// The size of the entries of these units, which are of DWARF 4 and have no header. `None`, and a report, if the
    /// units differ about it.
    fn size_of_entries(&self, listed: &Listed<'_, 'd>, layouts: &BTreeSet<SetLayout>) -> Option<u8> {
        let (section, has_addresses) = (listed.section, self.has_addresses());
        let size = |layout: &SetLayout| if has_addresses { layout.address_size } else { layout.word_size };
        let sizes: BTreeSet<u8> = layouts.iter().map(size).collect();
        let about = if has_addresses { "address size" } else { "format" };
        let name = |size: &u8| if has_addresses { size.to_string() } else { format!("{}-bit", 8 * size) };
        let names = sizes.iter().map(name).collect::<Vec<_>>().join(" and ");
        if sizes.len() > 1 {
            let text = format!("has no headers, and isn't listed: the units' {about} is {names}");
            self.report.error(format_args!("{section} {text}"));
            return None;
        }
        let how = format!("as in DWARF 4, and is listed by the units' {about}, {names}");
        self.report.warn(format_args!("{section} has no headers, {how}"));
        sizes.into_iter().next()
    }

    // Lists the sets of a part of a section, in turn.
    fn list_sets_in(&self, listed: &Listed<'_, 'd>, range: Range<u64>) -> Result<()> {
        for (at, set) in self.sets(listed, range) {
            match set {
                Ok(set) => self.list_set(listed, at, &set)?,
                Err(error) => self.error(listed, at, &error),
            }
        }
        Ok(())
    }

    /// Whether all sets of a section, in turn, are well formed.
    fn are_well_formed(&self, listed: &Listed<'_, 'd>) -> bool {
        self.sets(listed, 0..listed.len()).all(|(_, set)| set.is_ok())
    }

    // The sets of a part of a section, in turn, with their offsets. Groups of four zero bytes are padding, and a malformed
    // set hides none after it.
    fn sets<'l>(
        &self, listed: &Listed<'l, 'd>, range: Range<u64>,
    ) -> impl Iterator<Item = (u64, std::result::Result<Set<'l>, Error>)> {
        let bytes = &listed.bytes[range.start as usize..range.end as usize];
        let sets_of = if self.has_addresses() { address_sets } else { str_offset_sets };
        let mut sets = sets_of(bytes, self.file.elf.order());
        std::iter::from_fn(move || loop {
            let at = sets.offset()?;
            let set = sets.next()?;
            if set.is_err() {
                sets.resume();
            }
            if !is_padding(&bytes[at..]) {
                // An entry that the set's end cuts is an error.
                let set =
                    set.and_then(|set| set.entries().nth(set.entry_count()).map_or(Ok(set), |cut| cut.map(|_| set)));
                return Some((range.start + at as u64, set));
            }
        })
    }

    fn list_set(&self, listed: &Listed<'_, 'd>, at: u64, set: &Set<'_>) -> Result<()> {
        self.report.expect_room()?;
        {
            let output = &mut self.report.output();
            put_title(output, "set ", at, "");
            let _ = write!(output, ": length {}, {}-bit", set.unit_length(), bits(set.format()));
            if self.has_addresses() {
                let _ = write!(output, ", address size {}", set.entry_size());
            }
            output.put(b"\n");
        }
        self.list_each(listed, set.entries().flatten())
    }

    // Lists the entries of a size in a part of a section, which has no header. The last may be cut.
    fn list_entries(&self, listed: &Listed<'_, 'd>, range: Range<u64>, size: u8) -> Result<()> {
        self.report.expect_room()?;
        let bytes = slice(listed.bytes, 0, range.end);
        let (order, base) = (self.file.elf.order(), range.start as usize);
        let count = (range.end - range.start) / u64::from(size);
        let format = if size == 8 { Format::Dwarf64 } else { Format::Dwarf32 };
        let entry = |index| match self.has_addresses() {
            true => address(bytes, order, size, base, index),
            false => str_offset(bytes, order, format, base, index).map(|offset| offset as u64),
        };
        let end = range.start + count * u64::from(size);
        if count > 0 {
            let length = end - range.start;
            let output = &mut self.report.output();
            put_title(output, "set ", range.start, ": no header, ");
            let _ = match self.has_addresses() {
                true => writeln!(output, "{length} bytes, address size {size}"),
                false => writeln!(output, "{length} bytes, {}-bit", bits(format)),
            };
        }
        self.list_each(listed, (0..count).flat_map(entry))?;
        if end < range.end {
            let _ = entry(count).map_err(|error| self.error(listed, end, &error));
        }
        Ok(())
    }

    // Lists addresses, or string offsets, maybe with their strings.
    fn list_each(&self, listed: &Listed<'_, 'd>, entries: impl Iterator<Item = u64>) -> Result<()> {
        for entry in entries {
            let mut output = self.report.output();
            output.put(b"  0x");
            output.put_hexadecimal(entry);
            match listed.strings.map(|strings| dwarf_read::string(strings, entry as usize)) {
                None => output.put(b"\n"),
                Some(Ok(string)) => {
                    output.put(b": ");
                    put_string(&mut output, string);
                    drop(output);
                    self.report.expect_room()?;
                }
                Some(Err(error)) => {
                    output.put(b"\n");
                    drop(output);
                    let section = listed.section;
                    self.report.error(format_args!("{section}: error at 0x{entry:x} of the strings: {error}"));
                }
            }
        }
        Ok(())
    }
}
