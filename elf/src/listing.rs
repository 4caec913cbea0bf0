//! What is listed of the debug sections of a file.

use crate::arguments::{Command, Request};
use crate::elf::slice;
use crate::memory::fallible;
use crate::report::{malformed, unlisted, Report, Result, LINES};
use crate::sections::{is_relocations, DebugFile, Family, Section};
use crate::text::{plain, put_string, put_table, put_title, put_unit};
use crate::units::{is_padding, tables, Layouts, Tables, Units};
use dwarf_read::{Error, ErrorKind, Table};
use std::borrow::Cow;
use std::collections::{BTreeMap, BTreeSet};
use std::fmt::Write;
use std::ops::Range;
use std::os::unix::ffi::OsStrExt;
use std::rc::Rc;

/// A table may have this many bytes. What it is read into takes sixteen times as many.
const TABLE_BYTES: u64 = 1 << 22;
/// The malformed tables of a section, each of which may be read to the section's end, may have this many together.
const MALFORMED_BYTES: u64 = 1 << 27;

/// The sections that are listed.
pub fn sections_of<'f, 'd>(file: &'f DebugFile<'d>, request: &Request) -> Vec<&'f Section<'d>> {
    let bases = request.command.bases();
    let is_listed = |section: &&Section<'d>| {
        (bases.is_empty() || section.is_one_of(bases))
            && is_requested(request, section.header.number, || section.name())
    };
    file.sections.iter().filter(is_listed).collect()
}

/// Whether a section may be listed by its name or its number.
fn is_requested(request: &Request, number: u64, name: impl FnOnce() -> String) -> bool {
    let word = request.section.as_ref().map(|word| word.to_string_lossy());
    word.map_or(true, |word| word.parse() == Ok(number) || word == name())
}

/// What is said of a file without such sections, or with such that aren't of DWARF.
pub fn missing_sections(request: &Request, has_others: bool) -> String {
    let names: Vec<String> = request.command.bases().iter().map(|base| format!(".{base}")).collect();
    let names = names.join(" or ");
    match &request.section {
        Some(word) if names.is_empty() => format!("there is no debug section {}", plain(word.as_bytes())),
        Some(word) => format!("there is no section {} that is a {names}", plain(word.as_bytes())),
        None if has_others => "the file has no debug sections but those of a debugger".to_owned(),
        None if names.is_empty() => "the file has no debug sections".to_owned(),
        None => format!("there is no section {names}"),
    }
}

/// Lists what a command requests of a file.
pub fn list(file: &DebugFile<'_>, request: &Request) {
    let sections = sections_of(file, request);
    if request.command == Command::Sections {
        return list_sizes(file, request);
    }
    let named = match (request.command, request.offset) {
        (Command::Abbrev, None) => tables(file),
        _ => Tables::new(),
    };
    let (buffer, strings, layouts) = (Table::default(), BTreeMap::new(), BTreeMap::new());
    let mut listing = Listing { file, request, report: file.report, buffer, strings, layouts };
    for section in &sections {
        if let Err(error) = listing.list(section, sections.len() > 1, &named) {
            file.report.error(format_args!("{section} {error}"));
        }
    }
}

/// Lists the names of the sections and of their relocations, with how many bytes they have inflated and in the file.
fn list_sizes(file: &DebugFile<'_>, request: &Request) {
    let (mut sum, mut sum_stored) = (0_u64, 0_u64);
    for header in &file.elf.headers {
        let section = file.section(header.number);
        let is_own = section.is_some() || is_relocations(header) && file.section(header.info.into()).is_some();
        let name = section.map_or_else(|| header.name.escape_ascii().to_string(), Section::name);
        if !is_own || !is_requested(request, header.number, || name.clone()) {
            continue;
        }
        let raw = file.elf.raw(header);
        let stored = raw.len() as u64;
        // Those of a debugger are in the program, and have no bytes in its debug file.
        let dwarf = section.filter(|section| section.is_dwarf());
        let size = dwarf.map_or(Ok(stored), |section| file.size(section)).unwrap_or_else(|error| {
            file.report.error(format_args!("section {} {name} {error}", header.number));
            // What the header says of bytes that can't be inflated.
            file.elf.compression(raw).ok().filter(|_| header.is_compressed()).map_or(0, |found| found.1)
        });
        let _ = writeln!(file.report.output(), "{name:32} {size:12} {stored:12}");
        sum = sum.saturating_add(size);
        sum_stored += stored;
    }
    let len = file.elf.whole.len();
    let share = sum_stored as f64 * 100.0 / len as f64;
    let _ = writeln!(file.report.output(), "{:32} {sum:12} {sum_stored:12}  {share:.1} % of {len}", "total");
}

/// The listing of a file.
pub struct Listing<'f, 'd> {
    pub file: &'f DebugFile<'d>,
    pub request: &'f Request,
    pub report: &'d Report,
    // The table that was read last, in whose memory the next is read.
    buffer: Table,
    // The strings that string offsets are listed with, and how units use sets, for each family of sections.
    strings: BTreeMap<Family, Strings<'d>>,
    pub layouts: BTreeMap<Family, Rc<Layouts>>,
}

/// The strings of string offsets, unless they can't be read.
type Strings<'d> = Option<Rc<Cow<'d, [u8]>>>;

/// A section, with the bytes that are listed.
pub struct Listed<'l, 'd> {
    pub section: &'l Section<'d>,
    pub bytes: &'l [u8],
    pub strings: Option<&'l [u8]>,
}

impl Listed<'_, '_> {
    pub fn len(&self) -> u64 {
        self.bytes.len() as u64
    }
}

impl<'f, 'd> Listing<'f, 'd> {
    fn list(&mut self, section: &'f Section<'d>, is_titled: bool, named: &Tables) -> Result<()> {
        if self.request.command == Command::Units {
            let units = Units::read(self.file, section)?;
            self.put_title_of(section, is_titled);
            return self.list_units(&units);
        }
        let bytes = self.file.data(section)?;
        self.put_title_of(section, is_titled);
        let strings = if self.request.has_strings { self.strings_of(section) } else { None };
        let strings = strings.as_ref().map(|strings| &strings[..]);
        let listed = Listed { section, bytes: &bytes, strings };
        match (self.request.command, self.request.offset) {
            (Command::Abbrev, Some(offset)) => self.list_table(&listed, listed.len(), offset).map(drop),
            (Command::Abbrev, None) => self.list_tables(&listed, named.get(&section.header.number)),
            (Command::Addr | Command::StrOffsets, _) => self.list_sets(&listed),
            (_, Some(offset)) => self.list_string(&listed, offset).map(drop),
            (_, None) => self.list_strings(&listed),
        }
    }

    fn put_title_of(&self, section: &Section<'d>, is_titled: bool) {
        if is_titled {
            let _ = writeln!(self.report.output(), "{section}:");
        }
    }

    /// Reports what is wrong at an offset of a section.
    pub fn error(&self, listed: &Listed<'_, 'd>, at: u64, error: &Error) {
        self.report.error(format_args!("{}: error at 0x{at:x}: {error}", listed.section));
    }

    fn list_units(&self, units: &Units<'_, 'd>) -> Result<()> {
        for unit in units.iter() {
            self.report.expect_room()?;
            let table = units.table(&unit).map_err(|error| units.error(unit.offset(), error)).ok();
            put_unit(&mut self.report.output(), &unit, table);
        }
        Ok(())
    }

    fn list_strings(&self, listed: &Listed<'_, 'd>) -> Result<()> {
        let mut at = 0;
        while at < listed.len() {
            at = self.list_string(listed, at)?;
        }
        Ok(())
    }

    // Lists the string at an offset, and returns where the next one may begin.
    fn list_string(&self, listed: &Listed<'_, 'd>, at: u64) -> Result<u64> {
        self.report.expect_room()?;
        match dwarf_read::string(listed.bytes, at as usize) {
            Ok(string) => {
                let output = &mut self.report.output();
                put_title(output, "", at, ": ");
                put_string(output, string);
                Ok(at + string.len() as u64 + 1)
            }
            Err(error) => {
                self.error(listed, at, &error);
                Ok(listed.len())
            }
        }
    }

    /// Lists the table at an offset, in a section that ends there. Returns where it ends, if that is known.
    fn list_table(&mut self, listed: &Listed<'_, 'd>, end: u64, at: u64) -> Result<Option<u64>> {
        self.report.expect_room()?;
        let bytes = slice(listed.bytes, 0, end.min(at.saturating_add(TABLE_BYTES)));
        let read = fallible(|| self.buffer.read_again(bytes, at as usize));
        let is_cut = match &read {
            Ok(()) => !self.buffer.is_closed_by_null(),
            Err(error) => error.kind() == ErrorKind::UnexpectedEof,
        };
        if is_cut && at <= end && (bytes.len() as u64) < end {
            let what = format!("the table at 0x{at:x} has more than {TABLE_BYTES} bytes");
            self.report.error(format_args!("{}: {what}, and isn't listed", listed.section));
            return Ok(None);
        }
        if let Err(error) = read {
            self.error(listed, at, &error);
            return Ok(None);
        }
        let output = &mut self.report.output();
        put_title(output, "table ", at, ":\n");
        put_table(output, &self.buffer);
        Ok(Some(self.buffer.end() as u64))
    }

    // Lists the tables of a part of a section that follow each other.
    fn list_tables_in(&mut self, listed: &Listed<'_, 'd>, range: Range<u64>) -> Result<()> {
        let mut at = range.start;
        while at < range.end {
            at = if is_padding(&listed.bytes[at as usize..range.end as usize]) {
                at + 4
            } else {
                self.list_table(listed, range.end, at)?.unwrap_or(range.end)
            };
        }
        Ok(())
    }

    /// Lists the tables that units name, and then maybe those in other bytes. Without such tables those are listed that
    /// follow each other.
    fn list_tables(&mut self, listed: &Listed<'_, 'd>, named: Option<&BTreeSet<u64>>) -> Result<()> {
        let (section, len) = (listed.section, listed.len());
        let named = match named {
            Some(named) => named,
            None => {
                let what = format!("no unit names a table of {section}");
                self.report.warn(format_args!("{what}, so the tables are listed in turn, from 0x0 on"));
                return self.list_tables_in(listed, 0..len);
            }
        };
        self.check_contributions(listed)?;
        let mut offsets = named.range(..=len).copied().peekable();
        let mut others = Vec::new();
        let (mut end, mut malformed_bytes) = (0, 0);
        while let Some(at) = offsets.next() {
            if at > end {
                others.push(end..at);
            }
            let next = self.list_table(listed, len, at)?;
            if next.is_none() {
                malformed_bytes += TABLE_BYTES.min(len - at);
            }
            if malformed_bytes > MALFORMED_BYTES {
                self.report.warn(format_args!("{section} has too many malformed tables, and the rest isn't listed"));
                return Ok(());
            }
            // Where a malformed table ends isn't known, so it counts up to the next one.
            let following = offsets.peek().copied().unwrap_or(len);
            end = end.max(next.unwrap_or(following));
        }
        if len > end {
            others.push(end..len);
        }
        self.list_others(listed, others)
    }

    // Says which parts of a section no unit names, and lists them if that is requested.
    fn list_others(&mut self, listed: &Listed<'_, 'd>, others: Vec<Range<u64>>) -> Result<()> {
        let how = if self.request.lists_all { "" } else { ", and --all lists the tables there" };
        for range in others.iter().take(LINES) {
            let part = format!("from 0x{:x} to 0x{:x} of {}", range.start, range.end, listed.section);
            self.report.warn(format_args!("no unit names the bytes {part}{how}"));
        }
        if self.request.lists_all {
            for range in others {
                self.list_tables_in(listed, range)?;
            }
        }
        Ok(())
    }

    /// The strings of a section of string offsets. `None`, and a report, if they can't be read.
    fn strings_of(&mut self, section: &Section<'d>) -> Strings<'d> {
        if let Some(found) = self.strings.get(&section.family()) {
            return found.clone();
        }
        let found = self.read_strings(section).map(Rc::new);
        self.strings.insert(section.family(), found.clone());
        found
    }

    // The strings up to the last that ends: each offset of one that doesn't would be read to the end.
    fn read_strings(&self, section: &Section<'d>) -> Option<Cow<'d, [u8]>> {
        let found: Vec<&Section<'d>> = self.file.named("debug_str", section.family()).collect();
        let (first, read) = match found[..] {
            [] => {
                let split = if section.family().1 { ".dwo" } else { "" };
                (section, Err(malformed(format!("has no section .debug_str{split} with its strings"))))
            }
            [one] => (one, self.file.data(one)),
            [first, ..] => {
                let which = "which of them has the strings isn't read";
                (first, Err(unlisted(format!("is one of {} such sections, and {which}", found.len()))))
            }
        };
        let bytes = read.map_err(|error| self.report.error(format_args!("{first} {error}"))).ok()?;
        let end = bytes.iter().rposition(|byte| *byte == 0).map_or(0, |last| last + 1);
        Some(match bytes {
            Cow::Borrowed(bytes) => Cow::Borrowed(&bytes[..end]),
            Cow::Owned(mut bytes) => {
                bytes.truncate(end);
                Cow::Owned(bytes)
            }
        })
    }
}
