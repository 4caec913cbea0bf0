//! The debug sections of an ELF file, and their bytes, inflated and relocated.

use crate::compressed::{most_inflated, Compressed, Method};
use crate::elf::{Elf, Header};
use crate::memory::{copied, reserve};
use crate::package::Package;
use crate::relocations::{self, row_bytes, Fault, Relocations, Why};
use crate::report::{malformed, unlisted, Error, Report, Result};
use object::elf;
use std::borrow::Cow;
use std::cell::Cell;
use std::fmt::{self, Display};

/// The sections of units, and of the indexes of a package.
const UNITS: [&str; 2] = ["debug_info", "debug_types"];
const INDEXES: [&str; 2] = ["debug_cu_index", "debug_tu_index"];
/// What the names begin with of early debug information, which an object keeps for link-time optimization.
const EARLY: &[u8] = b".gnu.debuglto_";
/// The index of a debugger, which is made of debug sections.
const DEBUGGER_INDEX: &[u8] = b".gdb_index";
/// Relocations in the compact form.
const SHT_CREL: u32 = 0x4000_0014;
/// The ABI's name for debug sections of the other half of a split object.
const SPLIT: &str = ".dwo";

/// What the names of the sections that belong to the same units begin and end with: whether with the names of early
/// debug information and of split sections.
pub type Family = (bool, bool);

/// A debug section.
#[derive(Debug, Clone, Copy)]
pub struct Section<'d> {
    /// The name without its beginning and end, such as `debug_abbrev`.
    pub base: &'d [u8],
    pub header: Header<'d>,
    is_early: bool,
    is_split: bool,
    // Whether the section may be compressed as before SHF_COMPRESSED.
    is_old: bool,
}

impl<'d> Section<'d> {
    /// The section with a header, if it is one of debug information by its name.
    pub fn new(header: Header<'d>) -> Option<Section<'d>> {
        let name = header.name.strip_prefix(EARLY).unwrap_or(header.name);
        let is_early = name.len() < header.name.len();
        let rest = name.strip_prefix(b".")?;
        let (is_old, rest) = rest.strip_prefix(b"z").map_or((false, rest), |rest| (true, rest));
        let base = rest.strip_suffix(SPLIT.as_bytes()).unwrap_or(rest);
        let is_split = base.len() < rest.len();
        (base.starts_with(b"debug") || header.name == DEBUGGER_INDEX).then_some(Section {
            base,
            header,
            is_early,
            is_split,
            is_old,
        })
    }

    pub fn is_one_of(&self, bases: &[&str]) -> bool {
        bases.iter().any(|base| base.as_bytes() == self.base)
    }

    pub fn has_units(&self) -> bool {
        self.is_one_of(&UNITS)
    }

    /// Whether the section is of DWARF: scripts and the index of a debugger stay in a stripped file.
    pub fn is_dwarf(&self) -> bool {
        !self.is_one_of(&["debug_gdb_scripts", "gdb_index"])
    }

    pub fn family(&self) -> Family {
        // The index of a package is for the units of its split sections.
        (self.is_early, self.is_split || self.is_one_of(&INDEXES))
    }

    /// The name, in which a byte that isn't printable ASCII has an escape.
    pub fn name(&self) -> String {
        name_in((self.is_early, self.is_split), self.base)
    }
}

/// The name of a section of a family.
pub fn name_in((is_early, is_split): Family, base: &[u8]) -> String {
    let (early, split) = (if is_early { EARLY } else { b"" }, if is_split { SPLIT } else { "" });
    format!("{}.{}{split}", early.escape_ascii(), base.escape_ascii())
}

impl Display for Section<'_> {
    fn fmt(&self, f: &mut fmt::Formatter<'_>) -> fmt::Result {
        write!(f, "section {} {}", self.header.number, self.name())
    }
}

/// An ELF file with its debug sections, in the order of their headers.
pub struct DebugFile<'d> {
    pub elf: Elf<'d>,
    pub report: &'d Report,
    pub sections: Vec<Section<'d>>,
    /// The indexes of a package, if the file is one.
    pub package: Option<Package<'d>>,
    // The tables of relocations, in the order of the sections that they are for.
    relocations: Vec<Header<'d>>,
    // How many bytes its sections may still inflate to.
    inflatable: Cell<u64>,
}

impl<'d> DebugFile<'d> {
    /// Reads the headers and the indexes. What is wrong with a part of the file is reported, and the rest is read.
    pub fn read(whole: &'d [u8], report: &'d Report) -> Result<DebugFile<'d>> {
        let elf = Elf::read(whole, report)?;
        let (mut sections, mut relocations) = (Vec::new(), Vec::new());
        for header in &elf.headers {
            if is_relocations(header) {
                reserve(&mut relocations, 1)?;
                relocations.push(*header);
            } else if let Some(section) = Section::new(*header) {
                reserve(&mut sections, 1)?;
                sections.push(section);
            }
        }
        relocations.sort_by_key(|header| header.info);
        let inflatable = Cell::new(most_inflated(whole.len()));
        let mut file = DebugFile { elf, report, sections, package: None, relocations, inflatable };
        file.package = file.indexed()?;
        Ok(file)
    }

    fn indexed(&self) -> Result<Option<Package<'d>>> {
        let mut package = None;
        for section in self.sections.iter().filter(|section| section.is_one_of(&INDEXES)) {
            let package = package.get_or_insert_with(|| Package::new(self.units_at_most()));
            if let Err(error) = self.body(section).and_then(|body| package.add(body, self.elf.endian)) {
                self.report.error(format_args!("{section} {error}"));
            }
        }
        Ok(package)
    }

    /// More units than this aren't in the sections of a package.
    fn units_at_most(&self) -> u64 {
        const LEAST_HEADER_BYTES: u64 = 11;
        let sections = self.units_of((false, true)).chain(self.units_of((true, true)));
        let bytes = sections.filter_map(|section| self.size(section).ok()).fold(0, u64::saturating_add);
        bytes.min(most_inflated(self.elf.whole.len())) / LEAST_HEADER_BYTES
    }

    /// The section with a number, if it is a debug section.
    pub fn section(&self, number: u64) -> Option<&Section<'d>> {
        let at = self.sections.binary_search_by_key(&number, |section| section.header.number).ok()?;
        Some(&self.sections[at])
    }

    /// The sections of a family whose names have this word.
    pub fn named<'f>(&'f self, base: &'f str, family: Family) -> impl Iterator<Item = &'f Section<'d>> {
        self.sections.iter().filter(move |section| section.is_one_of(&[base]) && section.family() == family)
    }

    /// The sections of units of a family.
    pub fn units_of(&self, family: Family) -> impl Iterator<Item = &Section<'d>> {
        self.sections.iter().filter(move |section| section.has_units() && section.family() == family)
    }

    /// The package whose indexes are for a family of sections, if there is one.
    pub fn package_of(&self, family: Family) -> Option<&Package<'d>> {
        self.package.as_ref().filter(|_| family.1)
    }

    /// How a section is stored, and how it is compressed, or `None` if it isn't.
    pub fn stored(&self, section: &Section<'d>) -> Result<(&'d [u8], Option<Compressed<'d>>)> {
        let raw = self.elf.stored(&section.header, section)?;
        if let (true, [b'Z', b'L', b'I', b'B', size @ ..]) = (section.is_old, raw) {
            let size = size.get(..8).and_then(|size| size.try_into().ok()).map_or(0, u64::from_be_bytes);
            let bytes = raw.get(12..).unwrap_or_default();
            return Ok((raw, Some(Compressed { raw: bytes, method: Method::Zlib, size })));
        }
        if !section.header.is_compressed() {
            return Ok((raw, None));
        }
        let (kind, size, begin) = self.elf.compression(raw)?;
        Ok((raw, Some(Compressed { raw: &raw[begin..], method: Method::of(kind)?, size })))
    }

    /// The size of a section: of a compressed one, what its header says.
    pub fn size(&self, section: &Section<'d>) -> Result<u64> {
        let (raw, compressed) = self.stored(section)?;
        Ok(compressed.map_or(raw.len() as u64, |compressed| compressed.size))
    }

    /// The bytes of a section, inflated.
    fn body(&self, section: &Section<'d>) -> Result<Cow<'d, [u8]>> {
        let (raw, compressed) = self.stored(section)?;
        self.elf.expect_unshared(raw)?;
        let compressed = match compressed {
            None => return Ok(Cow::Borrowed(raw)),
            Some(compressed) => compressed,
        };
        match self.inflatable.get().checked_sub(compressed.size) {
            Some(rest) => self.inflatable.set(rest),
            None => {
                let most = most_inflated(self.elf.whole.len());
                let what = format!("claims {} bytes in {} compressed ones", compressed.size, compressed.raw.len());
                return Err(malformed(format!("{what}, and the sections may have {most} together")));
            }
        }
        let (data, wrong) = compressed.inflated()?;
        if let Some(text) = wrong {
            self.report.error(format_args!("{section} {text}"));
        }
        Ok(Cow::Owned(data))
    }

    /// The bytes of a section, inflated and relocated. Where a relocation can't be applied, that is reported, and the
    /// bytes are those of the file.
    pub fn data(&self, section: &Section<'d>) -> Result<Cow<'d, [u8]>> {
        let tables = match self.unknown_machine(section) {
            Some(error) => {
                let text = "so its bytes are listed as they are in the file";
                self.report.error(format_args!("{section} {error}, {text}"));
                Vec::new()
            }
            None => self.relocations_of(section)?,
        };
        self.relocated(section, &tables, &mut |fault| match fault.why {
            Why::PastEnd => self.report.error(format_args!("{section} {fault}")),
            _ => {
                let text = "so the bytes there are listed as they are in the file";
                self.report.error(format_args!("{section} {fault}, {text}"));
            }
        })
    }

    /// The bytes of a section, inflated, and with these relocations. A function is called with each that isn't applied.
    pub fn relocated(
        &self, section: &Section<'d>, tables: &[Relocations<'d>], on_fault: &mut dyn FnMut(Fault),
    ) -> Result<Cow<'d, [u8]>> {
        let mut data = match self.body(section)? {
            body if tables.is_empty() => return Ok(body),
            Cow::Owned(data) => data,
            Cow::Borrowed(bytes) => copied(bytes)?,
        };
        tables.iter().for_each(|table| table.apply(&mut data, on_fault));
        Ok(Cow::Owned(data))
    }

    /// The error of relocations that can't be read, of a section that has some.
    fn unknown_machine(&self, section: &Section<'d>) -> Option<Error> {
        let machine = self.elf.machine;
        let is_unknown = self.tables_of(section).next().is_some() && !relocations::is_known(machine);
        is_unknown.then(|| unlisted(format!("has relocations of the machine {machine}, which aren't known here")))
    }

    /// The headers of the tables of a section's relocations. Those that a linker left in an executable are applied
    /// already.
    fn tables_of(&self, section: &Section<'d>) -> impl Iterator<Item = &Header<'d>> + '_ {
        let number = section.header.number as u32;
        let first = self.relocations.partition_point(|header| header.info < number);
        let is_own = move |header: &&Header<'d>| header.info == number;
        self.relocations[first..].iter().take_while(is_own).filter(|_| self.elf.kind == elf::ET_REL)
    }

    /// The relocations of a section.
    pub fn relocations_of(&self, section: &Section<'d>) -> Result<Vec<Relocations<'d>>> {
        if let Some(error) = self.unknown_machine(section) {
            return Err(error);
        }
        let mut tables = Vec::new();
        for header in self.tables_of(section) {
            if header.kind == SHT_CREL {
                return Err(unlisted("has compact relocations (SHT_CREL), which aren't read"));
            }
            if header.is_compressed() {
                return Err(unlisted("has compressed relocations, which aren't read"));
            }
            let named = match self.elf.header(header.link.into()) {
                Some(found) if found.kind == elf::SHT_SYMTAB => found,
                _ => {
                    let what = format!("symbols are to be in section {}, and aren't", header.link);
                    return Err(malformed(format!("has relocations whose {what}")));
                }
            };
            let name = format!("the table of the relocations of {section}");
            let rows = self.elf.part(header, &name);
            self.elf.expect_unshared(rows)?;
            let has_addends = header.kind == elf::SHT_RELA;
            let size = row_bytes(self.elf.is_64, has_addends);
            if rows.len() % size != 0 {
                let count = rows.len();
                self.report.error(format_args!("{name} has {count} bytes, which isn't a multiple of {size}"));
            }
            let symbols = self.elf.part(named, &"the table of the symbols");
            reserve(&mut tables, 1)?;
            tables.push(Relocations::new(&self.elf, rows, symbols, has_addends)?);
        }
        Ok(tables)
    }
}

pub fn is_relocations(header: &Header<'_>) -> bool {
    matches!(header.kind, elf::SHT_REL | elf::SHT_RELA | SHT_CREL)
}
