//! The headers of an ELF file, and the bytes of its sections as they are stored.

use crate::memory::reserve;
use crate::report::{malformed, Report, Result};
use dwarf_read::ByteOrder;
use object::elf;
use object::pod::Pod;
use object::read::elf::{CompressionHeader, FileHeader, SectionHeader};
use object::{Endianness, ReadRef};
use std::cell::Cell;
use std::fmt::Display;
use std::mem::size_of;

/// At most this many bytes of a section's name are read. No debug section has a longer one.
const NAME_BYTES: u64 = 1 << 8;
/// The sections that are read may have this many times the bytes of the file together.
const READ_TIMES: u64 = 4;

/// The header of a section.
#[derive(Debug, Clone, Copy)]
pub struct Header<'d> {
    pub number: u64,
    pub name: &'d [u8],
    pub kind: u32,
    pub flags: u64,
    pub start: u64,
    pub size: u64,
    pub link: u32,
    pub info: u32,
}

impl Header<'_> {
    pub fn is_compressed(&self) -> bool {
        self.flags & u64::from(elf::SHF_COMPRESSED) != 0
    }
}

/// At most this many bytes from an offset on: those that are there.
pub fn slice(whole: &[u8], start: u64, size: u64) -> &[u8] {
    let there = whole.len() as u64;
    let (low, end) = (start.min(there), start.saturating_add(size).min(there));
    &whole[low as usize..end as usize]
}

/// The number that has these bytes, at most eight.
pub fn number_of(bytes: &[u8], endian: Endianness) -> u64 {
    let add = |sum, byte: &u8| sum << 8 | u64::from(*byte);
    match endian {
        Endianness::Little => bytes.iter().rev().fold(0, add),
        Endianness::Big => bytes.iter().fold(0, add),
    }
}

fn at<'d, T: Pod>(whole: &'d [u8], at: u64, what: &str) -> Result<&'d T> {
    whole.read_at(at).map_err(|()| malformed(format!("{what}, at 0x{at:x}, is past the end of the file")))
}

/// An ELF file, with the headers of all sections but the first, which is none.
pub struct Elf<'d> {
    pub whole: &'d [u8],
    pub report: &'d Report,
    pub is_64: bool,
    pub endian: Endianness,
    pub kind: u16,
    pub machine: u16,
    pub headers: Vec<Header<'d>>,
    // How many bytes of sections were read.
    read: Cell<u64>,
}

/// Calls a function for the layouts of a class of ELF.
macro_rules! of_class {
    ($is_64:expr, $($called:ident).+($($argument:expr),*)) => {
        if $is_64 {
            $($called).+::<object::elf::FileHeader64<object::Endianness>>($($argument),*)
        } else {
            $($called).+::<object::elf::FileHeader32<object::Endianness>>($($argument),*)
        }
    };
}
pub(crate) use of_class;

impl<'d> Elf<'d> {
    /// Reads the headers. What is wrong with one of a section is reported, and the others are read.
    pub fn read(whole: &'d [u8], report: &'d Report) -> Result<Elf<'d>> {
        let (class, order) = match whole {
            [_, _, _, _, class, order, ..] => (*class, *order),
            _ => (0, 0),
        };
        if !(1..=2).contains(&class) || !(1..=2).contains(&order) {
            let mark: Vec<String> = whole.iter().take(6).map(|byte| format!("{byte:02x}")).collect();
            let what = "the ELF file has an unknown class or byte order";
            return Err(malformed(format!("{what}: its first bytes are {}", mark.join(" "))));
        }
        let endian = if order == 1 { Endianness::Little } else { Endianness::Big };
        let (is_64, headers, read) = (class == 2, Vec::new(), Cell::new(0));
        let mut file = Elf { whole, report, is_64, endian, kind: 0, machine: 0, headers, read };
        of_class!(is_64, file.read_headers())?;
        Ok(file)
    }

    fn read_headers<F: FileHeader<Endian = Endianness>>(&mut self) -> Result<()> {
        let (whole, endian) = (self.whole, self.endian);
        let file: &F = at(whole, 0, "the header of the file")?;
        (self.kind, self.machine) = (file.e_type(endian), file.e_machine(endian));
        let start: u64 = file.e_shoff(endian).into();
        if start == 0 {
            let what = if self.kind == elf::ET_CORE { "is a core file, which has" } else { "has" };
            return Err(malformed(format!("the file {what} no section headers")));
        }
        let size = file.e_shentsize(endian);
        if usize::from(size) != size_of::<F::SectionHeader>() {
            return Err(malformed(format!("the file says that a section header has {size} bytes")));
        }
        let first: &F::SectionHeader = at(whole, start, "the first section header")?;
        // Numbers that don't fit their fields are in the first header.
        let count = file.e_shnum(endian);
        let wanted = if count == 0 { first.sh_size(endian).into() } else { count.into() };
        let there = wanted.min((whole.len() as u64 - start) / u64::from(size));
        if there < wanted {
            let missing = wanted - there;
            self.report
                .error(format_args!("the file ends before {missing} of its {wanted} section headers, at 0x{start:x}"));
        }
        let of_names = file.e_shstrndx(endian);
        let of_names = if of_names == elf::SHN_XINDEX { first.sh_link(endian) } else { of_names.into() };
        let names = self.names::<F>(start, of_names.into(), there)?;
        self.add_headers::<F>(start, there, names)
    }

    /// The names of the sections, which are in one of the sections that are there.
    fn names<F: FileHeader<Endian = Endianness>>(&self, start: u64, number: u64, there: u64) -> Result<&'d [u8]> {
        if number == 0 || number >= there {
            return Err(malformed(format!("the names of the sections are in section {number}, which the file lacks")));
        }
        let place = start + number * size_of::<F::SectionHeader>() as u64;
        let header: &F::SectionHeader = at(self.whole, place, "the header of the names")?;
        let start = header.sh_offset(self.endian).into();
        match slice(self.whole, start, header.sh_size(self.endian).into()) {
            [] => Err(malformed(format!("the names of the sections, at 0x{start:x}, are past the end of the file"))),
            names => Ok(names),
        }
    }

    fn add_headers<F: FileHeader<Endian = Endianness>>(
        &mut self, start: u64, there: u64, names: &'d [u8],
    ) -> Result<()> {
        reserve(&mut self.headers, there as usize)?;
        for number in 1..there {
            let place = start + number * size_of::<F::SectionHeader>() as u64;
            let header: &F::SectionHeader = at(self.whole, place, "the header of a section")?;
            let name = header.sh_name(self.endian);
            if name as usize >= names.len() {
                let past = "past the end of the names";
                self.report.error(format_args!("section {number} has its name at 0x{name:x}, {past}"));
                continue;
            }
            let name = slice(names, name.into(), NAME_BYTES);
            let end = name.iter().position(|byte| *byte == 0).unwrap_or(name.len());
            self.headers.push(Header {
                number,
                name: &name[..end],
                kind: header.sh_type(self.endian),
                flags: header.sh_flags(self.endian).into(),
                start: header.sh_offset(self.endian).into(),
                size: header.sh_size(self.endian).into(),
                link: header.sh_link(self.endian),
                info: header.sh_info(self.endian),
            });
        }
        Ok(())
    }

    pub fn order(&self) -> ByteOrder {
        match self.endian {
            Endianness::Little => ByteOrder::Little,
            Endianness::Big => ByteOrder::Big,
        }
    }

    /// The header of the section with a number.
    pub fn header(&self, number: u64) -> Option<&Header<'d>> {
        let at = self.headers.binary_search_by_key(&number, |header| header.number).ok()?;
        Some(&self.headers[at])
    }

    /// The bytes that the file has of a section.
    pub fn raw(&self, header: &Header<'d>) -> &'d [u8] {
        let size = if header.kind == elf::SHT_NOBITS { 0 } else { header.size };
        slice(self.whole, header.start, size)
    }

    /// The same, or what is wrong if they aren't all there.
    pub fn stored(&self, header: &Header<'d>, name: &dyn Display) -> Result<&'d [u8]> {
        if header.kind == elf::SHT_NOBITS {
            return Err(malformed("has no bytes in this file (SHT_NOBITS)"));
        }
        if header.size > 0 && header.start >= self.whole.len() as u64 {
            return Err(malformed(format!("begins at 0x{:x}, past the end of the file", header.start)));
        }
        Ok(self.part(header, name))
    }

    /// The same, if all of them may be missing.
    pub fn part(&self, header: &Header<'d>, name: &dyn Display) -> &'d [u8] {
        let bytes = self.raw(header);
        if (bytes.len() as u64) < header.size {
            let there = format!("{} of its {} bytes are there", bytes.len(), header.size);
            self.report.error(format_args!("{name} is cut by the end of the file: {there}"));
        }
        bytes
    }

    /// Counts the bytes of a section that is read. Sections of a file share no bytes, but headers can say that they do.
    pub fn expect_unshared(&self, bytes: &[u8]) -> Result<()> {
        self.read.set(self.read.get() + bytes.len() as u64);
        if self.read.get() / READ_TIMES > self.whole.len() as u64 {
            let most = format!("more than {READ_TIMES} times the bytes of the file");
            return Err(malformed(format!("isn't read, since it and the sections before have {most}")));
        }
        Ok(())
    }

    /// The type of a compressed section, the size that it inflates to, and where its bytes begin.
    pub fn compression(&self, raw: &[u8]) -> Result<(u32, u64, usize)> {
        of_class!(self.is_64, compression_of(raw, self.endian))
    }
}

fn compression_of<F: FileHeader<Endian = Endianness>>(raw: &[u8], endian: Endianness) -> Result<(u32, u64, usize)> {
    let size = size_of::<F::CompressionHeader>();
    match raw.read_at::<F::CompressionHeader>(0) {
        Ok(found) => Ok((found.ch_type(endian), found.ch_size(endian).into(), size)),
        Err(()) => {
            let there = raw.len();
            Err(malformed(format!("is compressed, and has {there} of the {size} bytes of the header of that")))
        }
    }
}
