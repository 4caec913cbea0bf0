//! This crate reads the lowest layer of DWARF: abbreviation tables, headers of units, strings, string
//! offsets, addresses and LEB128 numbers, the sizes of forms, the named constants, and the texts of
//! errors.
//!
//! The calls below it are a port of that layer of gimli to Rattle, which is Rust with contracts: each
//! of their functions is proved against its contract, on every input. The crate contains their code,
//! as assembler. The crate itself isn't proved: it passes slices to these calls in `unsafe` blocks,
//! and returns `Result`. It has no state, and each call may be made from any number of threads.
//!
//! ```
//! use dwarf_read::constants::{DW_AT_name, DW_TAG_compile_unit};
//! use dwarf_read::Table;
//!
//! # fn main() -> Result<(), dwarf_read::Error> {
//! let section = [1, 0x11, 1, 3, 8, 0, 0, 0];
//! let table = Table::read(&section, 0)?;
//! let unit = table.get(1).unwrap();
//! assert_eq!(unit.tag(), DW_TAG_compile_unit);
//! assert_eq!(unit.tag().to_string(), "DW_TAG_compile_unit");
//! assert!(unit.has_children());
//! let attribute = unit.attributes()[0];
//! assert_eq!(attribute.name(), DW_AT_name);
//! assert_eq!(attribute.form().to_string(), "DW_FORM_string");
//! # Ok(())
//! # }
//! ```
//!
//! Match a constant by its path, as in `constants::DW_FORM_addr =>`: a name alone in a pattern gets the
//! warning that it should be in upper case.
//!
//! It reads no entries of units, line programs, call frames or lists. gimli can't take a [`Table`], so
//! these need a reader of your own.
//!
//! # Platforms
//!
//! The code is for Linux, FreeBSD, Windows and macOS on x86-64 and AArch64, for iOS, and for Linux
//! and FreeBSD on 64-bit RISC-V. No library has to be installed, and no C compiler is needed.
//!
//! # Features
//!
//! The crate needs `alloc`, and a C library: the proved code allocates by its `malloc`, and not by
//! your `#[global_allocator]`. `std`, which is on by default, implements `std::error::Error` for
//! [`Error`].
#![no_std]
#![warn(missing_docs)]

extern crate alloc;
#[cfg(any(feature = "std", test))]
extern crate std;

mod bytes;
pub mod constants;
mod error;
mod heap;
mod proved;
mod sets;
mod sys;
mod table;
mod units;

use constants::DwForm;
use error::check;
pub use error::{Error, ErrorKind, Result};
pub use sets::{address_sets, str_offset_sets, Entries, Set, Sets};
pub use table::{tables, Abbreviation, Abbreviations, Attribute, Table, Tables};
pub use units::{type_units, units, Unit, UnitType, Units};

// The program that is shown there.
#[cfg(doctest)]
#[doc = include_str!("../README.md")]
struct Readme;

/// The order of the bytes of a number.
#[derive(Debug, Clone, Copy, PartialEq, Eq, Hash)]
pub enum ByteOrder {
    /// The lowest byte is first.
    Little,
    /// The highest byte is first.
    Big,
}

impl ByteOrder {
    fn is_big(self) -> bool {
        self == ByteOrder::Big
    }
}

/// The format of a unit or a set (DWARF 5, 7.4).
#[derive(Debug, Clone, Copy, PartialEq, Eq, Hash)]
pub enum Format {
    /// The 32-bit format.
    Dwarf32,
    /// The 64-bit format.
    Dwarf64,
}

impl Format {
    fn of_word_size(word_size: u8) -> Format {
        if word_size == 8 {
            Format::Dwarf64
        } else {
            Format::Dwarf32
        }
    }

    /// Returns how many bytes an offset or a length has: 4 or 8.
    ///
    /// ```
    /// assert_eq!(dwarf_read::Format::Dwarf64.word_size(), 8);
    /// ```
    #[must_use]
    pub fn word_size(self) -> u8 {
        match self {
            Format::Dwarf32 => 4,
            Format::Dwarf64 => 8,
        }
    }
}

/// What the size of a value depends on, as [`Unit::encoding`] returns it.
#[derive(Debug, Clone, Copy, PartialEq, Eq, Hash)]
pub struct Encoding {
    /// How many bytes an address has.
    pub address_size: u8,
    /// The format of the unit.
    pub format: Format,
    /// The DWARF version of the unit.
    pub version: u16,
}

/// Returns the unsigned LEB128 number that the bytes begin with, and how many bytes it has.
///
/// # Errors
///
/// `UnexpectedEof` at the end if the bytes end before the number does, and `BadUnsignedLeb128` if
/// it has more than ten bytes or is 2^64 or more.
///
/// ```
/// assert_eq!(dwarf_read::uleb128(&[0xb9, 0x64, 7]), Ok((12857, 2)));
/// ```
pub fn uleb128(bytes: &[u8]) -> Result<(u64, usize)> {
    let (mut value, mut len) = (0, 0);
    // SAFETY: see `sys`.
    check(|fault| unsafe {
        sys::dwarf_uleb128(bytes.as_ptr(), bytes.len(), &mut value, &mut len, fault)
    })?;
    Ok((value, len))
}

/// Returns the signed LEB128 number that the bytes begin with, and how many bytes it has.
///
/// # Errors
///
/// `UnexpectedEof` as from [`uleb128`], and `BadSignedLeb128` if the number is too long or doesn't
/// fit `i64`.
///
/// ```
/// assert_eq!(dwarf_read::sleb128(&[0x56]), Ok((-42, 1)));
/// ```
pub fn sleb128(bytes: &[u8]) -> Result<(i64, usize)> {
    let (mut value, mut len) = (0, 0);
    // SAFETY: see `sys`.
    check(|fault| unsafe {
        sys::dwarf_sleb128(bytes.as_ptr(), bytes.len(), &mut value, &mut len, fault)
    })?;
    Ok((value, len))
}

/// Writes the shortest bytes of an unsigned LEB128 number to the front of these. Returns how many
/// they are, at most ten; or `None`, and writes nothing, if there is less room.
///
/// ```
/// let mut bytes = [0; 10];
/// assert_eq!(dwarf_read::uleb128_write(12857, &mut bytes), Some(2));
/// assert_eq!(bytes[..2], [0xb9, 0x64]);
/// assert_eq!(dwarf_read::uleb128_write(12857, &mut bytes[..1]), None);
/// ```
pub fn uleb128_write(value: u64, bytes: &mut [u8]) -> Option<usize> {
    let mut len = 0;
    // SAFETY: see `sys`.
    let status =
        unsafe { sys::dwarf_uleb128_write(value, bytes.as_mut_ptr(), bytes.len(), &mut len) };
    (status == sys::OK).then_some(len)
}

/// Writes the shortest bytes of a signed LEB128 number, as [`uleb128_write`] does for an unsigned
/// one.
///
/// ```
/// let mut bytes = [0; 10];
/// assert_eq!(dwarf_read::sleb128_write(-42, &mut bytes), Some(1));
/// assert_eq!(bytes[0], 0x56);
/// ```
pub fn sleb128_write(value: i64, bytes: &mut [u8]) -> Option<usize> {
    let mut len = 0;
    // SAFETY: see `sys`.
    let status =
        unsafe { sys::dwarf_sleb128_write(value, bytes.as_mut_ptr(), bytes.len(), &mut len) };
    (status == sys::OK).then_some(len)
}

/// Returns the string at an offset of `.debug_str` or `.debug_line_str`, without the zero byte that
/// ends it.
///
/// # Errors
///
/// `UnexpectedEof`, at 0 if the offset is past the end, and at the offset if no zero byte follows.
///
/// ```
/// assert_eq!(dwarf_read::string(b"one\0two\0", 4), Ok(&b"two"[..]));
/// ```
pub fn string(section: &[u8], offset: usize) -> Result<&[u8]> {
    let mut len = 0;
    // SAFETY: see `sys`.
    check(|fault| unsafe {
        sys::dwarf_string(section.as_ptr(), section.len(), offset, &mut len, fault)
    })?;
    Ok(&section[offset..][..len])
}

/// Returns the string offset at an index, among those that follow each other from `base` on in
/// `.debug_str_offsets`. Each has as many bytes as a word of the unit's format.
///
/// # Errors
///
/// The first of these:
///
/// - `UnexpectedEof` at 0 if `base` is past the end;
/// - `UnsupportedOffset` if the index times the size of an entry is 2^64 or more;
/// - `UnexpectedEof` at `base` if the entry begins past the end, and at the entry if it ends past
///   the end.
///
/// ```
/// use dwarf_read::{str_offset, string, ByteOrder, Format};
///
/// let debug_str = b"one\0two\0";
/// // A header of eight bytes, and the offsets 0 and 4.
/// let debug_str_offsets = [12, 0, 0, 0, 5, 0, 0, 0, 0, 0, 0, 0, 4, 0, 0, 0];
/// let offset = str_offset(&debug_str_offsets, ByteOrder::Little, Format::Dwarf32, 8, 1)?;
/// assert_eq!(string(debug_str, offset)?, b"two");
/// # Ok::<(), dwarf_read::Error>(())
/// ```
pub fn str_offset(
    section: &[u8], order: ByteOrder, format: Format, base: usize, index: u64,
) -> Result<usize> {
    let (bytes, len, is_big, mut offset) = (section.as_ptr(), section.len(), order.is_big(), 0);
    let (is_64, index) = (format == Format::Dwarf64, index as usize);
    // SAFETY: see `sys`.
    check(|fault| unsafe {
        sys::dwarf_str_offset(bytes, len, is_big, is_64, base, index, &mut offset, fault)
    })?;
    Ok(offset)
}

/// Returns the address at an index, among those that follow each other from `base` on in
/// `.debug_addr`. Each has `address_size` bytes: 1, 2, 4 or 8.
///
/// # Errors
///
/// The first of these:
///
/// - `UnexpectedEof` at 0 if `base` is past the end;
/// - `UnsupportedOffset` if the index times `address_size` is 2^64 or more;
/// - `UnexpectedEof` at `base` if the address would begin past the end;
/// - `UnsupportedAddressSize` if `address_size` isn't 1, 2, 4 or 8;
/// - `UnexpectedEof` at the address if it ends past the end.
///
/// ```
/// use dwarf_read::{address, ByteOrder, ErrorKind};
///
/// // A header of eight bytes, and two addresses.
/// let section = [12, 0, 0, 0, 5, 0, 4, 0, 0x78, 0x56, 0x34, 0x12, 0xef, 0xbe, 0xad, 0xde];
/// assert_eq!(address(&section, ByteOrder::Little, 4, 8, 1), Ok(0xdeadbeef));
/// let error = address(&section, ByteOrder::Little, 4, 8, 2).unwrap_err();
/// assert_eq!((error.kind(), error.value()), (ErrorKind::UnexpectedEof, 16));
/// ```
pub fn address(
    section: &[u8], order: ByteOrder, address_size: u8, base: usize, index: u64,
) -> Result<u64> {
    let (bytes, len, is_big, mut address) = (section.as_ptr(), section.len(), order.is_big(), 0);
    let index = index as usize;
    // SAFETY: see `sys`.
    check(|fault| unsafe {
        sys::dwarf_address(bytes, len, is_big, address_size, base, index, &mut address, fault)
    })?;
    Ok(address)
}

/// Returns how many bytes a value of a form has in a unit with this encoding. `None` if the form
/// doesn't determine it, or if no form has this number.
///
/// ```
/// use dwarf_read::constants::{DW_FORM_ref_addr, DW_FORM_udata};
/// use dwarf_read::{form_size, Encoding, Format};
///
/// let encoding = Encoding { address_size: 8, format: Format::Dwarf32, version: 5 };
/// assert_eq!(form_size(DW_FORM_ref_addr, encoding), Some(4));
/// assert_eq!(form_size(DW_FORM_ref_addr, Encoding { version: 2, ..encoding }), Some(8));
/// assert_eq!(form_size(DW_FORM_udata, encoding), None);
/// ```
#[must_use]
pub fn form_size(form: DwForm, encoding: Encoding) -> Option<usize> {
    let Encoding { address_size, format, version } = encoding;
    let (is_64, mut size) = (format == Format::Dwarf64, 0);
    // SAFETY: see `sys`.
    let status = unsafe { sys::dwarf_form_size(form.0, version, address_size, is_64, &mut size) };
    (status == sys::OK).then_some(size)
}

#[cfg(test)]
mod tests {
    use crate::sys;

    extern "C" {
        fn dwarf_read_version(version: *mut u8, room: usize, len: &mut usize) -> u32;
    }

    #[test]
    fn the_code_has_the_version_of_the_crate() {
        let (mut version, mut len) = ([0; 64], 0);
        // SAFETY: see `sys`.
        let status = unsafe { dwarf_read_version(version.as_mut_ptr(), 64, &mut len) };
        assert_eq!((status, &version[..len]), (sys::OK, env!("CARGO_PKG_VERSION").as_bytes()));
    }
}
