//! The calls of the proved library with which a copy of gimli 0.27 reads tables, strings, lookups and LEB128 numbers.
//!
//! `tools/compare client` puts this file into the copy, and lets the bodies there call these functions. The environment
//! variable `COMPARE_PLANTED` plants an error: what is compared has to show it. With the word `reached` each call panics,
//! so that the tests that come here are those that fail.

use crate::common::Format;
use crate::endianity::Endianity;
use crate::read::{Error, Reader, ReaderOffset, ReaderOffsetId, Result};
use crate::room::Room;
use crate::sys::*;
use std::cell::RefCell;
use std::string::String;

extern "C" {
    fn compare_short(bytes: *const u8, len: usize, value: &mut u16, rest: &mut usize, fault: &mut Fault) -> u32;
    fn compare_skipped(bytes: *const u8, len: usize, rest: &mut usize, fault: &mut Fault) -> u32;
}

thread_local! {
    static PLANTED: String = std::env::var("COMPARE_PLANTED").unwrap_or_default();
    static ROOM: RefCell<Room> = RefCell::default();
}

/// Whether an error is planted at this place.
fn is_planted(place: &str) -> bool {
    PLANTED.with(|it| it == place)
}

/// Panics if that is planted. Each patched body begins with it.
pub fn reached() {
    assert!(!is_planted("reached"), "a call of the library");
}

/// The library counts positions from the first byte, and gimli from the section's own.
fn error<R: Reader>(input: &R, fault: Fault) -> Error {
    let position = || ReaderOffsetId(input.offset_id().0.wrapping_add(fault.value));
    match fault.kind {
        1 => Error::UnexpectedEof(position()),
        2 => Error::BadUnsignedLeb128,
        3 => Error::BadSignedLeb128,
        4 => Error::AbbreviationTagZero,
        5 => Error::BadHasChildren,
        6 => Error::ExpectedZero,
        7 => Error::AttributeFormZero,
        8 => Error::DuplicateAbbreviationCode,
        10 => Error::UnsupportedOffset,
        12 => Error::UnsupportedAddressSize(fault.value as u8),
        kind => panic!("this gimli has no error for the number {}", kind),
    }
}

/// Makes a call over the bytes that a reader has left.
fn read<R: Reader, T: Default>(input: &R, call: impl FnOnce(&[u8], &mut T, &mut Fault) -> u32) -> Result<T> {
    let (mut value, mut fault) = (T::default(), Fault::default());
    match call(&input.to_slice()?, &mut value, &mut fault) {
        0 => Ok(value),
        _ => Err(error(input, fault)),
    }
}

fn moved<R: Reader, T>(input: &mut R, (value, size): (T, usize)) -> Result<T> {
    input.skip(R::Offset::from_u64(size as u64)?)?;
    Ok(value)
}

pub fn unsigned<R: Reader>(input: &mut R) -> Result<u64> {
    let found = read(input, |bytes, (value, size): &mut (u64, usize), fault| unsafe {
        dwarf_uleb128(bytes.as_ptr(), bytes.len(), value, size, fault)
    })?;
    Ok(moved(input, found)? + u64::from(is_planted("number") && found.0 >= 2))
}

pub fn signed<R: Reader>(input: &mut R) -> Result<i64> {
    let found = read(input, |bytes, (value, size): &mut (i64, usize), fault| unsafe {
        dwarf_sleb128(bytes.as_ptr(), bytes.len(), value, size, fault)
    })?;
    moved(input, found)
}

pub fn short<R: Reader>(input: &mut R) -> Result<u16> {
    let found = read(input, |bytes, (value, size): &mut (u16, usize), fault| unsafe {
        let status = compare_short(bytes.as_ptr(), bytes.len(), value, size, fault);
        *size = bytes.len() - *size;
        status
    })?;
    moved(input, found)
}

pub fn skip<R: Reader>(input: &mut R) -> Result<()> {
    let size = read(input, |bytes, size: &mut usize, fault| unsafe {
        let status = compare_skipped(bytes.as_ptr(), bytes.len(), size, fault);
        *size = bytes.len() - *size;
        status
    })?;
    moved(input, ((), size))
}

pub fn string<R: Reader>(section: &R, offset: R::Offset) -> Result<R> {
    let mut size = read(section, |bytes, size, fault| unsafe {
        dwarf_string(bytes.as_ptr(), bytes.len(), offset.into_u64() as usize, size, fault)
    })?;
    if is_planted("string") && size > 20 {
        size -= 1;
    }
    let mut string = section.clone();
    string.skip(offset)?;
    string.split(R::Offset::from_u64(size as u64)?)
}

pub fn str_offset<R: Reader>(section: &R, format: Format, base: R::Offset, index: R::Offset) -> Result<R::Offset> {
    let (is_big, is_64) = (section.endian().is_big_endian(), format == Format::Dwarf64);
    let (base, index) = (base.into_u64() as usize, index.into_u64() as usize);
    let offset = read(section, |bytes, offset: &mut usize, fault| unsafe {
        dwarf_str_offset(bytes.as_ptr(), bytes.len(), is_big, is_64, base, index, offset, fault)
    })?;
    R::Offset::from_u64(offset as u64)
}

pub fn address<R: Reader>(section: &R, size: u8, base: R::Offset, index: R::Offset) -> Result<u64> {
    let is_big = section.endian().is_big_endian();
    let (base, index) = (base.into_u64() as usize, index.into_u64() as usize);
    read(section, |bytes, address, fault| unsafe {
        dwarf_address(bytes.as_ptr(), bytes.len(), is_big, size, base, index, address, fault)
    })
}

/// Calls a function with the declarations of a table by their order, and the attributes of all of them. They are in
/// places that are used again.
pub fn table<R: Reader, T>(
    section: &R, offset: R::Offset, call: impl FnOnce(&[Abbreviation], &[Attribute]) -> T,
) -> Result<T> {
    ROOM.with(|room| {
        let room = &mut *room.borrow_mut();
        let found = room.read(&section.to_slice()?, offset.into_u64() as usize);
        let measure = found.map_err(|(_, fault)| error(section, fault))?;
        if measure.closed_by_null == 0 {
            // This version of gimli returns the code of value 0.
            let value = section.len().into_u64();
            return Err(error(section, Fault { kind: 1, value }));
        }
        let declarations = &mut room.abbreviations[..measure.abbreviations];
        if is_planted("tag") {
            declarations.iter_mut().filter(|it| it.tag == 0x34).for_each(|it| it.tag += 1);
        }
        Ok(call(declarations, &room.attributes))
    })
}
