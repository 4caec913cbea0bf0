//! The proved library, by the calls of `include/dwarf_read.h` and those of `crates/dwarf_compare`.
//!
//! A call is safe if what the header asks of a caller holds. So it does for each call here: a slice is valid for as
//! many items as its length says, a vector for as many as its capacity, and an output overlaps nothing, since it is
//! borrowed mutably.

use crate::plain::{has, length_at, Plant};
use crate::question;
use crate::question::{
    error_name, fault_of_text, sum_of, Answer, Attribute, Declaration, Entry, Question, What, KINDS,
};
use crate::room::Room;
use crate::sys::*;

/// What one of `READERS` is asked.
#[repr(C)]
struct Asked {
    reader: u32,
    question: u32,
    is_big: u32,
    size: u32,
    base: usize,
    index: usize,
}

/// What is asked of entries.
#[repr(C)]
struct AskedEntries {
    reader: u32,
    is_big: u32,
    skips: u32,
}

type Byte = *const u8;

extern "C" {
    fn compare_short(bytes: Byte, len: usize, value: &mut u16, rest: &mut usize, fault: &mut Fault) -> u32;
    fn compare_skipped(bytes: Byte, len: usize, rest: &mut usize, fault: &mut Fault) -> u32;
    fn compare_grown(
        bytes: Byte, len: usize, before: usize, offset: usize, count: &mut usize, fault: &mut Fault,
    ) -> u32;
    fn compare_found(
        bytes: Byte, len: usize, offset: usize, codes: *const u64, code_count: usize, tags: *mut u16, tag_count: usize,
        fault: &mut Fault,
    ) -> u32;
    fn compare_cached(bytes: Byte, len: usize, offsets: *const u64, count: usize) -> u64;
    fn compare_addresses(bytes: Byte, len: usize) -> u64;
    fn compare_readers(
        bytes: Byte, len: usize, asked: &Asked, found: &mut [u64; 4], text: *mut u8, room: usize,
    ) -> usize;
    fn compare_entries(
        info: Byte, info_len: usize, abbrev: Byte, abbrev_len: usize, asked: &AskedEntries, numbers: *mut u64,
        number_room: usize, count: &mut usize, text: *mut u8, room: usize,
    ) -> usize;
    #[link_name = "dwarf_table_measure_0_3"]
    fn dwarf_table_measure(bytes: Byte, len: usize, offset: usize, measure: &mut Measure, fault: &mut Fault) -> u32;
}

/// The library, with places for tables.
#[derive(Default)]
pub struct Ours {
    room: Room,
}

impl Ours {
    /// What the library gives.
    pub fn answer(&mut self, question: &Question, bytes: &[u8]) -> Answer {
        let Question { what, is_big, size, at, more, ref list } = *question;
        let (data, len, length) = (bytes.as_ptr(), bytes.len(), |it: usize| Answer::value(it as u64));
        match what {
            What::Unsigned | What::Signed | What::Short | What::Skipped => number(what, bytes),
            What::WrittenUnsigned => {
                written(|to, room, len| unsafe { dwarf_uleb128_write(more as u64, to, room, len) })
            }
            What::WrittenSigned => written(|to, room, len| unsafe { dwarf_sleb128_write(more as i64, to, room, len) }),
            What::Table => self.table(bytes, at),
            What::Strict => strict(bytes, at),
            What::Grown => returned(|it, fault| unsafe { compare_grown(data, len, more, at, it, fault) }, length),
            What::Found => found(bytes, at, list),
            What::Cached => Answer::value(unsafe { compare_cached(data, len, list.as_ptr(), list.len()) }),
            What::Text => returned(|it, fault| unsafe { dwarf_string(data, len, at, it, fault) }, length),
            What::StrOffset => returned(
                |it, fault| unsafe { dwarf_str_offset(data, len, is_big, size == 8, at, more, it, fault) },
                length,
            ),
            What::Address => returned(
                |it, fault| unsafe { dwarf_address(data, len, is_big, size, at, more, it, fault) },
                Answer::value,
            ),
            What::AddressSet => {
                returned(|it, fault| unsafe { dwarf_address_set(data, len, is_big, at, it, fault) }, Answer::Set)
            }
            What::StrOffsetSet => {
                returned(|it, fault| unsafe { dwarf_str_offset_set(data, len, is_big, at, it, fault) }, Answer::Set)
            }
            What::Addresses => Answer::value(unsafe { compare_addresses(data, len) }),
            What::InfoUnits | What::TypesUnits | What::UnitAt => units(question, bytes),
            What::Entries | What::SkippedEntries => entries(1, question, bytes),
        }
    }

    fn table(&mut self, bytes: &[u8], offset: usize) -> Answer {
        match self.room.read(bytes, offset) {
            Ok(measure) => self.shown(&measure),
            Err((status, fault)) => failed(status, fault, None),
        }
    }

    fn shown(&self, measure: &Measure) -> Answer {
        let Room { abbreviations, attributes } = &self.room;
        let shown = |it: &Abbreviation| Declaration {
            code: it.code,
            tag: it.tag,
            has_children: it.has_children != 0,
            attributes: attributes[it.first_attribute..][..it.attribute_count]
                .iter()
                .map(|it| (it.name, it.form, it.implicit_const))
                .collect(),
        };
        let declarations = abbreviations[..measure.abbreviations].iter().map(shown).collect();
        Answer::Table { declarations, close: Some((measure.closed_by_null != 0, measure.end)) }
    }
}

/// The error of a call. A number that differs from the fault's is shown as one that no error has.
fn failed(status: u32, fault: Fault, rest: Option<usize>) -> Answer {
    let kind = error_name(if status == fault.kind { status } else { u32::MAX });
    Answer::Fault { kind, value: Some(fault.value), rest }
}

fn number(what: What, bytes: &[u8]) -> Answer {
    let (at, len) = (bytes.as_ptr(), bytes.len());
    let (mut size, mut rest, mut fault) = (0, usize::MAX, Fault::default());
    let (mut unsigned, mut signed, mut short) = (0, 0, 0);
    let status = match what {
        What::Unsigned => unsafe { dwarf_uleb128(at, len, &mut unsigned, &mut size, &mut fault) },
        What::Signed => unsafe { dwarf_sleb128(at, len, &mut signed, &mut size, &mut fault) },
        What::Short => unsafe { compare_short(at, len, &mut short, &mut rest, &mut fault) },
        _ => unsafe { compare_skipped(at, len, &mut rest, &mut fault) },
    };
    if matches!(what, What::Unsigned | What::Signed) {
        rest = if status == OK { len - size } else { rest_of_error(what, bytes) };
    }
    if status != OK {
        return failed(status, fault, Some(rest));
    }
    // (two of the three are 0)
    Answer::Value { value: i128::from(unsigned) + i128::from(signed) + i128::from(short), rest: Some(rest) }
}

/// How many bytes remain after an error, which the calls for C don't tell.
fn rest_of_error(what: What, bytes: &[u8]) -> usize {
    let asked = asked(0, &Question::new(what, 0));
    let (mut found, mut text) = ([u64::MAX; 4], [0; 1]);
    unsafe { compare_readers(bytes.as_ptr(), bytes.len(), &asked, &mut found, text.as_mut_ptr(), 1) };
    found[3] as usize
}

fn written(call: impl FnOnce(*mut u8, usize, &mut usize) -> u32) -> Answer {
    let (mut bytes, mut len) = (vec![0; 16], 0);
    let status = call(bytes.as_mut_ptr(), bytes.len(), &mut len);
    if status != OK || len > bytes.len() {
        return Answer::Fault { kind: error_name(status), value: None, rest: None };
    }
    bytes.truncate(len);
    Answer::Written(bytes)
}

/// What a call returns that writes a value or an error.
fn returned<T: Default>(call: impl FnOnce(&mut T, &mut Fault) -> u32, shown: impl FnOnce(T) -> Answer) -> Answer {
    let (mut value, mut fault) = (T::default(), Fault::default());
    match call(&mut value, &mut fault) {
        OK => shown(value),
        END => Answer::End,
        status => failed(status, fault, None),
    }
}

/// The table at an offset, which a code of value 0 has to close.
pub fn strict(bytes: &[u8], offset: usize) -> Answer {
    let (data, len) = (bytes.as_ptr(), bytes.len());
    let call = |it: &mut _, fault: &mut _| unsafe { dwarf_table_measure(data, len, offset, it, fault) };
    returned(call, |it: Measure| {
        if it.closed_by_null == 0 {
            return Answer::Fault { kind: "UnterminatedAbbreviations", value: Some(len as u64), rest: None };
        }
        Answer::value(it.abbreviations as u64)
    })
}

fn found(bytes: &[u8], offset: usize, codes: &[u64]) -> Answer {
    let (mut tags, mut fault) = (vec![0; codes.len()], Fault::default());
    let (data, at, to, room) = (bytes.as_ptr(), codes.as_ptr(), tags.as_mut_ptr(), tags.len());
    match unsafe { compare_found(data, bytes.len(), offset, at, codes.len(), to, room, &mut fault) } {
        OK => Answer::Tags(tags),
        status => failed(status, fault, None),
    }
}

/// The units that a question requests, and the error after them.
fn units(question: &Question, bytes: &[u8]) -> Answer {
    let Question { what, is_big, at, .. } = *question;
    let (data, len, is_one) = (bytes.as_ptr(), bytes.len(), what == What::UnitAt);
    let (mut units, mut offset) = (Vec::new(), if is_one { at } else { 0 });
    loop {
        let (mut it, mut fault) = (Unit::default(), Fault::default());
        let is_types = what == What::TypesUnits;
        match unsafe { dwarf_unit_header(data, len, is_big, is_types, offset, &mut it, &mut fault) } {
            OK => units.push(shown_unit(offset, &it, bytes)),
            // gimli has an error for a unit that is requested and isn't there: 1 at the end.
            END if is_one => {
                return Answer::units(units, Some(failed(1, Fault { kind: 1, value: len as u64 }, None)));
            }
            END => return Answer::units(units, None),
            status => return Answer::units(units, Some(failed(status, fault, None))),
        }
        if is_one {
            return Answer::units(units, None);
        }
        offset = it.next;
    }
}

fn shown_unit(offset: usize, it: &Unit, bytes: &[u8]) -> question::Unit {
    let entries = &bytes[it.first_entry..it.next];
    question::Unit {
        offset,
        unit_length: it.unit_length,
        abbrev_offset: it.abbrev_offset,
        signature: it.identifier,
        type_offset: it.type_offset,
        first_entry: it.first_entry as u64,
        entries: entries.len(),
        sum: sum_of(entries),
        version: it.version,
        word_size: it.word_size,
        address_size: it.address_size,
        unit_type: it.unit_type,
    }
}

/// The entries of all units, by one of the readers.
fn entries(reader: u32, question: &Question, bytes: &[u8]) -> Answer {
    let skips = question.what == What::SkippedEntries;
    let asked = AskedEntries { reader, is_big: question.is_big.into(), skips: skips.into() };
    let (abbrev, info) = question.sections(bytes);
    let (mut numbers, mut count, mut text) = (vec![0; 256], 0, [0; 100]);
    loop {
        let (room, text_room) = (numbers.len(), text.len());
        let (to, text_to) = (numbers.as_mut_ptr(), text.as_mut_ptr());
        let (data, len, tables, tables_len) = (info.as_ptr(), info.len(), abbrev.as_ptr(), abbrev.len());
        let len =
            unsafe { compare_entries(data, len, tables, tables_len, &asked, to, room, &mut count, text_to, text_room) };
        if count <= room {
            let text = String::from_utf8_lossy(text.get(..len).unwrap_or_default());
            let error = (len != 0).then(|| fault_of_text(&text, None)).and_then(Answer::error);
            let (entries, stop) = entries_of(&numbers[..count]);
            return Answer::Entries { entries, stop, error };
        }
        numbers = vec![0; count];
    }
}

/// The entries that these numbers are, and where the last unit's reader is.
fn entries_of(mut numbers: &[u64]) -> (Vec<Entry>, Option<u64>) {
    let (mut entries, mut stop) = (vec![], None);
    loop {
        match *numbers {
            [1, offset, code, count, ref rest @ ..] => {
                // (an error leaves attributes out, and is followed by the two numbers of a unit's end alone)
                let count = (count as usize).min(rest.len().saturating_sub(2) / 5);
                let (values, rest) = rest.split_at(5 * count);
                let shown = |it: &[u64]| Attribute {
                    name: it[0] as u16,
                    form: it[1] as u16,
                    kind: KINDS[it[2] as usize],
                    value: [it[3], it[4]],
                };
                entries.push(Entry { offset, code, attributes: values.chunks(5).map(shown).collect() });
                numbers = rest;
            }
            [_, offset, ref rest @ ..] => {
                stop = Some(offset);
                numbers = rest;
            }
            _ => return (entries, stop),
        }
    }
}

/// What a reader is asked.
fn asked(reader: u32, question: &Question) -> Asked {
    let Question { what, is_big, size, at, more, .. } = *question;
    Asked { reader, question: what as u32, is_big: is_big.into(), size: size.into(), base: at, index: more }
}

/// The readers that are asked now and then: slices whose byte order is their type's or known at run time, and the
/// reader of `crates/dwarf_uses`.
pub const READERS: [&str; 3] = ["EndianSlice<BigEndian>", "EndianSlice<RunTimeEndian>", OWNED];
const OWNED: &str = "OwnedReader";
/// What is planted in the result of each.
const PLANTS: [Plant; READERS.len()] = [Plant::BigReader, Plant::RunTimeReader, Plant::OwnedReader];

/// What each of them finds that doesn't find the same.
pub fn by_readers(question: &Question, bytes: &[u8], ours: &Answer) -> Vec<(&'static str, Answer)> {
    let (mut differing, wanted) = (vec![], ours.in_parts());
    if matches!(question.what, What::Entries | What::SkippedEntries) {
        for (reader, name) in READERS.iter().enumerate() {
            let found = entries(reader as u32, question, bytes);
            let is_refused = *name == OWNED && found.reached() == "UnsupportedOffset";
            if !found.agrees(ours) && !is_refused {
                differing.push((*name, found));
            }
        }
        return differing;
    }
    for (reader, name) in READERS.iter().enumerate() {
        if let Some(found) = by_reader(reader as u32, question, bytes) {
            let is_refused = *name == OWNED && matches!(found, Answer::Fault { kind: "UnsupportedOffset", .. });
            if !found.agrees(&wanted) && !(is_refused && has_long_offset(question, bytes, &wanted)) {
                differing.push((*name, found));
            }
        }
    }
    differing
}

/// Whether a question has, or finds, an offset that doesn't fit the 32 bits of an offset of `OwnedReader`.
fn has_long_offset(question: &Question, bytes: &[u8], wanted: &Answer) -> bool {
    let Question { what, is_big, size, at, more, .. } = *question;
    let found = match (what, wanted) {
        (What::StrOffset, Answer::Parts([offset, ..])) => *offset,
        (What::AddressSet | What::StrOffsetSet, _) => length_at(bytes, is_big, at),
        _ => 0,
    };
    let product = more as u128 * u128::from(size);
    [at as u128, more as u128, product, found.into()].iter().any(|it| *it >= 1 << 32)
}

/// What a reader finds, or `None` if it isn't asked that. Where the order of bytes doesn't matter, it is big.
fn by_reader(reader: u32, question: &Question, bytes: &[u8]) -> Option<Answer> {
    if question.what as u32 > What::Addresses as u32 {
        return None;
    }
    let has_order = question.what as u32 >= What::StrOffset as u32;
    let asked = asked(reader, &Question { is_big: question.is_big || !has_order, ..question.clone() });
    let (mut found, mut text) = ([0; 4], [0; 100]);
    let (at, to) = (bytes.as_ptr(), text.as_mut_ptr());
    let len = unsafe { compare_readers(at, bytes.len(), &asked, &mut found, to, text.len()) };
    found[0] ^= u64::from(has(PLANTS[reader as usize]));
    let is_number = (question.what as u32) < What::Table as u32;
    Some(match (len, question.what) {
        (0, _) | (_, What::Addresses) => Answer::Parts(found),
        _ => {
            let text = String::from_utf8_lossy(text.get(..len).unwrap_or_default());
            fault_of_text(&text, is_number.then(|| found[3] as usize))
        }
    })
}
