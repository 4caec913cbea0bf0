//! The published gimli, as far as the version at hand has what is asked.

use crate::plain::{entries as plain_entries, has, units as plain_units, Plant};
use crate::question::{fault_of_text, Answer, Declaration, Question, What};
#[cfg(not(gimli_0_34))]
use crate::question::{sum_of, Attribute, Entry, Unit, BLOCK, DATA16, DATA4, DATA8};
#[cfg(gimli_0_34)]
use crate::{measure::sets_sum, sys::Set};
#[cfg(not(gimli_0_34))]
use gimli::{
    AttributeSpecification, AttributeValue, DebugInfo, DebugInfoOffset, DebugTypes, EntriesRaw, UnitHeader, UnitOffset,
    UnitSectionOffset, UnitType,
};
use gimli::{
    DebugAbbrev, DebugAbbrevOffset, DebugAddr, DebugAddrBase, DebugAddrIndex, DebugStr, DebugStrOffset,
    DebugStrOffsets, DebugStrOffsetsBase, DebugStrOffsetsIndex, EndianSlice, Error, Format, LittleEndian, Reader,
    RunTimeEndian,
};

/// gimli, and what its version reads otherwise.
#[derive(Default)]
pub struct Theirs {
    /// A table that the section's end closes is an error.
    pub is_strict: bool,
    /// Addresses of a unit may have any size.
    pub takes_any_size: bool,
}

impl Theirs {
    pub fn new() -> Theirs {
        let unclosed = DebugAbbrev::new(&[1, 0x11, 0, 0, 0], LittleEndian).abbreviations(DebugAbbrevOffset(0));
        let of_three = Question::new(What::UnitAt, 0);
        let unit = units(&of_three, EndianSlice::new(&[7, 0, 0, 0, 4, 0, 0, 0, 0, 0, 3], RunTimeEndian::Little));
        let takes_any_size = matches!(unit, Some(Answer::Units { error: None, .. }));
        Theirs { is_strict: unclosed.is_err(), takes_any_size }
    }

    /// What gimli gives, or `None` if it has no such call. `plain` is the second reader's result: gimli's tables can't
    /// be walked, so that the codes that are looked up come from there.
    pub fn answer(&self, question: &Question, bytes: &[u8], plain: &Answer) -> Option<Answer> {
        self.found(question, bytes, plain).map(|it| planted(question.what, it))
    }

    /// The same, as gimli gives it.
    fn found(&self, question: &Question, bytes: &[u8], plain: &Answer) -> Option<Answer> {
        let table = || DebugAbbrev::new(bytes, LittleEndian).abbreviations(DebugAbbrevOffset(question.at));
        let tag = |table: &gimli::Abbreviations, code: &u64| table.get(*code).map_or(0, |it| it.tag().0);
        let found = match question.what {
            What::Unsigned | What::Signed | What::Short | What::Skipped => return Some(number(question.what, bytes)),
            What::Table => table().map(|it| shown(&it, plain)),
            What::Found => table().map(|it| Answer::Tags(question.list.iter().map(|code| tag(&it, code)).collect())),
            What::Entries | What::SkippedEntries => return entries(question, bytes, self.is_strict),
            _ => return lookup(question, bytes),
        };
        Some(found.unwrap_or_else(|error| fault(error, bytes, None)))
    }

    /// The result that gimli has to agree with if the library's result is this one: a table that the section's end
    /// closes is an error in a version that needs the null code, and an address size that the library rejects is none
    /// in a version that takes any, which reads on. So do entries.
    pub fn wanted(&self, question: &Question, bytes: &[u8], ours: Answer) -> Answer {
        let is_unclosed = match (question.what, &ours) {
            (What::Table, Answer::Table { close, .. }) => matches!(close, Some((false, _))),
            // The library says whether a code of value 0 closes the table of these codes.
            (What::Found, Answer::Tags(_)) => {
                let strict = crate::ours::strict(bytes, question.at);
                strict.reached() == "UnterminatedAbbreviations"
            }
            _ => false,
        };
        if self.is_strict && is_unclosed {
            return Answer::Fault { kind: "UnexpectedEof", value: Some(bytes.len() as u64), rest: None };
        }
        let any_size = self.takes_any_size && !has(Plant::AnySize);
        match ours {
            Answer::Units { error: Some(("UnsupportedAddressSize", _)), .. } if any_size => {
                plain_units(question, bytes, true)
            }
            Answer::Entries { error: Some(("UnsupportedAddressSize", _)), .. } if any_size => {
                plain_entries(question, bytes, true)
            }
            _ => ours,
        }
    }
}

/// A result of gimli's, or another one if that is planted for its question.
fn planted(what: What, mut found: Answer) -> Answer {
    let is_planted = match what {
        What::Table => has(Plant::GimliTable),
        What::Found => has(Plant::GimliFound),
        What::Text => has(Plant::GimliText),
        What::StrOffset => has(Plant::GimliStrOffset),
        What::Address => has(Plant::GimliAddress),
        What::InfoUnits | What::TypesUnits | What::UnitAt => has(Plant::GimliUnits),
        _ => false,
    };
    match &mut found {
        Answer::Value { value, .. } if is_planted => *value += 1,
        Answer::Table { declarations, .. } if is_planted => drop(declarations.pop()),
        Answer::Tags(tags) if is_planted => drop(tags.pop()),
        Answer::Units { units, .. } if is_planted => drop(units.pop()),
        _ => (),
    }
    found
}

/// Strings and lookups by an index, and sets.
fn lookup(question: &Question, bytes: &[u8]) -> Option<Answer> {
    let Question { is_big, size, at, more, .. } = *question;
    if !MULTIPLIES_CHECKED {
        more.checked_mul(size.into())?;
    }
    let order = if is_big { RunTimeEndian::Big } else { RunTimeEndian::Little };
    let input = EndianSlice::new(bytes, order);
    let found = match question.what {
        What::Text => {
            DebugStr::new(bytes, LittleEndian).get_str(DebugStrOffset(at)).map(|it| Answer::value(it.len() as u64))
        }
        What::StrOffset => {
            let format = if size == 8 { Format::Dwarf64 } else { Format::Dwarf32 };
            DebugStrOffsets::from(input)
                .get_str_offset(format, DebugStrOffsetsBase(at), DebugStrOffsetsIndex(more))
                .map(|it| Answer::value(it.0 as u64))
        }
        What::Address => {
            DebugAddr::from(input).get_address(size, DebugAddrBase(at), DebugAddrIndex(more)).map(Answer::value)
        }
        What::InfoUnits | What::TypesUnits | What::UnitAt => return units(question, input),
        _ => return sets(question, input),
    };
    Some(found.unwrap_or_else(|error| fault(error, bytes, None)))
}

/// An error by its number. gimli's positions are addresses in memory; here they are counted from the first byte.
fn fault(error: Error, bytes: &[u8], rest: Option<usize>) -> Answer {
    if let Error::UnexpectedEof(id) = error {
        let value = Some(id.0.wrapping_sub(bytes.as_ptr() as u64));
        return Answer::Fault { kind: "UnexpectedEof", value, rest };
    }
    // The names of the other errors, and which of them have values, differ from version to version.
    fault_of_text(&format!("{error:?}"), rest)
}

fn number(what: What, bytes: &[u8]) -> Answer {
    let mut input = EndianSlice::new(bytes, LittleEndian);
    let read = match what {
        What::Unsigned => gimli::leb128::read::unsigned(&mut input).map(i128::from),
        What::Signed => gimli::leb128::read::signed(&mut input).map(i128::from),
        What::Short => gimli::leb128::read::u16(&mut input).map(i128::from),
        _ => gimli::leb128::read::skip(&mut input).map(|()| 0),
    };
    let rest = Some(Reader::len(&input) + usize::from(has(Plant::Gimli)));
    read.map_or_else(|error| fault(error, bytes, rest), |value| Answer::Value { value, rest })
}

/// The declarations of gimli's table with the codes of the second reader's.
fn shown(table: &gimli::Abbreviations, plain: &Answer) -> Answer {
    let codes = match plain {
        Answer::Table { declarations, .. } => declarations.as_slice(),
        _ => &[],
    };
    let shown = |found: &gimli::Abbreviation| Declaration {
        code: found.code(),
        tag: found.tag().0,
        has_children: found.has_children(),
        attributes: found
            .attributes()
            .iter()
            .map(|it| (it.name().0, it.form().0, it.implicit_const_value().unwrap_or(0)))
            .collect(),
    };
    let declarations = codes.iter().filter_map(|it| table.get(it.code)).map(shown).collect();
    Answer::Table { declarations, close: None }
}

/// Whether this gimli reads sets of addresses.
pub const HAS_SETS: bool = cfg!(gimli_0_34);

/// Whether an index times a size that is 2^64 or more is an error. Older versions don't check the product.
const MULTIPLIES_CHECKED: bool = cfg!(gimli_0_34);

#[cfg(not(gimli_0_34))]
fn sets(_question: &Question, _input: EndianSlice<RunTimeEndian>) -> Option<Answer> {
    None
}

#[cfg(gimli_0_34)]
fn sets(question: &Question, input: EndianSlice<RunTimeEndian>) -> Option<Answer> {
    let bytes = input.slice();
    match question.what {
        What::AddressSet => {
            let section = DebugAddr::from(EndianSlice::new(bytes.get(question.at..)?, input.endian()));
            Some(match section.headers().next() {
                Ok(Some(header)) => {
                    let (length, format) = (header.length(), header.encoding().format);
                    let unit = question.at + usize::from(format.initial_length_size());
                    let (word_size, entry_size) = (format.word_size(), header.encoding().address_size);
                    let (next, first_entry, unit_length) = (unit + length, unit + 4, length);
                    let entry_count = (length - 4) / usize::from(entry_size);
                    Answer::Set(Set { next, unit_length, first_entry, entry_count, word_size, entry_size })
                }
                Ok(None) => Answer::End,
                Err(error) => fault(error, bytes, None),
            })
        }
        What::Addresses => Some(Answer::value(sets_sum::<true>(bytes).unwrap_or(0))),
        _ => None,
    }
}

/// Whether the units of this gimli are compared, which are those of version 0.27.
pub const HAS_UNITS: bool = cfg!(not(gimli_0_34));

#[cfg(gimli_0_34)]
fn units(_question: &Question, _input: EndianSlice<RunTimeEndian>) -> Option<Answer> {
    None
}

#[cfg(not(gimli_0_34))]
fn units(question: &Question, input: EndianSlice<RunTimeEndian>) -> Option<Answer> {
    let (mut of_info, mut of_types) = (DebugInfo::from(input).units(), DebugTypes::from(input).units());
    let mut at = Some(question.at);
    let mut next = || match question.what {
        What::InfoUnits => of_info.next(),
        What::TypesUnits => of_types.next(),
        _ => at.take().map(|it| DebugInfo::from(input).header_from_offset(DebugInfoOffset(it))).transpose(),
    };
    let mut units = vec![];
    let found = loop {
        match next() {
            Ok(Some(unit)) => units.push(shown_unit(&unit, input.slice())),
            Ok(None) => break None,
            Err(error) => break Some(fault(error, input.slice(), None)),
        }
    };
    Some(Answer::units(units, found))
}

#[cfg(not(gimli_0_34))]
fn shown_unit(unit: &UnitHeader<EndianSlice<RunTimeEndian>>, bytes: &[u8]) -> Unit {
    let (unit_type, signature, type_offset) = match unit.type_() {
        UnitType::Compilation => (1, 0, 0),
        UnitType::Type { type_signature, type_offset } => (2, type_signature.0, type_offset.0),
        UnitType::Partial => (3, 0, 0),
        UnitType::Skeleton(id) => (4, id.0, 0),
        UnitType::SplitCompilation(id) => (5, id.0, 0),
        UnitType::SplitType { type_signature, type_offset } => (6, type_signature.0, type_offset.0),
    };
    let (encoding, header_size) = (unit.encoding(), unit.header_size());
    let offset = match unit.offset() {
        UnitSectionOffset::DebugInfoOffset(it) => it.0,
        UnitSectionOffset::DebugTypesOffset(it) => it.0,
    };
    // gimli returns no entries without bytes, whose place is where the header ends.
    let entries = unit.range_from(UnitOffset(header_size)..).map_or(&[][..], |it| it.slice());
    let first_entry = match entries {
        [] => offset + header_size,
        _ => (entries.as_ptr() as usize).wrapping_sub(bytes.as_ptr() as usize),
    };
    Unit {
        offset,
        unit_length: unit.unit_length(),
        abbrev_offset: unit.debug_abbrev_offset().0,
        signature,
        type_offset,
        first_entry: first_entry as u64,
        entries: entries.len(),
        sum: sum_of(entries),
        version: encoding.version,
        word_size: encoding.format.word_size(),
        address_size: encoding.address_size,
        unit_type,
    }
}

#[cfg(gimli_0_34)]
fn entries(_question: &Question, _bytes: &[u8], _is_strict: bool) -> Option<Answer> {
    None
}

#[cfg(not(gimli_0_34))]
type Slice<'a> = EndianSlice<'a, RunTimeEndian>;

/// The entries of all units, or `None` where gimli isn't asked: of a table that needs its null code, and of attributes to
/// skip that may be longer together than any section, since it adds up how many bytes they have without a check.
#[cfg(not(gimli_0_34))]
fn entries(question: &Question, bytes: &[u8], is_strict: bool) -> Option<Answer> {
    let (abbrev, info) = question.sections(bytes);
    let skips = question.what == What::SkippedEntries;
    if skips && info.windows(9).any(|it| it.iter().all(|byte| *byte >= 128)) {
        return None;
    }
    let order = if question.is_big { RunTimeEndian::Big } else { RunTimeEndian::Little };
    let mut units = DebugInfo::new(info, order).units();
    let (mut entries, mut stop) = (vec![], None);
    let found = loop {
        let unit = match units.next() {
            Ok(Some(unit)) => unit,
            Ok(None) => break None,
            Err(error) => break Some(error),
        };
        let offset = unit.debug_abbrev_offset();
        if is_strict && crate::ours::strict(abbrev, offset.0).reached() == "UnterminatedAbbreviations" {
            return None;
        }
        let table = match DebugAbbrev::new(abbrev, LittleEndian).abbreviations(offset) {
            Ok(table) => table,
            Err(error) => return Some(Answer::Entries { entries, stop, error: fault(error, abbrev, None).error() }),
        };
        let mut raw = unit.entries_raw(&table, None).ok()?;
        let read = of_unit(&unit, &mut raw, info, skips, &mut entries);
        stop = Some(raw.next_offset().0 as u64);
        if let Err(error) = read {
            break Some(error);
        }
    };
    let mut error = found.and_then(|it| fault(it, info, None).error());
    // gimli skips several values at once, and stops where the first of them begins.
    if skips && error.is_some() {
        stop = None;
        error = error.map(|it| (it.0, None));
    }
    Some(Answer::Entries { entries, stop, error })
}

/// The entries of a unit, up to an error.
#[cfg(not(gimli_0_34))]
fn of_unit(
    unit: &UnitHeader<Slice>, raw: &mut EntriesRaw<Slice>, info: &[u8], skips: bool, to: &mut Vec<Entry>,
) -> gimli::Result<()> {
    while !raw.is_empty() {
        let offset = raw.next_offset().0 as u64;
        let found = raw.read_abbreviation()?;
        let code = found.map_or(0, |it| it.code());
        to.push(Entry { offset, code, attributes: vec![] });
        let specs = found.map_or(&[][..], |it| it.attributes());
        if skips {
            raw.skip_attributes(specs)?;
            continue;
        }
        for spec in specs {
            let form = form_of(unit, raw, spec);
            let found = raw.read_attribute(*spec)?;
            let (kind, value) = shown_value(found.raw_value(), form, info);
            let last = to.last_mut().expect("an entry was pushed");
            last.attributes.push(Attribute { name: found.name().0, form, kind, value });
        }
    }
    Ok(())
}

/// The form of the next attribute, or 0 if the number in its place is none. gimli doesn't keep it.
#[cfg(not(gimli_0_34))]
fn form_of(unit: &UnitHeader<Slice>, raw: &EntriesRaw<Slice>, spec: &AttributeSpecification) -> u16 {
    let (mut form, mut ahead) = (spec.form().0, unit.range_from(raw.next_offset()..));
    while form == gimli::DW_FORM_indirect.0 {
        form = ahead.as_mut().map_or(0, |it| it.read_uleb128_u16().unwrap_or(0));
    }
    form
}

/// A value, as the library has it: gimli takes constants of versions 2 and 3 for offsets if their names allow that, and
/// sixteen bytes for a block.
#[cfg(not(gimli_0_34))]
fn shown_value(value: AttributeValue<Slice>, form: u16, info: &[u8]) -> (&'static str, [u64; 2]) {
    let place = |it: Slice| [(it.slice().as_ptr() as u64).wrapping_sub(info.as_ptr() as u64), it.len() as u64];
    let (kind, number) = match value {
        AttributeValue::SecOffset(x) if form == gimli::DW_FORM_data4.0 => (DATA4, x as u64),
        AttributeValue::SecOffset(x) if form == gimli::DW_FORM_data8.0 => (DATA8, x as u64),
        AttributeValue::Block(x) if form == gimli::DW_FORM_data16.0 => {
            let mut halves = x;
            let both = [halves.read_u64().unwrap_or(0), halves.read_u64().unwrap_or(0)];
            let is_big = x.endian() == RunTimeEndian::Big;
            return (DATA16, if is_big { [both[1], both[0]] } else { both });
        }
        AttributeValue::Block(x) => return (BLOCK, place(x)),
        AttributeValue::Exprloc(x) => return ("Exprloc", place(x.0)),
        AttributeValue::String(x) => return ("String", place(x)),
        AttributeValue::Addr(x) => ("Addr", x),
        AttributeValue::Data1(x) => ("Data1", x.into()),
        AttributeValue::Data2(x) => ("Data2", x.into()),
        AttributeValue::Data4(x) => (DATA4, x.into()),
        AttributeValue::Data8(x) => (DATA8, x),
        AttributeValue::Sdata(x) => ("Sdata", x as u64),
        AttributeValue::Udata(x) => ("Udata", x),
        AttributeValue::Flag(x) => ("Flag", x.into()),
        AttributeValue::SecOffset(x) => ("SecOffset", x as u64),
        AttributeValue::UnitRef(x) => ("UnitRef", x.0 as u64),
        AttributeValue::DebugInfoRef(x) => ("DebugInfoRef", x.0 as u64),
        AttributeValue::DebugInfoRefSup(x) => ("DebugInfoRefSup", x.0 as u64),
        AttributeValue::DebugTypesRef(x) => ("DebugTypesRef", x.0),
        AttributeValue::DebugStrRef(x) => ("DebugStrRef", x.0 as u64),
        AttributeValue::DebugStrRefSup(x) => ("DebugStrRefSup", x.0 as u64),
        AttributeValue::DebugLineStrRef(x) => ("DebugLineStrRef", x.0 as u64),
        AttributeValue::DebugStrOffsetsIndex(x) => ("DebugStrOffsetsIndex", x.0 as u64),
        AttributeValue::DebugAddrIndex(x) => ("DebugAddrIndex", x.0 as u64),
        AttributeValue::DebugLocListsIndex(x) => ("DebugLocListsIndex", x.0 as u64),
        AttributeValue::DebugRngListsIndex(x) => ("DebugRngListsIndex", x.0 as u64),
        _ => ("a value that isn't raw", 0),
    };
    (kind, [number, 0])
}
