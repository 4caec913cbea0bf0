//! A second reader, written from the text of the standard: DWARF 5, 7.4, 7.5.1 to 7.5.6, 7.26 and 7.27, and DWARF 4,
//! 7.5.1.1 and 7.6.
//!
//! It is plain, and slow where that is plainer. It shares nothing with the library. The standard doesn't say which
//! error a reader gives of bytes that are malformed, nor where; that is as the library's documentation says.

use crate::question::{
    sum_of, Answer, Attribute, Declaration, Entry, Question, Unit, What, INVALID_CODE, INVALID_IMPLICIT_CONST,
    UNKNOWN_FORM,
};
use crate::sys::Set;
use std::collections::BTreeMap;
use std::sync::atomic::{AtomicUsize, Ordering::Relaxed};

const DW_FORM_IMPLICIT_CONST: u16 = 0x21;

/// Declares the errors that can be planted, each with its name.
macro_rules! plants {
    ($($(#[$doc:meta])* $plant:ident $name:literal,)*) => {
        /// The errors that can be planted, so that the comparison has to find them.
        #[derive(Clone, Copy)]
        pub enum Plant { $($(#[$doc])* $plant,)* }

        /// Their names, in this order.
        pub const PLANTS: &[&str] = &[$($name,)*];
    };
}

plants! {
    /// A number that isn't whole is missed at the end of the bytes, and not where it begins.
    Position "position",
    /// A number of ten bytes lacks its bit 63.
    Value "value",
    /// A wrong size of addresses is seen before it is known that a word isn't there.
    Order "order",
    /// A number that is too long takes a byte too many.
    Consumed "consumed",
    /// A table that the section's end closes is taken for one that a code of value 0 closes.
    Missing "missing",
    /// A repeated code passes if it is greater than the number of declarations.
    Duplicate "duplicate",
    /// The next set begins eight bytes too early after one of 64 bits.
    Length "length",
    /// The section's end ends a string.
    String "string",
    /// The product of an index and a size wraps.
    Product "product",
    /// Addresses may have 3, 5, 6 or 7 bytes.
    Size "size",
    /// A signed number is never below 0.
    Sign "sign",
    /// A tag loses what its second byte has.
    Tag "tag",
    /// No declaration has children.
    Children "children",
    /// The last attribute of a declaration is left out.
    Attributes "attributes",
    /// The lowest byte of a number comes first in either byte order.
    Big "big",
    /// The section's end and a code of value 0 close a table the other way round.
    Close "close",
    /// A table ends one byte too late.
    End "end",
    /// A cache reads a table once, and has nothing the second time.
    Cached "cached",
    /// A cache keeps what it read before the section grew.
    Grown "grown",
    /// A code that no declaration has is found at the one before it.
    Get "get",
    /// A number is written with one byte too many.
    Written "written",
    /// The offset of the table comes before the address size in version 5 too.
    Layout "layout",
    /// A type that no unit has is seen before it is known that the other fields aren't there.
    UnitType "unit-type",
    /// Units of `.debug_types` are compilation units before version 5.
    TypeUnit "type-unit",
    /// The entries of a unit begin where its own fields do.
    Entries "entries",
    /// An index of a string has four bytes where its form says three.
    ThreeBytes "three-bytes",
    /// A form that an entry has isn't indirect again.
    Indirect "indirect",
    /// The constant of an abbreviation is 0.
    Implicit "implicit",
    /// An offset into `.debug_info` is a word in version 2 too.
    Reference "reference",
    /// The bytes of a block begin where their number does.
    Block "block",
    /// The code 0 ends the entries of a unit.
    NullEntry "null-entry",
    /// Offsets in a unit count from its first entry.
    EntryOffset "entry-offset",
    /// A LEB128 number that is skipped has at most ten bytes.
    Judged "judged",
    /// gimli's result of a number leaves one byte more. This one is planted where gimli is called.
    Gimli "gimli",
    /// Each of gimli's other results is another one, where gimli is called: a table or a list lacks its last row, and a
    /// number is one too great.
    GimliTable "gimli-table",
    GimliFound "gimli-found",
    GimliText "gimli-string",
    GimliStrOffset "gimli-str-offset",
    GimliAddress "gimli-address",
    /// Another reader of the library finds another number.
    BigReader "big-reader",
    RunTimeReader "run-time-reader",
    OwnedReader "owned-reader",
    /// These need the units of gimli 0.27. Its list of units lacks the last one.
    GimliUnits "gimli-units",
    /// A gimli that takes any address size of a unit is held to the library's error. This is planted where that is
    /// decided.
    AnySize "any-size",
}

/// The number of the one that is planted, or 0.
static PLANTED: AtomicUsize = AtomicUsize::new(0);

/// Plants the error of this number, or none for 0.
pub fn plant(number: usize) {
    PLANTED.store(number, Relaxed);
}

/// Whether this error is planted.
pub fn has(plant: Plant) -> bool {
    PLANTED.load(Relaxed) == plant as usize + 1
}

/// An error by its name, with its value or position.
type Fault = (&'static str, u64);

const BAD_UNSIGNED: Fault = ("BadUnsignedLeb128", 0);
const BAD_SIGNED: Fault = ("BadSignedLeb128", 0);

fn eof(at: usize) -> Fault {
    ("UnexpectedEof", at as u64)
}

/// Bytes that are read in order.
struct Input<'a> {
    bytes: &'a [u8],
    at: usize,
}

impl Input<'_> {
    fn byte(&mut self) -> Result<u8, Fault> {
        let byte = *self.bytes.get(self.at).ok_or_else(|| eof(self.at))?;
        self.at += 1;
        Ok(byte)
    }

    /// The bytes of a number, of which the last one has a high bit of 0. They end after the limit, if there is one.
    fn digits(&mut self, limit: usize) -> Result<Vec<u8>, Fault> {
        let mut digits = Vec::new();
        while digits.len() < limit {
            let byte = self.byte()?;
            digits.push(byte);
            if byte < 128 {
                return Ok(digits);
            }
        }
        if has(Plant::Consumed) {
            let _ = self.byte();
        }
        Ok(digits)
    }

    /// The bytes of a number that ends within the limit, and what they are without a sign (DWARF 4, 7.6): each byte has
    /// seven bits, the lowest first.
    fn number(&mut self, limit: usize, too_long: Fault) -> Result<(Vec<u8>, i128), Fault> {
        let digits = self.digits(limit)?;
        if digits[digits.len() - 1] >= 128 {
            return Err(too_long);
        }
        let value = digits.iter().rev().fold(0, |value, it| value << 7 | i128::from(it & 0x7f));
        Ok((digits, value))
    }

    fn long(&mut self) -> Result<u64, Fault> {
        let (digits, mut value) = self.number(10, BAD_UNSIGNED)?;
        if digits.len() == 10 && has(Plant::Value) {
            value &= !(1 << 63);
        }
        u64::try_from(value).map_err(|_| BAD_UNSIGNED)
    }

    fn short(&mut self) -> Result<u16, Fault> {
        u16::try_from(self.number(3, BAD_UNSIGNED)?.1).map_err(|_| BAD_UNSIGNED)
    }

    /// A signed number: bit 6 of the last byte says that all bits before it are ones.
    fn signed(&mut self) -> Result<i64, Fault> {
        let (digits, mut value) = self.number(10, BAD_SIGNED)?;
        if digits[digits.len() - 1] & 0x40 != 0 && !has(Plant::Sign) {
            value -= 1 << (7 * digits.len());
        }
        i64::try_from(value).map_err(|_| BAD_SIGNED)
    }

    /// The number of that many bytes.
    fn fixed(&mut self, size: usize, is_big: bool) -> Result<u64, Fault> {
        if self.bytes.len() - self.at < size {
            return Err(eof(if has(Plant::Position) { self.bytes.len() } else { self.at }));
        }
        let mut value = 0;
        for i in 0..size {
            let index = if is_big && !has(Plant::Big) { i } else { size - 1 - i };
            value = value << 8 | u64::from(self.bytes[self.at + index]);
        }
        self.at += size;
        Ok(value)
    }
}

impl Input<'_> {
    /// A number of sixteen bytes, in two halves, the lower first.
    fn sixteen(&mut self, is_big: bool) -> Result<[u64; 2], Fault> {
        if self.bytes.len() - self.at < 16 {
            return Err(eof(self.at));
        }
        let halves = [self.fixed(8, is_big)?, self.fixed(8, is_big)?];
        Ok(if is_big { [halves[1], halves[0]] } else { halves })
    }

    /// That many bytes, of any number, which aren't looked at.
    fn skipped(&mut self, size: usize) -> Result<u64, Fault> {
        if self.bytes.len() - self.at < size {
            return Err(eof(self.at));
        }
        self.at += size;
        Ok(0)
    }
}

/// What the standard says.
pub fn answer(question: &Question, bytes: &[u8]) -> Answer {
    found(question, bytes).unwrap_or_else(|(kind, value)| Answer::Fault { kind, value: Some(value), rest: None })
}

fn found(question: &Question, bytes: &[u8]) -> Result<Answer, Fault> {
    let Question { what, is_big, size, at, more, ref list } = *question;
    Ok(match what {
        What::Unsigned | What::Signed | What::Short | What::Skipped => number(what, bytes),
        What::WrittenUnsigned => written(more as i128, false),
        What::WrittenSigned => written((more as i64).into(), true),
        What::Table => {
            let (by_code, close) = table(bytes, at)?;
            Answer::Table { declarations: by_code.into_values().collect(), close: Some(close) }
        }
        What::Strict => match table(bytes, at)? {
            (by_code, (is_null, _)) if is_null || has(Plant::Missing) => Answer::value(by_code.len() as u64),
            _ => return Err(("UnterminatedAbbreviations", bytes.len() as u64)),
        },
        // A section that grew is read as if it had always been so.
        What::Grown if has(Plant::Grown) => {
            let before = &bytes[..more.min(bytes.len())];
            Answer::value(table(before, at)?.0.len() as u64)
        }
        What::Grown => Answer::value(table(bytes, at)?.0.len() as u64),
        What::Cached => {
            let length = |it: &u64| table(bytes, *it as usize).map_or(1 << 32, |it| it.0.len() as u64);
            let times = if has(Plant::Cached) { 1 } else { 2 };
            Answer::value(times * list.iter().map(length).sum::<u64>())
        }
        What::Found => {
            let (by_code, _) = table(bytes, at)?;
            let least = |code: u64| if has(Plant::Get) { 0 } else { code };
            let tag = |it: &u64| by_code.range(least(*it)..=*it).next_back().map_or(0, |it| it.1.tag);
            Answer::Tags(list.iter().map(tag).collect())
        }
        What::Text => string(bytes, at)?,
        What::StrOffset | What::Address => Answer::value(slot(bytes, size, at, more, is_big)?),
        What::AddressSet | What::StrOffsetSet => set(bytes, is_big, at, what == What::AddressSet)?,
        What::Addresses => Answer::value(addresses(bytes).unwrap_or(0)),
        What::InfoUnits | What::TypesUnits | What::UnitAt => units(question, bytes, false),
        What::Entries | What::SkippedEntries => entries(question, bytes, false),
    })
}

fn number(what: What, bytes: &[u8]) -> Answer {
    let mut input = Input { bytes, at: 0 };
    let read = match what {
        What::Unsigned => input.long().map(i128::from),
        What::Signed => input.signed().map(i128::from),
        What::Short => input.short().map(i128::from),
        _ => input.digits(usize::MAX).map(|_| 0),
    };
    let rest = bytes.len() - input.at;
    match read {
        Ok(value) => Answer::Value { value, rest: Some(rest) },
        Err((kind, value)) => Answer::Fault { kind, value: Some(value), rest: Some(rest) },
    }
}

/// The shortest bytes of a number: those that are read as it, with one digit more until it fits.
fn written(value: i128, is_signed: bool) -> Answer {
    let mut count: u32 = 1;
    let fits = |count: u32| {
        let (low, high) =
            if is_signed { (-(1i128 << (7 * count - 1)), 1i128 << (7 * count - 1)) } else { (0, 1i128 << (7 * count)) };
        low <= value && value < high
    };
    while !fits(count) {
        count += 1;
    }
    count += u32::from(has(Plant::Written));
    let digit = |i: u32| (value >> (7 * i) & 0x7f) as u8 | if i + 1 < count { 0x80 } else { 0 };
    Answer::Written((0..count).map(digit).collect())
}

/// The declarations of the table at an offset, whether a code of value 0 closes it, and where it ends.
fn table(bytes: &[u8], offset: usize) -> Result<(BTreeMap<u64, Declaration>, (bool, usize)), Fault> {
    if offset > bytes.len() {
        return Err(eof(0));
    }
    let mut input = Input { bytes, at: offset };
    let (by_code, is_null) = next_table(&mut input)?;
    Ok((by_code, (is_null != has(Plant::Close), input.at + usize::from(has(Plant::End)))))
}

/// Where the tables of a section begin that follow each other up to the first that isn't closed, and their codes.
pub fn tables(bytes: &[u8]) -> Vec<(usize, Vec<u64>)> {
    let (mut input, mut found) = (Input { bytes, at: 0 }, vec![]);
    loop {
        let at = input.at;
        match next_table(&mut input) {
            Ok((by_code, true)) => found.push((at, by_code.into_keys().collect())),
            _ => return found,
        }
    }
}

fn next_table(input: &mut Input) -> Result<(BTreeMap<u64, Declaration>, bool), Fault> {
    let mut by_code = BTreeMap::new();
    while input.at < input.bytes.len() {
        let code = input.long()?;
        if code == 0 {
            return Ok((by_code, true));
        }
        let declared = declaration(input, code)?;
        let passes = has(Plant::Duplicate) && code > by_code.len() as u64;
        if by_code.insert(code, declared).is_some() && !passes {
            return Err(("DuplicateAbbreviationCode", code));
        }
    }
    Ok((by_code, false))
}

/// What follows a code (DWARF 5, 7.5.3).
fn declaration(input: &mut Input, code: u64) -> Result<Declaration, Fault> {
    let tag = input.short()?;
    if tag == 0 {
        return Err(("AbbreviationTagZero", 0));
    }
    let tag = if has(Plant::Tag) { tag & 0x7f } else { tag };
    let children = input.byte()?;
    if children > 1 {
        return Err(("InvalidAbbreviationChildren", u64::from(children)));
    }
    let mut attributes = Vec::new();
    loop {
        let name = input.short()?;
        let form = input.short()?;
        match (name, form) {
            (0, 0) => break,
            (0, _) => return Err(("AttributeNameZero", 0)),
            (_, 0) => return Err(("AttributeFormZero", 0)),
            (_, DW_FORM_IMPLICIT_CONST) => attributes.push((name, form, input.signed()?)),
            _ => attributes.push((name, form, 0)),
        }
    }
    if has(Plant::Attributes) {
        attributes.pop();
    }
    Ok(Declaration { code, tag, has_children: children == 1 && !has(Plant::Children), attributes })
}

fn string(bytes: &[u8], offset: usize) -> Result<Answer, Fault> {
    let from = bytes.get(offset..).ok_or_else(|| eof(0))?;
    let end = if has(Plant::String) { Some(from.len()) } else { None };
    let len = from.iter().position(|it| *it == 0).or(end).ok_or_else(|| eof(offset))?;
    Ok(Answer::value(len as u64))
}

/// Whether addresses may have that many bytes.
fn is_size(size: u8) -> bool {
    [1, 2, 4, 8].contains(&size) || has(Plant::Size) && (3..8).contains(&size)
}

/// The number at an index, counted from a base. The size is checked once the place is known.
fn slot(bytes: &[u8], size: u8, base: usize, index: usize, is_big: bool) -> Result<u64, Fault> {
    if base > bytes.len() {
        return Err(eof(0));
    }
    let mut distance = index as u128 * u128::from(size);
    if distance >= 1 << 64 {
        if !has(Plant::Product) {
            return Err(("UnsupportedOffset", 0));
        }
        distance %= 1 << 64;
    }
    let at = base as u128 + distance;
    if at > bytes.len() as u128 && (is_size(size) || !has(Plant::Order)) {
        return Err(eof(base));
    }
    if !is_size(size) {
        return Err(("UnsupportedAddressSize", u64::from(size)));
    }
    Input { bytes, at: at as usize }.fixed(usize::from(size), is_big)
}

/// The initial length of a set (7.4), and the size of its words in bytes.
fn initial_length(input: &mut Input, is_big: bool) -> Result<(u64, u8), Fault> {
    match input.fixed(4, is_big)? {
        0xffff_ffff => Ok((input.fixed(8, is_big)?, 8)),
        length if length >= 0xffff_fff0 => Err(("UnknownReservedLength", length)),
        length => Ok((length, 4)),
    }
}

/// The length that a set at an offset says, or 0 if there is none.
pub fn length_at(bytes: &[u8], is_big: bool, offset: usize) -> u64 {
    let mut input = Input { bytes, at: offset.min(bytes.len()) };
    initial_length(&mut input, is_big).map_or(0, |it| it.0)
}

/// The header of a set of addresses (7.27) or of string offsets (7.26) at an offset.
fn set(bytes: &[u8], is_big: bool, offset: usize, is_of_addresses: bool) -> Result<Answer, Fault> {
    if offset > bytes.len() {
        return Err(eof(0));
    }
    if offset == bytes.len() {
        return Ok(Answer::End);
    }
    let mut input = Input { bytes, at: offset };
    let (length, word_size) = initial_length(&mut input, is_big)?;
    if length > (bytes.len() - input.at) as u64 {
        return Err(eof(input.at));
    }
    let next = input.at + length as usize;
    let mut unit = Input { bytes: &bytes[..next], at: input.at };
    let version = unit.fixed(2, is_big)?;
    if version != 5 {
        return Err(("UnknownVersion", version));
    }
    let mut entry_size = word_size;
    if is_of_addresses {
        entry_size = unit.byte()?;
        if !is_size(entry_size) {
            return Err(("UnsupportedAddressSize", u64::from(entry_size)));
        }
        let segment_size = unit.byte()?;
        if segment_size != 0 {
            return Err(("UnsupportedSegmentSize", u64::from(segment_size)));
        }
    } else {
        unit.fixed(2, is_big)?;
    }
    let (first_entry, unit_length) = (unit.at, length as usize);
    let entry_count = (next - first_entry) / usize::from(entry_size);
    let next = if word_size == 8 && has(Plant::Length) { next - 8 } else { next };
    Ok(Answer::Set(Set { next, unit_length, first_entry, entry_count, word_size, entry_size }))
}

/// The sum of all addresses of all sets, whose byte order is little.
fn addresses(bytes: &[u8]) -> Result<u64, Fault> {
    let (mut sum, mut offset) = (0u64, 0);
    while let Answer::Set(found) = set(bytes, false, offset, true)? {
        let mut input = Input { bytes: &bytes[..found.next], at: found.first_entry };
        while input.at < found.next {
            sum = sum.wrapping_add(input.fixed(usize::from(found.entry_size), false)?);
        }
        offset = found.next;
    }
    Ok(sum)
}

/// The units that a question requests, and the error after them. Their addresses have a valid size, or any.
pub fn units(question: &Question, bytes: &[u8], takes_any_size: bool) -> Answer {
    let Question { what, is_big, at, .. } = *question;
    let (mut units, mut offset) = (vec![], at);
    let mut next = || -> Result<(), Fault> {
        while offset < bytes.len() || what == What::UnitAt && units.is_empty() {
            let own_type = if what == What::TypesUnits && !has(Plant::TypeUnit) { 2 } else { 1 };
            let (found, next) = unit(bytes, offset, is_big, own_type, takes_any_size)?;
            units.push(found);
            offset = if what == What::UnitAt { bytes.len() } else { next };
        }
        Ok(())
    };
    let error = next().err().map(|(kind, value)| (kind, Some(value)));
    Answer::Units { units, error }
}

/// The unit at an offset, and where the next one begins. Before version 5 its type is the section's.
fn unit(bytes: &[u8], offset: usize, is_big: bool, own_type: u8, takes_any: bool) -> Result<(Unit, usize), Fault> {
    if offset > bytes.len() {
        return Err(eof(0));
    }
    let mut input = Input { bytes, at: offset };
    let (length, word_size) = initial_length(&mut input, is_big)?;
    if length > (bytes.len() - input.at) as u64 {
        return Err(eof(input.at));
    }
    let (unit_length, next) = (length as usize, input.at + length as usize);
    let mut rest = Input { bytes: &bytes[..next], at: input.at };
    let (word, version) = (usize::from(word_size), rest.fixed(2, is_big)? as u16);
    let address_size = |rest: &mut Input| {
        let size = rest.byte()?;
        if is_size(size) || takes_any {
            Ok(size)
        } else {
            Err(("UnsupportedAddressSize", u64::from(size)))
        }
    };
    let (mut found, mut unit_type) = (Unit { offset, unit_length, version, word_size, ..Unit::default() }, own_type);
    match version {
        2..=4 => {
            found.abbrev_offset = rest.fixed(word, is_big)? as usize;
            found.address_size = address_size(&mut rest)?;
        }
        5 => {
            unit_type = rest.byte()?;
            if has(Plant::UnitType) && !(1..=6).contains(&unit_type) {
                return Err(("UnknownUnitType", unit_type.into()));
            }
            if has(Plant::Layout) {
                found.abbrev_offset = rest.fixed(word, is_big)? as usize;
            }
            found.address_size = address_size(&mut rest)?;
            if !has(Plant::Layout) {
                found.abbrev_offset = rest.fixed(word, is_big)? as usize;
            }
        }
        _ => return Err(("UnknownVersion", version.into())),
    }
    let own_fields = rest.at;
    if !(1..=6).contains(&unit_type) {
        return Err(("UnknownUnitType", unit_type.into()));
    }
    if !matches!(unit_type, 1 | 3) {
        found.signature = rest.fixed(8, is_big)?;
    }
    if matches!(unit_type, 2 | 6) {
        found.type_offset = rest.fixed(word, is_big)? as usize;
    }
    let first = if has(Plant::Entries) { own_fields } else { rest.at };
    let entries = &rest.bytes[first..];
    let (first_entry, count, sum) = (first as u64, entries.len(), sum_of(entries));
    Ok((Unit { unit_type, first_entry, entries: count, sum, ..found }, next))
}

/// How a value is encoded.
#[derive(Clone, Copy)]
enum Coding {
    /// A number of that many bytes.
    Fixed(usize),
    Unsigned,
    Signed,
    /// A number that has the size of an address.
    Address,
    /// An offset of the format's size.
    Word,
    /// An offset into `.debug_info`.
    Reference,
    /// That many bytes say how many follow, or a LEB128 number for 0.
    Counted(usize),
    /// Bytes up to a zero byte.
    Text,
    /// Nothing.
    Present,
    /// Nothing, and the abbreviation has the value.
    Constant,
}

use Coding::{Address, Constant, Counted, Fixed, Present, Reference, Signed, Text, Unsigned, Word};

const DW_FORM_INDIRECT: u16 = 0x16;

/// The forms, the kinds of their values, and how these are encoded (7.5.6), with those of GNU.
const FORMS: [(u16, &str, Coding); 46] = [
    (0x01, "Addr", Address),
    (0x03, "Block", Counted(2)),
    (0x04, "Block", Counted(4)),
    (0x05, "Data2", Fixed(2)),
    (0x06, "Data4", Fixed(4)),
    (0x07, "Data8", Fixed(8)),
    (0x08, "String", Text),
    (0x09, "Block", Counted(0)),
    (0x0a, "Block", Counted(1)),
    (0x0b, "Data1", Fixed(1)),
    (0x0c, "Flag", Fixed(1)),
    (0x0d, "Sdata", Signed),
    (0x0e, "DebugStrRef", Word),
    (0x0f, "Udata", Unsigned),
    (0x10, "DebugInfoRef", Reference),
    (0x11, "UnitRef", Fixed(1)),
    (0x12, "UnitRef", Fixed(2)),
    (0x13, "UnitRef", Fixed(4)),
    (0x14, "UnitRef", Fixed(8)),
    (0x15, "UnitRef", Unsigned),
    (0x17, "SecOffset", Word),
    (0x18, "Exprloc", Counted(0)),
    (0x19, "Flag", Present),
    (0x1a, "DebugStrOffsetsIndex", Unsigned),
    (0x1b, "DebugAddrIndex", Unsigned),
    (0x1c, "DebugInfoRefSup", Fixed(4)),
    (0x1d, "DebugStrRefSup", Word),
    (0x1e, "Data16", Fixed(16)),
    (0x1f, "DebugLineStrRef", Word),
    (0x20, "DebugTypesRef", Fixed(8)),
    (0x21, "Sdata", Constant),
    (0x22, "DebugLocListsIndex", Unsigned),
    (0x23, "DebugRngListsIndex", Unsigned),
    (0x24, "DebugInfoRefSup", Fixed(8)),
    (0x25, "DebugStrOffsetsIndex", Fixed(1)),
    (0x26, "DebugStrOffsetsIndex", Fixed(2)),
    (0x27, "DebugStrOffsetsIndex", Fixed(3)),
    (0x28, "DebugStrOffsetsIndex", Fixed(4)),
    (0x29, "DebugAddrIndex", Fixed(1)),
    (0x2a, "DebugAddrIndex", Fixed(2)),
    (0x2b, "DebugAddrIndex", Fixed(3)),
    (0x2c, "DebugAddrIndex", Fixed(4)),
    (0x1f01, "DebugAddrIndex", Unsigned),
    (0x1f02, "DebugStrOffsetsIndex", Unsigned),
    (0x1f20, "DebugInfoRefSup", Word),
    (0x1f21, "DebugStrRefSup", Word),
];

/// The entries of all units of a section, and the error after them. Addresses of units have a valid size, or any.
pub fn entries(question: &Question, bytes: &[u8], takes_any_size: bool) -> Answer {
    let (abbrev, info) = question.sections(bytes);
    let skips = question.what == What::SkippedEntries;
    let (mut entries, mut stop, mut offset) = (vec![], None, 0);
    let mut next = || -> Result<(), Fault> {
        while offset < info.len() {
            let (found, next) = unit(info, offset, question.is_big, 1, takes_any_size)?;
            let (by_code, _) = table(abbrev, found.abbrev_offset)?;
            let first = found.first_entry as usize;
            let mut input = Input { bytes: &info[..next], at: first };
            let start = if has(Plant::EntryOffset) { first } else { offset };
            let read = entries_of_unit(&mut input, &by_code, &found, start, (question.is_big, skips), &mut entries);
            stop = Some((input.at - start) as u64);
            read?;
            offset = next;
        }
        Ok(())
    };
    let error = next().err().map(|(kind, value)| (kind, Some(value)));
    Answer::Entries { entries, stop, error }
}

/// The entries of a unit, which begins at `start`, up to an error.
fn entries_of_unit(
    input: &mut Input, by_code: &BTreeMap<u64, Declaration>, unit: &Unit, start: usize, (is_big, skips): (bool, bool),
    to: &mut Vec<Entry>,
) -> Result<(), Fault> {
    while input.at < input.bytes.len() {
        let offset = (input.at - start) as u64;
        let code = input.long()?;
        if code == 0 {
            to.push(Entry { offset, code, attributes: vec![] });
            if has(Plant::NullEntry) {
                return Ok(());
            }
            continue;
        }
        let declared = by_code.get(&code).ok_or((INVALID_CODE, code))?;
        to.push(Entry { offset, code, attributes: vec![] });
        for (name, form, constant) in &declared.attributes {
            let (form, constant) = form_of(input, *form, *constant)?;
            let (kind, value) = value(input, unit, is_big, form, constant, skips)?;
            if !skips {
                let last = to.last_mut().expect("an entry was pushed");
                last.attributes.push(Attribute { name: *name, form, kind, value });
            }
        }
    }
    Ok(())
}

/// The form of a value (7.5.3), and the constant of its abbreviation, if the form is the abbreviation's own.
fn form_of(input: &mut Input, form: u16, constant: i64) -> Result<(u16, Option<i64>), Fault> {
    if form != DW_FORM_INDIRECT {
        return Ok((form, (form == DW_FORM_IMPLICIT_CONST).then_some(constant)));
    }
    let mut form = input.short()?;
    while form == DW_FORM_INDIRECT && !has(Plant::Indirect) {
        form = input.short()?;
    }
    Ok((form, None))
}

/// The kind of a value, and the value. One that is skipped isn't judged.
fn value(
    input: &mut Input, unit: &Unit, is_big: bool, form: u16, constant: Option<i64>, skips: bool,
) -> Result<(&'static str, [u64; 2]), Fault> {
    let (_, kind, coding) = *FORMS.iter().find(|it| it.0 == form).ok_or((UNKNOWN_FORM, form.into()))?;
    let size = usize::from(unit.address_size);
    let word = usize::from(unit.word_size);
    let is_by_address = unit.version == 2 && !has(Plant::Reference);
    let number = match coding {
        Unsigned | Signed if skips => {
            let digits = input.digits(if has(Plant::Judged) { 10 } else { usize::MAX })?;
            if digits[digits.len() - 1] >= 128 {
                return Err(BAD_UNSIGNED);
            }
            0
        }
        Constant if skips => 0,
        Address if skips => input.skipped(size)?,
        Reference if skips => input.skipped(if is_by_address { size } else { word })?,
        Fixed(16) => return Ok((kind, input.sixteen(is_big)?)),
        Fixed(3) if kind == "DebugStrOffsetsIndex" && has(Plant::ThreeBytes) => input.fixed(4, is_big)?,
        Fixed(size) => input.fixed(size, is_big)?,
        Unsigned => input.long()?,
        Signed => input.signed()? as u64,
        Address if !is_size(unit.address_size) => return Err(("UnsupportedAddressSize", size as u64)),
        Address => input.fixed(size, is_big)?,
        Reference if is_by_address && !is_size(unit.address_size) => {
            return Err(("UnsupportedOffsetSize", size as u64));
        }
        Reference if is_by_address => input.fixed(size, is_big)?,
        Word | Reference => input.fixed(word, is_big)?,
        Present => 1,
        Constant => match constant {
            Some(constant) if !has(Plant::Implicit) => constant as u64,
            Some(_) => 0,
            None => return Err((INVALID_IMPLICIT_CONST, 0)),
        },
        Counted(size) => return Ok((kind, block(input, size, is_big)?)),
        Text => return Ok((kind, text(input)?)),
    };
    Ok((kind, [if kind == "Flag" { (number != 0).into() } else { number }, 0]))
}

/// The position of bytes, whose number comes first, and how many they are.
fn block(input: &mut Input, size: usize, is_big: bool) -> Result<[u64; 2], Fault> {
    let start = input.at;
    let count = if size == 0 { input.long()? } else { input.fixed(size, is_big)? };
    let first = input.at;
    if count > (input.bytes.len() - first) as u64 {
        return Err(eof(first));
    }
    input.at += count as usize;
    Ok([if has(Plant::Block) { start } else { first } as u64, count])
}

/// The position of a string, and how many bytes it has before its zero byte.
fn text(input: &mut Input) -> Result<[u64; 2], Fault> {
    let first = input.at;
    let len = input.bytes[first..].iter().position(|it| *it == 0).ok_or_else(|| eof(first))?;
    input.at += len + 1;
    Ok([first as u64, len as u64])
}
