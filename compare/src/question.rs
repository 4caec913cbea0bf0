//! What is asked of each reader, and what it gives.

use crate::sys::Set;
use std::fmt;

/// The errors by the numbers of `include/dwarf_read.h`.
pub const ERRORS: &[&str] = &[
    // tools/constants writes the names.
    "none",
    "UnexpectedEof",
    "BadUnsignedLeb128",
    "BadSignedLeb128",
    "AbbreviationTagZero",
    "InvalidAbbreviationChildren",
    "AttributeNameZero",
    "AttributeFormZero",
    "DuplicateAbbreviationCode",
    "UnknownReservedLength",
    "UnsupportedOffset",
    "UnknownVersion",
    "UnsupportedAddressSize",
    "UnsupportedSegmentSize",
    "UnsupportedOffsetSize",
    "BadUtf8",
    "AddressOverflow",
    "UnsupportedRegister",
    "OutOfMemory",
    "UnterminatedAbbreviations",
    "UnknownUnitType",
];

/// The errors that no call for C returns, so that they have no number.
const UNNUMBERED: [&str; 3] = [UNKNOWN_FORM, INVALID_CODE, INVALID_IMPLICIT_CONST];

/// The name of an error by its number.
pub fn error_name(number: u32) -> &'static str {
    ERRORS.get(number as usize).copied().unwrap_or("a number without an error")
}

/// The names of errors that older versions of gimli have, and today's.
const OLD_NAMES: [(&str, &str); 4] = [
    ("BadHasChildren", "InvalidAbbreviationChildren"),
    ("ExpectedZero", "AttributeNameZero"),
    ("UnsupportedUnitType", "UnknownUnitType"),
    ("UnknownAbbreviation", INVALID_CODE),
];

/// The errors of entries alone.
pub const UNKNOWN_FORM: &str = "UnknownForm";
pub const INVALID_CODE: &str = "InvalidAbbreviationCode";
pub const INVALID_IMPLICIT_CONST: &str = "InvalidImplicitConst";

/// An error as its debug text tells it: its name, and the number in it, if there is one.
pub fn fault_of_text(text: &str, rest: Option<usize>) -> Answer {
    let name = text.split('(').next().unwrap_or_default();
    let name = OLD_NAMES.iter().find(|it| it.0 == name).map_or(name, |it| it.1);
    let known = ERRORS.iter().chain(&UNNUMBERED).find(|it| **it == name);
    let kind = known.copied().unwrap_or("an error without a number");
    let value = text.rsplit('(').next().and_then(|it| it.trim_end_matches(')').parse().ok());
    Answer::Fault { kind, value, rest }
}

/// Declares what is asked, each with the word that asks it.
macro_rules! whats {
    ($($(#[$doc:meta])* $what:ident $word:literal,)*) => {
        /// What is asked. Those up to `Addresses` are numbered as in `crates/dwarf_compare/src/readers.rt`.
        #[derive(Debug, Clone, Copy, PartialEq)]
        pub enum What { $($(#[$doc])* $what,)* }

        /// All of them, by the words that ask them.
        const WHATS: &[(&str, What)] = &[$(($word, What::$what),)*];
    };
}

whats! {
    /// The number that the bytes begin with.
    Unsigned "unsigned",
    Signed "signed",
    Short "short",
    Skipped "skipped",
    /// The table at an offset.
    Table "table",
    /// How many declarations it has, if a code of value 0 closes it.
    Strict "strict",
    /// The string at an offset.
    Text "string",
    /// The string offset of 4 or 8 bytes, or the address, at an index, counted from a base.
    StrOffset "str-offset",
    Address "address",
    /// The header of the set at an offset.
    AddressSet "address-set",
    StrOffsetSet "str-offset-set",
    /// The sum of all addresses of all sets, or 0 for an error.
    Addresses "addresses",
    /// The units of `.debug_info` and of `.debug_types`, and the one at an offset of `.debug_info`.
    InfoUnits "units",
    TypesUnits "type-units",
    UnitAt "unit-at",
    /// The entries of the units of a `.debug_info`, which follows `more` bytes of `.debug_abbrev`: with their
    /// attributes, or without those, which are skipped.
    Entries "entries",
    SkippedEntries "skipped-entries",
    /// The length of the table of a cache that was filled from this many bytes, before the section grew.
    Grown "grown",
    /// How many declarations a cache that was filled at these offsets has there, twice. An error counts as 2^32.
    Cached "cached",
    /// The tags of these codes in the table at an offset.
    Found "found",
    /// The shortest bytes of a number.
    WrittenUnsigned "written-unsigned",
    WrittenSigned "written-signed",
}

/// One question. What it doesn't need is 0.
#[derive(Debug, Clone, PartialEq)]
pub struct Question {
    pub what: What,
    pub is_big: bool,
    /// How many bytes a word has.
    pub size: u8,
    /// An offset or a base, in bytes from the first byte of the input.
    pub at: usize,
    /// An index, or how many bytes there were before the section grew or belong to a first section, or the number that
    /// is written.
    pub more: usize,
    /// Codes or offsets.
    pub list: Vec<u64>,
}

/// A declaration of a table.
#[derive(Debug, Clone, PartialEq)]
pub struct Declaration {
    pub code: u64,
    pub tag: u16,
    pub has_children: bool,
    /// The name, the form, and the value in the table itself or 0.
    pub attributes: Vec<(u16, u16, i64)>,
}

impl Declaration {
    /// All of its numbers, added up.
    fn sum(&self) -> u64 {
        let of_attribute = |it: &(u16, u16, i64)| (u64::from(it.0) + u64::from(it.1)).wrapping_add(it.2 as u64);
        let head = self.code.wrapping_add(u64::from(self.tag) + u64::from(self.has_children));
        self.attributes.iter().map(of_attribute).fold(head, u64::wrapping_add)
    }
}

/// What the header of a unit says, and its entries. What a unit of its type doesn't have is 0.
#[derive(Debug, Default, Clone, Copy, PartialEq)]
pub struct Unit {
    pub offset: usize,
    pub unit_length: usize,
    pub abbrev_offset: usize,
    /// The signature of a type, or the identifier of a split unit.
    pub signature: u64,
    pub type_offset: usize,
    /// Where the entries begin, how many bytes they have, and the sum of these.
    pub first_entry: u64,
    pub entries: usize,
    pub sum: u64,
    pub version: u16,
    pub word_size: u8,
    pub address_size: u8,
    /// The number of the type in version 5.
    pub unit_type: u8,
}

/// The kinds of values, as `crates/dwarf_compare/src/entries.rt` numbers them.
pub const KINDS: [&str; 24] = [
    "Addr",
    BLOCK,
    "Data1",
    "Data2",
    DATA4,
    DATA8,
    DATA16,
    "Sdata",
    "Udata",
    "Exprloc",
    "Flag",
    "SecOffset",
    "UnitRef",
    "DebugInfoRef",
    "DebugInfoRefSup",
    "DebugTypesRef",
    "DebugStrRef",
    "DebugStrRefSup",
    "DebugLineStrRef",
    "DebugStrOffsetsIndex",
    "DebugAddrIndex",
    "DebugLocListsIndex",
    "DebugRngListsIndex",
    "String",
];

/// Those that this gimli and the library name otherwise.
pub const BLOCK: &str = "Block";
pub const DATA4: &str = "Data4";
pub const DATA8: &str = "Data8";
pub const DATA16: &str = "Data16";

/// An attribute of an entry: its value is a number and the half above it, or the position of bytes and how many there
/// are.
#[derive(Debug, Clone, PartialEq)]
pub struct Attribute {
    pub name: u16,
    pub form: u16,
    pub kind: &'static str,
    pub value: [u64; 2],
}

/// An entry: where it begins in its unit, the code of its abbreviation, which is 0 for a null entry, and its attributes.
#[derive(Debug, Clone, PartialEq)]
pub struct Entry {
    pub offset: u64,
    pub code: u64,
    pub attributes: Vec<Attribute>,
}

/// A sum of bytes that depends on their order.
pub fn sum_of(bytes: &[u8]) -> u64 {
    bytes.iter().fold(0, |sum: u64, it| sum.wrapping_mul(31).wrapping_add((*it).into()))
}

/// What a reader gives. `None` is what a reader doesn't tell.
#[derive(Debug, Clone, PartialEq)]
pub enum Answer {
    /// A number, a length or a sum, and of a number that is read how many bytes remain.
    Value {
        value: i128,
        rest: Option<usize>,
    },
    Written(Vec<u8>),
    Table {
        declarations: Vec<Declaration>,
        /// Whether a code of value 0 closes it, and where it ends.
        close: Option<(bool, usize)>,
    },
    Tags(Vec<u16>),
    Set(Set),
    /// The units up to the section's end, or up to an error by its name, with its value or position.
    Units {
        units: Vec<Unit>,
        error: Option<(&'static str, Option<u64>)>,
    },
    /// The entries up to the section's end, or up to an error, and where in the last unit the next one would begin.
    Entries {
        entries: Vec<Entry>,
        stop: Option<u64>,
        error: Option<(&'static str, Option<u64>)>,
    },
    /// There is no set, since the offset is the section's end.
    End,
    /// Any of these as four numbers, which a caller can have of each reader.
    Parts([u64; 4]),
    Fault {
        kind: &'static str,
        value: Option<u64>,
        rest: Option<usize>,
    },
}

/// What the last unit of a section is, by the number of its type.
const UNIT_TYPES: [&str; 7] = [
    "no type",
    "a compilation unit",
    "a type unit",
    "a partial unit",
    "a skeleton",
    "a split compilation unit",
    "a split type unit",
];

fn same_if_known<T: PartialEq>(one: &Option<T>, other: &Option<T>) -> bool {
    one.is_none() || other.is_none() || one == other
}

impl Answer {
    pub fn value(value: u64) -> Answer {
        Answer::Value { value: value.into(), rest: None }
    }

    /// These units, and the error after them, if there is one.
    pub fn units(units: Vec<Unit>, fault: Option<Answer>) -> Answer {
        Answer::Units { units, error: fault.and_then(Answer::error) }
    }

    /// The name of an error, and its value.
    pub fn error(self) -> Option<(&'static str, Option<u64>)> {
        match self {
            Answer::Fault { kind, value, .. } => Some((kind, value)),
            _ => None,
        }
    }

    /// Whether two readers tell the same, as far as both tell it.
    pub fn agrees(&self, other: &Answer) -> bool {
        match (self, other) {
            (
                Answer::Fault { kind, value, rest },
                Answer::Fault { kind: other_kind, value: other_value, rest: other_rest },
            ) => kind == other_kind && same_if_known(value, other_value) && same_if_known(rest, other_rest),
            (Answer::Table { declarations, close }, Answer::Table { declarations: others, close: other }) => {
                declarations == others && same_if_known(close, other)
            }
            (Answer::Units { units, error }, Answer::Units { units: others, error: other }) => {
                let (value, other_value) = (error.and_then(|it| it.1), other.and_then(|it| it.1));
                units == others && error.map(|it| it.0) == other.map(|it| it.0) && same_if_known(&value, &other_value)
            }
            (
                Answer::Entries { entries, stop, error },
                Answer::Entries { entries: others, stop: other_stop, error: other },
            ) => {
                let (value, other_value) = (error.and_then(|it| it.1), other.and_then(|it| it.1));
                let is_same = same_if_known(stop, other_stop) && same_if_known(&value, &other_value);
                is_same && entries == others && error.map(|it| it.0) == other.map(|it| it.0)
            }
            _ => self == other,
        }
    }

    /// The same as four numbers, unless it is an error. A table is the sum of its parts, its length and its close.
    pub fn in_parts(&self) -> Answer {
        Answer::Parts(match self {
            Answer::Value { value, rest } => [*value as u64, 0, 0, rest.unwrap_or(0) as u64],
            Answer::Table { declarations, close } => {
                let sum = declarations.iter().map(Declaration::sum).fold(0, u64::wrapping_add);
                [sum, declarations.len() as u64, u64::from(matches!(close, Some((true, _)))), 0]
            }
            Answer::Set(set) => [set.unit_length as u64, set.entry_size.into(), set.word_size.into(), 0],
            Answer::End => [0, 0, 0, 1],
            _ => return self.clone(),
        })
    }

    /// What was reached: the error's name, or the kind of value.
    pub fn reached(&self) -> &'static str {
        match self {
            Answer::Fault { kind, .. } => kind,
            Answer::Value { value, .. } if *value < 0 => "a number below 0",
            Answer::Value { value: 0, .. } => "0",
            Answer::Value { value, .. } if *value < 128 => "a number below 128",
            Answer::Value { .. } => "a number from 128",
            Answer::Written(_) => "bytes of a number",
            Answer::Table { close: Some((false, _)), .. } => "a table closed by the end",
            Answer::Table { declarations, .. } if declarations.is_empty() => "a table without declarations",
            Answer::Table { .. } => "a table closed by a null code",
            Answer::Tags(tags) if tags.iter().all(|it| *it == 0) => "only codes that no declaration has",
            Answer::Tags(_) => "a tag of a code",
            Answer::Set(_) => "a set",
            Answer::Units { error: Some((kind, _)), .. } | Answer::Entries { error: Some((kind, _)), .. } => kind,
            Answer::Entries { entries, .. } => {
                let last = entries.iter().flat_map(|it| &it.attributes).last();
                last.map_or(if entries.is_empty() { "no entries" } else { "no attributes" }, |it| it.kind)
            }
            Answer::Units { units, .. } => units.last().map_or("no units", |it| UNIT_TYPES[usize::from(it.unit_type)]),
            Answer::End => "the end of the sets",
            Answer::Parts(_) => "parts",
        }
    }
}

impl fmt::Display for Answer {
    fn fmt(&self, to: &mut fmt::Formatter) -> fmt::Result {
        match self {
            Answer::Fault { kind, value, rest } => {
                write!(to, "{kind}")?;
                if let Some(value) = value {
                    write!(to, ", {value}")?;
                }
                rest.map_or(Ok(()), |it| write!(to, ", {it} bytes remain"))
            }
            _ => write!(to, "{self:?}"),
        }
    }
}

impl Question {
    /// The question about an offset.
    pub fn new(what: What, at: usize) -> Question {
        Question { what, is_big: false, size: 0, at, more: 0, list: vec![] }
    }

    /// The two sections of a question about entries: `.debug_abbrev` and `.debug_info`.
    pub fn sections<'a>(&self, bytes: &'a [u8]) -> (&'a [u8], &'a [u8]) {
        bytes.split_at(self.more.min(bytes.len()))
    }

    /// The first word that asks it once more.
    pub fn name(&self) -> &'static str {
        WHATS[self.what as usize].0
    }

    /// All words that ask it once more.
    pub fn words(&self) -> String {
        let mut words = vec![self.name().to_string()];
        words.extend(self.is_big.then(|| "big".to_string()));
        for (key, value) in [("size", self.size.into()), ("at", self.at), ("more", self.more)] {
            words.extend((value != 0).then(|| format!("{key}={value}")));
        }
        let list: Vec<String> = self.list.iter().map(u64::to_string).collect();
        words.extend((!list.is_empty()).then(|| format!("list={}", list.join(","))));
        words.join(" ")
    }

    /// The question with these words, or `None` if they ask nothing.
    pub fn from_words(words: &[&str]) -> Option<Question> {
        let (name, words) = words.split_first()?;
        let mut found = Question::new(WHATS.iter().find(|it| it.0 == *name)?.1, 0);
        for word in words {
            match word.split_once('=') {
                None if *word == "big" => found.is_big = true,
                Some(("size", number)) => found.size = number.parse().ok()?,
                Some(("at", number)) => found.at = number.parse().ok()?,
                Some(("more", number)) => found.more = number.parse().ok()?,
                Some(("list", list)) => {
                    found.list = list.split(',').map(|it| it.parse().ok()).collect::<Option<_>>()?
                }
                _ => return None,
            }
        }
        Some(found)
    }
}
