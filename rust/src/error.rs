//! Errors: a number and a value of the library, as a Rust type.

use crate::sys;
use core::{fmt, str};

/// The result of a call.
pub type Result<T> = core::result::Result<T, Error>;

/// What is wrong with the bytes, or with what was to be read of them.
#[derive(Debug, Clone, Copy, PartialEq, Eq, Hash)]
#[non_exhaustive]
pub enum ErrorKind {
    // tools/constants writes these variants.
    /// Bytes are missing. The value is the position.
    UnexpectedEof,
    /// An unsigned LEB128 number is too long or too large.
    BadUnsignedLeb128,
    /// A signed LEB128 number is too long or out of range.
    BadSignedLeb128,
    /// The tag of an abbreviation is 0.
    AbbreviationTagZero,
    /// The byte that says whether there are children is neither 0 nor 1. The value is the byte.
    InvalidAbbreviationChildren,
    /// The name of an attribute is 0, and its form isn't.
    AttributeNameZero,
    /// The form of an attribute is 0, and its name isn't.
    AttributeFormZero,
    /// An abbreviation has the code of an earlier one. The value is the code.
    DuplicateAbbreviationCode,
    /// The length of a set or a unit is reserved. The value is that length.
    UnknownReservedLength,
    /// A number doesn't fit an offset.
    UnsupportedOffset,
    /// The version of a set isn't 5, or that of a unit isn't 2 to 5. The value is the version.
    UnknownVersion,
    /// Addresses don't have this size, which is the value.
    UnsupportedAddressSize,
    /// The segment size of a set isn't 0. The value is the size.
    UnsupportedSegmentSize,
    /// Offsets don't have this size, which is the value. No call here returns this.
    UnsupportedOffsetSize,
    /// A string isn't UTF-8. No call here returns this.
    BadUtf8,
    /// The sum of an address and a length is no address. No call here returns this.
    AddressOverflow,
    /// The number of a register doesn't fit 16 bits. The value is that number. No call here returns
    /// this.
    UnsupportedRegister,
    /// Memory ran out.
    OutOfMemory,
    /// Only the section's end closes a table. The value is the position.
    UnterminatedAbbreviations,
    /// The type of a unit isn't one of DWARF 5. The value is the type.
    UnknownUnitType,
    /// An error that only a newer library than this crate has, by its number.
    Other(u32),
}

// In the order of their numbers, from 1.
// tools/constants writes this list.
const KINDS: &[ErrorKind] = &[
    ErrorKind::UnexpectedEof,
    ErrorKind::BadUnsignedLeb128,
    ErrorKind::BadSignedLeb128,
    ErrorKind::AbbreviationTagZero,
    ErrorKind::InvalidAbbreviationChildren,
    ErrorKind::AttributeNameZero,
    ErrorKind::AttributeFormZero,
    ErrorKind::DuplicateAbbreviationCode,
    ErrorKind::UnknownReservedLength,
    ErrorKind::UnsupportedOffset,
    ErrorKind::UnknownVersion,
    ErrorKind::UnsupportedAddressSize,
    ErrorKind::UnsupportedSegmentSize,
    ErrorKind::UnsupportedOffsetSize,
    ErrorKind::BadUtf8,
    ErrorKind::AddressOverflow,
    ErrorKind::UnsupportedRegister,
    ErrorKind::OutOfMemory,
    ErrorKind::UnterminatedAbbreviations,
    ErrorKind::UnknownUnitType,
];

// Enough for every text.
const TEXT_ROOM: usize = 64;

/// The error of a call. `Display` writes its text.
///
/// ```
/// use dwarf_read::{ErrorKind, Table};
///
/// let error = Table::read(&[1, 0x11, 7], 0).unwrap_err();
/// assert_eq!(error.kind(), ErrorKind::InvalidAbbreviationChildren);
/// assert_eq!(error.value(), 7);
/// assert_eq!(error.to_string(), "invalid abbreviation children: 0x7");
/// ```
#[derive(Clone, Copy, PartialEq, Eq, Hash)]
pub struct Error(sys::Fault);

impl Error {
    pub(crate) const OUT_OF_MEMORY: Error = Error(sys::Fault { kind: 18, value: 0 });

    /// The error for a table that only the end of the section closes, at that end.
    pub(crate) fn unterminated(end: usize) -> Error {
        Error(sys::Fault { kind: 19, value: end as u64 })
    }

    /// Which error it is.
    #[must_use]
    pub fn kind(&self) -> ErrorKind {
        let number = self.0.kind;
        let index = (number as usize).wrapping_sub(1);
        KINDS.get(index).copied().unwrap_or(ErrorKind::Other(number))
    }

    /// The value of the error. For `UnexpectedEof` and `UnterminatedAbbreviations` it is a
    /// position, in bytes from the first byte that was passed. Otherwise it is the byte for
    /// children, the code, length, version, size or register that is wrong, or 0 for an error
    /// without a value.
    #[must_use]
    pub fn value(&self) -> u64 {
        self.0.value
    }
}

impl fmt::Debug for Error {
    fn fmt(&self, f: &mut fmt::Formatter<'_>) -> fmt::Result {
        write!(f, "{:?}({})", self.kind(), self.value())
    }
}

impl fmt::Display for Error {
    fn fmt(&self, f: &mut fmt::Formatter<'_>) -> fmt::Result {
        let (mut text, mut len) = ([0; TEXT_ROOM], 0);
        // SAFETY: see `sys`.
        let status =
            unsafe { sys::dwarf_fault_text(&self.0, text.as_mut_ptr(), TEXT_ROOM, &mut len) };
        match status {
            sys::OK => f.pad(str::from_utf8(&text[..len]).unwrap_or_default()),
            // There wasn't enough memory for the text.
            status if status == Error::OUT_OF_MEMORY.0.kind => f.pad("out of memory"),
            _ => write!(f, "unknown error {}", self.0.kind),
        }
    }
}

#[cfg(feature = "std")]
impl std::error::Error for Error {}

/// Makes a call that can only succeed or return an error.
pub(crate) fn check(call: impl FnOnce(&mut sys::Fault) -> u32) -> Result<()> {
    check_unless(sys::OK, call).map(drop)
}

/// Makes a call, and returns whether it succeeded. If not, its status is the one that is named.
pub(crate) fn check_unless(named: u32, call: impl FnOnce(&mut sys::Fault) -> u32) -> Result<bool> {
    let mut fault = sys::Fault::default();
    match call(&mut fault) {
        sys::OK => Ok(true),
        status if status == named => Ok(false),
        1..=99 => Err(Error(fault)),
        // Only a newer library returns another status.
        kind => Err(Error(sys::Fault { kind, value: 0 })),
    }
}

#[cfg(test)]
mod tests {
    use super::*;
    use std::format;
    use std::string::ToString;

    // Each error with a value, or 0, and its text, in the order of their numbers.
    // tools/constants writes this list.
    const TEXTS: &[(ErrorKind, u64, &str)] = &[
        (ErrorKind::UnexpectedEof, 5, "unexpected end of input"),
        (ErrorKind::BadUnsignedLeb128, 0, "unsigned LEB128 overflow"),
        (ErrorKind::BadSignedLeb128, 0, "signed LEB128 overflow"),
        (ErrorKind::AbbreviationTagZero, 0, "invalid abbreviation tag: zero"),
        (ErrorKind::InvalidAbbreviationChildren, 0x1f, "invalid abbreviation children: 0x1f"),
        (ErrorKind::AttributeNameZero, 0, "invalid attribute name: zero"),
        (ErrorKind::AttributeFormZero, 0, "invalid attribute form: zero"),
        (ErrorKind::DuplicateAbbreviationCode, 0x10000, "duplicate abbreviation code: 65536"),
        (ErrorKind::UnknownReservedLength, 0xfffffff0, "unknown reserved length: 0xfffffff0"),
        (ErrorKind::UnsupportedOffset, 0, "offset overflow"),
        (ErrorKind::UnknownVersion, 0x10000, "unknown DWARF version: 65536"),
        (ErrorKind::UnsupportedAddressSize, 9, "unsupported address size: 9"),
        (ErrorKind::UnsupportedSegmentSize, 9, "unsupported segment size: 9"),
        (ErrorKind::UnsupportedOffsetSize, 9, "unsupported offset size: 9"),
        (ErrorKind::BadUtf8, 0, "invalid UTF-8"),
        (ErrorKind::AddressOverflow, 0, "address overflow"),
        (ErrorKind::UnsupportedRegister, 0x10000, "unsupported register: 0x10000"),
        (ErrorKind::OutOfMemory, 0, "out of memory"),
        (ErrorKind::UnterminatedAbbreviations, 5, "unterminated abbreviation table"),
        (ErrorKind::UnknownUnitType, 0x1f, "unknown unit type: 0x1f"),
    ];

    // The library's text of a number, which is proved, shows that the number is that of the kind.
    #[test]
    fn numbers_are_those_of_the_library() {
        let next = KINDS.len() as u32 + 1;
        let unknown = format!("unknown error {}", next);
        let rows = TEXTS.iter().copied().chain([(ErrorKind::Other(next), 0, unknown.as_str())]);
        for (number, (kind, value, text)) in (1..).zip(rows) {
            let error = Error(sys::Fault { kind: number, value });
            assert_eq!((error.kind(), error.to_string().as_str()), (kind, text));
        }
        assert_eq!(TEXTS.len(), KINDS.len());
    }

    #[test]
    fn the_longest_text_is_whole_and_can_be_padded() {
        let error = Error(sys::Fault { kind: 11, value: u64::MAX });
        let text = "unknown DWARF version: 18446744073709551615";
        assert_eq!(error.to_string(), text);
        assert_eq!(format!("{:>45}|{:.7}|", error, error), format!("  {}|unknown|", text));
    }

    // As a library would return them that is newer than this crate, or wrong.
    #[test]
    fn unknown_numbers_are_errors() {
        for (status, value, shown) in [(0, 0, "Ok(true)"), (102, 0, "Ok(false)")]
            .into_iter()
            .chain([(1, 7, "Err(UnexpectedEof(7))"), (99, 7, "Err(Other(99)(7))")])
            .chain([(100, 7, "Err(Other(100)(0))")])
            .chain([(u32::MAX, 7, "Err(Other(4294967295)(0))")])
        {
            let made = check_unless(sys::END, |fault| {
                *fault = sys::Fault { kind: status, value };
                status
            });
            assert_eq!(format!("{:?}", made), shown);
        }
        let error = Error(sys::Fault { kind: 0, value: 0 });
        assert_eq!((error.kind(), &*error.to_string()), (ErrorKind::Other(0), "unknown error 0"));
    }
}
