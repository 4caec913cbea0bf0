//! The headers of units.

use crate::bytes::Bytes;
use crate::error::{check_unless, Result};
use crate::{sys, ByteOrder, Encoding, Format};
use core::fmt;
use core::iter::FusedIterator;

/// Returns the units of a whole `.debug_info`.
///
/// ```
/// use dwarf_read::{units, ByteOrder, Format, Table, UnitType};
///
/// let debug_abbrev = [1, 0x11, 0, 3, 8, 0, 0, 0];
/// let debug_info = [12, 0, 0, 0, 5, 0, 1, 8, 0, 0, 0, 0, 1, b'a', 0, 0];
/// for unit in units(&debug_info, ByteOrder::Little) {
///     let unit = unit?;
///     assert_eq!(unit.type_(), UnitType::Compilation);
///     assert_eq!((unit.encoding().version, unit.encoding().format), (5, Format::Dwarf32));
///     let table = Table::read(&debug_abbrev, unit.debug_abbrev_offset())?;
///     let (code, _) = dwarf_read::uleb128(unit.entries())?;
///     assert_eq!(table.get(code).unwrap().tag().static_string(), Some("DW_TAG_compile_unit"));
/// }
/// # Ok::<(), dwarf_read::Error>(())
/// ```
#[must_use]
pub fn units(debug_info: &[u8], order: ByteOrder) -> Units<'_> {
    Units { section: debug_info, order, is_types: false, offset: Some(0), after_error: None }
}

/// Returns the type units of a whole `.debug_types`, which DWARF 4 has.
///
/// ```
/// use dwarf_read::{type_units, ByteOrder, UnitType};
///
/// let section = [
///     19, 0, 0, 0, 4, 0, 0, 0, 0, 0, 8, 0xef, 0xbe, 0xad, 0xde, 0, 0, 0, 0, 0x17, 0, 0, 0,
/// ];
/// let unit = type_units(&section, ByteOrder::Little).next().unwrap()?;
/// assert_eq!(unit.type_(), UnitType::Type { type_signature: 0xdeadbeef, type_offset: 23 });
/// # Ok::<(), dwarf_read::Error>(())
/// ```
#[must_use]
pub fn type_units(debug_types: &[u8], order: ByteOrder) -> Units<'_> {
    Units { section: debug_types, order, is_types: true, offset: Some(0), after_error: None }
}

/// The units of a section, in the order of their offsets. If there is an error, it is the last item,
/// unless [`resume`](Units::resume) goes on after it.
///
/// The errors are the first of these:
///
/// - `UnexpectedEof` at the unit if fewer than four bytes remain, after its length if fewer bytes
///   follow than that says, and at the first field that isn't whole in the unit;
/// - `UnknownReservedLength` if its first four bytes are 0xfffffff0 to 0xfffffffe;
/// - `UnknownVersion` if the version isn't 2 to 5;
/// - `UnsupportedAddressSize` if the address size isn't 1, 2, 4 or 8;
/// - `UnknownUnitType` if the type isn't one of DWARF 5.
#[derive(Clone)]
pub struct Units<'s> {
    section: &'s [u8],
    order: ByteOrder,
    is_types: bool,
    // Where the next unit begins, unless there was an error or the end.
    offset: Option<usize>,
    // Where the unit ends that had the last error, if that is known.
    after_error: Option<usize>,
}

impl<'s> Units<'s> {
    /// Returns the unit at an offset of the section, or `None` at the section's end. The iterator
    /// stays where it is.
    ///
    /// # Errors
    ///
    /// Those of the iterator, and `UnexpectedEof` at 0 if the offset is past the section's end.
    ///
    /// ```
    /// use dwarf_read::{units, ByteOrder};
    ///
    /// let unit = [8, 0, 0, 0, 5, 0, 3, 8, 0, 0, 0, 0];
    /// let section = [&unit[..], &unit].concat();
    /// let second = units(&section, ByteOrder::Little).at(12)?.unwrap();
    /// assert_eq!((second.offset(), second.entries_offset()), (12, 24));
    /// # Ok::<(), dwarf_read::Error>(())
    /// ```
    pub fn at(&self, offset: usize) -> Result<Option<Unit<'s>>> {
        self.read(offset, &mut sys::Unit::default())
    }

    /// Returns the offset of the next unit, or of the section's end. `None` after that end, and after
    /// an error, unless [`resume`](Self::resume) goes on.
    ///
    /// ```
    /// use dwarf_read::{units, ByteOrder};
    ///
    /// let section = [8, 0, 0, 0, 5, 0, 3, 8, 0, 0, 0, 0];
    /// let mut units = units(&section, ByteOrder::Little);
    /// assert_eq!(units.offset(), Some(0));
    /// assert!(units.next().is_some());
    /// assert_eq!(units.offset(), Some(12));
    /// assert!(units.next().is_none());
    /// assert_eq!(units.offset(), None);
    /// ```
    #[must_use]
    pub fn offset(&self) -> Option<usize> {
        self.offset
    }

    /// Goes on after a unit with an error. Returns whether it does: after an error of a unit's
    /// length, and if a unit isn't all in the section, nothing says where the next one begins.
    ///
    /// ```
    /// use dwarf_read::{units, ByteOrder, ErrorKind};
    ///
    /// let of_version_6 = [8, 0, 0, 0, 6, 0, 0, 0, 0, 0, 0, 0];
    /// let section = [&of_version_6[..], &[8, 0, 0, 0, 5, 0, 3, 8, 0, 0, 0, 0]].concat();
    /// let mut units = units(&section, ByteOrder::Little);
    /// assert_eq!(units.next().unwrap().unwrap_err().kind(), ErrorKind::UnknownVersion);
    /// assert!(units.resume());
    /// assert_eq!(units.next().unwrap()?.offset(), 12);
    /// # Ok::<(), dwarf_read::Error>(())
    /// ```
    pub fn resume(&mut self) -> bool {
        let next = self.after_error.take();
        self.offset = self.offset.or(next);
        next.is_some()
    }

    // Reads the unit at an offset. With an error, `header` has its end, or 0 if that isn't known.
    fn read(&self, offset: usize, header: &mut sys::Unit) -> Result<Option<Unit<'s>>> {
        let (bytes, len, is_big) = (self.section.as_ptr(), self.section.len(), self.order.is_big());
        // SAFETY: see `crate::sys`.
        let is_unit = check_unless(sys::END, |fault| unsafe {
            sys::dwarf_unit_header(bytes, len, is_big, self.is_types, offset, header, fault)
        })?;
        Ok(is_unit.then_some(Unit { section: self.section, offset, header: *header }))
    }
}

impl<'s> Iterator for Units<'s> {
    type Item = Result<Unit<'s>>;

    fn next(&mut self) -> Option<Self::Item> {
        let offset = self.offset.take()?;
        let mut header = sys::Unit::default();
        let found = self.read(offset, &mut header).transpose()?;
        let next = Some(header.next).filter(|&it| it > offset);
        if found.is_ok() {
            self.offset = next;
        } else {
            self.after_error = next;
        }
        Some(found)
    }
}

impl FusedIterator for Units<'_> {}

impl fmt::Debug for Units<'_> {
    fn fmt(&self, f: &mut fmt::Formatter<'_>) -> fmt::Result {
        f.debug_struct("Units")
            .field("section", &Bytes(self.section))
            .field("order", &self.order)
            .field("offset", &self.offset)
            .finish()
    }
}

/// The type of a unit, and what the header says that only units of this type have. Before version 5
/// a unit of `.debug_info` is a compilation unit, and one of `.debug_types` a type unit.
#[derive(Debug, Clone, Copy, PartialEq, Eq, Hash)]
pub enum UnitType {
    /// A compilation unit.
    Compilation,
    /// A type unit.
    Type {
        /// The signature of the type.
        type_signature: u64,
        /// Where the type is defined, in bytes from the unit's start.
        type_offset: usize,
    },
    /// A partial unit.
    Partial,
    /// A skeleton of the split unit with the same identifier.
    Skeleton(u64),
    /// A compilation unit in a split object.
    SplitCompilation(u64),
    /// A type unit in a split object.
    SplitType {
        /// The signature of the type.
        type_signature: u64,
        /// Where the type is defined, in bytes from the unit's start.
        type_offset: usize,
    },
}

/// The header of a unit, and its entries.
#[derive(Clone, Copy)]
pub struct Unit<'s> {
    section: &'s [u8],
    offset: usize,
    header: sys::Unit,
}

impl<'s> Unit<'s> {
    /// Returns the offset of the unit in its section.
    #[must_use]
    pub fn offset(&self) -> usize {
        self.offset
    }

    /// Returns how many bytes of the unit follow its initial length.
    #[must_use]
    pub fn unit_length(&self) -> usize {
        self.header.unit_length
    }

    /// Returns the unit's format, version and address size.
    #[must_use]
    pub fn encoding(&self) -> Encoding {
        Encoding {
            address_size: self.header.address_size,
            format: Format::of_word_size(self.header.word_size),
            version: self.header.version,
        }
    }

    /// Returns the unit's type, with what its header says that only units of this type have.
    #[must_use]
    pub fn type_(&self) -> UnitType {
        let (identifier, type_offset) = (self.header.identifier, self.header.type_offset);
        match self.header.unit_type {
            2 => UnitType::Type { type_signature: identifier, type_offset },
            3 => UnitType::Partial,
            4 => UnitType::Skeleton(identifier),
            5 => UnitType::SplitCompilation(identifier),
            6 => UnitType::SplitType { type_signature: identifier, type_offset },
            _ => UnitType::Compilation,
        }
    }

    /// Returns the offset of the unit's table in `.debug_abbrev`, for
    /// [`Table::read`](crate::Table::read).
    #[must_use]
    pub fn debug_abbrev_offset(&self) -> usize {
        self.header.abbrev_offset
    }

    /// Returns the offset of the unit's first entry in its section.
    #[must_use]
    pub fn entries_offset(&self) -> usize {
        self.header.first_entry
    }

    /// Returns the bytes of the unit's entries.
    #[must_use]
    pub fn entries(&self) -> &'s [u8] {
        &self.section[self.header.first_entry..self.header.next]
    }
}

impl fmt::Debug for Unit<'_> {
    fn fmt(&self, f: &mut fmt::Formatter<'_>) -> fmt::Result {
        f.debug_struct("Unit")
            .field("offset", &self.offset())
            .field("unit_length", &self.unit_length())
            .field("encoding", &self.encoding())
            .field("type_", &self.type_())
            .field("debug_abbrev_offset", &self.debug_abbrev_offset())
            .field("entries", &Bytes(self.entries()))
            .finish()
    }
}
