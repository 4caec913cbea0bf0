//! Abbreviation tables.

use crate::bytes::Bytes;
use crate::constants::{DW_FORM_implicit_const, DwAt, DwForm, DwTag};
use crate::error::{check_unless, Error, Result};
use crate::sys;
use alloc::vec::Vec;
use core::fmt;
use core::iter::FusedIterator;
use core::slice;

// The least size of an abbreviation and of an attribute, in bytes.
const ROW_BYTES: usize = 5;
const ATTRIBUTE_BYTES: usize = 2;

// Room for most tables, in blocks of 256 and 512 kilobytes, which an allocator soon takes from what
// was freed.
const USUAL_ROWS: usize = 8000;
const USUAL_ATTRIBUTES: usize = 32000;

/// An abbreviation table of `.debug_abbrev`.
///
/// Tables are equal if they have equal abbreviations, and both or neither are closed by a code of
/// value 0. Where they are makes no difference.
///
/// ```
/// # fn main() -> Result<(), dwarf_read::Error> {
/// use dwarf_read::constants::DW_TAG_subprogram;
///
/// let section = [1, 0x11, 1, 3, 8, 0, 0, 2, 0x2e, 0, 3, 0x21, 0x56, 0, 0, 0];
/// let table = dwarf_read::Table::read(&section, 0)?;
/// let subprogram = table.get(2).unwrap();
/// assert_eq!(subprogram.tag(), DW_TAG_subprogram);
/// assert_eq!(subprogram.attributes()[0].implicit_const(), Some(-42));
/// assert!(table.get(3).is_none());
/// for abbreviation in &table {
///     println!("{} {}", abbreviation.code(), abbreviation.tag());
/// }
/// # Ok(())
/// # }
/// ```
#[derive(Default, Clone)]
pub struct Table {
    // In the order of their codes.
    rows: Vec<sys::Abbreviation>,
    // The attributes of all abbreviations, in the same order.
    attributes: Vec<Attribute>,
    offset: usize,
    end: usize,
    is_closed_by_null: bool,
}

// Makes room for that many items, unless there is enough.
fn reserve<T>(items: &mut Vec<T>, count: usize) -> Result<()> {
    let more = count.saturating_sub(items.len());
    items.try_reserve_exact(more).map_err(|_| Error::OUT_OF_MEMORY)
}

// Returns a copy with room for these items alone.
fn copied<T: Copy>(items: &[T]) -> Result<Vec<T>> {
    let mut copy = Vec::new();
    reserve(&mut copy, items.len())?;
    copy.extend_from_slice(items);
    Ok(copy)
}

// Gives up the room after the items. A block that shrinks leaves a gap, so items that need less than
// half of it are copied.
fn fitted<T: Copy>(mut items: Vec<T>) -> Result<Vec<T>> {
    if items.len() < items.capacity() / 2 {
        return copied(&items);
    }
    items.shrink_to_fit();
    Ok(items)
}

impl Table {
    /// Reads the table at an offset of `.debug_abbrev`.
    ///
    /// The table keeps as much memory as it needs. It is parsed once if it has at most 8,000
    /// abbreviations and 32,000 attributes, and twice otherwise. To read all tables of a section, use
    /// [`tables`]; to read many one after another, [`read_again`](Table::read_again).
    ///
    /// # Errors
    ///
    /// If the bytes there don't begin with a table, the first error of them:
    ///
    /// - `UnexpectedEof` at 0 if the offset is past the end, and at the end if an abbreviation is
    ///   cut short;
    /// - `BadUnsignedLeb128` or `BadSignedLeb128` for a number that is too long or out of range;
    /// - `AbbreviationTagZero`, `InvalidAbbreviationChildren`, `AttributeNameZero` or
    ///   `AttributeFormZero` for a field with a value that no abbreviation has;
    /// - `DuplicateAbbreviationCode` for a whole abbreviation with the code of an earlier one.
    ///
    /// `OutOfMemory` if memory runs out.
    ///
    /// ```
    /// use dwarf_read::{ErrorKind, Table};
    ///
    /// let section = [0, 1, 0x11, 0, 3, 8, 0, 0, 0];
    /// let table = Table::read(&section, 1)?;
    /// assert_eq!((table.len(), table.offset(), table.end()), (1, 1, 9));
    /// let error = Table::read(&section[..5], 1).unwrap_err();
    /// assert_eq!((error.kind(), error.value()), (ErrorKind::UnexpectedEof, 5));
    /// # Ok::<(), dwarf_read::Error>(())
    /// ```
    pub fn read(section: &[u8], offset: usize) -> Result<Table> {
        let mut table = Table::default();
        table.read_again(section, offset)?;
        table.fitted()
    }

    /// Reads the table at an offset of `.debug_abbrev`, which a code of value 0 has to close. It is
    /// meant for a section that still grows, and for checking what a producer wrote.
    ///
    /// # Errors
    ///
    /// `UnterminatedAbbreviations` at the section's end if only that end closes the table, also if
    /// the offset is that end, and all errors of [`read`](Table::read).
    ///
    /// ```
    /// use dwarf_read::{ErrorKind, Table};
    ///
    /// let section = [1, 0x11, 0, 0, 0];
    /// assert!(!Table::read(&section, 0)?.is_closed_by_null());
    /// let error = Table::read_strict(&section, 0).unwrap_err();
    /// assert_eq!((error.kind(), error.value()), (ErrorKind::UnterminatedAbbreviations, 5));
    /// # Ok::<(), dwarf_read::Error>(())
    /// ```
    pub fn read_strict(section: &[u8], offset: usize) -> Result<Table> {
        let table = Table::read(section, offset)?;
        if table.is_closed_by_null {
            Ok(table)
        } else {
            Err(Error::unterminated(section.len()))
        }
    }

    /// Reads the abbreviations before the first error of the table at an offset of `.debug_abbrev`,
    /// so that a broken table doesn't take the units whose entries use them. [`end`](Table::end) is
    /// the offset at which the abbreviation with the error begins. A table without an error is read
    /// whole.
    ///
    /// # Errors
    ///
    /// `UnexpectedEof` at 0 if the offset is past the end, and `OutOfMemory` if memory runs out.
    ///
    /// ```
    /// use dwarf_read::{ErrorKind, Table};
    ///
    /// let section = [1, 0x11, 0, 0, 0, 2, 0, 0, 0, 0];
    /// let error = Table::read(&section, 0).unwrap_err();
    /// assert_eq!(error.kind(), ErrorKind::AbbreviationTagZero);
    /// let table = Table::read_before_error(&section, 0)?;
    /// assert_eq!((table.len(), table.end()), (1, 5));
    /// # Ok::<(), dwarf_read::Error>(())
    /// ```
    pub fn read_before_error(section: &[u8], offset: usize) -> Result<Table> {
        let mut measure = sys::Measure::default();
        // Without room, the call only measures the table, or what stands before its error.
        match Table::default().fill(section, offset, sys::NO_ROOM, &mut measure) {
            Ok(_) => Table::read(section, offset),
            Err(error) if error == Error::OUT_OF_MEMORY => Err(error),
            Err(_) => Table::read(&section[..measure.end], offset),
        }
    }

    /// Reads the table at an offset of `.debug_abbrev` in place of this one, into its memory, which
    /// it keeps and enlarges.
    ///
    /// # Errors
    ///
    /// Those of [`read`](Table::read). This table is then unchanged.
    ///
    /// ```
    /// use dwarf_read::Table;
    ///
    /// let section = [1, 0x11, 0, 0, 0, 0, 1, 0x2e, 0, 0, 0, 0];
    /// let mut table = Table::default();
    /// let mut found = Vec::new();
    /// while table.end() < section.len() {
    ///     table.read_again(&section, table.end())?;
    ///     found.push((table.offset(), table.len()));
    /// }
    /// assert_eq!(found, [(0, 1), (6, 1)]);
    /// # Ok::<(), dwarf_read::Error>(())
    /// ```
    pub fn read_again(&mut self, section: &[u8], offset: usize) -> Result<()> {
        // Room for any table here would take 14.4 times as many bytes as the section has. To make
        // and to free that much takes longer than to read the table. If there isn't even this much
        // memory, the first call tells how much the table needs.
        let len = section.len().saturating_sub(offset);
        let _ = reserve(&mut self.rows, USUAL_ROWS.min(len / ROW_BYTES));
        let _ = reserve(&mut self.attributes, USUAL_ATTRIBUTES.min(len / ATTRIBUTE_BYTES));
        let mut measure = sys::Measure::default();
        if !self.fill(section, offset, sys::NO_ROOM, &mut measure)? {
            reserve(&mut self.rows, measure.abbreviations)?;
            reserve(&mut self.attributes, measure.attributes)?;
            self.fill(section, offset, sys::OK, &mut measure)?;
        }
        // SAFETY: the call has written that many items to each.
        unsafe {
            self.rows.set_len(measure.abbreviations);
            self.attributes.set_len(measure.attributes);
        }
        (self.offset, self.end) = (offset, measure.end);
        self.is_closed_by_null = measure.closed_by_null == 1;
        Ok(())
    }

    // Reads a table into the room there is. Returns whether the call succeeded, or returned that status.
    fn fill(
        &mut self, section: &[u8], offset: usize, named: u32, measure: &mut sys::Measure,
    ) -> Result<bool> {
        let (bytes, len) = (section.as_ptr(), section.len());
        let (rows, row_room) = (self.rows.as_mut_ptr(), self.rows.capacity());
        let (list, list_room) = (self.attributes.as_mut_ptr(), self.attributes.capacity());
        // SAFETY: see `crate::sys`. An `Attribute` is what the call writes.
        check_unless(named, |fault| unsafe {
            let list = list.cast();
            sys::dwarf_table_read(
                bytes, len, offset, rows, row_room, list, list_room, measure, fault,
            )
        })
    }

    fn fitted(self) -> Result<Table> {
        Ok(Table { rows: fitted(self.rows)?, attributes: fitted(self.attributes)?, ..self })
    }

    fn copied(&self) -> Result<Table> {
        let (rows, attributes) = (copied(&self.rows)?, copied(&self.attributes)?);
        Ok(Table { rows, attributes, ..*self })
    }

    /// Returns the abbreviation with a code, such as that of an entry.
    ///
    /// ```
    /// let table = dwarf_read::Table::read(&[7, 0x2e, 1, 0, 0, 0], 0)?;
    /// assert!(table.get(7).unwrap().has_children());
    /// assert_eq!(table.get(1), None);
    /// # Ok::<(), dwarf_read::Error>(())
    /// ```
    #[must_use]
    pub fn get(&self, code: u64) -> Option<Abbreviation<'_>> {
        // In most tables the codes count from 1.
        let guess = usize::try_from(code.wrapping_sub(1)).unwrap_or(usize::MAX);
        let row = match self.rows.get(guess) {
            Some(row) if row.code == code => row,
            _ => &self.rows[self.rows.binary_search_by_key(&code, |row| row.code).ok()?],
        };
        Some(self.of(row))
    }

    /// Returns the abbreviations in the order of their codes.
    ///
    /// ```
    /// let table = dwarf_read::Table::read(&[2, 0x2e, 0, 0, 0, 1, 0x11, 1, 0, 0, 0], 0)?;
    /// assert!(table.iter().map(|it| it.code()).eq([1, 2]));
    /// # Ok::<(), dwarf_read::Error>(())
    /// ```
    #[must_use]
    pub fn iter(&self) -> Abbreviations<'_> {
        Abbreviations { table: self, rows: self.rows.iter() }
    }

    /// Returns how many abbreviations the table has.
    #[must_use]
    pub fn len(&self) -> usize {
        self.rows.len()
    }

    /// Returns whether the table has no abbreviations.
    #[must_use]
    pub fn is_empty(&self) -> bool {
        self.rows.is_empty()
    }

    /// Returns the offset in the section at which the table was read.
    #[must_use]
    pub fn offset(&self) -> usize {
        self.offset
    }

    /// Returns the offset in the section after the code of value 0 that closes the table, or the
    /// section's length. Another table may begin there.
    #[must_use]
    pub fn end(&self) -> usize {
        self.end
    }

    /// Returns whether a code of value 0 closes the table, and not the section's end. See
    /// [`read_strict`](Table::read_strict).
    #[must_use]
    pub fn is_closed_by_null(&self) -> bool {
        self.is_closed_by_null
    }

    fn of<'t>(&'t self, row: &'t sys::Abbreviation) -> Abbreviation<'t> {
        Abbreviation {
            row,
            attributes: &self.attributes[row.first_attribute..][..row.attribute_count],
        }
    }
}

impl PartialEq for Table {
    fn eq(&self, other: &Table) -> bool {
        self.is_closed_by_null == other.is_closed_by_null && self.iter().eq(other)
    }
}

impl Eq for Table {}

impl fmt::Debug for Table {
    fn fmt(&self, f: &mut fmt::Formatter<'_>) -> fmt::Result {
        f.debug_struct("Table")
            .field("offset", &self.offset)
            .field("end", &self.end)
            .field("is_closed_by_null", &self.is_closed_by_null)
            .field("abbreviations", &self.iter())
            .finish()
    }
}

impl<'t> IntoIterator for &'t Table {
    type Item = Abbreviation<'t>;
    type IntoIter = Abbreviations<'t>;

    fn into_iter(self) -> Abbreviations<'t> {
        self.iter()
    }
}

/// Returns the tables of a whole `.debug_abbrev`, each of which begins at the end of the one
/// before.
///
/// ```
/// let section = [1, 0x11, 0, 0, 0, 0, 0, 1, 0x2e, 0, 0, 0];
/// for table in dwarf_read::tables(&section) {
///     let table = table?;
///     println!("{} abbreviations at {}", table.len(), table.offset());
/// }
/// # Ok::<(), dwarf_read::Error>(())
/// ```
#[must_use]
pub fn tables(section: &[u8]) -> Tables<'_> {
    Tables { section, offset: Some(0), room: Table::default() }
}

/// The tables of a section, in the order of their offsets. If there is an error, it is the last
/// item.
#[derive(Clone)]
pub struct Tables<'s> {
    section: &'s [u8],
    // Where the next table begins, unless there was an error.
    offset: Option<usize>,
    // The last table, whose memory is used again.
    room: Table,
}

impl Tables<'_> {
    fn at(&mut self, offset: usize) -> Result<Table> {
        self.room.read_again(self.section, offset)?;
        let end = self.room.end;
        let table = if end == self.section.len() {
            // No other table needs the memory.
            core::mem::take(&mut self.room).fitted()?
        } else {
            self.room.copied()?
        };
        self.offset = Some(end);
        Ok(table)
    }
}

impl Iterator for Tables<'_> {
    type Item = Result<Table>;

    fn next(&mut self) -> Option<Result<Table>> {
        let offset = self.offset.take().filter(|it| *it < self.section.len())?;
        Some(self.at(offset))
    }
}

impl FusedIterator for Tables<'_> {}

impl fmt::Debug for Tables<'_> {
    fn fmt(&self, f: &mut fmt::Formatter<'_>) -> fmt::Result {
        f.debug_struct("Tables")
            .field("section", &Bytes(self.section))
            .field("offset", &self.offset)
            .finish()
    }
}

/// The abbreviations of a table, in the order of their codes.
#[derive(Clone)]
pub struct Abbreviations<'t> {
    table: &'t Table,
    rows: slice::Iter<'t, sys::Abbreviation>,
}

impl<'t> Iterator for Abbreviations<'t> {
    type Item = Abbreviation<'t>;

    fn next(&mut self) -> Option<Abbreviation<'t>> {
        self.rows.next().map(|row| self.table.of(row))
    }

    fn size_hint(&self) -> (usize, Option<usize>) {
        self.rows.size_hint()
    }
}

impl DoubleEndedIterator for Abbreviations<'_> {
    fn next_back(&mut self) -> Option<Self::Item> {
        self.rows.next_back().map(|row| self.table.of(row))
    }
}

impl ExactSizeIterator for Abbreviations<'_> {}

impl FusedIterator for Abbreviations<'_> {}

impl fmt::Debug for Abbreviations<'_> {
    fn fmt(&self, f: &mut fmt::Formatter<'_>) -> fmt::Result {
        f.debug_list().entries(self.clone()).finish()
    }
}

/// An abbreviation of a table. Two are equal if their codes, tags, children and attributes are.
#[derive(Clone, Copy)]
pub struct Abbreviation<'t> {
    row: &'t sys::Abbreviation,
    attributes: &'t [Attribute],
}

impl<'t> Abbreviation<'t> {
    /// Returns the code of the abbreviation, which isn't 0.
    #[must_use]
    pub fn code(&self) -> u64 {
        self.row.code
    }

    /// Returns the tag of the entries.
    #[must_use]
    pub fn tag(&self) -> DwTag {
        DwTag(self.row.tag)
    }

    /// Returns whether the entries have children.
    #[must_use]
    pub fn has_children(&self) -> bool {
        self.row.has_children == 1
    }

    /// Returns the attributes, in the order of the table.
    #[must_use]
    pub fn attributes(&self) -> &'t [Attribute] {
        self.attributes
    }
}

impl PartialEq for Abbreviation<'_> {
    fn eq(&self, other: &Self) -> bool {
        let of_row = |it: &Self| (it.code(), it.tag(), it.has_children());
        of_row(self) == of_row(other) && self.attributes == other.attributes
    }
}

impl Eq for Abbreviation<'_> {}

impl fmt::Debug for Abbreviation<'_> {
    fn fmt(&self, f: &mut fmt::Formatter<'_>) -> fmt::Result {
        f.debug_struct("Abbreviation")
            .field("code", &self.code())
            .field("tag", &format_args!("{}", self.tag()))
            .field("has_children", &self.has_children())
            .field("attributes", &self.attributes)
            .finish()
    }
}

/// An attribute of an abbreviation.
#[repr(transparent)]
#[derive(Clone, Copy, PartialEq, Eq)]
pub struct Attribute(sys::Attribute);

impl Attribute {
    /// Returns the attribute's name.
    #[must_use]
    pub fn name(&self) -> DwAt {
        DwAt(self.0.name)
    }

    /// Returns the form of the values.
    #[must_use]
    pub fn form(&self) -> DwForm {
        DwForm(self.0.form)
    }

    /// Returns the attribute's value, if that is in the table itself.
    ///
    /// ```
    /// use dwarf_read::constants::{DW_AT_decl_file, DW_FORM_implicit_const};
    ///
    /// let table = dwarf_read::Table::read(&[1, 0x2e, 0, 0x3a, 0x21, 1, 0, 0, 0], 0)?;
    /// let attribute = table.get(1).unwrap().attributes()[0];
    /// assert_eq!((attribute.name(), attribute.form()), (DW_AT_decl_file, DW_FORM_implicit_const));
    /// assert_eq!(attribute.implicit_const(), Some(1));
    /// # Ok::<(), dwarf_read::Error>(())
    /// ```
    #[must_use]
    pub fn implicit_const(&self) -> Option<i64> {
        (self.form() == DW_FORM_implicit_const).then_some(self.0.implicit_const)
    }
}

impl fmt::Debug for Attribute {
    fn fmt(&self, f: &mut fmt::Formatter<'_>) -> fmt::Result {
        let mut shown = f.debug_struct("Attribute");
        shown.field("name", &format_args!("{}", self.name()));
        shown.field("form", &format_args!("{}", self.form()));
        if let Some(value) = self.implicit_const() {
            shown.field("implicit_const", &value);
        }
        shown.finish()
    }
}
