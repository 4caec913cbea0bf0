//! Sets of addresses and of string offsets.

use crate::bytes::Bytes;
use crate::error::{check_unless, Result};
use crate::{address, str_offset, sys, ByteOrder, Format};
use core::fmt;
use core::iter::FusedIterator;

#[derive(Debug, Clone, Copy, PartialEq, Eq)]
enum Kind {
    Addresses,
    StrOffsets,
}

/// Returns the sets of addresses of a whole `.debug_addr`.
///
/// ```
/// # fn main() -> Result<(), dwarf_read::Error> {
/// use dwarf_read::{ByteOrder, address_sets};
///
/// let section = [12, 0, 0, 0, 5, 0, 4, 0, 0x78, 0x56, 0x34, 0x12, 0xef, 0xbe, 0xad, 0xde];
/// for set in address_sets(&section, ByteOrder::Little) {
///     let addresses: Vec<u64> = set?.entries().collect::<Result<_, _>>()?;
///     assert_eq!(addresses, [0x12345678, 0xdeadbeef]);
/// }
/// # Ok(())
/// # }
/// ```
#[must_use]
pub fn address_sets(section: &[u8], order: ByteOrder) -> Sets<'_> {
    Sets { section, order, kind: Kind::Addresses, offset: Some(0), after_error: None }
}

/// Returns the sets of string offsets of a whole `.debug_str_offsets`.
///
/// ```
/// # fn main() -> Result<(), dwarf_read::Error> {
/// use dwarf_read::{ByteOrder, str_offset_sets};
///
/// let section = [8, 0, 0, 0, 5, 0, 0, 0, 0x2a, 0, 0, 0];
/// let set = str_offset_sets(&section, ByteOrder::Little).next().unwrap()?;
/// assert_eq!(set.get(0)?, 42);
/// assert!(set.get(1).is_err());
/// # Ok(())
/// # }
/// ```
#[must_use]
pub fn str_offset_sets(section: &[u8], order: ByteOrder) -> Sets<'_> {
    Sets { section, order, kind: Kind::StrOffsets, offset: Some(0), after_error: None }
}

/// The sets of a section, in the order of their offsets. If there is an error, it is the last item,
/// unless [`resume`](Sets::resume) goes on after it.
#[derive(Clone)]
pub struct Sets<'s> {
    section: &'s [u8],
    order: ByteOrder,
    kind: Kind,
    // Where the next set begins, unless there was an error or the end.
    offset: Option<usize>,
    // Where the set ends that had the last error, if that is known.
    after_error: Option<usize>,
}

impl<'s> Sets<'s> {
    /// Returns the set at an offset of the section, or `None` at the section's end. The iterator
    /// stays where it is.
    ///
    /// # Errors
    ///
    /// Those of the iterator, and `UnexpectedEof` at 0 if the offset is past the section's end.
    ///
    /// ```
    /// use dwarf_read::{address_sets, ByteOrder};
    ///
    /// let set = [8, 0, 0, 0, 5, 0, 4, 0, 7, 0, 0, 0];
    /// let section = [&set[..], &set].concat();
    /// let second = address_sets(&section, ByteOrder::Little).at(12)?.unwrap();
    /// assert_eq!((second.offset(), second.base(), second.get(0)?), (12, 20, 7));
    /// # Ok::<(), dwarf_read::Error>(())
    /// ```
    pub fn at(&self, offset: usize) -> Result<Option<Set<'s>>> {
        self.read(offset, &mut sys::Set::default())
    }

    /// Returns the offset of the next set, or of the section's end. `None` after that end, and after
    /// an error, unless [`resume`](Self::resume) goes on.
    ///
    /// ```
    /// use dwarf_read::{address_sets, ByteOrder};
    ///
    /// let section = [8, 0, 0, 0, 5, 0, 4, 0, 7, 0, 0, 0];
    /// let mut sets = address_sets(&section, ByteOrder::Little);
    /// assert_eq!(sets.offset(), Some(0));
    /// assert!(sets.next().is_some());
    /// assert_eq!(sets.offset(), Some(12));
    /// assert!(sets.next().is_none());
    /// assert_eq!(sets.offset(), None);
    /// ```
    #[must_use]
    pub fn offset(&self) -> Option<usize> {
        self.offset
    }

    /// Goes on after a set with an error. Returns whether it does: after an error of a set's length,
    /// and if a set isn't all in the section, nothing says where the next one begins.
    ///
    /// ```
    /// use dwarf_read::{address_sets, ByteOrder, ErrorKind};
    ///
    /// let of_version_6 = [4, 0, 0, 0, 6, 0, 4, 0];
    /// let section = [&of_version_6[..], &[8, 0, 0, 0, 5, 0, 4, 0, 7, 0, 0, 0]].concat();
    /// let mut sets = address_sets(&section, ByteOrder::Little);
    /// assert_eq!(sets.next().unwrap().unwrap_err().kind(), ErrorKind::UnknownVersion);
    /// assert!(sets.resume());
    /// assert_eq!(sets.next().unwrap()?.get(0)?, 7);
    /// # Ok::<(), dwarf_read::Error>(())
    /// ```
    pub fn resume(&mut self) -> bool {
        let next = self.after_error.take();
        self.offset = self.offset.or(next);
        next.is_some()
    }

    // Reads the set at an offset. With an error, `header` has its end, or 0 if that isn't known.
    fn read(&self, offset: usize, header: &mut sys::Set) -> Result<Option<Set<'s>>> {
        let call = match self.kind {
            Kind::Addresses => sys::dwarf_address_set,
            Kind::StrOffsets => sys::dwarf_str_offset_set,
        };
        let (bytes, len, is_big) = (self.section.as_ptr(), self.section.len(), self.order.is_big());
        // SAFETY: see `crate::sys`.
        let is_set = check_unless(sys::END, |fault| unsafe {
            call(bytes, len, is_big, offset, header, fault)
        })?;
        let Sets { order, kind, .. } = *self;
        Ok(is_set.then(|| {
            // Nothing after the set is read.
            let section = &self.section[..header.next];
            Set { section, order, kind, offset, header: *header }
        }))
    }
}

impl<'s> Iterator for Sets<'s> {
    type Item = Result<Set<'s>>;

    fn next(&mut self) -> Option<Self::Item> {
        let offset = self.offset.take()?;
        let mut header = sys::Set::default();
        let found = self.read(offset, &mut header).transpose()?;
        let next = Some(header.next).filter(|&it| it > offset);
        if found.is_ok() {
            self.offset = next;
        } else {
            self.after_error = next;
        }
        Some(found)
    }
}

impl FusedIterator for Sets<'_> {}

impl fmt::Debug for Sets<'_> {
    fn fmt(&self, f: &mut fmt::Formatter<'_>) -> fmt::Result {
        f.debug_struct("Sets")
            .field("section", &Bytes(self.section))
            .field("order", &self.order)
            .field("offset", &self.offset)
            .finish()
    }
}

/// A set of addresses or of string offsets.
///
/// Sets are equal if both are of the same kind, and equal in their headers and entries: not by
/// where they are, nor by the order of their bytes.
#[derive(Clone, Copy)]
pub struct Set<'s> {
    section: &'s [u8],
    order: ByteOrder,
    kind: Kind,
    offset: usize,
    header: sys::Set,
}

impl<'s> Set<'s> {
    /// Returns the offset of the set in its section.
    #[must_use]
    pub fn offset(&self) -> usize {
        self.offset
    }

    /// Returns the offset of the set's first entry in its section, which units name as their base.
    #[must_use]
    pub fn base(&self) -> usize {
        self.header.first_entry
    }

    /// Returns how many bytes of the set follow its initial length.
    #[must_use]
    pub fn unit_length(&self) -> usize {
        self.header.unit_length
    }

    /// Returns the format of the set.
    #[must_use]
    pub fn format(&self) -> Format {
        Format::of_word_size(self.header.word_size)
    }

    /// Returns how many whole entries the set has. One that the set's end cuts isn't counted.
    #[must_use]
    pub fn entry_count(&self) -> usize {
        self.header.entry_count
    }

    /// Returns how many bytes an entry has.
    #[must_use]
    pub fn entry_size(&self) -> u8 {
        self.header.entry_size
    }

    /// Returns the address or string offset at an index, counted from 0.
    ///
    /// # Errors
    ///
    /// `UnexpectedEof` if the set doesn't contain all of its bytes, and `UnsupportedOffset` if the
    /// index times the size of an entry is 2^64 or more.
    ///
    /// ```
    /// use dwarf_read::{address_sets, ByteOrder};
    ///
    /// let section = [12, 0, 0, 0, 5, 0, 4, 0, 0x78, 0x56, 0x34, 0x12, 0xef, 0xbe, 0xad, 0xde];
    /// let set = address_sets(&section, ByteOrder::Little).next().unwrap()?;
    /// assert_eq!((set.base(), set.entry_count(), set.get(1)?), (8, 2, 0xdeadbeef));
    /// # Ok::<(), dwarf_read::Error>(())
    /// ```
    pub fn get(&self, index: u64) -> Result<u64> {
        let (base, size) = (self.header.first_entry, self.header.entry_size);
        match self.kind {
            Kind::Addresses => address(self.section, self.order, size, base, index),
            Kind::StrOffsets => {
                let offset = str_offset(self.section, self.order, self.format(), base, index)?;
                Ok(offset as u64)
            }
        }
    }

    /// Returns the entries of the set. If the set's end cuts an entry, that error is the last item.
    ///
    /// ```
    /// use dwarf_read::{str_offset_sets, ByteOrder};
    ///
    /// let section = [12, 0, 0, 0, 5, 0, 0, 0, 1, 0, 0, 0, 2, 0, 0, 0];
    /// let set = str_offset_sets(&section, ByteOrder::Little).next().unwrap()?;
    /// assert!(set.entries().eq([Ok(1), Ok(2)]));
    /// # Ok::<(), dwarf_read::Error>(())
    /// ```
    #[must_use]
    pub fn entries(&self) -> Entries<'s> {
        Entries { set: *self, index: Some(0) }
    }
}

impl PartialEq for Set<'_> {
    fn eq(&self, other: &Self) -> bool {
        let of_header = |it: &Self| (it.kind, it.unit_length(), it.format(), it.entry_size());
        // The lengths of both and the sizes of their entries are equal, and so are the counts.
        let whole = |it: &Self| it.entries().take(it.entry_count());
        of_header(self) == of_header(other) && whole(self).eq(whole(other))
    }
}

impl Eq for Set<'_> {}

impl fmt::Debug for Set<'_> {
    fn fmt(&self, f: &mut fmt::Formatter<'_>) -> fmt::Result {
        f.debug_struct("Set")
            .field("offset", &self.offset())
            .field("unit_length", &self.unit_length())
            .field("format", &self.format())
            .field("entry_size", &self.entry_size())
            .field("entry_count", &self.entry_count())
            .field("bytes", &Bytes(&self.section[self.base()..]))
            .finish()
    }
}

/// The entries of a set.
#[derive(Debug, Clone)]
pub struct Entries<'s> {
    set: Set<'s>,
    // The index of the next entry, unless there was an error.
    index: Option<u64>,
}

impl Iterator for Entries<'_> {
    type Item = Result<u64>;

    fn next(&mut self) -> Option<Result<u64>> {
        let index = self.index.take()?;
        let header = &self.set.header;
        // An entry that is cut counts, too, so that reading it is an error.
        let is_cut = (header.next - header.first_entry) % usize::from(header.entry_size) != 0;
        if index == header.entry_count as u64 + u64::from(is_cut) {
            return None;
        }
        let entry = self.set.get(index);
        self.index = entry.is_ok().then_some(index + 1);
        Some(entry)
    }
}

impl FusedIterator for Entries<'_> {}
