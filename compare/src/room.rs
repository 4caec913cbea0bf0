//! Places for tables, which are used again.

use crate::sys::*;
use std::vec::Vec;

#[derive(Default)]
pub struct Room {
    pub abbreviations: Vec<Abbreviation>,
    pub attributes: Vec<Attribute>,
}

impl Room {
    /// Reads a table into as many places as suffice for any table there. Returns its measure, or the status with the
    /// error.
    pub fn read(&mut self, bytes: &[u8], offset: usize) -> Result<Measure, (u32, Fault)> {
        let (mut measure, mut fault) = (Measure::default(), Fault::default());
        // A declaration has at least five bytes, and an attribute two.
        let left = bytes.len().saturating_sub(offset);
        let (room, more_room) = (left / 5, left / 2);
        self.abbreviations.clear();
        self.attributes.clear();
        self.abbreviations.reserve(room);
        self.attributes.reserve(more_room);
        let (to, more) = (self.abbreviations.as_mut_ptr(), self.attributes.as_mut_ptr());
        let (data, len) = (bytes.as_ptr(), bytes.len());
        match unsafe { dwarf_table_read(data, len, offset, to, room, more, more_room, &mut measure, &mut fault) } {
            OK => {
                // The call has written as many.
                unsafe {
                    self.abbreviations.set_len(measure.abbreviations);
                    self.attributes.set_len(measure.attributes);
                }
                Ok(measure)
            }
            status => Err((status, fault)),
        }
    }
}
