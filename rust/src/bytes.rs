//! How the bytes of a section are shown.

use core::fmt;

// As many are shown as gimli shows.
const SHOWN: usize = 8;

/// Shows the first bytes, and how many there are if there are more.
pub(crate) struct Bytes<'s>(pub &'s [u8]);

impl fmt::Debug for Bytes<'_> {
    fn fmt(&self, f: &mut fmt::Formatter<'_>) -> fmt::Result {
        f.write_str("[")?;
        for (index, byte) in self.0.iter().take(SHOWN).enumerate() {
            write!(f, "{}{:#04x}", if index == 0 { "" } else { ", " }, byte)?;
        }
        if self.0.len() > SHOWN {
            write!(f, ", ...; {}", self.0.len())?;
        }
        f.write_str("]")
    }
}
