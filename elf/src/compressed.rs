//! Compressed sections, which are inflated whole.

use crate::memory::reserve;
use crate::report::{malformed, unlisted, Result};
use flate2::{Decompress, FlushDecompress, Status};
use object::elf::ELFCOMPRESS_ZLIB;

#[cfg(all(feature = "zstd", not(feature = "zstd-crate")))]
compile_error!("the feature `zstd` needs the crate zstd: `elf/offline build --release --features zstd` adds Debian's");

/// The sections of a file may inflate to this many bytes together, or to this many times its bytes if that is more.
const INFLATED_BYTES: u64 = 1 << 26;
const INFLATED_TIMES: u64 = 1 << 6;
/// This number is newer than the library of layouts.
const ELFCOMPRESS_ZSTD: u32 = 2;

/// How a section is compressed, by the numbers of the ELF specification.
#[derive(Debug, Clone, Copy, PartialEq, Eq)]
pub enum Method {
    Zlib,
    Zstd,
}

impl Method {
    pub fn of(kind: u32) -> Result<Method> {
        match kind {
            ELFCOMPRESS_ZLIB => Ok(Method::Zlib),
            ELFCOMPRESS_ZSTD => Ok(Method::Zstd),
            _ => Err(unlisted(format!("can't be inflated: its compression type {kind} is unknown"))),
        }
    }
}

/// How many bytes the sections of a file may inflate to together.
pub fn most_inflated(file_bytes: usize) -> u64 {
    INFLATED_BYTES.max(INFLATED_TIMES.saturating_mul(file_bytes as u64))
}

/// The bytes of a compressed section, and the size to which its header says that they inflate.
#[derive(Debug, Clone, Copy)]
pub struct Compressed<'d> {
    pub raw: &'d [u8],
    pub method: Method,
    pub size: u64,
}

/// How the compressed bytes end.
#[derive(PartialEq, Eq)]
enum End {
    Whole,
    Cut,
    /// This number of bytes follows.
    Early(usize),
}

impl Compressed<'_> {
    /// The inflated bytes, at most as many as the header says, and what is wrong with their number.
    pub fn inflated(&self) -> Result<(Vec<u8>, Option<String>)> {
        let mut data = Vec::new();
        // With room for one more it is known whether there are more.
        reserve(&mut data, self.size as usize + 1)?;
        let end = match self.method {
            Method::Zlib => inflate_zlib(self.raw, &mut data)?,
            Method::Zstd => inflate_zstd(self.raw, &mut data, self.size + 1)?,
        };
        let found = data.len() as u64;
        data.truncate(self.size as usize);
        let inflates = |what: &str| Some(format!("is to inflate to {} bytes, and inflates to {what}", self.size));
        let wrong = match end {
            _ if found > self.size => inflates("more"),
            _ if found < self.size => inflates(&found.to_string()),
            End::Cut => inflates("other bytes"),
            End::Early(count) => Some(format!("has {count} bytes after its compressed ones")),
            End::Whole => None,
        };
        Ok((data, wrong))
    }
}

// Inflates into the room that there is.
fn inflate_zlib(raw: &[u8], data: &mut Vec<u8>) -> Result<End> {
    let mut state = Decompress::new(true);
    loop {
        let (read, written) = (state.total_in(), data.len());
        let status = state.decompress_vec(&raw[read as usize..], data, FlushDecompress::None);
        let rest = raw.len() - state.total_in() as usize;
        match status {
            Err(_) => return Err(malformed("can't be inflated: its bytes are corrupt")),
            Ok(Status::StreamEnd) => return Ok(if rest == 0 { End::Whole } else { End::Early(rest) }),
            Ok(_) if state.total_in() == read && data.len() == written => return Ok(End::Cut),
            Ok(_) => {}
        }
    }
}

#[cfg(feature = "zstd-crate")]
fn inflate_zstd(raw: &[u8], data: &mut Vec<u8>, most: u64) -> Result<End> {
    use std::io::{ErrorKind, Read};
    let stream = zstd::stream::read::Decoder::with_buffer(raw);
    match stream.and_then(|stream| stream.take(most).read_to_end(data)) {
        Ok(_) => Ok(End::Whole),
        Err(error) if error.kind() == ErrorKind::UnexpectedEof => Ok(End::Cut),
        Err(error) => Err(malformed(format!("can't be inflated: {error}"))),
    }
}

#[cfg(not(feature = "zstd-crate"))]
fn inflate_zstd(_: &[u8], _: &mut [u8], _: u64) -> Result<End> {
    let why = "which this program can't inflate: it was built without the feature `zstd`";
    Err(unlisted(format!("is compressed by zstd, {why}")))
}
