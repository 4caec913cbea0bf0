//! The files that a command line names, and their bytes.

use crate::archive::is_archive;
use crate::arguments::STANDARD_INPUT;
use crate::memory::reserve;
use crate::report::{unlisted, Result};
use crate::text::plain;
use memmap2::Mmap;
use std::ffi::OsStr;
use std::fs::{self, File};
use std::io::{self, Read};
use std::ops::Deref;
use std::os::unix::ffi::OsStrExt;
use std::os::unix::io::{AsFd, AsRawFd};
use std::path::Path;

const MAGIC: &[u8] = b"\x7fELF";
/// What a file is that isn't an ELF file, by its first bytes.
const KINDS: &[(&[u8], &str)] = &[
    (b"!<arch>\n", "an archive"),
    (b"!<thin>\n", "a thin archive"),
    (b"MZ", "a PE file"),
    (b"\xfe\xed\xfa\xce", "a Mach-O file"),
    (b"\xfe\xed\xfa\xcf", "a Mach-O file"),
    (b"\xce\xfa\xed\xfe", "a Mach-O file"),
    (b"\xcf\xfa\xed\xfe", "a Mach-O file"),
    (b"\xca\xfe\xba\xbe\0\0\0", "a universal Mach-O file"),
    (b"\0asm", "a WebAssembly module"),
    (b"BC\xc0\xde", "LLVM bitcode"),
    (b"\xde\xc0\x17\x0b", "LLVM bitcode"),
    (b"\x1f\x8b", "compressed by gzip"),
    (b"\xfd7zXZ\0", "compressed by xz"),
    (b"\x28\xb5\x2f\xfd", "compressed by zstd"),
    (b"BZh", "compressed by bzip2"),
    (b"PK\x03\x04", "a zip file"),
    (b"#!", "a script"),
];
/// This many bytes say what a file is, and this many are read at a time.
const FIRST_BYTES: u64 = 8;
const BYTES_AT_ONCE: u64 = 1 << 20;

/// What a file is called in messages.
pub fn title(path: &OsStr) -> String {
    if path == STANDARD_INPUT {
        return "standard input".to_owned();
    }
    plain(path.as_bytes())
}

/// The bytes of a file.
pub enum Bytes {
    Mapped(Mmap),
    Read(Vec<u8>),
}

impl Deref for Bytes {
    type Target = [u8];

    fn deref(&self) -> &[u8] {
        match self {
            Bytes::Mapped(map) => map,
            Bytes::Read(bytes) => bytes,
        }
    }
}

/// Opens a file, or standard input.
pub fn open(path: &OsStr) -> Result<Bytes> {
    if path == STANDARD_INPUT {
        return read(io::stdin().as_fd().try_clone_to_owned()?.into());
    }
    let file = File::open(path)?;
    // A file doesn't keep the number of a standard stream that the caller closed.
    read(if file.as_raw_fd() > 2 { file } else { file.try_clone()? })
}

/// Opens a file that another file names. To open one that isn't ordinary, such as a device, could do anything.
pub fn open_ordinary(path: &Path) -> Result<Bytes> {
    if !fs::metadata(path)?.is_file() {
        return Err(unlisted("isn't an ordinary file, so it isn't read"));
    }
    open(path.as_os_str())
}

// A file that can't be mapped, such as a pipe, is read: whole if its first bytes are those of a file that can be listed.
fn read(mut file: File) -> Result<Bytes> {
    let metadata = file.metadata()?;
    if metadata.is_file() && metadata.len() > 0 {
        if let Ok(map) = mapped(&file) {
            return Ok(Bytes::Mapped(map));
        }
    }
    let mut bytes = Vec::new();
    let mut count = (&mut file).take(FIRST_BYTES).read_to_end(&mut bytes)?;
    while count > 0 && (bytes.starts_with(MAGIC) || is_archive(&bytes)) {
        reserve(&mut bytes, BYTES_AT_ONCE as usize)?;
        count = (&mut file).take(BYTES_AT_ONCE).read_to_end(&mut bytes)?;
    }
    Ok(Bytes::Read(bytes))
}

#[allow(unsafe_code)]
fn mapped(file: &File) -> io::Result<Mmap> {
    // SAFETY: the map is read alone. If another process shortens the file meanwhile, the run ends by SIGBUS, as the
    // manual page says; if it writes to the file, any bytes may be read, which is all that is presumed of them.
    unsafe { Mmap::map(file) }
}

/// The file that an argument names, and maybe the member of it in parentheses.
pub fn split(word: &OsStr) -> (&OsStr, Option<&[u8]>) {
    let bytes = word.as_bytes();
    let is_there = |end: usize| fs::symlink_metadata(OsStr::from_bytes(&bytes[..end])).is_ok();
    if !bytes.ends_with(b")") || is_there(bytes.len()) {
        return (word, None);
    }
    // Both names may have parentheses.
    let last = bytes.len() - 1;
    let mut ends = (1..last.saturating_sub(1)).filter(|at| bytes[*at] == b'(').peekable();
    let first = match ends.peek() {
        Some(first) => *first,
        None => return (word, None),
    };
    let end = ends.find(|end| is_there(*end)).unwrap_or(first);
    (OsStr::from_bytes(&bytes[..end]), Some(&bytes[end + 1..last]))
}

/// Says what a file is, unless it is an ELF file.
pub fn expect_elf(whole: &[u8]) -> Result<()> {
    if whole.starts_with(MAGIC) {
        return Ok(());
    }
    let kind = match KINDS.iter().find(|(magic, _)| whole.starts_with(magic)) {
        _ if whole.is_empty() => ", but an empty one".to_owned(),
        Some((_, kind)) => format!(", but {kind}"),
        None => String::new(),
    };
    Err(unlisted(format!("this isn't an ELF file{kind}")))
}
