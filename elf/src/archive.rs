//! Archives that `ar` has written, and their members.

use crate::elf::slice;
use crate::inputs::{open_ordinary, title, Bytes};
use crate::report::{malformed, unlisted, Report, Result};
use std::borrow::Cow;
use std::ffi::OsStr;
use std::ops::{Deref, Range};
use std::os::unix::ffi::OsStrExt;
use std::path::{Path, PathBuf};
use std::rc::Rc;

const MAGIC: &[u8] = b"!<arch>\n";
const THIN_MAGIC: &[u8] = b"!<thin>\n";
/// The header of a member: its name, fields that aren't needed here, its size, and a mark.
const HEADER_BYTES: usize = 60;
/// Linux opens no file with a longer name.
const NAME_BYTES: usize = 1 << 12;

pub fn is_archive(whole: &[u8]) -> bool {
    whole.starts_with(MAGIC) || whole.starts_with(THIN_MAGIC)
}

/// The members of an archive. A thin one has only the names of its members' files.
pub struct Archive<'a> {
    path: &'a Path,
    whole: &'a [u8],
    is_thin: bool,
    report: &'a Report,
    // The table of long names.
    names: &'a [u8],
    next: usize,
    // The file that a thin archive named last.
    last: Option<(PathBuf, Rc<Bytes>)>,
}

/// A member of an archive: its name, and its bytes or why they can't be had.
pub struct Member<'a> {
    pub name: Cow<'a, [u8]>,
    pub bytes: Result<Content<'a>>,
}

/// The bytes of a member: a part of the archive, or of another file.
pub enum Content<'a> {
    Inside(&'a [u8]),
    Outside(Rc<Bytes>, Range<usize>),
}

impl Deref for Content<'_> {
    type Target = [u8];

    fn deref(&self) -> &[u8] {
        match self {
            Content::Inside(bytes) => bytes,
            Content::Outside(bytes, range) => &bytes[range.clone()],
        }
    }
}

/// The header of a member: where it is, the field of its name, and its size.
struct Header<'a> {
    at: usize,
    field: &'a [u8],
    size: usize,
}

impl<'a> Header<'a> {
    fn read(whole: &'a [u8], at: usize) -> Option<Header<'a>> {
        let bytes = whole.get(at..at.checked_add(HEADER_BYTES)?).filter(|bytes| bytes.ends_with(b"`\n"))?;
        Some(Header { at, field: trimmed(&bytes[..16], b' '), size: number(trimmed(&bytes[48..58], b' '))? })
    }

    fn begin(&self) -> usize {
        self.at + HEADER_BYTES
    }

    /// Whether it is an index of symbols or of names, and no member.
    fn is_index(&self) -> bool {
        matches!(self.field, b"/" | b"//" | b"/SYM64/")
    }
}

// The number of some digits, if they are some.
fn number(digits: &[u8]) -> Option<usize> {
    let digits = std::str::from_utf8(digits).ok()?;
    digits.bytes().all(|digit| digit.is_ascii_digit()).then(|| digits.parse().ok())?
}

fn trimmed(text: &[u8], byte: u8) -> &[u8] {
    let end = text.iter().rposition(|found| *found != byte).map_or(0, |last| last + 1);
    &text[..end]
}

impl<'a> Archive<'a> {
    pub fn new(path: &'a Path, whole: &'a [u8], report: &'a Report) -> Archive<'a> {
        let is_thin = whole.starts_with(THIN_MAGIC);
        Archive { path, whole, is_thin, report, names: &[], next: MAGIC.len(), last: None }
    }

    fn error(&self, text: String) {
        self.report.file_error(&title(self.path.as_os_str()), &malformed(text));
    }

    /// The name of a member that this archive contains, and where its bytes are; `None` of an index. Errors that end
    /// nothing are reported.
    fn contained(&mut self, header: &Header<'a>) -> Result<Option<(&'a [u8], Range<usize>)>> {
        let (at, begin) = (header.at, header.begin());
        self.next = begin.saturating_add(header.size).saturating_add(header.size % 2);
        let whole = slice(self.whole, begin as u64, header.size as u64);
        if whole.len() < header.size {
            let there = format!("{} of its {} bytes are there", whole.len(), header.size);
            self.error(format!("the member at 0x{at:x} is cut by the end of the archive: {there}"));
        }
        if header.field == b"//" {
            self.names = whole;
        }
        if header.is_index() {
            return Ok(None);
        }
        let (name, skipped) = match header.field.strip_prefix(b"#1/").and_then(number) {
            Some(size) => (trimmed(slice(whole, 0, size.min(NAME_BYTES) as u64), 0), size),
            None => (self.name(header).0, 0),
        };
        if skipped > header.size {
            let text = "is shorter than its name, and what follows isn't read";
            return Err(malformed(format!("the member at 0x{at:x} {text}")));
        }
        // Other systems name the index so, with more after it.
        let is_member = !name.starts_with(b"__.SYMDEF");
        Ok(is_member.then(|| (name, begin + skipped.min(whole.len())..begin + whole.len())))
    }

    // The name of a member, and where it is in another archive.
    fn name(&self, header: &Header<'a>) -> (&'a [u8], Option<usize>) {
        let mut words = header.field.strip_prefix(b"/").unwrap_or_default().split(|byte| *byte == b':').map(number);
        match (words.next().flatten(), words.next(), words.next()) {
            (Some(place), None, _) => (self.long_name(header.at, place), None),
            (Some(place), Some(Some(inner)), None) => (self.long_name(header.at, place), Some(inner)),
            _ => (header.field.strip_suffix(b"/").unwrap_or(header.field), None),
        }
    }

    // A name in the table of names, where a newline ends it. A longer one is cut.
    fn long_name(&self, at: usize, place: usize) -> &'a [u8] {
        let rest = self.names.get(place..).unwrap_or_default();
        if rest.is_empty() {
            let past = "past the end of the archive's names";
            self.error(format!("the member at 0x{at:x} has its name at 0x{place:x}, {past}"));
        }
        let rest = &rest[..rest.len().min(NAME_BYTES)];
        let name = rest.split(|byte| *byte == b'\n').next().unwrap_or_default();
        name.strip_suffix(b"/").unwrap_or(name)
    }

    // A member of a thin archive, which is a file or in another archive.
    fn thin_member(&mut self, header: &Header<'a>) -> Member<'a> {
        self.next = header.begin();
        let (name, inner) = self.name(header);
        let path = self.path.parent().unwrap_or_else(|| Path::new("")).join(OsStr::from_bytes(name));
        let found = self.opened(&path).and_then(|bytes| match inner {
            None => Ok((name.into(), Content::Outside(Rc::clone(&bytes), 0..bytes.len()))),
            Some(at) => self.inner_member(name, &path, bytes, at),
        });
        match found {
            Ok((name, content)) => Member { name, bytes: Ok(content) },
            Err(error) => Member { name: name.into(), bytes: Err(error) },
        }
    }

    // The bytes of a file. That of the member before is often the same.
    fn opened(&mut self, path: &Path) -> Result<Rc<Bytes>> {
        let bytes = match self.last.take() {
            Some((last, bytes)) if last == path => bytes,
            _ => Rc::new(open_ordinary(path)?),
        };
        self.last = Some((path.to_owned(), Rc::clone(&bytes)));
        Ok(bytes)
    }

    // The name and the bytes of the member at an offset of another archive.
    fn inner_member(
        &self, name: &[u8], path: &Path, bytes: Rc<Bytes>, at: usize,
    ) -> Result<(Cow<'a, [u8]>, Content<'a>)> {
        // `ar` puts the members of a thin archive into another one, so this would be a loop or no work of its own.
        if bytes.starts_with(THIN_MAGIC) {
            return Err(unlisted("this thin archive is to have a member's bytes"));
        }
        let mut archive = Archive::new(path, &bytes, self.report);
        // The names are before the members, and after at most two indexes of symbols.
        for _ in 0..3 {
            let header = Header::read(&bytes, archive.next).filter(Header::is_index);
            header.map(|header| archive.contained(&header)).transpose()?;
        }
        let header = Header::read(&bytes, at).filter(|_| is_archive(&bytes));
        let found = header.map(|header| archive.contained(&header)).transpose()?.flatten();
        let (inner, range) = found.ok_or_else(|| malformed(format!("this archive has no member at 0x{at:x}")))?;
        let name = [name, b"(", inner, b")"].concat();
        Ok((name.into(), Content::Outside(Rc::clone(&bytes), range)))
    }

    /// The member of a header, unless that is an index.
    fn member(&mut self, header: &Header<'a>) -> Result<Option<Member<'a>>> {
        if self.is_thin && !header.is_index() {
            return Ok(Some(self.thin_member(header)));
        }
        let found = self.contained(header)?;
        Ok(found.map(|(name, range)| Member { name: name.into(), bytes: Ok(Content::Inside(&self.whole[range])) }))
    }
}

impl<'a> Iterator for Archive<'a> {
    type Item = Result<Member<'a>>;

    /// The next member. An error is the last item.
    fn next(&mut self) -> Option<Result<Member<'a>>> {
        while self.next < self.whole.len() {
            let at = self.next;
            let member = match Header::read(self.whole, at) {
                Some(header) => self.member(&header),
                None => {
                    let text = format!("the archive has no member's header at 0x{at:x}, and what follows isn't read");
                    Err(malformed(text))
                }
            };
            if member.is_err() {
                self.next = self.whole.len();
            }
            if let Some(member) = member.transpose() {
                return Some(member);
            }
        }
        None
    }
}
