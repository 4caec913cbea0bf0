//! Tests on files that are made here: what is listed of them, what is said, and the status.

mod archives;
mod broken;
mod compressed;
mod listing;
mod relocations;
mod sets;
mod words;

use crate::arguments::Words;
use crate::report::Report;
use crate::Input;
use std::cell::RefCell;
use std::ffi::OsStr;
use std::io::{self, Write};
use std::rc::Rc;

pub const PROGBITS: u32 = 1;
pub const SYMTAB: u32 = 2;
pub const STRTAB: u32 = 3;
pub const RELA: u32 = 4;
pub const NOTE: u32 = 7;

/// Consecutive numbers of these sizes in bytes.
pub fn numbers(is_big: bool, fields: &[(u64, usize)]) -> Vec<u8> {
    let mut bytes = Vec::new();
    for (value, size) in fields {
        match is_big {
            true => bytes.extend(&value.to_be_bytes()[8 - size..]),
            false => bytes.extend(&value.to_le_bytes()[..*size]),
        }
    }
    bytes
}

pub fn little(fields: &[(u64, usize)]) -> Vec<u8> {
    numbers(false, fields)
}

/// A section: its name, its type, its bytes, and the fields link and info.
pub type Section<'s> = (&'s str, u32, Vec<u8>, u64, u64);

/// What else a file says of itself.
#[derive(Clone, Copy)]
pub struct Form {
    pub machine: u64,
    pub is_64: bool,
    pub is_big: bool,
    pub kind: u64,
    pub flags: u64,
}

/// An object for x86-64.
pub const OBJECT: Form = Form { machine: 62, is_64: true, is_big: false, kind: 1, flags: 0 };

/// An ELF file with these sections, and one with their names.
pub fn elf(sections: &[Section<'_>], form: Form) -> Vec<u8> {
    let word = if form.is_64 { 8 } else { 4 };
    let begin = if form.is_64 { 64 } else { 52 };
    let mut names = vec![0];
    let mut data = Vec::new();
    let mut headers = vec![0; if form.is_64 { 64 } else { 40 }];
    let size = headers.len() as u64;
    let all = sections.iter().cloned().chain([(".shstrtab", STRTAB, Vec::new(), 0, 0)]);
    for (name, kind, content, link, info) in all {
        let at = names.len() as u64;
        names.extend(name.bytes().chain([0]));
        let content = if name == ".shstrtab" { names.clone() } else { content };
        let start = begin + data.len() as u64;
        let fields = [(at, 4), (kind.into(), 4), (form.flags, word), (0, word), (start, word)];
        headers.extend(numbers(form.is_big, &fields));
        let fields = [(content.len() as u64, word), (link, 4), (info, 4), (1, word), (0, word)];
        headers.extend(numbers(form.is_big, &fields));
        data.extend(content);
    }
    let mut file = b"\x7fELF".to_vec();
    file.extend([if form.is_64 { 2 } else { 1 }, if form.is_big { 2 } else { 1 }, 1]);
    file.resize(16, 0);
    let place = begin + data.len() as u64;
    let fields = [(form.kind, 2), (form.machine, 2), (1, 4), (0, word), (0, word), (place, word), (0, 4)];
    file.extend(numbers(form.is_big, &fields));
    let count = sections.len() as u64 + 2;
    let fields = [(begin, 2), (0, 2), (0, 2), (size, 2), (count, 2), (count - 1, 2)];
    file.extend(numbers(form.is_big, &fields));
    file.extend(data);
    file.extend(headers);
    file
}

/// A unit's header of this version, with the offset of its table.
pub fn unit(version: u64, table: u64) -> Vec<u8> {
    match version {
        5 => little(&[(8, 4), (5, 2), (1, 1), (8, 1), (table, 4)]),
        _ => little(&[(7, 4), (version, 2), (table, 4), (8, 1)]),
    }
}

#[derive(Clone, Default)]
struct Shared(Rc<RefCell<Vec<u8>>>);

impl Write for Shared {
    fn write(&mut self, bytes: &[u8]) -> io::Result<usize> {
        self.0.borrow_mut().write(bytes)
    }

    fn flush(&mut self) -> io::Result<()> {
        Ok(())
    }
}

impl Shared {
    fn text(&self) -> String {
        String::from_utf8(self.0.borrow().clone()).unwrap()
    }
}

/// What a run prints: its status, its output, and its errors, each without the tool's name.
#[derive(Debug, PartialEq, Eq)]
pub struct Said(pub u8, pub String, pub Vec<String>);

pub fn said(status: u8, output: &str, errors: &[&str]) -> Said {
    Said(status, output.to_owned(), errors.iter().map(|line| line.to_string()).collect())
}

fn reported(run: impl FnOnce(&Report) -> u8) -> Said {
    let (output, errors) = (Shared::default(), Shared::default());
    let report = Report::new(Box::new(output.clone()), Box::new(errors.clone()));
    let status = run(&report);
    let errors = errors.text();
    let lines = errors.lines().map(|line| line.strip_prefix("dwarf_elf: ").unwrap_or(line).to_owned());
    Said(status, output.text(), lines.collect())
}

/// What is printed of a file with these bytes, whose name is `file`.
pub fn listed(data: &[u8], words: &str) -> Said {
    let words: Words = ["file"].into_iter().chain(words.split(' ')).map(Into::into).collect();
    let request = crate::arguments::parse(&words).unwrap();
    let input = Input { name: "file".to_owned(), path: OsStr::new("file"), bytes: data };
    reported(|report| {
        crate::list_input(&request, &input, false, report);
        report.end()
    })
}

/// What a run prints.
pub fn run(words: &[&str]) -> Said {
    let words: Words = words.iter().map(Into::into).collect();
    reported(|report| crate::run(&words, report))
}

/// A folder for files, which is gone in the end.
pub struct Folder(pub String);

impl Folder {
    pub fn new(name: &str) -> Folder {
        let path = std::env::temp_dir().join(format!("dwarf_elf-{}-{name}", std::process::id()));
        std::fs::create_dir_all(&path).unwrap();
        Folder(path.to_str().unwrap().to_owned())
    }

    /// Writes a file, and returns where it is.
    pub fn put(&self, name: &str, data: &[u8]) -> String {
        let path = format!("{}/{name}", self.0);
        std::fs::write(&path, data).unwrap();
        path
    }
}

impl Drop for Folder {
    fn drop(&mut self) {
        let _ = std::fs::remove_dir_all(&self.0);
    }
}
