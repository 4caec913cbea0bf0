//! `dwarf_elf` lists the lowest layer of the debug information in ELF files: units, abbreviation tables, strings,
//! addresses and string offsets, which the crate `dwarf-read` reads.
//!
//! `inputs` and `archive` have the files that a command line names, and `elf` and `sections` their headers and bytes:
//! inflated by `compressed`, with `relocations` applied. `units` finds the tables that units name, and `package` what is
//! whose in a package. `listing` and `sets` list the sections by `text`, and `report` prints that, with what is wrong.
#![deny(unsafe_code)]
#![cfg_attr(not(test), no_main)]

mod archive;
mod arguments;
mod compressed;
mod debug_link;
mod elf;
mod inputs;
mod listing;
mod memory;
mod order;
mod package;
mod relocations;
mod report;
mod sections;
mod sets;
#[cfg(test)]
mod tests;
mod text;
mod units;

use archive::{is_archive, Archive};
use arguments::{parse, wants_help, Request, Words, HELP};
use debug_link::{DebugLink, DEBUG_FOLDER};
use inputs::{expect_elf, open, open_ordinary, split, title};
use listing::{list, missing_sections, sections_of};
use report::{print_error, unlisted, Report, Result};
use sections::{DebugFile, Section};
use std::ffi::OsStr;
use std::fmt::Write;
use std::path::{Path, PathBuf};
use text::plain;

const WRONG_WORDS: u8 = 2;

/// A file, or a member of an archive. The path is that of the file.
struct Input<'i> {
    name: String,
    path: &'i OsStr,
    bytes: &'i [u8],
}

/// Lists what an argument names: a file, all members of an archive, or the members with the name in parentheses.
fn list_word(request: &Request, word: &OsStr, report: &Report) -> Result<()> {
    let (path, wanted) = split(word);
    let whole = open(path)?;
    report.begin_argument();
    if !is_archive(&whole) {
        if wanted.is_some() {
            return Err(unlisted("this is no archive, so it has no members"));
        }
        let is_titled = request.files.len() > 1;
        list_input(request, &Input { name: title(path), path, bytes: &whole }, is_titled, report);
        return Ok(());
    }
    let mut count = 0;
    for member in Archive::new(Path::new(path), &whole, report) {
        let member = member?;
        if wanted.map_or(false, |wanted| wanted != &member.name[..]) {
            continue;
        }
        count += 1;
        let name = format!("{}({})", title(path), plain(&member.name));
        match member.bytes {
            Ok(bytes) => list_input(request, &Input { name, path, bytes: &bytes }, true, report),
            Err(error) => report.file_error(&name, &error),
        }
        if report.expect_room().is_err() {
            return Err(unlisted("the archive isn't listed further, since the listing is too long"));
        }
    }
    match wanted {
        _ if count > 0 => Ok(()),
        Some(wanted) => Err(unlisted(format!("the archive has no member {}", plain(wanted)))),
        None => Err(unlisted("the archive has no members")),
    }
}

/// Lists a file, or a member of an archive.
fn list_input(request: &Request, input: &Input<'_>, is_titled: bool, report: &Report) {
    let before = if is_titled { format!("{}: ", input.name) } else { String::new() };
    report.begin(before, input.bytes.len());
    if is_titled {
        let _ = writeln!(report.output(), "file {}:", input.name);
    }
    if let Err(error) = list_file(request, input, report) {
        report.file_error(&input.name, &error);
    }
}

/// Lists a file, or by --follow the one with its debug information.
fn list_file(request: &Request, input: &Input<'_>, report: &Report) -> Result<()> {
    expect_elf(input.bytes)?;
    let file = DebugFile::read(input.bytes, report)?;
    let sections = sections_of(&file, request);
    let link = match DebugLink::of(&file.elf) {
        Some(link) if !sections.iter().any(|section| section.is_dwarf()) && !has_own(&file) => link,
        _ if sections.is_empty() => return Err(unlisted(missing_sections(request, false))),
        _ => {
            list(&file, request);
            return Ok(());
        }
    };
    let missing = missing_sections(request, !sections.is_empty());
    let place = debug_file(&link, request, input, missing, report)?;
    let bytes = open_ordinary(&place)?;
    let file = DebugFile::read(&bytes, report)?;
    if sections_of(&file, request).is_empty() {
        return Err(unlisted(format!("{}: {}", title(place.as_os_str()), missing_sections(request, false))));
    }
    list(&file, request);
    Ok(())
}

/// Whether a file isn't stripped.
fn has_own(file: &DebugFile<'_>) -> bool {
    file.sections.iter().any(|section: &Section<'_>| section.is_one_of(&["debug_info", "debug_abbrev"]))
}

/// The debug file of a stripped file, if it is to be listed.
fn debug_file(
    link: &DebugLink, request: &Request, input: &Input<'_>, missing: String, report: &Report,
) -> Result<PathBuf> {
    let places = link.places(input.path, Path::new(DEBUG_FOLDER));
    let place = link.find(&places, report)?.ok_or_else(|| {
        let looked_for: Vec<String> = places.iter().map(|(place, _)| title(place.as_os_str())).collect();
        let looked_for = looked_for.join(", ");
        unlisted(format!("{missing}, and there is no file with its debug information: {looked_for}"))
    })?;
    let name = title(place.as_os_str());
    if !request.follows {
        return Err(unlisted(format!("{missing}; its debug information is in {name}, which --follow lists")));
    }
    report.print(&format!("{}: {missing}, and {name} is listed", input.name));
    Ok(place)
}

/// Does what the arguments request, and returns the exit status.
fn run(words: &Words, report: &Report) -> u8 {
    if wants_help(words) {
        report.output().put(HELP.as_bytes());
    } else if matches!(&words[..], [word] if word == "--version") {
        report.output().put(concat!("dwarf_elf ", env!("CARGO_PKG_VERSION"), "\n").as_bytes());
    } else {
        match parse(words) {
            Ok(request) => list_all(&request, report),
            Err(error) => {
                print_error(format_args!("{error}\n`dwarf_elf --help` lists the commands and options"));
                return WRONG_WORDS;
            }
        }
    }
    report.end()
}

fn list_all(request: &Request, report: &Report) {
    for word in &request.files {
        if let Err(error) = list_word(request, word, report) {
            report.file_error(&title(word), &error);
        }
        if report.has_ended() {
            break;
        }
    }
}

/// Runs the program. Rust's own start of a program ignores SIGPIPE, and opens /dev/null in place of a closed output. Here
/// a run ends by that signal, as one of `cat` does, and a closed output is an error.
#[cfg(not(test))]
#[allow(unsafe_code)]
#[no_mangle]
pub extern "C" fn main() -> i32 {
    let words: Words = std::env::args_os().skip(1).collect();
    match Report::of_streams() {
        Ok(report) => run(&words, &report).into(),
        Err(status) => status.into(),
    }
}
