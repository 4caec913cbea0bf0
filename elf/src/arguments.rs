//! The command line.

use crate::text::plain;
use std::ffi::{OsStr, OsString};
use std::os::unix::ffi::OsStrExt;

/// The arguments of a run.
pub type Words = Vec<OsString>;

/// What `--help` prints.
pub const HELP: &str = include_str!("help.txt");
pub const STANDARD_INPUT: &str = "-";
/// The options, and the command that each is for, if not all.
const OPTIONS: [(&str, Option<Command>); 4] = [
    ("--follow", None),
    ("--section", None),
    ("--all", Some(Command::Abbrev)),
    ("--strings", Some(Command::StrOffsets)),
];

/// What is listed of each file.
#[derive(Debug, Clone, Copy, PartialEq, Eq)]
pub enum Command {
    Sections,
    Units,
    Abbrev,
    Str,
    LineStr,
    Addr,
    StrOffsets,
}

// The commands by their names, and the sections that each lists.
const COMMANDS: [(&str, Command, &[&str]); 7] = [
    ("sections", Command::Sections, &[]),
    ("units", Command::Units, &["debug_info", "debug_types"]),
    ("abbrev", Command::Abbrev, &["debug_abbrev"]),
    ("str", Command::Str, &["debug_str"]),
    ("line-str", Command::LineStr, &["debug_line_str"]),
    ("addr", Command::Addr, &["debug_addr"]),
    ("str-offsets", Command::StrOffsets, &["debug_str_offsets"]),
];

impl Command {
    fn named(word: &OsStr) -> Option<Command> {
        COMMANDS.iter().find(|(name, ..)| word == *name).map(|(_, command, _)| *command)
    }

    fn name(self) -> &'static str {
        COMMANDS[self as usize].0
    }

    /// What the sections that the command lists have in common in their names. It is empty if all are listed.
    pub fn bases(self) -> &'static [&'static str] {
        COMMANDS[self as usize].2
    }

    fn takes_offset(self) -> bool {
        matches!(self, Command::Abbrev | Command::Str | Command::LineStr)
    }
}

/// What is to be listed.
#[derive(Debug, PartialEq, Eq)]
pub struct Request {
    pub files: Words,
    pub command: Command,
    pub offset: Option<u64>,
    /// The name or the number of the section that is listed alone.
    pub section: Option<OsString>,
    pub follows: bool,
    pub lists_all: bool,
    pub has_strings: bool,
}

/// Whether the help is requested.
pub fn wants_help(words: &Words) -> bool {
    words.iter().take_while(|word| *word != "--").any(|word| word == "-h" || word == "--help")
}

/// What the arguments request: files, a command, and maybe an offset, with options anywhere among them. The error is
/// what is wrong with them.
pub fn parse(words: &Words) -> Result<Request, String> {
    let (mut options, mut plain_words, mut section) = (Vec::new(), Vec::new(), None);
    let mut words = words.iter().map(OsString::as_os_str);
    while let Some(word) = words.next() {
        if word == "--" {
            plain_words.extend(&mut words);
        } else if word == STANDARD_INPUT || !word.as_bytes().starts_with(b"-") {
            plain_words.push(word);
        } else {
            let option = OPTIONS.iter().find(|(name, _)| word == *name);
            options.push(*option.ok_or_else(|| format!("there is no option {}", plain(word.as_bytes())))?);
            if word == "--section" {
                section = Some(words.next().ok_or("--section needs the name or the number of a section after it")?);
            }
        }
    }
    let (command, files, offset) = command_of(&plain_words)?;
    let has = |name: &str| options.iter().any(|option| option.0 == name);
    let request = Request {
        files: files.iter().map(|file| file.to_os_string()).collect(),
        command,
        offset: offset.map(parse_offset).transpose()?,
        section: section.map(OsStr::to_os_string),
        follows: has("--follow"),
        lists_all: has("--all"),
        has_strings: has("--strings"),
    };
    check(&request, &options)?;
    Ok(request)
}

fn check(request: &Request, options: &[(&str, Option<Command>)]) -> Result<(), String> {
    let name = request.command.name();
    for (option, own) in options {
        if let Some(own) = own.filter(|own| *own != request.command) {
            return Err(format!("{option} is an option of {}, and not of {name}", own.name()));
        }
    }
    if request.files.is_empty() {
        return Err(format!("{name} needs a FILE"));
    }
    if request.files.iter().filter(|file| *file == STANDARD_INPUT).count() > 1 {
        return Err("standard input can be named only once".to_owned());
    }
    if request.offset.is_some() && !request.command.takes_offset() {
        return Err(format!("{name} takes no OFFSET"));
    }
    if request.offset.is_some() && request.lists_all {
        return Err("--all lists all tables, so it goes without an OFFSET".to_owned());
    }
    Ok(())
}

/// A command, its files, and its offset.
type Found<'w> = (Command, &'w [&'w OsStr], Option<&'w OsStr>);

/// The command is the last word, or the last before an offset, or else the first.
fn command_of<'w>(words: &'w [&'w OsStr]) -> Result<Found<'w>, String> {
    let commands = COMMANDS.map(|(name, ..)| name).join(", ");
    let (last, before) = words.split_last().ok_or_else(|| format!("a FILE and one of {commands} are needed"))?;
    if let Some(command) = Command::named(last) {
        return Ok((command, before, None));
    }
    let has_digit = last.as_bytes().first().map_or(false, u8::is_ascii_digit);
    let second_last = before.split_last().and_then(|(word, files)| Some((Command::named(word)?, files, Some(*last))));
    if let Some(found) = second_last.filter(|(_, files, _)| has_digit && !files.is_empty()) {
        return Ok(found);
    }
    if let Some(command) = Command::named(words[0]) {
        return Ok(match &words[1..] {
            [offset, files @ ..] if command.takes_offset() && !files.is_empty() && parse_offset(offset).is_ok() => {
                (command, files, Some(*offset))
            }
            files => (command, files, None),
        });
    }
    second_last.ok_or_else(|| match before {
        [] => format!("with the FILE {} one of {commands} is needed", plain(last.as_bytes())),
        [_, .., word] if has_digit => {
            format!("{} is no command; it has to be one of {commands}", plain(word.as_bytes()))
        }
        _ => format!("{} is no command; it has to be one of {commands}", plain(last.as_bytes())),
    })
}

fn parse_offset(word: &OsStr) -> Result<u64, String> {
    let text = word.to_str().unwrap_or_default();
    let (digits, base) = text.strip_prefix("0x").map_or((text, 10), |digits| (digits, 16));
    // A sign is no digit.
    let found = digits.bytes().all(|digit| digit.is_ascii_hexdigit()).then(|| u64::from_str_radix(digits, base).ok());
    found.flatten().ok_or_else(|| {
        let word = plain(word.as_bytes());
        format!("{word} is no OFFSET; it has to be decimal, or hexadecimal after 0x, and below 2^64")
    })
}
