//! The command line.

use crate::arguments::{parse, Command, Request};
use std::ffi::OsString;

fn words(text: &str) -> Vec<OsString> {
    text.split(' ').filter(|word| !word.is_empty()).map(Into::into).collect()
}

fn request(files: &str, command: Command) -> Request {
    let (files, offset, section) = (words(files), None, None);
    Request { files, command, offset, section, follows: false, lists_all: false, has_strings: false }
}

#[test]
fn arguments_request_what_they_say() {
    let str = |files| request(files, Command::Str);
    let abbrev = |files| request(files, Command::Abbrev);
    let last = |offset| Request { offset: Some(offset), ..request("a", Command::LineStr) };
    for (text, wanted) in [
        ("a str", str("a")),
        ("a str 0x1F", Request { offset: Some(31), ..str("a") }),
        ("a str 010", Request { offset: Some(10), ..str("a") }),
        ("a line-str 18446744073709551615", last(u64::MAX)),
        ("a b - --follow str", Request { follows: true, ..str("a b -") }),
        ("a abbrev --all", Request { lists_all: true, ..abbrev("a") }),
        ("--strings a str-offsets", Request { has_strings: true, ..request("a", Command::StrOffsets) }),
        ("-- -q --all addr", request("-q --all", Command::Addr)),
        ("a sections", request("a", Command::Sections)),
        ("a units", request("a", Command::Units)),
        // The last word is the command, and else the first.
        ("str str", str("str")),
        ("str abbrev", abbrev("str")),
        ("str a b", str("a b")),
        ("str a abbrev 7", Request { offset: Some(7), ..abbrev("str a") }),
        ("str 0x10 a b", Request { offset: Some(16), ..str("a b") }),
        ("str 7", str("7")),
        ("str 7.o a", str("7.o a")),
        ("addr 7 a", request("7 a", Command::Addr)),
        ("str abbrev a", str("abbrev a")),
        ("str -- --all", str("--all")),
        ("a --section .debug_str.dwo str", Request { section: Some(".debug_str.dwo".into()), ..str("a") }),
        ("--section 7 str a", Request { section: Some("7".into()), ..str("a") }),
        ("a str --section -q", Request { section: Some("-q".into()), ..str("a") }),
    ] {
        assert_eq!(parse(&words(text)), Ok(wanted), "{text}");
    }
}

#[test]
fn what_is_wrong_with_arguments() {
    let commands = "one of sections, units, abbrev, str, line-str, addr, str-offsets";
    let no_offset = "is no OFFSET; it has to be decimal, or hexadecimal after 0x, and below 2^64";
    for (text, why) in [
        ("", format!("a FILE and {commands} are needed")),
        ("a", format!("with the FILE a {commands} is needed")),
        ("a b", format!("b is no command; it has to be {commands}")),
        ("a b 7", format!("b is no command; it has to be {commands}")),
        ("str", "str needs a FILE".to_owned()),
        ("a addr 0", "addr takes no OFFSET".to_owned()),
        ("a units 0", "units takes no OFFSET".to_owned()),
        ("--none a str", "there is no option --none".to_owned()),
        ("-q a str", "there is no option -q".to_owned()),
        ("--all=1 a abbrev", "there is no option --all=1".to_owned()),
        ("a str --strings", "--strings is an option of str-offsets, and not of str".to_owned()),
        ("a str --all", "--all is an option of abbrev, and not of str".to_owned()),
        ("a abbrev 0 --all", "--all lists all tables, so it goes without an OFFSET".to_owned()),
        ("a str --section", "--section needs the name or the number of a section after it".to_owned()),
        ("- - str", "standard input can be named only once".to_owned()),
        ("a abbrev x", format!("x {no_offset}")),
        ("a abbrev 0o17", format!("0o17 {no_offset}")),
        ("a abbrev +1", format!("+1 {no_offset}")),
        ("a abbrev 0x+1", format!("0x+1 {no_offset}")),
        ("a abbrev 1_0", format!("1_0 {no_offset}")),
        ("a abbrev ٣", format!("٣ {no_offset}")),
        ("a abbrev 0x10000000000000000", format!("0x10000000000000000 {no_offset}")),
    ] {
        assert_eq!(parse(&words(text)), Err(why), "{text}");
    }
}
