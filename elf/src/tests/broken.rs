//! Headers that are wrong, units and tables, and the limits of what is told.

use super::{elf, listed, little, run, said, unit, Folder, Form, Said, OBJECT, PROGBITS};

fn good() -> Vec<u8> {
    elf(&[(".debug_str", PROGBITS, b"one\0".to_vec(), 0, 0)], OBJECT)
}

/// A copy with another number at a place.
fn with(mut data: Vec<u8>, place: usize, value: u64, size: usize) -> Vec<u8> {
    data[place..place + size].copy_from_slice(&value.to_le_bytes()[..size]);
    data
}

/// Where the section headers are.
fn headers(data: &[u8]) -> usize {
    u64::from_le_bytes(data[40..48].try_into().unwrap()) as usize
}

#[test]
fn files_of_each_class_and_order_are_read() {
    for (is_64, is_big) in [(false, false), (false, true), (true, false), (true, true)] {
        let form = Form { is_64, is_big, ..OBJECT };
        let file = elf(&[(".debug_str", PROGBITS, b"one\0".to_vec(), 0, 0)], form);
        assert_eq!(listed(&file, "str"), said(0, "0x0: one\n", &[]));
    }
}

#[test]
fn what_is_wrong_with_a_file() {
    let file = good();
    let at = headers(&file);
    let far = 1 << 50;
    for (place, value, size, why) in [
        (4, 3, 1, "the ELF file has an unknown class or byte order: its first bytes are 7f 45 4c 46 03 01"),
        (40, 0, 8, "the file has no section headers"),
        (40, 1 << 63, 8, "the first section header, at 0x8000000000000000, is past the end of the file"),
        (58, 63, 2, "the file says that a section header has 63 bytes"),
        (62, 9, 2, "the names of the sections are in section 9, which the file lacks"),
        (at + 2 * 64 + 24, far, 8, "the names of the sections, at 0x4000000000000, are past the end of the file"),
    ] {
        let line = format!("file: {why}");
        assert_eq!(listed(&with(file.clone(), place, value, size), "str"), said(1, "", &[&line]));
    }
    let core = with(with(file, 40, 0, 8), 16, 4, 2);
    let line = "file: the file is a core file, which has no section headers";
    assert_eq!(listed(&core, "str"), said(1, "", &[line]));
}

#[test]
fn what_is_wrong_with_a_section() {
    let file = good();
    let at = headers(&file) + 64;
    let lacks = "file: there is no section .debug_str";
    for (place, value, size, output, lines) in [
        (0, 1 << 30, 4, "", &["section 1 has its name at 0x40000000, past the end of the names", lacks][..]),
        (4, 8, 4, "", &["section 1 .debug_str has no bytes in this file (SHT_NOBITS)"]),
        (8, 0x800, 8, "", &["section 1 .debug_str is compressed, and has 4 of the 24 bytes of the header of that"]),
        (24, 1 << 50, 8, "", &["section 1 .debug_str begins at 0x4000000000000, past the end of the file"]),
    ] {
        assert_eq!(listed(&with(file.clone(), at + place, value, size), "str"), said(1, output, lines));
    }
    let Said(status, output, lines) = listed(&with(file, at + 32, 1 << 50, 8), "str");
    assert_eq!((status, output.starts_with("0x0: one\n")), (1, true));
    assert!(lines[0].starts_with("section 1 .debug_str is cut by the end of the file: "), "{lines:?}");
}

#[test]
fn numbers_that_do_not_fit_are_in_the_first_header() {
    let file = good();
    let at = headers(&file);
    // The number of the section of the names, and how many sections there are.
    let file = with(with(with(file, 62, 0xffff, 2), at + 40, 2, 4), 60, 0, 2);
    assert_eq!(listed(&with(file.clone(), at + 32, 3, 8), "str"), said(0, "0x0: one\n", &[]));
    let line = format!("the file ends before 7 of its 10 section headers, at 0x{at:x}");
    assert_eq!(listed(&with(file, at + 32, 10, 8), "str"), said(1, "0x0: one\n", &[&line]));
}

#[test]
fn kinds_of_other_files_are_named() {
    for (data, kind) in [
        (&b""[..], ", but an empty one"),
        (b"#!/bin/sh\n", ", but a script"),
        (b"!<arch>\n", ", but an archive"),
        (b"!<thin>\n", ", but a thin archive"),
        (b"\xca\xfe\xba\xbe\0\0\0\x02", ", but a universal Mach-O file"),
        (b"x", ""),
    ] {
        let line = format!("file: this isn't an ELF file{kind}");
        assert_eq!(listed(data, "sections"), said(1, "", &[&line]));
    }
}

#[test]
fn many_errors_are_cut_off() {
    let names: Vec<(&str, u32, Vec<u8>, u64, u64)> =
        (0..100_000).map(|_| (".debug_str", 8, Vec::new(), 0, 0)).collect();
    let mut file = elf(&names, OBJECT);
    let at = headers(&file);
    // The count doesn't fit, and all names are far away.
    file = with(with(with(with(file, 60, 0, 2), at + 32, 100_002, 8), 62, 0xffff, 2), at + 40, 100_001, 4);
    let Said(status, output, lines) = listed(&file, "str");
    assert_eq!((status, output.lines().count(), lines.len()), (1, 0, 1001));
    let more = "more than 1000 errors, and the others aren't reported";
    assert_eq!(lines[1000], more);
    for number in 1..=100_000 {
        file[at + 64 * number..][..4].copy_from_slice(&[0xff; 4]);
    }
    let Said(status, _, lines) = listed(&file, "str");
    assert_eq!((status, lines.len()), (1, 1002));
    assert_eq!(lines[1000..], [more, "file: there is no section .debug_str"]);

    let units = little(&[(8, 4), (9, 2), (1, 1), (8, 1), (0, 4)]).repeat(1500);
    let file = elf(&[(".debug_info", PROGBITS, units, 0, 0), (".debug_abbrev", PROGBITS, vec![0], 0, 0)], OBJECT);
    let Said(status, output, lines) = listed(&file, "abbrev");
    assert_eq!((status, output.as_str(), lines.len()), (1, "table 0x0:\n", 1002));
    assert_eq!(lines[1000], more);
    // The limit is one for all sections.
    let sets = little(&[(4, 4), (9, 2), (8, 1), (0, 1)]).repeat(600);
    let sections = [(".debug_addr", PROGBITS, sets.clone(), 0, 0), (".debug_addr", PROGBITS, sets, 0, 0)];
    let Said(status, output, lines) = listed(&elf(&sections, OBJECT), "addr");
    assert_eq!((status, output.lines().count(), lines.len()), (1, 2, 1001));
    assert_eq!(lines[999], "section 2 .debug_addr: error at 0xc78: unknown DWARF version: 9");
    // Each may be read to the end of the section, so of a large one the rest isn't read at all.
    let named: Vec<u64> = (0..500).map(|it| 2 * it).collect();
    let Said(status, output, lines) = tables(&named, &[1, 0].repeat(1 << 18), "abbrev");
    assert_eq!((status, output.as_str(), lines.len()), (1, "", 258));
    assert_eq!(lines[256], "section 2 .debug_abbrev: error at 0x200: invalid abbreviation tag: zero");
    assert_eq!(lines[257], "section 2 .debug_abbrev has too many malformed tables, and the rest isn't listed");
}

/// What is listed of tables of six bytes each, whose units name those at these offsets.
fn tables(named: &[u64], tables: &[u8], words: &str) -> Said {
    let units = named.iter().flat_map(|it| unit(5, *it)).collect();
    listed(
        &elf(&[(".debug_info", PROGBITS, units, 0, 0), (".debug_abbrev", PROGBITS, tables.to_vec(), 0, 0)], OBJECT),
        words,
    )
}

#[test]
fn bytes_that_no_unit_names_are_told() {
    let row = [1, 0x11, 0, 0, 0, 0];
    let text = |at: u64| format!("table 0x{at:x}:\n1 DW_TAG_compile_unit no\n");
    let bad = [1, 0, 0, 0, 0, 0];
    let error = "section 2 .debug_abbrev: error at 0xc: invalid abbreviation tag: zero";
    for (named, data, at, others, wrong) in [
        (&[0, 6, 12][..], row.repeat(3), &[0, 6, 12][..], &[][..], ""),
        (&[0], row.repeat(3), &[0], &[(6, 18)], ""),
        (&[12], row.repeat(3), &[12], &[(0, 12)], ""),
        (&[0, 12], row.repeat(3), &[0, 12], &[(6, 12)], ""),
        (&[18, 0], row.repeat(3), &[0], &[(6, 18)], ""),
        // Where a malformed table ends isn't known.
        (&[0, 12, 18], [&row[..], &row, &bad, &row].concat(), &[0, 18], &[(6, 12)], error),
        (&[0, 12], [&row[..], &row, &bad].concat(), &[0], &[(6, 12)], error),
    ] {
        let mut output: String = at.iter().map(|it| text(*it)).collect();
        if named.contains(&18) && data.len() == 18 {
            output += "table 0x12:\n";
        }
        let part = |(start, end): &(u64, u64)| {
            format!("no unit names the bytes from 0x{start:x} to 0x{end:x} of section 2 .debug_abbrev")
        };
        let mut lines: Vec<String> = Vec::new();
        lines.extend((!wrong.is_empty()).then(|| wrong.to_owned()));
        lines.extend(others.iter().map(|it| part(it) + ", and --all lists the tables there"));
        let lines: Vec<&str> = lines.iter().map(String::as_str).collect();
        assert_eq!(tables(named, &data, "abbrev"), said(u8::from(!wrong.is_empty()), &output, &lines), "{named:?}");
    }
    let line = "no unit names the bytes from 0x6 to 0x12 of section 2 .debug_abbrev";
    assert_eq!(tables(&[0], &row.repeat(3), "abbrev --all"), said(0, &[text(0), text(6), text(12)].concat(), &[line]));
}

#[test]
fn tables_may_be_within_tables() {
    // The second begins at the second declaration of the first.
    let data = [1, 0x11, 0, 0, 0, 2, 0x2e, 0, 0, 0, 0];
    let second = "2 DW_TAG_subprogram no\n";
    let wanted = format!("table 0x0:\n1 DW_TAG_compile_unit no\n{second}table 0x5:\n{second}");
    assert_eq!(tables(&[5, 0], &data, "abbrev"), said(0, &wanted, &[]));
    // The second ends before the first does.
    let wanted = format!("table 0x0:\n1 DW_TAG_compile_unit no\n{second}table 0x2:\n");
    assert_eq!(tables(&[2, 0], &data, "abbrev"), said(0, &wanted, &[]));
}

#[test]
fn what_is_wrong_with_a_unit() {
    let turn = "no unit names a table of section 2 .debug_abbrev, so the tables are listed in turn, from 0x0 on";
    let others = "no unit names the bytes from 0x0 to 0x1 of section 2 .debug_abbrev, and --all lists the tables there";
    for (unit, more, why) in [
        (unit(1, 0), turn, "is malformed: unknown DWARF version: 1"),
        (little(&[(2, 4), (5, 2)]), turn, "is malformed: unexpected end of input"),
        (
            little(&[(0xffff_fff5, 4), (0, 8)]),
            turn,
            "is malformed: unknown reserved length: 0xfffffff5, and what follows isn't read",
        ),
        (unit(5, 9), "", "names the table at 0x9, past the end of section 2 .debug_abbrev (0x1 bytes)"),
        (
            little(&[(99, 4), (5, 2), (1, 1), (8, 1), (0, 4)]),
            turn,
            "is malformed: unexpected end of input, and what follows isn't read",
        ),
        // A length of 2^64 - 1, whose sum with its place is no place.
        (vec![0xff; 12], turn, "is malformed: unexpected end of input, and what follows isn't read"),
    ] {
        let sections = [(".debug_info", PROGBITS, unit, 0, 0), (".debug_abbrev", PROGBITS, vec![0], 0, 0)];
        let line = format!("the unit at 0x0 of section 1 .debug_info {why}");
        let more = if more.is_empty() { others } else { more };
        let output = if more == turn { "table 0x0:\n" } else { "" };
        assert_eq!(listed(&elf(&sections, OBJECT), "abbrev"), said(1, output, &[&line, more]));
    }
}

#[test]
fn what_is_no_ordinary_file() {
    let folder = Folder::new("folder");
    let line = format!("{}: Is a directory", folder.0);
    assert_eq!(run(&[&folder.0, "str"]), said(3, "", &[&line]));
    // Its first bytes say what it is, so it isn't read to an end that it may not have.
    assert_eq!(run(&["/dev/zero", "sections"]), said(1, "", &["/dev/zero: this isn't an ELF file"]));
}
