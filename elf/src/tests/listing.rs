//! What a command lists of which sections, and how much.

use super::sets::index;
use super::{elf, listed, little, run, said, unit, Folder, Said, Section, OBJECT, PROGBITS, RELA, SYMTAB};
use crate::report::Report;

fn section<'s>(name: &'s str, data: &[u8]) -> Section<'s> {
    (name, PROGBITS, data.to_vec(), 0, 0)
}

#[test]
fn sections_have_their_sizes_and_a_sum() {
    let sections = [
        section(".debug_info", &[1; 30]),
        (".rela.debug_info", RELA, vec![0; 48], 7, 1),
        section(".gdb_index", &[0; 7]),
        section(".text", &[0; 100]),
        (".rela.text", RELA, vec![0; 24], 7, 4),
        (".debug_x\u{5d0}", 8, Vec::new(), 0, 0),
        (".symtab", SYMTAB, vec![0; 24], 0, 0),
    ];
    let output = [
        ".debug_info                                30           30",
        ".rela.debug_info                           48           48",
        ".gdb_index                                  7            7",
        ".debug_x\\xd7\\x90                            0            0",
        "total                                      85           85  8.9 % of 960",
    ];
    let line = "section 6 .debug_x\\xd7\\x90 has no bytes in this file (SHT_NOBITS)";
    assert_eq!(listed(&elf(&sections, OBJECT), "sections"), said(1, &(output.join("\n") + "\n"), &[line]));
}

#[test]
fn sizes_may_be_too_large_for_a_sum() {
    let claims = [&b"ZLIB"[..], &[0xff; 8]].concat();
    let row: [(u64, u64); 2] = [(0, 12), (0, 1)];
    let sections = [
        section(".zdebug_info.dwo", &claims),
        section(".zdebug_info.dwo", &claims),
        section(".debug_cu_index", &index(&[&row[..]; 10], 5, &[1, 3])),
    ];
    let output = [
        ".debug_info.dwo                  18446744073709551615           12",
        ".debug_info.dwo                  18446744073709551615           12",
        ".debug_cu_index                           184          184",
        "total                            18446744073709551615          208  31.9 % of 653",
    ];
    assert_eq!(listed(&elf(&sections, OBJECT), "sections"), said(0, &(output.join("\n") + "\n"), &[]));
}

#[test]
fn one_of_several_sections_can_be_listed() {
    let strings =
        [section(".debug_str", b"one\0"), section(".debug_str.dwo", b"two\0"), section(".debug_str", b"six\0")];
    let file = elf(&strings, OBJECT);
    let (one, two, six) = ("section 1 .debug_str:\n0x0: one\n", "0x0: two\n", "section 3 .debug_str:\n0x0: six\n");
    for (words, status, output, line) in [
        ("--section .debug_str.dwo str", 0, two.to_owned(), ""),
        ("--section 2 str", 0, two.to_owned(), ""),
        ("--section .debug_str str", 0, [one, six].concat(), ""),
        ("--section 4 str", 1, String::new(), "file: there is no section 4 that is a .debug_str"),
        ("--section .x\u{202e} sections", 1, String::new(), "file: there is no debug section .x\\u{202e}"),
    ] {
        let lines: Vec<&str> = Some(line).filter(|line| !line.is_empty()).into_iter().collect();
        assert_eq!(listed(&file, words), said(status, &output, &lines), "{words}");
    }
    let sizes = ".debug_str.dwo                              4            4\n\
                 total                                       4            4  0.9 % of 444\n";
    assert_eq!(listed(&file, "--section .debug_str.dwo sections"), said(0, sizes, &[]));
}

#[test]
fn units_have_a_line() {
    let head = |length, kind| [(length, 4), (5, 2), (kind, 1), (8, 1), (7, 4)];
    let units = [
        unit(5, 0x10),
        unit(2, 0),
        little(&[(0xffff_ffff, 4), (11, 8), (4, 2), (0x20, 8), (4, 1)]),
        little(&[&head(20, 2)[..], &[(0, 8), (0, 4)]].concat()),
        little(&[&head(16, 4)[..], &[(0, 8)]].concat()),
        little(&head(8, 0x80)),
        little(&head(8, 3)),
    ]
    .concat();
    let output = [
        "unit 0x0: length 8, 32-bit, version 5, DW_UT_compile, address size 8, table 0x10",
        "unit 0xc: length 7, 32-bit, version 2, DW_UT_compile, address size 8, table 0x0",
        "unit 0x17: length 11, 64-bit, version 4, DW_UT_compile, address size 4, table 0x20",
        "unit 0x2e: length 20, 32-bit, version 5, DW_UT_type, address size 8, table 0x7",
        "unit 0x46: length 16, 32-bit, version 5, DW_UT_skeleton, address size 8, table 0x7",
        "unit 0x66: length 8, 32-bit, version 5, DW_UT_partial, address size 8, table 0x7",
    ];
    let line = "the unit at 0x5a of section 1 .debug_info is malformed: unknown unit type: 0x80";
    let found = listed(&elf(&[section(".debug_info", &units)], OBJECT), "units");
    assert_eq!(found, said(1, &(output.join("\n") + "\n"), &[line]));

    let types = little(&[(19, 4), (4, 2), (0, 4), (8, 1), (0xdead_beef, 8), (23, 4)]);
    let sections = [section(".debug_info", &unit(4, 0)), section(".debug_types", &types)];
    let output = "section 1 .debug_info:\n\
                  unit 0x0: length 7, 32-bit, version 4, DW_UT_compile, address size 8, table 0x0\n\
                  section 2 .debug_types:\n\
                  unit 0x0: length 19, 32-bit, version 4, DW_UT_type, address size 8, table 0x0\n";
    assert_eq!(listed(&elf(&sections, OBJECT), "units"), said(0, output, &[]));
    let line = "file: there is no section .debug_info or .debug_types";
    assert_eq!(listed(&elf(&[], OBJECT), "units"), said(1, "", &[line]));
}

#[test]
fn units_of_a_package_have_their_tables_in_the_section() {
    let units = [unit(5, 2), unit(5, 0)].concat();
    let rows: [&[(u64, u64)]; 1] = [&[(0, 12), (0x30, 0x50)]];
    let sections = [
        section(".debug_info.dwo", &units),
        section(".debug_abbrev.dwo", &[0; 0x80]),
        section(".debug_cu_index", &index(&rows, 5, &[1, 3])),
    ];
    let output = "unit 0x0: length 8, 32-bit, version 5, DW_UT_compile, address size 8, table 0x32\n\
                  unit 0xc: length 8, 32-bit, version 5, DW_UT_compile, address size 8\n";
    let line = "the unit at 0xc of section 1 .debug_info.dwo has no row with a table in the package's index, so its table isn't found";
    assert_eq!(listed(&elf(&sections, OBJECT), "units"), said(1, output, &[line]));
}

#[test]
fn strings_that_do_not_end_are_read_once() {
    let set = little(&[(400_004, 4), (5, 2), (0, 2)]);
    let sections =
        [section(".debug_str_offsets", &[set, vec![0; 400_000]].concat()), section(".debug_str", &vec![b'x'; 400_000])];
    let begun = std::time::Instant::now();
    let Said(status, output, lines) = listed(&elf(&sections, OBJECT), "str-offsets --strings");
    assert_eq!((status, output.lines().count()), (1, 100_001));
    assert_eq!(lines, ["section 1 .debug_str_offsets: error at 0x0 of the strings: unexpected end of input"]);
    assert!(begun.elapsed().as_secs() < 5);
}

#[test]
fn a_table_has_a_most_size() {
    let attributes = vec![1; 1 << 22];
    let table = |size: usize| [&[1, 0x11, 0], &attributes[..size - 6], &[0, 0, 0]].concat();
    let listed =
        |size: usize| listed(&elf(&[section(".debug_abbrev", &[table(size), vec![0]].concat())], OBJECT), "abbrev 0");
    let Said(status, output, lines) = listed(1 << 22);
    assert_eq!((status, output.lines().count(), lines.len()), (0, (1 << 21) - 1, 0));
    let line = "section 1 .debug_abbrev: the table at 0x0 has more than 4194304 bytes, and isn't listed";
    assert_eq!(listed((1 << 22) + 2), said(1, "", &[line]));
}

#[test]
fn a_listing_has_a_most_size() {
    for (file_bytes, most) in [(7, 1 << 29), (1 << 21, 1 << 30)] {
        let report = Report::silent();
        report.output().put(b"of the file before");
        report.output().flush();
        report.begin_argument();
        report.begin(String::new(), file_bytes);
        let part = vec![0; 1 << 26];
        for _ in 0..most / part.len() {
            assert!(report.expect_room().is_ok());
            report.output().put(&part);
        }
        assert!(report.expect_room().is_ok());
        report.output().put(&part);
        let error = report.expect_room().unwrap_err();
        assert_eq!(error.to_string(), "isn't listed further, since the listing is too long");
    }
}

#[test]
fn a_file_of_scripts_alone_is_stripped() {
    let folder = Folder::new("scripts");
    let none = (".debug_gdb_scripts", 8, Vec::new(), 0, 0);
    let data = elf(&[none, section(".debug_str", b"one\0")], OBJECT);
    let mut sum = flate2::Crc::new();
    sum.update(&data);
    let scripts = section(".debug_gdb_scripts", b"\x01x\0");
    let path = folder.put("alone", &elf(std::slice::from_ref(&scripts), OBJECT));
    let sizes = ".debug_gdb_scripts                          3            3\n\
                 total                                       3            3  1.0 % of 289\n";
    assert_eq!(run(&[&path, "sections"]), said(0, sizes, &[]));
    let debug = folder.put("a.debug", &data);
    let link = [b"a.debug\0".to_vec(), sum.sum().to_le_bytes().to_vec()].concat();
    let path = folder.put("a", &elf(&[scripts, section(".gnu_debuglink", &link)], OBJECT));
    let missing = format!("{path}: the file has no debug sections but those of a debugger");
    let line = format!("{missing}; its debug information is in {debug}, which --follow lists");
    assert_eq!(run(&[&path, "sections"]), said(1, "", &[&line]));
    let sizes = ".debug_gdb_scripts                          0            0\n\
                 .debug_str                                  4            4\n\
                 total                                       4            4  1.1 % of 365\n";
    let line = format!("{missing}, and {debug} is listed");
    assert_eq!(run(&["--follow", &path, "sections"]), said(0, sizes, &[&line]));
}
