//! Sets with headers and without, packages, and the strings of string offsets.

use super::{elf, listed, little, said, unit, Said, Section, OBJECT, PROGBITS};

fn section<'s>(name: &'s str, data: &[u8]) -> Section<'s> {
    (name, PROGBITS, data.to_vec(), 0, 0)
}

fn addresses(version: u64) -> Vec<u8> {
    little(&[(12, 4), (version, 2), (8, 1), (0, 1), (0x1234, 8)])
}

const SET: &str = ": length 12, 32-bit, address size 8\n  0x1234\n";

#[test]
fn sets_are_listed_in_turn_or_by_their_units() {
    let (good, bad, entry) = (addresses(5), addresses(6), little(&[(0x1234, 8)]));
    let set = |at: u64| format!("set 0x{at:x}{SET}");
    let alone = "set 0x0: no header, 8 bytes, address size 8\n  0x1234\n";
    let headers = "section 2 .debug_addr has no headers, as in DWARF 4, and is listed by the units' address size, 8";
    let error = "section 2 .debug_addr: error at 0x0: unknown DWARF version: 6";
    let why = "since a unit of DWARF 4 may have them, as a set without a header";
    let both = format!("section 2 .debug_addr: the bytes from 0x0 to 0x18 aren't listed, {why}");
    let rest = [&entry[..], &[0; 3]].concat();
    let cut = "section 2 .debug_addr: error at 0x8: unexpected end of input";
    let sizes = "section 2 .debug_addr has no headers, and isn't listed: the units' address size is 4 and 8";
    let other = little(&[(7, 4), (4, 2), (0, 4), (4, 1)]);
    let odd = "the unit at 0xb of section 1 .debug_info is malformed: unsupported address size: 3";
    let past = "section 2 .debug_addr: error at 0x0: unexpected end of input";
    for (what, units, data, status, output, lines) in [
        ("of version 5", unit(5, 0), good.clone(), 0, set(0), vec![]),
        ("without units", vec![], good.clone(), 0, set(0), vec![]),
        ("malformed", unit(5, 0), [&bad[..], &good].concat(), 1, set(16), vec![error]),
        ("with padding", unit(5, 0), [&good[..], &[0; 8], &good].concat(), 0, set(0) + &set(24), vec![]),
        ("of version 4", unit(4, 0), entry.clone(), 0, alone.to_owned(), vec![headers]),
        ("of version 4, cut", unit(4, 0), rest, 1, alone.to_owned(), vec![headers, cut]),
        ("of version 4, of two sizes", [unit(4, 0), other].concat(), entry.clone(), 1, String::new(), vec![sizes]),
        (
            "of version 4, of an odd size",
            [unit(4, 0), little(&[(7, 4), (4, 2), (0, 4), (3, 1)])].concat(),
            entry.clone(),
            1,
            alone.to_owned(),
            vec![odd, headers],
        ),
        // A length of 2^64 - 1, whose sum with its place is no place.
        ("of a far end", unit(5, 0), vec![0xff; 12], 1, String::new(), vec![past]),
        ("of both", [unit(4, 0), unit(5, 0)].concat(), good.clone(), 0, set(0), vec![]),
        (
            "of both, malformed",
            [unit(4, 0), unit(5, 0)].concat(),
            [&entry[..], &good].concat(),
            1,
            String::new(),
            vec![&both],
        ),
    ] {
        let file = elf(&[section(".debug_info", &units), section(".debug_addr", &data)], OBJECT);
        assert_eq!(listed(&file, "addr"), said(status, &output, &lines), "{what}");
    }
}

#[test]
fn a_set_that_is_cut_is_an_error() {
    let set = little(&[(13, 4), (5, 2), (8, 1), (0, 1), (1, 8), (0, 1)]);
    let line = "section 1 .debug_addr: error at 0x0: unexpected end of input";
    assert_eq!(listed(&elf(&[section(".debug_addr", &set)], OBJECT), "addr"), said(1, "", &[line]));
    let Said(status, output, _) = listed(&elf(&[section(".debug_addr", &addresses(5)[..15])], OBJECT), "addr");
    assert_eq!((status, output.as_str()), (1, ""));
}

#[test]
fn string_offsets_of_the_64_bit_format_need_no_header() {
    let unit = little(&[(0xffff_ffff, 4), (11, 8), (4, 2), (0, 8), (8, 1)]);
    let file = elf(&[section(".debug_info.dwo", &unit), section(".debug_str_offsets.dwo", &[7; 16])], OBJECT);
    let wanted = "set 0x0: no header, 16 bytes, 64-bit\n  0x707070707070707\n  0x707070707070707\n";
    let line =
        "section 2 .debug_str_offsets.dwo has no headers, as in DWARF 4, and is listed by the units' format, 64-bit";
    assert_eq!(listed(&file, "str-offsets"), said(0, wanted, &[line]));
}

/// The index of a package: the offset and the size in each column.
pub fn index(rows: &[&[(u64, u64)]], version: u64, columns: &[u64]) -> Vec<u8> {
    let mut data = little(&[(version, 2), (0, 2), (columns.len() as u64, 4), (rows.len() as u64, 4), (0, 4)]);
    data.extend(columns.iter().flat_map(|it| little(&[(*it, 4)])));
    data.extend(rows.iter().flat_map(|row| row.iter().flat_map(|it| little(&[(it.0, 4)]))));
    data.extend(rows.iter().flat_map(|row| row.iter().flat_map(|it| little(&[(it.1, 4)]))));
    data
}

fn package(index: &[u8], offsets: &[u8], words: &str) -> Said {
    let units = [unit(5, 2), unit(5, 2)].concat();
    let sections = [
        section(".debug_info.dwo", &units),
        section(".debug_abbrev.dwo", &[0; 0x80]),
        section(".debug_str_offsets.dwo", offsets),
        section(".debug_cu_index", index),
    ];
    listed(&elf(&sections, OBJECT), words)
}

#[test]
fn tables_of_a_package_count_from_its_contributions() {
    let rows: [&[(u64, u64)]; 2] = [&[(0, 12), (0, 0x30), (0, 8)], &[(12, 12), (0x30, 0x50), (8, 8)]];
    let found = package(&index(&rows, 5, &[1, 3, 6]), &[0; 16], "abbrev");
    assert_eq!((found.0, found.1.as_str()), (0, "table 0x2:\ntable 0x32:\n"));
    // More indexes would each be asked for each unit.
    let sections = [
        section(".debug_info.dwo", &unit(5, 2)),
        section(".debug_abbrev.dwo", &[0; 0x30]),
        section(".debug_cu_index", &index(&rows[..1], 5, &[1, 3, 6])),
        section(".debug_tu_index", &index(&[], 5, &[1, 3, 6])),
        section(".debug_cu_index", &index(&rows[1..], 5, &[1, 3, 6])),
    ];
    let lines = [
        "section 5 .debug_cu_index is a third index, and isn't read",
        "no unit names the bytes from 0x0 to 0x2 of section 2 .debug_abbrev.dwo, and --all lists the tables there",
        "no unit names the bytes from 0x3 to 0x30 of section 2 .debug_abbrev.dwo, and --all lists the tables there",
    ];
    assert_eq!(listed(&elf(&sections, OBJECT), "abbrev"), said(1, "table 0x2:\n", &lines));
    // Of two rows for the same units the last counts.
    let rows: [&[(u64, u64)]; 2] = [&[(0, 24), (0, 0x30), (0, 8)], &[(0, 24), (0x30, 0x50), (8, 8)]];
    assert_eq!(package(&index(&rows, 5, &[1, 3, 6]), &[0; 16], "abbrev").1, "table 0x32:\n");
    let row = [(0, 12), (0, 1), (0, 16)];
    for (data, why) in [
        (index(&[&row], 9, &[1, 3, 6]), "section 4 .debug_cu_index has the unknown version 9, and isn't read"),
        (
            index(&[&row], 5, &[1, 3, 6])[..39].to_vec(),
            "section 4 .debug_cu_index is too short for its 0 slots and 1 rows, and isn't read",
        ),
        (index(&[&[]], 5, &[]), "section 4 .debug_cu_index has no columns, and isn't read"),
        // The section of units has 24 bytes, of which a unit has at least 11.
        (
            index(&[&row[..]; 3], 5, &[1, 3, 6]),
            "section 4 .debug_cu_index has 3 rows, and isn't read: the units are at most 2",
        ),
        (
            index(&[&row], 5, &[1, 3, 6]),
            "the unit at 0x0 of section 1 .debug_info.dwo names the table at 0x2 of its contribution, which has 0x1 bytes",
        ),
        (
            index(&[&[(0, 12), (0, 0x80), (0, 16)]], 5, &[1, 3, 6]),
            "the unit at 0xc of section 1 .debug_info.dwo has no row with a table in the package's index, so its table isn't found",
        ),
    ] {
        let Said(status, _, lines) = package(&data, &[0; 16], "abbrev");
        assert!(status == 1 && lines.iter().any(|it| it == why), "{why}: {lines:?}");
    }
}

#[test]
fn a_malformed_set_of_a_package_hides_no_others() {
    let good = little(&[(8, 4), (5, 2), (0, 2), (7, 4)]);
    let bad = little(&[(0xffff_fff5, 4), (5, 2), (0, 2), (7, 4)]);
    let set = |at: u64| format!("set 0x{at:x}: length 8, 32-bit\n  0x7\n");
    let rows: [&[(u64, u64)]; 2] = [&[(0, 12), (0, 12)], &[(12, 12), (12, 24)]];
    let index = index(&rows, 5, &[1, 6]);
    let found = package(&index, &good.repeat(3), "str-offsets");
    assert_eq!(found, said(0, &[set(0), set(12), set(24)].concat(), &[]));
    let line = "section 3 .debug_str_offsets.dwo: error at 0x0: unknown reserved length: 0xfffffff5";
    let found = package(&index, &[&bad[..], &good, &good].concat(), "str-offsets");
    assert_eq!(found, said(1, &[set(12), set(24)].concat(), &[line]));
}

#[test]
fn contributions_that_overlap_are_listed_once() {
    let good = little(&[(8, 4), (5, 2), (0, 2), (7, 4)]);
    let bad = little(&[(8, 4), (9, 2), (0, 2), (7, 4)]);
    let rows: [&[(u64, u64)]; 2] = [&[(0, 12), (0, 24)], &[(12, 12), (12, 24)]];
    let found = package(&index(&rows, 5, &[1, 6]), &[&bad[..], &good, &good].concat(), "str-offsets");
    let lines = [
        "section 3 .debug_str_offsets.dwo: the contribution at 0xc begins in another one",
        "section 3 .debug_str_offsets.dwo: error at 0x0: unknown DWARF version: 9",
    ];
    assert_eq!(found, said(1, "set 0xc: length 8, 32-bit\n  0x7\n", &lines));
    // Each row would be checked for each section.
    let sections = [
        section(".debug_info.dwo", &[unit(5, 2), unit(5, 2)].concat()),
        section(".debug_str_offsets.dwo", &bad),
        section(".debug_str_offsets.dwo", &good),
        section(".debug_cu_index", &index(&rows, 5, &[1, 6])),
    ];
    let line =
        "section 2 .debug_str_offsets.dwo is one of several such sections, and the index doesn't say which it is for";
    let output = "section 2 .debug_str_offsets.dwo:\n\
                  section 3 .debug_str_offsets.dwo:\nset 0x0: length 8, 32-bit\n  0x7\n";
    assert_eq!(listed(&elf(&sections, OBJECT), "str-offsets"), said(1, output, &[line]));
    // Both are past the end, and so are the bytes between them.
    let rows: [&[(u64, u64)]; 2] = [&[(0, 12), (0x100, 12)], &[(12, 12), (0x200, 12)]];
    let found = package(&index(&rows, 5, &[1, 6]), &[&bad[..], &good].concat(), "str-offsets");
    let name = "section 3 .debug_str_offsets.dwo";
    let lines = [
        &format!("{name}: no row of the index has the bytes from 0x0 to 0x100"),
        &format!("{name}: the contribution at 0x100 is past the end"),
        &format!("{name}: no row of the index has the bytes from 0x10c to 0x200"),
        &format!("{name}: the contribution at 0x200 is past the end"),
        lines[1],
    ];
    assert_eq!(found, said(1, "set 0xc: length 8, 32-bit\n  0x7\n", &lines));
}

#[test]
fn large_packages_of_dwarf_4_take_little_time() {
    let count = 20_000;
    let units: Vec<u8> = (0..count).flat_map(|_| unit(4, 0)).collect();
    let rows: Vec<[(u64, u64); 2]> = (0..count).map(|it| [(11 * it, 11), (8 * it, 8)]).collect();
    let rows: Vec<&[(u64, u64)]> = rows.iter().map(|it| &it[..]).collect();
    let mut data = index(&rows, 2, &[1, 6]);
    data[2..4].fill(0);
    let sections = [
        section(".debug_info.dwo", &units),
        section(".debug_str_offsets.dwo", &[1; 8].repeat(count as usize)),
        section(".debug_cu_index", &data),
    ];
    let begun = std::time::Instant::now();
    let Said(status, output, lines) = listed(&elf(&sections, OBJECT), "str-offsets");
    assert_eq!((status, output.lines().count(), lines.len()), (0, 3 * count as usize, 1));
    assert!(begun.elapsed().as_secs() < 20);
}

#[test]
fn string_offsets_have_their_strings() {
    let set = little(&[(16, 4), (5, 2), (0, 2), (0, 4), (9, 4), (4, 4)]);
    let strings = b"one\0t\x1b\\o\0";
    let lines = "  0x0: one\n  0x9\n  0x4: t\\x1b\\\\o\n";
    let error = "section 2 .debug_str_offsets: error at 0x9 of the strings: unexpected end of input";
    let headers =
        "section 2 .debug_str_offsets has no headers, as in DWARF 4, and is listed by the units' format, 32-bit";
    let alone = format!("set 0x0: no header, 12 bytes, 32-bit\n{lines}");
    let whole = format!("set 0x0: length 16, 32-bit\n{lines}");
    for (units, set, output, told) in [
        (unit(5, 0), &set[..], &whole, &[error][..]),
        (unit(4, 0), &set[8..], &alone, &[headers, error]),
        ([unit(4, 0), unit(5, 0)].concat(), &set, &whole, &[error]),
    ] {
        let sections =
            [section(".debug_info", &units), section(".debug_str_offsets", set), section(".debug_str", strings)];
        assert_eq!(listed(&elf(&sections, OBJECT), "str-offsets --strings"), said(1, output, told));
    }
}

#[test]
fn strings_that_are_not_known_are_told() {
    let set = little(&[(8, 4), (5, 2), (0, 2), (0, 4)]);
    let output = "set 0x0: length 8, 32-bit\n  0x0\n";
    let lacks = "section 1 .debug_str_offsets has no section .debug_str with its strings";
    let two = "section 2 .debug_str is one of 2 such sections, and which of them has the strings isn't read";
    for (count, line) in [(0, lacks), (2, two)] {
        let mut sections = vec![section(".debug_str_offsets", &set)];
        sections.extend(vec![section(".debug_str", b"one\0"); count]);
        assert_eq!(listed(&elf(&sections, OBJECT), "str-offsets --strings"), said(1, output, &[line]));
    }
}
