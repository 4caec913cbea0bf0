//! Compressed sections.

use super::{elf, listed, little, numbers, said, unit, Form, OBJECT, PROGBITS};
use flate2::write::ZlibEncoder;
use flate2::Compression;
use std::io::Write;

const FORM: Form = Form { flags: 0x800, ..OBJECT };

pub fn deflated(data: &[u8]) -> Vec<u8> {
    let mut stream = ZlibEncoder::new(Vec::new(), Compression::default());
    stream.write_all(data).unwrap();
    stream.finish().unwrap()
}

/// A compressed section with these bytes, of this size by its header.
fn packed(kind: u64, size: u64, data: &[u8]) -> Vec<u8> {
    [little(&[(kind, 4), (0, 4), (size, 8), (1, 8)]), data.to_vec()].concat()
}

fn strings(kind: u64, size: u64, data: &[u8]) -> super::Said {
    listed(&elf(&[(".debug_str", PROGBITS, packed(kind, size, data), 0, 0)], FORM), "str")
}

#[test]
fn sections_of_each_class_and_order_are_inflated() {
    for (is_64, is_big) in [(false, false), (false, true), (true, false), (true, true)] {
        let header: &[(u64, usize)] = if is_64 { &[(1, 4), (0, 4), (4, 8), (1, 8)] } else { &[(1, 4), (4, 4), (1, 4)] };
        let data = [numbers(is_big, header), deflated(b"one\0")].concat();
        let file = elf(&[(".debug_str", PROGBITS, data, 0, 0)], Form { is_64, is_big, ..FORM });
        assert_eq!(listed(&file, "str"), said(0, "0x0: one\n", &[]));
    }
    let old = [b"ZLIB\0\0\0\0\0\0\0\x04".to_vec(), deflated(b"one\0")].concat();
    let file = elf(&[(".zdebug_str", PROGBITS, old, 0, 0)], OBJECT);
    assert_eq!(listed(&file, "str"), said(0, "0x0: one\n", &[]));
    let sizes = ".debug_str                                  4           24\n\
                 total                                       4           24  7.9 % of 303\n";
    assert_eq!(listed(&file, "sections"), said(0, sizes, &[]));
}

#[test]
fn what_is_wrong_with_a_compressed_section() {
    let (data, one) = (deflated(b"one\0two\0"), "0x0: one\n");
    let both = "0x0: one\n0x4: two\n";
    let cut = &data[..data.len() - 1];
    let after = [&data[..], b"more"].concat();
    for (kind, size, data, status, output, why) in [
        (1, 8, &data[..], 0, both, ""),
        (1, 9, &data, 1, both, "is to inflate to 9 bytes, and inflates to 8"),
        (1, 4, &data, 1, one, "is to inflate to 4 bytes, and inflates to more"),
        (1, 8, cut, 1, both, "is to inflate to 8 bytes, and inflates to other bytes"),
        (1, 8, &after, 1, both, "has 4 bytes after its compressed ones"),
        (1, 8, b"xxxx", 1, "", "can't be inflated: its bytes are corrupt"),
        (7, 8, &data, 1, "", "can't be inflated: its compression type 7 is unknown"),
    ] {
        let line = format!("section 1 .debug_str {why}");
        let lines: Vec<&str> = Some(&line[..]).filter(|_| !why.is_empty()).into_iter().collect();
        assert_eq!(strings(kind, size, data), said(status, output, &lines));
    }
}

#[test]
fn sections_inflate_to_so_much_together() {
    let corrupt = "section 1 .debug_str can't be inflated: its bytes are corrupt";
    let large = vec![0; 2 << 20];
    let whole = elf(&[(".debug_str", PROGBITS, packed(1, 0, &large), 0, 0)], FORM);
    let more = 64 * whole.len() as u64;
    for (size, data, most) in [
        (1 << 26, &[0; 8][..], None),
        ((1 << 26) + 1, &[0; 8], Some(1 << 26)),
        (more, &large, None),
        (more + 1, &large, Some(more)),
    ] {
        let count = data.len();
        let claims = |most: u64| {
            format!("claims {size} bytes in {count} compressed ones, and the sections may have {most} together")
        };
        let line = most.map_or(corrupt.to_owned(), |most| format!("section 1 .debug_str {}", claims(most)));
        assert_eq!(strings(1, size, data), said(1, "", &[&line]));
    }
    // Many headers may have one section.
    let section = (".debug_str", PROGBITS, packed(1, 40 << 20, &[0; 8]), 0, 0);
    let corrupt = "section 1 .debug_str can't be inflated: its bytes are corrupt";
    let claims = "claims 41943040 bytes in 8 compressed ones, and the sections may have 67108864 together";
    let line = format!("section 2 .debug_str {claims}");
    assert_eq!(listed(&elf(&[section.clone(), section], FORM), "str"), said(1, "", &[corrupt, &line]));
}

#[test]
fn compressed_units_name_tables() {
    // Tables of one byte at each place, units of both versions, and padding after each unit of DWARF 5.
    let units: Vec<u8> = (0..4000)
        .flat_map(|it| {
            let mut unit = unit(if it % 2 == 0 { 5 } else { 4 }, it);
            let rest = 1000 + u64::from(it % 2 == 0) * 8 + u64::from(it % 2 == 1) * 7;
            unit[..4].copy_from_slice(&(rest as u32).to_le_bytes());
            unit.extend((0..250).cycle().take(1000));
            unit.extend(vec![0; if it % 2 == 0 { 4 } else { 0 }]);
            unit
        })
        .collect();
    let sections = [
        (".debug_info", PROGBITS, packed(1, units.len() as u64, &deflated(&units)), 0, 0),
        (".debug_abbrev", PROGBITS, packed(1, 4000, &deflated(&[0; 4000])), 0, 0),
    ];
    let super::Said(status, output, lines) = listed(&elf(&sections, FORM), "abbrev");
    let tables: String = (0..4000).map(|it| format!("table 0x{it:x}:\n")).collect();
    assert_eq!((status, output), (1, tables));
    // What is told is the padding, up to the limit.
    assert_eq!(lines[0], "the 4 bytes at 0x3f4 of section 1 .debug_info are zero, and passed over");
    assert_eq!(lines[1000..], ["more than 1000 errors, and the others aren't reported"]);
}

#[cfg(not(feature = "zstd"))]
#[test]
fn zstd_is_told() {
    let why = "which this program can't inflate: it was built without the feature `zstd`";
    let line = format!("section 1 .debug_str is compressed by zstd, {why}");
    assert_eq!(strings(2, 8, b""), said(1, "", &[&line]));
}

#[cfg(feature = "zstd")]
#[test]
fn all_frames_of_zstd_are_read() {
    let frames: Vec<u8> = [&b"one\0"[..], b"two\0"].iter().flat_map(|it| zstd::encode_all(*it, 3).unwrap()).collect();
    assert_eq!(strings(2, 8, &frames), said(0, "0x0: one\n0x4: two\n", &[]));
    let lines = [
        "section 1 .debug_str is to inflate to 8 bytes, and inflates to 7",
        "section 1 .debug_str: error at 0x4: unexpected end of input",
    ];
    assert_eq!(strings(2, 8, &frames[..frames.len() - 1]), said(1, "0x0: one\n", &lines));
}
