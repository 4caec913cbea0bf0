//! What the crate adds to the calls of the library: lookups by code, iterators, equality, and what
//! is shown.

use dwarf_read::constants::*;
use dwarf_read::{address, address_sets, sleb128, sleb128_write, str_offset, str_offset_sets};
use dwarf_read::{tables, type_units, uleb128, uleb128_write, units};
use dwarf_read::{ByteOrder, Encoding, ErrorKind, Format, Set, Table, Unit, UnitType};

#[test]
fn each_code_is_found_and_no_other() {
    // The codes 3, 1, 200 and 5, each without attributes.
    let section = [3, 0x11, 0, 0, 0, 1, 0x11, 0, 0, 0, 0xc8, 1, 0x11, 0, 0, 0, 5, 0x11, 0, 0, 0, 0];
    let table = Table::read(&section, 0).unwrap();
    let codes: Vec<u64> = table.iter().map(|it| it.code()).collect();
    assert_eq!(codes, [1, 3, 5, 200]);
    let found: Vec<u64> = (0..300).filter(|&it| table.get(it).is_some()).collect();
    assert_eq!(found, codes);
    assert!(table.get(u64::MAX).is_none());
    assert_eq!((table.len(), table.iter().len()), (4, 4));
    assert_eq!((table.is_closed_by_null(), table.end()), (true, section.len()));
    assert_eq!(table.iter().next_back(), table.get(200));
}

#[test]
fn an_empty_section_is_an_empty_table() {
    let table = Table::read(&[], 0).unwrap();
    assert!(table.is_empty() && !table.is_closed_by_null() && table.get(1).is_none());
}

// The table with the codes from 1 to the count, of which each has two attributes.
fn counting(count: u16) -> Vec<u8> {
    let code = |it: u16| [it as u8 | 0x80, (it >> 7) as u8];
    let declared =
        (1..=count).flat_map(|it| [&code(it)[..], &[0x2e, 0, 3, 8, 0x49, 0x13, 0, 0]].concat());
    declared.chain([0]).collect()
}

#[test]
fn large_tables_are_read_like_small_ones() {
    // From 8,001 on there isn't room for the abbreviations at first, and from 16,001 on for the
    // attributes.
    for count in [1, 511, 512, 513, 5000, 7999, 8000, 8001, 16000, 16001] {
        let section = counting(count);
        let table = Table::read(&section, 0).unwrap();
        let codes: Vec<u64> = table.iter().map(|it| it.code()).collect();
        assert_eq!(codes, (1..=count.into()).collect::<Vec<u64>>());
        assert!(table
            .iter()
            .all(|it| it.attributes().len() == 2 && it.attributes()[1].name() == DW_AT_type));
        assert_eq!((table.len(), table.end()), (count.into(), section.len()));
        assert!(table.is_closed_by_null());
        let mut again = Table::read(&[], 0).unwrap();
        again.read_again(&section, 0).unwrap();
        assert_eq!(again, table);
        assert_eq!(Table::read_strict(&section, 0).unwrap(), table);
        again.read_again(&counting(1), 0).unwrap();
        assert_eq!(again, Table::read(&counting(1), 0).unwrap());
    }
}

#[test]
fn an_error_leaves_a_table_as_it_was() {
    let mut table = Table::read(&counting(3), 0).unwrap();
    let before = table.clone();
    for (section, offset, kind) in [
        (vec![1, 0x11, 7], 0, ErrorKind::InvalidAbbreviationChildren),
        (counting(9), 1000, ErrorKind::UnexpectedEof),
        (counting(9)[..89].to_vec(), 0, ErrorKind::UnexpectedEof),
    ] {
        assert_eq!(table.read_again(&section, offset).unwrap_err().kind(), kind);
        assert_eq!(Table::read(&section, offset).unwrap_err().kind(), kind);
        assert_eq!(table, before);
        assert_eq!((table.offset(), table.end()), (0, before.end()));
    }
}

#[test]
fn what_stands_before_an_error_is_read() {
    let (len, end) = (counting(700).len() - 1, counting(9).len());
    // The code 1 comes a second time.
    let repeated = [&counting(700)[..len], &counting(1)].concat();
    for (section, offset, wanted) in [
        (vec![1, 0x11, 7], 0, Ok((0, 0))),
        (counting(9), end + 1, Err(0)),
        (counting(9), usize::MAX, Err(0)),
        (counting(9)[..end - 4].to_vec(), 0, Ok((8, counting(8).len() - 1))),
        (counting(9), 0, Ok((9, end))),
        (repeated, 0, Ok((700, len))),
    ] {
        let found = Table::read_before_error(&section, offset);
        let found = found.map(|it| (it.len(), it.end())).map_err(|it| it.value());
        assert_eq!(found, wanted, "{} {}", section.len(), offset);
    }
}

#[test]
fn tables_follow_each_other() {
    let pieces = [counting(2), vec![0], counting(700), counting(1), vec![1, 0x11, 0, 0, 0]];
    let section = pieces.concat();
    let found: Vec<Table> = tables(&section).map(Result::unwrap).collect();
    let mut offset = 0;
    for (table, piece) in found.iter().zip(&pieces) {
        assert_eq!((table.offset(), table.end()), (offset, offset + piece.len()));
        assert_eq!(*table, Table::read(&section, offset).unwrap());
        offset += piece.len();
    }
    assert_eq!(found.len(), pieces.len());
    assert!(found[3].is_closed_by_null() && !found[4].is_closed_by_null());
    assert!(tables(&[]).next().is_none());
    let cut = &section[..section.len() - 3];
    let mut found = tables(cut).skip(4);
    assert_eq!(found.next().unwrap().unwrap_err().value(), cut.len() as u64);
    assert!(found.next().is_none());
}

// The code 2 after another one, as the tables below have it.
const TABLE: [u8; 17] = [1, 0x11, 1, 3, 8, 0, 0, 2, 0x2e, 0, 3, 0x21, 0x56, 0, 0, 0, 0];

#[test]
fn tables_are_equal_by_what_they_declare() {
    // The second begins elsewhere, and its declarations are in another order.
    let other = [2, 0x2e, 0, 3, 0x21, 0x56, 0, 0, 1, 0x11, 1, 3, 8, 0, 0, 0];
    let section = [&[0][..], &TABLE[..16], &other].concat();
    let found: Vec<Table> = tables(&section).map(Result::unwrap).collect();
    assert_eq!((found.len(), found[1].offset(), found[2].offset()), (3, 1, 17));
    assert_eq!(found[1], found[2]);
    assert_ne!(found[0], found[1]);
    for (left, right) in found[1].iter().zip(&found[2]) {
        assert_eq!(left, right);
    }
    assert_ne!(found[1].get(1), found[1].get(2));
    // Its attributes are at another place in a table that has no other abbreviation.
    let alone = Table::read(&other[..8], 0).unwrap();
    assert_eq!(alone.get(2), found[1].get(2));
}

#[test]
fn each_field_tells_tables_apart() {
    let table = Table::read(&TABLE, 0).unwrap();
    // Each row changes the code, the tag, the children, the name, the form or the value.
    for (at, byte) in [(7, 3), (8, 0x2f), (9, 1), (10, 4), (4, 0xb), (12, 0x55)] {
        let mut changed = TABLE;
        changed[at] = byte;
        let other = Table::read(&changed, 0).unwrap();
        assert_ne!(other, table, "{}", at);
        assert!(other.iter().zip(&table).any(|(left, right)| left != right), "{}", at);
    }
    let unclosed = Table::read(&TABLE[..15], 0).unwrap();
    assert!(unclosed != table && unclosed.iter().eq(&table));
    let without = Table::read(&[1, 0x11, 1, 3, 8, 0, 0, 0], 0).unwrap();
    assert!(without != table && without.get(1) == table.get(1));
}

fn only(section: &[u8], order: ByteOrder, are_addresses: bool) -> Set<'_> {
    let sets = if are_addresses { address_sets } else { str_offset_sets };
    sets(section, order).last().unwrap().unwrap()
}

#[test]
fn sets_are_equal_by_header_and_entries() {
    use ByteOrder::{Big, Little};
    let set = [12, 0, 0, 0, 5, 0, 4, 0, 1, 2, 3, 4, 5, 6, 7, 8];
    let later = [&[4, 0, 0, 0, 5, 0, 4, 0][..], &set].concat();
    let big = [0, 0, 0, 12, 0, 5, 4, 0, 4, 3, 2, 1, 8, 7, 6, 5];
    let first = only(&set, Little, true);
    assert!(only(&later, Little, true).offset() == 8 && only(&later, Little, true) == first);
    assert_eq!(only(&big, Big, true), first);
    // The header for string offsets has padding in the place of both sizes.
    let mut of_strings = set;
    of_strings[6] = 0;
    let mut wide = set;
    wide[6] = 8;
    let mut last = set;
    last[15] = 9;
    let cut = [&[13][..], &set[1..], &[0]].concat();
    let short = [&[8][..], &set[1..12]].concat();
    let long = [&[255, 255, 255, 255, 12, 0, 0, 0, 0, 0, 0, 0][..], &set[4..]].concat();
    assert_ne!(only(&of_strings, Little, false), first);
    for other in [&wide[..], &last, &cut, &short, &long] {
        assert_ne!(only(other, Little, true), first, "{:?}", other);
    }
    // A remainder is of equal length where both sets are equal.
    assert_eq!(only(&cut, Little, true), only(&[&later[..8], &cut].concat(), Little, true));
}

#[test]
fn an_error_is_the_last_item() {
    // Two bytes of a set remain after its first entry, and another set begins after them.
    let section = [10, 0, 0, 0, 5, 0, 4, 0, 1, 0, 0, 0, 2, 0, 9];
    let mut sets = address_sets(&section, ByteOrder::Little);
    let set = sets.next().unwrap().unwrap();
    assert_eq!((set.entry_count(), set.entry_size()), (1, 4));
    let mut entries = set.entries();
    assert_eq!(entries.next(), Some(Ok(1)));
    assert_eq!(entries.next().unwrap().unwrap_err().kind(), ErrorKind::UnexpectedEof);
    assert_eq!(entries.next(), None);
    assert_eq!(sets.next().unwrap().unwrap_err().value(), 14);
    assert!(sets.next().is_none());
    assert_eq!(str_offset_sets(&[], ByteOrder::Big).next(), None);
}

#[test]
fn an_index_has_64_bits() {
    let section = [8, 0, 0, 0, 5, 0, 4, 0, 1, 0, 0, 0];
    let set = only(&section, ByteOrder::Little, true);
    assert_eq!((set.get(0), set.get(1).unwrap_err().value()), (Ok(1), 12));
    let little = ByteOrder::Little;
    for index in [1 << 62, u64::MAX] {
        let found = [
            set.get(index).unwrap_err(),
            address(&section, little, 4, 8, index).unwrap_err(),
            str_offset(&section, little, Format::Dwarf32, 8, index).unwrap_err(),
        ];
        assert!(found.iter().all(|it| it.kind() == ErrorKind::UnsupportedOffset));
    }
}

#[test]
fn the_base_of_a_set_follows_its_header() {
    let narrow = [8, 0, 0, 0, 5, 0, 4, 0, 1, 0, 0, 0];
    let wide = [&[0xff; 4][..], &[12, 0, 0, 0, 0, 0, 0, 0, 5, 0, 8, 0, 2], &[0; 7]].concat();
    for (section, format, base, entry) in
        [(&narrow[..], Format::Dwarf32, 8, 1), (&wide, Format::Dwarf64, 16, 2)]
    {
        for are_addresses in [true, false] {
            let set = only(section, ByteOrder::Little, are_addresses);
            assert_eq!((set.format(), set.base(), set.entry_count()), (format, base, 1));
            assert_eq!(set.get(0), Ok(entry));
        }
        let offset = str_offset(section, ByteOrder::Little, format, base, 0);
        assert_eq!(offset, Ok(entry as usize));
    }
}

// A unit of each type, with an entry of one byte. The second is of the 64-bit format. The last is of
// version 4, with what a type unit has.
fn all_units() -> Vec<u8> {
    let signature = [8, 7, 6, 5, 4, 3, 2, 1];
    let mut section = vec![9, 0, 0, 0, 5, 0, 1, 8, 16, 0, 0, 0, 1];
    section.extend([0xff; 4]);
    section.extend([29, 0, 0, 0, 0, 0, 0, 0, 5, 0, 2, 4, 32, 0, 0, 0, 0, 0, 0, 0]);
    section.extend(signature);
    section.extend([40, 0, 0, 0, 0, 0, 0, 0, 1]);
    section.extend([9, 0, 0, 0, 5, 0, 3, 8, 0, 0, 0, 0, 1]);
    for it in [4, 5] {
        section.extend([17, 0, 0, 0, 5, 0, it, 8, 0, 0, 0, 0]);
        section.extend(signature);
        section.push(1);
    }
    section.extend([21, 0, 0, 0, 5, 0, 6, 8, 0, 0, 0, 0]);
    section.extend(signature);
    section.extend([24, 0, 0, 0, 1]);
    section.extend([20, 0, 0, 0, 4, 0, 48, 0, 0, 0, 2]);
    section.extend(signature);
    section.extend([23, 0, 0, 0, 1]);
    section
}

#[test]
fn units_have_their_fields() {
    let (id, wide) = (0x0102030405060708, Format::Dwarf64);
    let section = all_units();
    let found: Vec<Unit> = units(&section, ByteOrder::Little).map(Result::unwrap).collect();
    let encoding = Encoding { address_size: 8, format: Format::Dwarf32, version: 5 };
    let typed = UnitType::Type { type_signature: id, type_offset: 40 };
    let split = UnitType::SplitType { type_signature: id, type_offset: 24 };
    // The offset, the length, where the entries begin, the table, the encoding and the type.
    let rows = [
        (0, 9, 12, 16, encoding, UnitType::Compilation),
        (13, 29, 53, 32, Encoding { address_size: 4, format: wide, version: 5 }, typed),
        (54, 9, 66, 0, encoding, UnitType::Partial),
        (67, 17, 87, 0, encoding, UnitType::Skeleton(id)),
        (88, 17, 108, 0, encoding, UnitType::SplitCompilation(id)),
        (109, 21, 133, 0, encoding, split),
        (
            134,
            20,
            145,
            48,
            Encoding { address_size: 2, version: 4, ..encoding },
            UnitType::Compilation,
        ),
    ];
    assert_eq!(found.len(), rows.len());
    for (unit, row) in found.iter().zip(rows) {
        let place = (unit.offset(), unit.unit_length(), unit.entries_offset());
        assert_eq!(place, (row.0, row.1, row.2));
        let its = (unit.debug_abbrev_offset(), unit.encoding(), unit.type_());
        assert_eq!(its, (row.3, row.4, row.5));
        let end = row.0 + row.1 + if row.4.format == wide { 12 } else { 4 };
        assert_eq!(unit.entries(), &section[row.2..end]);
    }
    let unit = type_units(&section[134..], ByteOrder::Little).next().unwrap().unwrap();
    assert_eq!(unit.type_(), UnitType::Type { type_signature: id, type_offset: 23 });
    assert_eq!((unit.encoding().version, unit.entries()), (4, &[1][..]));
    let big = [0, 0, 0, 8, 0, 5, 3, 8, 0x11, 0x22, 0x33, 0x44];
    let unit = units(&big, ByteOrder::Big).next().unwrap().unwrap();
    assert_eq!((unit.debug_abbrev_offset(), unit.entries()), (0x11223344, &[][..]));
    let shown = "Unit { offset: 0, unit_length: 8, encoding: Encoding { address_size: 8, format: \
                 Dwarf32, version: 5 }, type_: Partial, debug_abbrev_offset: 287454020, entries: [] }";
    assert_eq!(format!("{:?}", unit), shown);
}

#[test]
fn an_error_is_the_last_unit() {
    let section = all_units();
    for (cut, kind, value, count) in [
        (section.len() - 1, ErrorKind::UnexpectedEof, 138, 6),
        (15, ErrorKind::UnexpectedEof, 13, 1),
    ] {
        let mut found = units(&section[..cut], ByteOrder::Little);
        assert_eq!(found.by_ref().take_while(Result::is_ok).count(), count);
        assert!(found.next().is_none());
        let error = units(&section[..cut], ByteOrder::Little).last().unwrap().unwrap_err();
        assert_eq!((error.kind(), error.value()), (kind, value));
    }
    let unknown = [9, 0, 0, 0, 5, 0, 7, 8, 0, 0, 0, 0, 1];
    let error = units(&unknown, ByteOrder::Little).next().unwrap().unwrap_err();
    assert_eq!((error.kind(), error.value()), (ErrorKind::UnknownUnitType, 7));
    assert_eq!(error.to_string(), "unknown unit type: 0x7");
    assert!(units(&[], ByteOrder::Big).next().is_none());
    let shown = format!("{:?}", units(&unknown, ByteOrder::Big));
    let head = "Units { section: [0x09, 0x00, 0x00, 0x00, 0x05, 0x00, 0x07, 0x08, ...; 13]";
    assert_eq!(shown, format!("{}, order: Big, offset: Some(0) }}", head));
}

// What follows a whole unit; the error there, and whether the walk can go on after it.
#[rustfmt::skip]
static ODD_UNITS: &[(&[u8], ErrorKind, u64, bool)] = &[
    (&[8, 0, 0, 0, 6, 0, 3, 8, 0, 0, 0, 0], ErrorKind::UnknownVersion, 6, true),
    (&[8, 0, 0, 0, 5, 0, 3, 3, 0, 0, 0, 0], ErrorKind::UnsupportedAddressSize, 3, true),
    (&[8, 0, 0, 0, 5, 0, 0x80, 8, 0, 0, 0, 0], ErrorKind::UnknownUnitType, 0x80, true),
    (&[7, 0, 0, 0, 5, 0, 3, 8, 0, 0, 0], ErrorKind::UnexpectedEof, 20, true),
    (&[0, 0, 0, 0], ErrorKind::UnexpectedEof, 16, true),
    (&[13, 0, 0, 0, 5, 0, 3, 8], ErrorKind::UnexpectedEof, 16, false),
    (&[0xf0, 0xff, 0xff, 0xff], ErrorKind::UnknownReservedLength, 0xffff_fff0, false),
    (&[0xff, 0xff, 0xff, 0xff, 0xff], ErrorKind::UnexpectedEof, 16, false),
    (&[8, 0, 0], ErrorKind::UnexpectedEof, 12, false),
];

#[test]
fn units_go_on_after_the_error_of_a_field() {
    let whole = [8, 0, 0, 0, 5, 0, 3, 8, 0, 0, 0, 0];
    for &(odd, kind, value, goes_on) in ODD_UNITS {
        let after: &[u8] = if goes_on { &whole } else { &[] };
        let section = [&whole[..], odd, after].concat();
        let mut found = units(&section, ByteOrder::Little);
        assert_eq!((found.next().unwrap().unwrap().offset(), found.resume()), (0, false));
        let error = found.next().unwrap().unwrap_err();
        assert_eq!((error.kind(), error.value()), (kind, value), "{:?}", odd);
        assert!(found.next().is_none());
        assert_eq!((found.resume(), found.offset().is_some()), (goes_on, goes_on), "{:?}", odd);
        let (place, next) = (found.offset(), found.next().map(|it| it.unwrap().offset()));
        let wanted = if goes_on { Some(12 + odd.len()) } else { None };
        assert_eq!((place, next), (wanted, wanted), "{:?}", odd);
        assert!(found.next().is_none() && !found.resume());
        let at = |offset| units(&section, ByteOrder::Little).at(offset);
        assert_eq!(at(0).unwrap().unwrap().entries_offset(), 12);
        assert_eq!(at(12).unwrap_err(), error);
        assert!(at(section.len()).unwrap().is_none());
        assert_eq!(at(section.len() + 1).unwrap_err().value(), 0);
    }
}

// The same for a set of addresses.
#[rustfmt::skip]
static ODD_SETS: &[(&[u8], ErrorKind, u64, bool)] = &[
    (&[4, 0, 0, 0, 4, 0, 4, 0], ErrorKind::UnknownVersion, 4, true),
    (&[4, 0, 0, 0, 5, 0, 3, 0], ErrorKind::UnsupportedAddressSize, 3, true),
    (&[4, 0, 0, 0, 5, 0, 4, 1], ErrorKind::UnsupportedSegmentSize, 1, true),
    (&[3, 0, 0, 0, 5, 0, 4], ErrorKind::UnexpectedEof, 19, true),
    (&[9, 0, 0, 0, 5, 0, 4, 0], ErrorKind::UnexpectedEof, 16, false),
    (&[0xf0, 0xff, 0xff, 0xff], ErrorKind::UnknownReservedLength, 0xffff_fff0, false),
];

#[test]
fn sets_go_on_after_the_error_of_a_field() {
    let whole = [8, 0, 0, 0, 5, 0, 4, 0, 7, 0, 0, 0];
    for &(odd, kind, value, goes_on) in ODD_SETS {
        let after: &[u8] = if goes_on { &whole } else { &[] };
        let section = [&whole[..], odd, after].concat();
        let mut found = address_sets(&section, ByteOrder::Little);
        assert_eq!((found.next().unwrap().unwrap().offset(), found.resume()), (0, false));
        let error = found.next().unwrap().unwrap_err();
        assert_eq!((error.kind(), error.value()), (kind, value), "{:?}", odd);
        assert!(found.next().is_none());
        assert_eq!((found.resume(), found.offset().is_some()), (goes_on, goes_on), "{:?}", odd);
        let (place, next) = (found.offset(), found.next().map(|it| it.unwrap().offset()));
        let wanted = if goes_on { Some(12 + odd.len()) } else { None };
        assert_eq!((place, next), (wanted, wanted), "{:?}", odd);
        assert!(found.next().is_none() && !found.resume());
        let at = |offset| address_sets(&section, ByteOrder::Little).at(offset);
        assert_eq!(at(0).unwrap().unwrap().get(0), Ok(7));
        assert_eq!(at(12).unwrap_err(), error);
        assert!(at(section.len()).unwrap().is_none());
    }
}

#[test]
fn what_is_written_is_read() {
    for value in (0..64).flat_map(|it| [(1_u64 << it) - 1, 1 << it, u64::MAX >> it]) {
        let mut bytes = [0; 10];
        let len = uleb128_write(value, &mut bytes).unwrap();
        assert_eq!(uleb128(&bytes), Ok((value, len)));
        assert_eq!(uleb128_write(value, &mut bytes[..len - 1]), None);
        let signed = value as i64;
        let len = sleb128_write(signed, &mut bytes).unwrap();
        assert_eq!(sleb128(&bytes), Ok((signed, len)));
        assert_eq!(sleb128_write(signed, &mut bytes[..len - 1]), None);
    }
}

#[test]
fn at_most_eight_bytes_of_a_section_are_shown() {
    let section = [12, 0, 0, 0, 5, 0, 4, 0, 1, 2, 3, 4, 5, 6, 7, 8];
    let long = [&section[..], &[0; 1000]].concat();
    let sets = address_sets(&long, ByteOrder::Little);
    let mut left = sets.clone();
    let set = left.next().unwrap().unwrap();
    let mut entries = set.entries();
    entries.next();
    let shown = "[0x0c, 0x00, 0x00, 0x00, 0x05, 0x00, 0x04, 0x00, ...; 1016]";
    let of_set =
        "Set { offset: 0, unit_length: 12, format: Dwarf32, entry_size: 4, entry_count: 2, \
                  bytes: [0x01, 0x02, 0x03, 0x04, 0x05, 0x06, 0x07, 0x08] }";
    let rows = [
        (
            format!("{:?}", sets),
            format!("Sets {{ section: {}, order: Little, offset: Some(0) }}", shown),
        ),
        (
            format!("{:?}", left),
            format!("Sets {{ section: {}, order: Little, offset: Some(16) }}", shown),
        ),
        (format!("{:?}", set), of_set.to_string()),
        (format!("{:?}", entries), format!("Entries {{ set: {}, index: Some(1) }}", of_set)),
        (
            format!("{:?}", tables(&long)),
            format!("Tables {{ section: {}, offset: Some(0) }}", shown),
        ),
        (format!("{:?}", tables(&[])), "Tables { section: [], offset: Some(0) }".to_string()),
    ];
    for (found, wanted) in rows {
        assert_eq!(found, wanted);
    }
}

#[test]
fn an_abbreviation_is_shown_by_names() {
    let table = Table::read(&TABLE, 0).unwrap();
    let first =
        "Abbreviation { code: 1, tag: DW_TAG_compile_unit, has_children: true, attributes: \
                 [Attribute { name: DW_AT_name, form: DW_FORM_string }] }";
    let second = "Abbreviation { code: 2, tag: DW_TAG_subprogram, has_children: false, attributes: \
                  [Attribute { name: DW_AT_name, form: DW_FORM_implicit_const, implicit_const: -42 }] }";
    assert_eq!(format!("{:?}", table.get(1).unwrap()), first);
    assert_eq!(format!("{:?}", table.iter()), format!("[{}, {}]", first, second));
    let of_table = "Table { offset: 0, end: 16, is_closed_by_null: true, abbreviations: ";
    assert_eq!(format!("{:?}", table), format!("{}[{}, {}] }}", of_table, first, second));
}

#[cfg(feature = "std")]
#[test]
fn an_error_is_one_of_std() {
    let error: Box<dyn std::error::Error> = Table::read(&[], 1).unwrap_err().into();
    assert_eq!(error.to_string(), "unexpected end of input");
}
