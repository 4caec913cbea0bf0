//! Measures the library and gimli on equal inputs: time by turns, one call of each side to be counted, or the memory
//! that a call touches.
//!
//! The library's side is a call of `crates/dwarf_compare` that does the whole loop, or for tables a call for C, or of
//! the crate for Rust. What fills a cache from units is left out, since units belong to gimli's upper layers, and so are
//! written numbers, which another feature has.

use crate::cost::{hidden, nanos_of, page_faults, touched_bytes};
use crate::entries_after;
use crate::made::{made_entries, made_sets, put_signed, put_unsigned, shaped_table, Random};
use crate::plain;
use crate::room::Room;
use gimli::{
    DebugAbbrev, DebugAbbrevOffset, DebugAddr, DebugAddrBase, DebugAddrIndex, DebugStr, DebugStrOffset,
    DebugStrOffsets, DebugStrOffsetsBase, DebugStrOffsetsIndex, EndianSlice, Format, LittleEndian, Reader,
};

/// How many codes the tables have that are made.
const CODES: u64 = 5000;
const ROUNDS: u64 = 20;
const NUMBERS: usize = 1 << 17;
const LOOKUPS: usize = 1 << 15;

type Bytes = &'static [u8];
type Places = &'static [usize];
type Call = Box<dyn Fn() -> u64>;

type Byte = *const u8;
type Place = *const usize;

extern "C" {
    fn compare_unsigned_sum(bytes: Byte, len: usize) -> u64;
    fn compare_signed_sum(bytes: Byte, len: usize) -> u64;
    fn compare_short_sum(bytes: Byte, len: usize) -> u64;
    fn compare_skipped_count(bytes: Byte, len: usize) -> u64;
    fn compare_headers(bytes: Byte, len: usize) -> u64;
    fn compare_addresses(bytes: Byte, len: usize) -> u64;
    fn compare_tables(bytes: Byte, len: usize, offsets: Place, count: usize) -> u64;
    fn compare_get_sum(bytes: Byte, len: usize, offset: usize, codes: u64, rounds: u64) -> u64;
    fn compare_walk(bytes: Byte, len: usize, offset: usize) -> u64;
    fn compare_strings(bytes: Byte, len: usize, offsets: Place, count: usize) -> u64;
    fn compare_str_offset_lookups(bytes: Byte, len: usize, base: usize, indices: Place, count: usize) -> u64;
    fn compare_address_lookups(bytes: Byte, len: usize, base: usize, indices: Place, count: usize) -> u64;
}

/// What is measured, once each side.
pub struct Workload {
    name: String,
    operations: u64,
    gimli: Call,
    ours: Call,
    /// Whether both sides return the same, which is looked at first.
    is_same: bool,
}

/// A workload whose sides return the same.
fn workload(
    name: impl Into<String>, operations: usize, gimli: impl Fn() -> u64 + 'static, ours: impl Fn() -> u64 + 'static,
) -> Workload {
    let (name, operations) = (name.into(), operations as u64);
    Workload { name, operations, gimli: Box::new(gimli), ours: Box::new(ours), is_same: true }
}

type Loop = unsafe extern "C" fn(Byte, usize) -> u64;

macro_rules! sum_of {
    ($name:ident, $read:expr) => {
        #[inline(never)]
        fn $name(bytes: Bytes) -> u64 {
            let mut input = EndianSlice::new(bytes, LittleEndian);
            let mut sum = 0u64;
            while !Reader::is_empty(&input) {
                sum = sum.wrapping_add($read(&mut input).unwrap());
            }
            sum
        }
    };
}

type Input = EndianSlice<'static, LittleEndian>;

sum_of!(unsigned_sum, |it: &mut Input| gimli::leb128::read::unsigned(it));
sum_of!(signed_sum, |it: &mut Input| gimli::leb128::read::signed(it).map(|it| it as u64));
sum_of!(short_sum, |it: &mut Input| gimli::leb128::read::u16(it).map(u64::from));
sum_of!(skipped_count, |it: &mut Input| gimli::leb128::read::skip(it).map(|()| 1));

/// Reads all tables. gimli doesn't say how many declarations each has.
#[inline(never)]
fn tables(section: Bytes, offsets: Places) -> u64 {
    let section = DebugAbbrev::new(section, LittleEndian);
    offsets.iter().filter(|it| section.abbreviations(DebugAbbrevOffset(**it)).is_ok()).count() as u64
}

#[inline(never)]
fn get_sum(section: Bytes) -> u64 {
    let table = DebugAbbrev::new(section, LittleEndian).abbreviations(DebugAbbrevOffset(0)).unwrap();
    let mut sum = 0u64;
    for _ in 0..ROUNDS {
        for code in 1..=CODES {
            if let Some(abbreviation) = table.get(hidden(code)) {
                sum = sum.wrapping_add(abbreviation.tag().0.into());
            }
        }
    }
    sum
}

/// Reads a table, and looks at each declaration and each attribute. gimli's tables can't be walked, so each code is
/// looked up.
#[inline(never)]
fn walk(section: Bytes, offset: usize, codes: &[u64]) -> u64 {
    let table = DebugAbbrev::new(section, LittleEndian).abbreviations(DebugAbbrevOffset(offset)).unwrap();
    let mut sum = 0u64;
    for found in codes.iter().filter_map(|it| table.get(*it)) {
        let head = u64::from(found.tag().0) + u64::from(found.has_children());
        sum = sum.wrapping_add(found.code()).wrapping_add(head);
        for it in found.attributes() {
            let value = it.implicit_const_value().unwrap_or(0) as u64;
            sum = sum.wrapping_add(u64::from(it.name().0) + u64::from(it.form().0)).wrapping_add(value);
        }
    }
    sum
}

#[inline(never)]
fn strings(section: Bytes, offsets: Places) -> u64 {
    let section = DebugStr::new(section, LittleEndian);
    let len = |it: &usize| Reader::len(&section.get_str(DebugStrOffset(*it)).unwrap());
    offsets.iter().fold(0, |sum, it| sum + len(it) as u64)
}

#[inline(never)]
fn str_offsets(section: Bytes, indices: Places) -> u64 {
    let section = DebugStrOffsets::from(EndianSlice::new(section, LittleEndian));
    let (format, base) = (Format::Dwarf32, DebugStrOffsetsBase(8));
    let found = |it: &usize| section.get_str_offset(format, base, DebugStrOffsetsIndex(*it)).unwrap().0;
    indices.iter().fold(0u64, |sum, it| sum.wrapping_add(found(it) as u64))
}

#[inline(never)]
fn addresses(section: Bytes, indices: Places) -> u64 {
    let section = DebugAddr::from(EndianSlice::new(section, LittleEndian));
    let found = |it: &usize| section.get_address(8, DebugAddrBase(8), DebugAddrIndex(*it)).unwrap();
    indices.iter().fold(0u64, |sum, it| sum.wrapping_add(found(it)))
}

/// What reads these tables, with this many declarations.
fn reading(name: String, count: usize, s: Bytes, o: Places) -> Workload {
    let ours = move || unsafe { compare_tables(s.as_ptr(), s.len(), o.as_ptr(), o.len()) };
    Workload { is_same: false, ..workload(name, count, move || tables(s, o), ours) }
}

/// Where a table is, and its codes as they rise.
type Table = (usize, Vec<u64>);

/// The calls of the crate for Rust that read tables, by their names. Each returns how many it has read.
const BY_CRATE: [(&str, fn(Bytes, Places) -> u64); 3] = [
    ("`tables`", |s, o| dwarf_read::tables(s).take(o.len()).filter(|it| it.is_ok()).count() as u64),
    ("`Table::read`", |s, o| o.iter().filter(|it| dwarf_read::Table::read(s, **it).is_ok()).count() as u64),
    ("`Table::read_again`", |s, o| {
        let mut table = dwarf_read::Table::default();
        o.iter().filter(|it| table.read_again(s, **it).is_ok()).count() as u64
    }),
];

/// What reads and looks at a section's tables, and what reads them by the call for C and by the crate for Rust.
fn of_calls(name: &str, section: Vec<u8>, given: Vec<Table>, all: &mut Vec<Workload>) {
    let count = given.iter().map(|it| it.1.len()).sum();
    let (s, o) = of_tables(name, section, given, all);
    // The arrays are made once for the section.
    let ours = move || {
        let mut room = Room::default();
        o.iter().filter(|it| room.read(s, **it).is_ok()).count() as u64
    };
    let by_c = format!("a declaration of a table by the call for C, {name}");
    all.push(workload(by_c, count, move || tables(s, o), ours));
    for (call, read) in BY_CRATE {
        let by_crate = format!("a declaration of a table by {call} for Rust, {name}");
        all.push(workload(by_crate, count, move || tables(s, o), move || read(s, o)));
    }
}

/// What reads and looks at a section's tables. Returns the section and where they are.
fn of_tables(name: &str, section: Vec<u8>, given: Vec<Table>, all: &mut Vec<Workload>) -> (Bytes, Places) {
    let offsets: Vec<usize> = given.iter().map(|it| it.0).collect();
    let (s, o): (Bytes, Places) = (section.leak(), offsets.leak());
    let walk_all =
        move || o.iter().map(|it| unsafe { compare_walk(s.as_ptr(), s.len(), *it) }).fold(0, u64::wrapping_add);
    let count = given.iter().map(|it| it.1.len()).sum();
    // Nearly all of the codes that `get_sum` looks up are in such a table.
    let is_dense = matches!(&given[..], [(0, codes)] if codes.len() as u64 == CODES && codes[0] < 3);
    all.push(reading(format!("a declaration of a table, {name}"), count, s, o));
    let theirs = move || given.iter().map(|it| walk(s, it.0, &it.1)).fold(0, u64::wrapping_add);
    all.push(workload(format!("a declaration read and looked at, {name}"), count, theirs, walk_all));
    if is_dense {
        let (name, count) = (format!("`Abbreviations::get`, {name}"), (CODES * ROUNDS) as usize);
        let ours = move || unsafe { compare_get_sum(s.as_ptr(), s.len(), 0, CODES, ROUNDS) };
        all.push(workload(name, count, move || get_sum(s), ours));
    }
    (s, o)
}

/// The codes from 2 on at random. As code 1 is missing, none of them is in the vector of codes that count up.
fn at_random(random: &mut Random) -> Vec<u64> {
    let mut codes: Vec<u64> = (2..CODES + 2).collect();
    for i in (1..codes.len()).rev() {
        codes.swap(i, random.below(i + 1));
    }
    codes
}

fn all_of_tables(random: &mut Random, all: &mut Vec<Workload>) {
    let orders: [(&str, Vec<u64>); 5] = [
        ("codes that rise from 1", (1..=CODES).collect()),
        ("codes that fall", (1..=CODES).rev().collect()),
        ("codes that rise with gaps", (1..=CODES).map(|it| it * 0x1_0000_0001).collect()),
        ("codes shuffled", (1..=CODES).map(|it| 2 + it * 2089 % CODES).collect()),
        ("codes at random", at_random(random)),
    ];
    for (name, mut codes) in orders {
        let mut section = vec![];
        shaped_table(random, codes.iter().copied(), &mut section);
        codes.sort();
        of_calls(name, section, vec![(0, codes)], all);
    }
    let (mut small, mut tables) = (vec![], vec![]);
    for _ in 0..400 {
        let count = 5 + random.below(20) as u64;
        tables.push((small.len(), (1..=count).collect()));
        shaped_table(random, 1..=count, &mut small);
    }
    of_calls("small tables", small, tables, all);
}

fn all_of_numbers(random: &mut Random, all: &mut Vec<Workload>) {
    let (mut any, mut one, mut signed, mut one_signed, mut halves) = (vec![], vec![], vec![], vec![], vec![]);
    for _ in 0..NUMBERS {
        let value = random.next() >> random.below(64);
        put_unsigned(&mut any, value);
        let bound = if random.below(100) < 85 { 128 } else { 1 << 14 };
        put_unsigned(&mut one, random.below(bound) as u64);
        put_signed(&mut one_signed, random.below(bound) as i64 - bound as i64 / 2);
        put_signed(&mut signed, if random.below(2) == 0 { value as i64 } else { (value as i64).wrapping_neg() });
        put_unsigned(&mut halves, (random.below(1 << 16) >> random.below(16)) as u64);
    }
    let (any, one, halves): (Bytes, Bytes, Bytes) = (any.leak(), one.leak(), halves.leak());
    let (signed, one_signed): (Bytes, Bytes) = (signed.leak(), one_signed.leak());
    let mut add = |name: &str, bytes: Bytes, gimli: fn(Bytes) -> u64, ours: Loop| {
        let ours = move || unsafe { ours(bytes.as_ptr(), bytes.len()) };
        all.push(workload(name, NUMBERS, move || gimli(bytes), ours));
    };
    add("an unsigned number of any length", any, unsigned_sum, compare_unsigned_sum);
    add("an unsigned number mostly of one byte", one, unsigned_sum, compare_unsigned_sum);
    add("a signed number of any length", signed, signed_sum, compare_signed_sum);
    add("a signed number mostly of one byte", one_signed, signed_sum, compare_signed_sum);
    add("a number of 16 bits of any length", halves, short_sum, compare_short_sum);
    add("a number of 16 bits mostly of one byte", one, short_sum, compare_short_sum);
    add("a number skipped, of any length", any, skipped_count, compare_skipped_count);
    add("a number skipped, mostly of one byte", one, skipped_count, compare_skipped_count);
}

fn all_of_lookups(random: &mut Random, all: &mut Vec<Workload>) {
    let words: Vec<u8> = (0..1u32 << 18).flat_map(|it| it.wrapping_mul(2_654_435_761).to_le_bytes()).collect();
    let s: Bytes = words.leak();
    let mut indices =
        |size| -> Places { (0..LOOKUPS).map(|_| random.below((s.len() - 8) / size)).collect::<Vec<_>>().leak() };
    let (four, eight) = (indices(4), indices(8));
    let ours = move || unsafe { compare_str_offset_lookups(s.as_ptr(), s.len(), 8, four.as_ptr(), four.len()) };
    all.push(workload("`get_str_offset`", LOOKUPS, move || str_offsets(s, four), ours));
    let ours = move || unsafe { compare_address_lookups(s.as_ptr(), s.len(), 8, eight.as_ptr(), eight.len()) };
    all.push(workload("`get_address`", LOOKUPS, move || addresses(s, eight), ours));
}

fn of_strings(name: &str, random: &mut Random, section: Vec<u8>, all: &mut Vec<Workload>) {
    let s: Bytes = section.leak();
    let ends = s.iter().enumerate().filter(|it| *it.1 == 0).map(|it| it.0 + 1);
    let mut starts: Vec<usize> = std::iter::once(0).chain(ends).collect();
    starts.pop();
    if starts.is_empty() {
        return;
    }
    let o: Places = (0..50_000).map(|_| starts[random.below(starts.len())]).collect::<Vec<_>>().leak();
    let ours = move || unsafe { compare_strings(s.as_ptr(), s.len(), o.as_ptr(), o.len()) };
    all.push(workload(format!("`get_str`, {name}"), o.len(), move || strings(s, o), ours));
}

/// A sum of what the headers of the sets have, or of their addresses.
#[cfg(gimli_0_34)]
#[inline(never)]
pub fn sets_sum<const IS_OF_ENTRIES: bool>(section: &[u8]) -> gimli::Result<u64> {
    let mut sum = 0u64;
    let mut headers = DebugAddr::from(EndianSlice::new(section, LittleEndian)).headers();
    while let Some(header) = headers.next()? {
        if IS_OF_ENTRIES {
            let mut entries = header.entries();
            while let Some(address) = entries.next()? {
                sum = sum.wrapping_add(address);
            }
        } else {
            let size = header.encoding().address_size;
            sum = sum.wrapping_add(header.length() as u64 + header.offset().0 as u64 + u64::from(size));
        }
    }
    Ok(sum)
}

/// The length, the address size and the addresses of the next set, by gimli's calls for words: this version reads no
/// sets.
#[cfg(not(gimli_0_34))]
fn next_set(left: &mut Input) -> gimli::Result<(usize, u8, Input)> {
    let (length, _) = left.read_initial_length()?;
    let mut set = left.split(length)?;
    if set.read_u16()? != 5 {
        return Err(gimli::Error::UnknownVersion(0));
    }
    let size = set.read_u8()?;
    match (size, set.read_u8()?) {
        (1 | 2 | 4 | 8, 0) => Ok((length, size, set)),
        _ => Err(gimli::Error::UnsupportedAddressSize(size)),
    }
}

#[cfg(not(gimli_0_34))]
#[inline(never)]
fn sets_sum<const IS_OF_ENTRIES: bool>(section: Bytes) -> gimli::Result<u64> {
    let (mut left, mut sum) = (EndianSlice::new(section, LittleEndian), 0u64);
    while !Reader::is_empty(&left) {
        let offset = section.len() - Reader::len(&left);
        let (length, size, mut set) = next_set(&mut left)?;
        if !IS_OF_ENTRIES {
            sum = sum.wrapping_add(length as u64 + offset as u64 + u64::from(size));
        }
        while IS_OF_ENTRIES && !Reader::is_empty(&set) {
            sum = sum.wrapping_add(set.read_address(size)?);
        }
    }
    Ok(sum)
}

fn all_of_sets(random: &mut Random, all: &mut Vec<Workload>) {
    for (name, count, most) in [("small sets", 20_000, 4), ("large sets", 300, 800)] {
        let (made, entries) = made_sets(random, count, most);
        let s: Bytes = made.leak();
        let mut add = |what: &str, operations, gimli: fn(Bytes) -> gimli::Result<u64>, ours: Loop| {
            let ours = move || unsafe { ours(s.as_ptr(), s.len()) };
            all.push(workload(format!("{what}, {name}"), operations, move || gimli(s).unwrap(), ours));
        };
        add("the header of a set", count, sets_sum::<false>, compare_headers);
        add("an address of a set", entries, sets_sum::<true>, compare_addresses);
    }
}

/// The sum of the offsets at which the tables of units begin.
#[cfg(not(gimli_0_34))]
#[inline(never)]
fn units_sum(section: Bytes) -> gimli::Result<u64> {
    let (mut units, mut sum) = (gimli::DebugInfo::new(section, LittleEndian).units(), 0u64);
    while let Some(unit) = units.next()? {
        sum = sum.wrapping_add(unit.debug_abbrev_offset().0 as u64);
    }
    Ok(sum)
}

/// The library reads units as gimli 0.27 does, and is compared with that.
#[cfg(gimli_0_34)]
fn all_of_units(_all: &mut Vec<Workload>) {}

#[cfg(not(gimli_0_34))]
fn all_of_units(all: &mut Vec<Workload>) {
    extern "C" {
        fn compare_unit_headers(bytes: Byte, len: usize) -> u64;
    }
    let count = 100_000;
    let s: Bytes = crate::made::made_units(count).leak();
    let ours = move || unsafe { compare_unit_headers(s.as_ptr(), s.len()) };
    all.push(workload("the header of a unit", count as usize, move || units_sum(s).unwrap(), ours));
}

/// What reads or skips the attributes of all entries: a sum of tags, and of the names and values that are read. Bytes
/// count as how many there are.
#[cfg(not(gimli_0_34))]
#[inline(never)]
fn entries_sum<const SKIPS: bool>(info: Bytes, abbrev: Bytes) -> gimli::Result<u64> {
    let tables = DebugAbbrev::new(abbrev, LittleEndian);
    let (mut units, mut sum) = (gimli::DebugInfo::new(info, LittleEndian).units(), 0u64);
    while let Some(unit) = units.next()? {
        let table = tables.abbreviations(unit.debug_abbrev_offset())?;
        let mut entries = unit.entries_raw(&table, None)?;
        while !entries.is_empty() {
            let found = match entries.read_abbreviation()? {
                Some(found) => found,
                None => continue,
            };
            sum = sum.wrapping_add(found.tag().0.into());
            if SKIPS {
                entries.skip_attributes(found.attributes())?;
                continue;
            }
            for spec in found.attributes() {
                let it = entries.read_attribute(*spec)?;
                sum = sum.wrapping_add(number_of(it.raw_value())).wrapping_add(it.name().0.into());
            }
        }
    }
    Ok(sum)
}

/// What a value counts as.
#[cfg(not(gimli_0_34))]
#[inline(always)]
fn number_of(value: gimli::AttributeValue<Input>) -> u64 {
    use gimli::AttributeValue::*;
    match value {
        Addr(x) | Data8(x) | Udata(x) => x,
        Block(x) | String(x) => Reader::len(&x) as u64,
        Exprloc(x) => Reader::len(&x.0) as u64,
        Data1(x) => x.into(),
        Data2(x) => x.into(),
        Data4(x) => x.into(),
        Sdata(x) => x as u64,
        Flag(x) => x.into(),
        SecOffset(x) => x as u64,
        UnitRef(x) => x.0 as u64,
        DebugInfoRef(x) | DebugInfoRefSup(x) => x.0 as u64,
        DebugTypesRef(x) => x.0,
        DebugStrRef(x) | DebugStrRefSup(x) => x.0 as u64,
        DebugLineStrRef(x) => x.0 as u64,
        DebugStrOffsetsIndex(x) => x.0 as u64,
        DebugAddrIndex(x) => x.0 as u64,
        DebugLocListsIndex(x) => x.0 as u64,
        DebugRngListsIndex(x) => x.0 as u64,
        _ => 0,
    }
}

/// How many entries all units have, and how many attributes.
#[cfg(not(gimli_0_34))]
fn counts_of_entries(info: Bytes, abbrev: Bytes) -> gimli::Result<(usize, usize)> {
    let tables = DebugAbbrev::new(abbrev, LittleEndian);
    let (mut units, mut count, mut attributes) = (gimli::DebugInfo::new(info, LittleEndian).units(), 0, 0);
    while let Some(unit) = units.next()? {
        let table = tables.abbreviations(unit.debug_abbrev_offset())?;
        let mut entries = unit.entries_raw(&table, None)?;
        while !entries.is_empty() {
            count += 1;
            if let Some(found) = entries.read_abbreviation()? {
                attributes += found.attributes().len();
                entries.skip_attributes(found.attributes())?;
            }
        }
    }
    Ok((count, attributes))
}

/// Entries, with their tables, are read as gimli 0.27 does it, too.
#[cfg(gimli_0_34)]
fn of_entries(_name: &str, _abbrev: Bytes, _info: Bytes, _all: &mut Vec<Workload>) {}

#[cfg(not(gimli_0_34))]
fn of_entries(name: &str, abbrev: Bytes, info: Bytes, all: &mut Vec<Workload>) {
    extern "C" {
        fn compare_entries_read(info: Byte, info_len: usize, abbrev: Byte, abbrev_len: usize) -> u64;
        fn compare_entries_skipped(info: Byte, info_len: usize, abbrev: Byte, abbrev_len: usize) -> u64;
    }
    let (entries, attributes) = match counts_of_entries(info, abbrev) {
        Ok(counts) => counts,
        Err(error) => return eprintln!("compare: the entries of {name} are left out: gimli says {error:?}"),
    };
    let (i, n, a, m) = (info.as_ptr() as usize, info.len(), abbrev.as_ptr() as usize, abbrev.len());
    let ours = move || unsafe { compare_entries_read(i as Byte, n, a as Byte, m) };
    let gimli = move || entries_sum::<false>(info, abbrev).unwrap();
    all.push(workload(format!("an attribute of an entry, {name}"), attributes, gimli, ours));
    let ours = move || unsafe { compare_entries_skipped(i as Byte, n, a as Byte, m) };
    let gimli = move || entries_sum::<true>(info, abbrev).unwrap();
    all.push(workload(format!("an entry skipped, {name}"), entries, gimli, ours));
}

fn made_strings(random: &mut Random) -> Vec<u8> {
    let mut text = vec![];
    for _ in 0..40_000 {
        for _ in 0..[4, 8, 8, 12, 20, 40, 90, 200][random.below(8)] {
            text.push(b'a' + random.below(26) as u8);
        }
        text.push(0);
    }
    text
}

/// The workloads: of the tables and strings of files, if there are any, and otherwise of inputs that are made.
pub fn workloads(sections: &[(String, String, Vec<u8>)]) -> Vec<Workload> {
    let (mut random, mut all) = (Random(88_172_645_463_325_252), vec![]);
    for (name, kind, bytes) in sections {
        let name = name.rsplit('/').next().unwrap_or_default();
        match kind.as_str() {
            "debug_abbrev" => of_calls(name, bytes.clone(), plain::tables(bytes), &mut all),
            "debug_str" => of_strings(&format!("strings of {name}"), &mut random, bytes.clone(), &mut all),
            kind if kind.starts_with("entries ") => {
                let more = entries_after(kind).unwrap_or(0);
                let both: Bytes = bytes.clone().leak();
                let (abbrev, info) = both.split_at(more.min(both.len()));
                of_entries(name, abbrev, info, &mut all);
            }
            _ => {}
        }
    }
    if sections.is_empty() {
        all_of_tables(&mut random, &mut all);
        all_of_numbers(&mut random, &mut all);
        all_of_lookups(&mut random, &mut all);
        all_of_sets(&mut random, &mut all);
        all_of_units(&mut all);
        let (abbrev, info) = made_entries(&mut random, 4000);
        of_entries("made-up units", abbrev.leak(), info.leak(), &mut all);
        let made = made_strings(&mut random);
        of_strings("made-up strings", &mut random, made, &mut all);
    }
    all
}

/// The workload of one table with this many codes, which fall, have gaps, or rise from 1.
pub fn of_table(kind: &str, count: u64) -> Vec<Workload> {
    let codes = (1..=count).map(|it| match kind {
        "falling" => count + 1 - it,
        "gaps" => it * 0x1_0000_0001,
        _ => it,
    });
    let mut section = vec![];
    shaped_table(&mut Random(88_172_645_463_325_252), codes, &mut section);
    vec![reading(kind.into(), count as usize, section.leak(), &[0])]
}

/// What is measured.
#[derive(Clone, Copy)]
pub enum Measured {
    Time,
    /// One call of each side, which valgrind counts.
    Calls,
    /// The memory that one side touches first.
    Touched {
        is_ours: bool,
    },
}

#[no_mangle]
#[inline(never)]
extern "C" fn gimli_counted(workload: &Workload) {
    hidden((workload.gimli)());
}

#[no_mangle]
#[inline(never)]
extern "C" fn ours_counted(workload: &Workload) {
    hidden((workload.ours)());
}

/// Nanoseconds of an operation of either side by turns, and the quartiles and the median of the ratios of neighbours.
fn turns(workload: &Workload) -> String {
    let (mut left, mut right, mut ratios) = (vec![], vec![], vec![]);
    for sample in 0..if workload.operations < 1_000_000 { 31 } else { 3 } {
        let is_first = sample % 2 == 0;
        let early = nanos_of(if is_first { &workload.gimli } else { &workload.ours }, 3);
        let late = nanos_of(if is_first { &workload.ours } else { &workload.gimli }, 3);
        let (gimli, ours) = if is_first { (early, late) } else { (late, early) };
        left.push(gimli / workload.operations as f64);
        right.push(ours / workload.operations as f64);
        ratios.push(ours / gimli);
    }
    for list in [&mut left, &mut right, &mut ratios] {
        list.sort_by(f64::total_cmp);
    }
    let at = |list: &[f64], part: usize| list[(list.len() - 1) * part / 4];
    let (low, middle, high) = (at(&ratios, 1), at(&ratios, 2), at(&ratios, 3));
    format!("{}\t{}\t{low}\t{middle}\t{high}", at(&left, 2), at(&right, 2))
}

/// Prints a line of each workload: its name, its operations, and if it is timed the nanoseconds of an operation of
/// either side, the lower quartile, the median and the upper quartile of the ratios of neighbouring turns, and the page
/// faults of either side.
pub fn measure(all: &[Workload], what: Measured) -> Result<(), String> {
    for workload in all {
        let (name, operations) = (&workload.name, workload.operations);
        if let Measured::Touched { is_ours } = what {
            // Both have run before, so that their code is in memory.
            let small = &of_table("rising", 1)[0];
            hidden((small.gimli)() + (small.ours)());
            println!("{}", touched_bytes(if is_ours { &workload.ours } else { &workload.gimli }));
            continue;
        }
        let (gimli, ours) = ((workload.gimli)(), (workload.ours)());
        if workload.is_same && gimli != ours {
            return Err(format!("{name}: gimli's sum is {gimli}, and the library's {ours}"));
        }
        if let Measured::Time = what {
            let faults = [page_faults(&workload.gimli), page_faults(&workload.ours)];
            println!("{name}\t{operations}\t{}\t{}\t{}", turns(workload), faults[0], faults[1]);
        } else {
            gimli_counted(workload);
            ours_counted(workload);
            println!("{name}\t{operations}");
        }
    }
    Ok(())
}
