//! Inputs that are made: what is well formed, what nearly is, and what isn't.

use crate::question::{Question, What};

/// A generator of numbers that a seed determines (splitmix64).
pub struct Random(pub u64);

impl Random {
    pub fn next(&mut self) -> u64 {
        self.0 = self.0.wrapping_add(0x9e37_79b9_7f4a_7c15);
        let mut mixed = self.0;
        mixed = (mixed ^ mixed >> 30).wrapping_mul(0xbf58_476d_1ce4_e5b9);
        mixed = (mixed ^ mixed >> 27).wrapping_mul(0x94d0_49bb_1331_11eb);
        mixed ^ mixed >> 31
    }

    pub fn below(&mut self, bound: usize) -> usize {
        (self.next() % bound as u64) as usize
    }

    /// Whether one of this many equally likely cases comes up.
    fn one_of(&mut self, count: usize) -> bool {
        self.below(count) == 0
    }

    fn pick<T: Copy>(&mut self, from: &[T]) -> T {
        from[self.below(from.len())]
    }

    /// A number of any length, with many at the edges of a length.
    fn number(&mut self) -> u64 {
        let value = self.next() >> self.below(64);
        match self.below(8) {
            0 => (1 << self.below(64)) - 1,
            1 => 1 << self.below(64),
            2 => u64::MAX - self.below(3) as u64,
            3 => self.below(3) as u64,
            _ => value,
        }
    }

    fn bytes(&mut self, count: usize) -> Vec<u8> {
        (0..count).map(|_| self.next() as u8).collect()
    }
}

pub fn put_unsigned(to: &mut Vec<u8>, mut value: u64) {
    while value >= 128 {
        to.push(value as u8 | 128);
        value >>= 7;
    }
    to.push(value as u8);
}

pub fn put_signed(to: &mut Vec<u8>, mut value: i64) {
    while !(-64..64).contains(&value) {
        to.push(value as u8 | 128);
        value >>= 7;
    }
    to.push(value as u8 & 0x7f);
}

/// Makes a number longer by bytes that say nothing.
fn pad(random: &mut Random, to: &mut Vec<u8>, is_negative: bool) {
    let last = to.len() - 1;
    to[last] |= 128;
    for _ in 0..random.below(3) {
        to.push(if is_negative { 0xff } else { 0x80 });
    }
    to.push(if is_negative { 0x7f } else { 0 });
}

fn unsigned(random: &mut Random, to: &mut Vec<u8>, value: u64) {
    put_unsigned(to, value);
    if random.one_of(40) {
        pad(random, to, false);
    }
}

/// Bytes as those of a number of any length up to 13, also of one that doesn't end.
fn digits(random: &mut Random) -> Vec<u8> {
    // (the limits are three bytes and ten)
    let count = if random.one_of(2) { random.pick(&[2, 3, 4, 9, 10, 10, 11]) } else { random.below(14) };
    let mut bytes = random.bytes(count);
    for byte in bytes.iter_mut() {
        *byte |= 128;
        if random.one_of(6) {
            *byte = random.pick(&[0x80, 0xff, 0x81, 0xfe, 0xc0, 0xbf]);
        }
    }
    if count != 0 && !random.one_of(8) {
        let end = random.pick(&[0, 1, 2, 3, 4, 0x3f, 0x40, 0x7e, 0x7f, 0x55]);
        bytes[count - 1] = end;
    }
    // What follows a number doesn't matter.
    if random.one_of(4) {
        let more = random.below(4);
        bytes.extend(random.bytes(more));
    }
    bytes
}

/// The next code of a table, of a kind.
fn code(random: &mut Random, kind: usize, index: u64, count: u64) -> u64 {
    match kind {
        0 => index + 1,
        1 => count - index,
        2 => (index + 1).wrapping_mul(0x1_0000_0001),
        3 => random.number().max(1),
        // Some are there twice.
        _ => 1 + random.below(2 * count as usize + 1) as u64,
    }
}

fn attribute(random: &mut Random, to: &mut Vec<u8>) {
    let name = if random.one_of(20) { random.number() & 0xffff } else { random.below(0x8d) as u64 };
    unsigned(random, to, name.max(1));
    let form = if random.one_of(20) { random.number() & 0xffff } else { random.below(0x2d) as u64 };
    let form = if random.one_of(6) { 0x21 } else { form.max(1) };
    unsigned(random, to, form);
    if form == 0x21 {
        let value = random.number() as i64;
        put_signed(to, value);
        if random.one_of(20) {
            pad(random, to, value < 0);
        }
    }
}

/// A table, and the codes of its declarations.
fn table(random: &mut Random, to: &mut Vec<u8>) -> Vec<u64> {
    let (kind, count) = (random.below(5), [1, 2, 3, 5, 9, 30][random.below(6)]);
    let mut codes = Vec::new();
    for index in 0..count {
        let code = code(random, kind, index, count);
        codes.push(code);
        unsigned(random, to, code);
        let tag = if random.one_of(20) { random.number() & 0xffff } else { random.below(0x4b) as u64 };
        unsigned(random, to, tag.max(1));
        to.push(random.below(2) as u8);
        for _ in 0..random.pick(&[0, 1, 2, 3, 4, 5, 6, 7, 12]) {
            attribute(random, to);
        }
        to.extend([0, 0]);
    }
    // (without a code of value 0, the end of the section closes the table)
    if !random.one_of(4) {
        unsigned(random, to, 0);
    }
    codes
}

/// Changes some bytes, or how many there are.
fn mutate(random: &mut Random, bytes: &mut Vec<u8>) {
    match random.below(8) {
        0 | 1 => bytes.truncate(random.below(bytes.len() + 1)),
        2 | 3 if !bytes.is_empty() => {
            let at = random.below(bytes.len());
            bytes[at] =
                if random.one_of(2) { random.pick(&[0, 1, 2, 0x21, 0x7f, 0x80, 0xff]) } else { random.next() as u8 };
        }
        4 if !bytes.is_empty() => {
            bytes.remove(random.below(bytes.len()));
        }
        5 => bytes.insert(random.below(bytes.len() + 1), random.pick(&[0, 1, 0x80, 0xff])),
        6 => {
            let more = random.below(12);
            bytes.extend(random.bytes(more));
        }
        _ => {}
    }
}

/// A section of tables or of short bytes of which tables are made, an offset, and codes that are in it.
fn abbreviations(random: &mut Random) -> (Vec<u8>, usize, Vec<u64>) {
    let (mut bytes, mut codes, mut offset) = (Vec::new(), Vec::new(), 0);
    if random.one_of(4) {
        let count = random.below(14);
        let alphabet = [0, 0, 0, 1, 1, 2, 3, 0x21, 0x7f, 0x80, 0x81, 0xff];
        bytes = (0..count).map(|_| random.pick(&alphabet)).collect();
    } else {
        for _ in 0..random.pick(&[1, 1, 1, 2, 3]) {
            offset = bytes.len();
            codes = table(random, &mut bytes);
        }
        mutate(random, &mut bytes);
    }
    if random.one_of(6) {
        offset = random.below(bytes.len() + 3);
    } else if random.one_of(100) {
        offset = usize::MAX;
    }
    (bytes, offset, codes)
}

fn of_tables(random: &mut Random) -> (Question, Vec<u8>) {
    let (bytes, offset, mut codes) = abbreviations(random);
    let mut question = Question::new(What::Table, offset);
    match random.below(9) {
        0 | 1 => question.what = What::Strict,
        8 => {
            let offsets = (0..1 + random.below(5)).map(|_| random.pick(&[offset, offset, 0, 1]) as u64);
            question = Question { list: offsets.collect(), ..Question::new(What::Cached, 0) };
        }
        2 | 3 => question = Question { what: What::Grown, more: random.below(bytes.len() + 1), ..question },
        4 => {
            let more = codes.iter().map(|it| it.wrapping_add(1)).collect::<Vec<_>>();
            codes.extend(more);
            codes.extend([0, 1, u64::MAX, random.number()]);
            question = Question { what: What::Found, list: codes, ..question };
        }
        _ => {}
    }
    (question, bytes)
}

/// A number that may be an offset or an index into this many bytes.
fn place(random: &mut Random, len: usize) -> usize {
    match random.below(8) {
        0 => random.number() as usize,
        1 => len + random.below(3),
        2 => usize::MAX / random.pick(&[1, 2, 4, 8]) + random.below(2) * random.below(2),
        3 => 0,
        _ => random.below(len + 1),
    }
}

fn of_lookups(random: &mut Random) -> (Question, Vec<u8>) {
    let count = random.below(72);
    let bytes = random.bytes(count);
    let (base, is_big) = (place(random, count), random.one_of(2));
    let index = if random.one_of(2) { random.below(10) } else { place(random, count) };
    let (what, size) = match random.below(4) {
        0 | 1 => (What::StrOffset, random.pick(&[4, 8])),
        2 if random.one_of(2) => (What::Address, random.next() as u8 >> random.below(8)),
        _ => (What::Address, random.pick(&[1, 2, 4, 8])),
    };
    let question = Question { is_big, size, more: index, ..Question::new(what, base) };
    (question, bytes)
}

fn of_strings(random: &mut Random) -> (Question, Vec<u8>) {
    let count = random.pick(&[0, 1, 7, 8, 9, 20, 64, 200]);
    let mut bytes: Vec<u8> = random.bytes(count).iter().map(|it| (*it).max(1)).collect();
    for _ in 0..random.below(4) {
        if !bytes.is_empty() {
            let at = random.below(bytes.len());
            bytes[at] = 0;
        }
    }
    let offset = place(random, count);
    (Question::new(What::Text, offset), bytes)
}

fn put(to: &mut Vec<u8>, value: u64, size: usize, is_big: bool) {
    let bytes = value.to_le_bytes();
    to.extend((0..size).map(|i| bytes[if is_big { size - 1 - i } else { i }]));
}

/// A set, of either kind: the third and fourth byte after the length are the two sizes, or padding.
fn set(random: &mut Random, to: &mut Vec<u8>, is_big: bool) {
    let size = if random.one_of(12) { random.below(20) } else { random.pick(&[1, 2, 4, 8, 8, 4]) };
    let entries = random.below(5) * size + if random.one_of(6) { random.below(8) } else { 0 };
    let mut length = 4 + entries as u64;
    if random.one_of(12) {
        length = random.number() & random.pick(&[7, 0xff, u64::MAX]);
    }
    if random.one_of(3) {
        put(to, 0xffff_ffff, 4, is_big);
        put(to, length, 8, is_big);
    } else {
        let reserved = random.pick(&[0xffff_ffef, 0xffff_fff0, 0xffff_fff1, 0xffff_fffe]);
        put(to, if random.one_of(10) { reserved } else { length & 0xffff_ffff }, 4, is_big);
    }
    put(to, if random.one_of(12) { random.below(7) as u64 } else { 5 }, 2, is_big);
    to.push(size as u8);
    to.push(if random.one_of(12) { random.next() as u8 } else { 0 });
    to.extend(random.bytes(entries));
}

fn of_sets(random: &mut Random) -> (Question, Vec<u8>) {
    let (mut bytes, mut offset, kind) = (Vec::new(), 0, random.below(3));
    // (all sets at once are in one order)
    let is_big = kind != 2 && random.one_of(2);
    for _ in 0..random.pick(&[1, 1, 2, 3]) {
        offset = bytes.len();
        set(random, &mut bytes, is_big);
    }
    if random.one_of(3) {
        mutate(random, &mut bytes);
    }
    if random.one_of(6) {
        offset = place(random, bytes.len());
    }
    let question = match kind {
        0 | 1 => Question { is_big, ..Question::new([What::AddressSet, What::StrOffsetSet][kind], offset) },
        _ => Question::new(What::Addresses, 0),
    };
    (question, bytes)
}

/// A unit. Its entries are fewer than ten bytes, or as many as are missing of a longer header.
fn unit(random: &mut Random, to: &mut Vec<u8>, is_big: bool) {
    let (word, mut unit) = (random.pick(&[4, 4, 8]), vec![]);
    let version = if random.one_of(12) { random.next() >> random.below(64) } else { random.pick(&[2, 3, 4, 5, 5, 5]) };
    let kind = if random.one_of(12) { random.next() as u8 } else { 1 + random.below(6) as u8 };
    let size = if random.one_of(12) { random.next() as u8 >> random.below(8) } else { random.pick(&[1, 2, 4, 8]) };
    put(&mut unit, version, 2, is_big);
    if version & 0xffff == 5 {
        unit.extend([kind, size]);
    }
    put(&mut unit, random.number(), word, is_big);
    if version & 0xffff != 5 {
        unit.push(size);
    }
    let entries = random.pick(&[0, 7, 8, 11, 12, 15, 16]) + random.below(10);
    unit.extend(random.bytes(entries));
    let length = if random.one_of(12) { random.number() & random.pick(&[31, u64::MAX]) } else { unit.len() as u64 };
    if word == 8 {
        put(to, 0xffff_ffff, 4, is_big);
    }
    put(to, length, word, is_big);
    to.extend(unit);
}

fn of_units(random: &mut Random) -> (Question, Vec<u8>) {
    let (mut bytes, mut offset, is_big) = (Vec::new(), 0, random.one_of(2));
    for _ in 0..random.pick(&[1, 1, 2, 3, 6]) {
        offset = bytes.len();
        unit(random, &mut bytes, is_big);
    }
    if random.one_of(3) {
        mutate(random, &mut bytes);
    }
    if random.one_of(6) {
        offset = place(random, bytes.len());
    }
    let what = random.pick(&[What::InfoUnits, What::TypesUnits, What::UnitAt]);
    let at = if what == What::UnitAt { offset } else { 0 };
    (Question { is_big, ..Question::new(what, at) }, bytes)
}

/// The forms of values, one that is unknown, and that of a value whose form is in the entry.
const FORMS: [u16; 48] = [
    0x01, 0x03, 0x04, 0x05, 0x06, 0x07, 0x08, 0x09, 0x0a, 0x0b, 0x0c, 0x0d, 0x0e, 0x0f, 0x10, 0x11, 0x12, 0x13, 0x14,
    0x15, 0x16, 0x17, 0x18, 0x19, 0x1a, 0x1b, 0x1c, 0x1d, 0x1e, 0x1f, 0x20, 0x21, 0x22, 0x23, 0x24, 0x25, 0x26, 0x27,
    0x28, 0x29, 0x2a, 0x2b, 0x2c, 0x2d, 0x1f01, 0x1f02, 0x1f20, 0x1f21,
];

/// What the values of a unit depend on.
struct Encoding {
    is_big: bool,
    version: u64,
    size: usize,
    word: usize,
}

/// A value of a form.
fn value(random: &mut Random, to: &mut Vec<u8>, form: u16, unit: &Encoding) {
    let count = random.below(5);
    let size = match form {
        0x16 => {
            let form = random.pick(&FORMS);
            unsigned(random, to, form.into());
            return value(random, to, form, unit);
        }
        0x03 | 0x04 | 0x0a => {
            put(to, count as u64, [2, 4, 1][usize::from(form) % 7 % 3], unit.is_big);
            count
        }
        0x09 | 0x18 => {
            unsigned(random, to, count as u64);
            count
        }
        0x08 => {
            to.extend(random.bytes(count).iter().map(|it| (*it).max(1)));
            return to.push(0);
        }
        0x0d | 0x0f | 0x15 | 0x1a | 0x1b | 0x22 | 0x23 | 0x1f01 | 0x1f02 => {
            let number = random.number();
            return unsigned(random, to, if form == 0x0d { number >> 2 } else { number });
        }
        0x01 => unit.size,
        0x10 if unit.version == 2 => unit.size,
        0x0e | 0x10 | 0x17 | 0x1d | 0x1f | 0x1f20 | 0x1f21 => unit.word,
        0x19 | 0x21 | 0x2d => 0,
        0x05 | 0x12 | 0x26 | 0x2a => 2,
        0x27 | 0x2b => 3,
        0x06 | 0x13 | 0x1c | 0x28 | 0x2c => 4,
        0x07 | 0x14 | 0x20 | 0x24 => 8,
        0x1e => 16,
        _ => 1,
    };
    to.extend(random.bytes(size));
}

/// Declarations with codes from 1 on, and the forms of each.
fn declared(random: &mut Random, to: &mut Vec<u8>) -> Vec<Vec<u16>> {
    let mut all = vec![];
    for code in 1..=1 + random.below(4) as u8 {
        to.extend([code, 0x11, code & 1]);
        let forms: Vec<u16> = (0..random.below(5)).map(|_| random.pick(&FORMS)).collect();
        for form in &forms {
            let name = random.pick(&[0x02, 0x03, 0x10, 0x13, 0x19, 0x2c, 0x38, 0x55, 0x79]);
            to.push(name);
            put_unsigned(to, (*form).into());
            if *form == 0x21 {
                put_signed(to, random.next() as i64 >> 40);
            }
        }
        to.extend([0, 0]);
        all.push(forms);
    }
    to.push(0);
    all
}

/// A unit of entries that have these forms.
fn unit_of(random: &mut Random, to: &mut Vec<u8>, is_big: bool, declared: &[Vec<u16>]) {
    let (size, word) = (random.pick(&[1, 2, 4, 8, 8]), random.pick(&[4, 4, 8]));
    let unit = Encoding { is_big, version: 2 + random.below(4) as u64, size, word };
    let (mut content, kind) = (vec![], 1 + random.below(6) as u8);
    put(&mut content, unit.version, 2, is_big);
    if unit.version == 5 {
        content.extend([kind, size as u8]);
    }
    put(&mut content, 0, word, is_big);
    match unit.version {
        5 if matches!(kind, 2 | 6) => content.extend(random.bytes(8 + word)),
        5 if matches!(kind, 4 | 5) => content.extend(random.bytes(8)),
        5 => {}
        _ => content.push(size as u8),
    }
    for _ in 0..random.below(6) {
        let code = random.below(declared.len() + 1);
        content.push(code as u8);
        if let Some(forms) = declared.get(code.wrapping_sub(1)) {
            forms.iter().for_each(|form| value(random, &mut content, *form, &unit));
        }
    }
    if word == 8 {
        put(to, 0xffff_ffff, 4, is_big);
    }
    put(to, content.len() as u64, word, is_big);
    to.extend(content);
}

fn of_entries(random: &mut Random) -> (Question, Vec<u8>) {
    let (mut bytes, mut info, is_big) = (vec![], vec![], random.one_of(2));
    let declared = declared(random, &mut bytes);
    if random.one_of(8) {
        mutate(random, &mut bytes);
    }
    let more = bytes.len();
    for _ in 0..random.pick(&[1, 1, 2]) {
        unit_of(random, &mut info, is_big, &declared);
    }
    if random.one_of(2) {
        mutate(random, &mut info);
    }
    bytes.extend(info);
    let what = random.pick(&[What::Entries, What::Entries, What::SkippedEntries]);
    (Question { is_big, more, ..Question::new(what, 0) }, bytes)
}

/// A table, and this many units of its entries, whose attributes are as compilers' ones.
pub fn made_entries(random: &mut Random, count: usize) -> (Vec<u8>, Vec<u8>) {
    const SHAPES: [&[u16]; 6] = [
        &[0x0e, 0x0b, 0x0b, 0x0b, 0x13, 0x13],
        &[0x08, 0x0b, 0x05, 0x21, 0x13],
        &[0x19, 0x0e, 0x0b, 0x0b, 0x01, 0x07, 0x18, 0x13],
        &[0x13, 0x18],
        &[0x0b, 0x0b, 0x0e],
        &[0x17, 0x1f, 0x0f, 0x0d, 0x0a],
    ];
    let (mut abbrev, mut info) = (vec![], vec![]);
    for (i, forms) in SHAPES.iter().enumerate() {
        abbrev.extend([i as u8 + 1, 0x34, 0]);
        for form in *forms {
            abbrev.extend([0x03, *form as u8]);
            abbrev.extend_from_slice(if *form == 0x21 { &[0x05] } else { &[] });
        }
        abbrev.extend([0, 0]);
    }
    abbrev.push(0);
    let unit = Encoding { is_big: false, version: 5, size: 8, word: 4 };
    for _ in 0..count {
        let mut content = vec![5, 0, 1, 8, 0, 0, 0, 0];
        for _ in 0..100 {
            let shape = random.below(SHAPES.len());
            content.push(shape as u8 + 1);
            SHAPES[shape].iter().for_each(|form| value(random, &mut content, *form, &unit));
            if random.one_of(4) {
                content.push(0);
            }
        }
        info.extend((content.len() as u32).to_le_bytes());
        info.extend(content);
    }
    (abbrev, info)
}

/// The next question and its bytes.
pub fn next(random: &mut Random) -> (Question, Vec<u8>) {
    match random.below(18) {
        0..=3 => {
            let what = random.pick(&[What::Unsigned, What::Signed, What::Short, What::Skipped]);
            (Question::new(what, 0), digits(random))
        }
        it @ (4 | 5) => {
            let what = if it == 4 { What::WrittenUnsigned } else { What::WrittenSigned };
            (Question { more: random.number() as usize, ..Question::new(what, 0) }, vec![])
        }
        6 => of_strings(random),
        7 | 8 => of_lookups(random),
        9 | 10 => of_sets(random),
        11 => of_units(random),
        12 | 13 => of_entries(random),
        _ => of_tables(random),
    }
}

/// A table with these codes, shaped as compilers' ones: 0 to 12 attributes, some with a value in the table.
pub fn shaped_table(random: &mut Random, codes: impl Iterator<Item = u64>, to: &mut Vec<u8>) {
    for code in codes {
        let tag = 1 + random.below(0x4a) as u64;
        shaped_declaration(random, code, tag, &mut |random| 1 + random.below(0x8c) as u64, to);
    }
    to.push(0);
}

fn shaped_declaration(
    random: &mut Random, code: u64, tag: u64, name: &mut dyn FnMut(&mut Random) -> u64, to: &mut Vec<u8>,
) {
    put_unsigned(to, code);
    put_unsigned(to, tag);
    to.push(random.below(2) as u8);
    for _ in 0..random.pick(&[0, 1, 2, 2, 3, 4, 4, 5, 6, 7, 8, 12]) {
        let is_rare = random.one_of(20);
        put_unsigned(to, if is_rare { 0x2110 + random.below(8) as u64 } else { name(random) });
        let form = random.pick(&[0x08, 0x0b, 0x0b, 0x0e, 0x0e, 0x13, 0x13, 0x17, 0x18, 0x19, 0x21, 0x21]);
        put_unsigned(to, form);
        if form == 0x21 {
            put_signed(to, random.below(200) as i64 - 20);
        }
    }
    to.extend([0, 0]);
}

/// Sets with fewer than `most` addresses each, and how many there are together. Each third set has addresses of four
/// bytes.
pub fn made_sets(random: &mut Random, count: usize, most: usize) -> (Vec<u8>, usize) {
    let (mut to, mut all) = (vec![], 0);
    for i in 0..count {
        let (size, entries) = (if i % 3 == 0 { 4 } else { 8 }, random.below(most));
        to.extend((4 + entries as u32 * size as u32).to_le_bytes());
        to.extend([5, 0, size as u8, 0]);
        for _ in 0..entries {
            to.extend(&random.next().to_le_bytes()[..size]);
        }
        all += entries;
    }
    (to, all)
}

/// The headers of units, of versions 4 and 5 by turns, with as many tables.
#[cfg(not(gimli_0_34))]
pub fn made_units(count: u32) -> Vec<u8> {
    let mut to = vec![];
    for i in 0..count {
        let offset = (16 * i).to_le_bytes();
        match i % 2 {
            0 => to.extend([&[7, 0, 0, 0, 4, 0], &offset[..], &[8]].concat()),
            _ => to.extend([&[8, 0, 0, 0, 5, 0, 1, 8], &offset[..]].concat()),
        }
    }
    to
}

/// Tags and attributes whose names each version of gimli has.
const TAGS: [u64; 12] = [0x01, 0x05, 0x0b, 0x0d, 0x0f, 0x11, 0x13, 0x16, 0x1d, 0x24, 0x2e, 0x34];
const ATTRIBUTES: [u64; 12] = [0x02, 0x03, 0x0b, 0x11, 0x12, 0x13, 0x1c, 0x31, 0x38, 0x3a, 0x3b, 0x49];

/// How many addresses each set of a section to be listed has.
const LISTED_ADDRESSES: u32 = 100_000;

/// A section to be listed, of at least this many bytes. `None` if there is no such kind.
pub fn listed_section(kind: &str, bytes: usize) -> Option<Vec<u8>> {
    let (mut random, mut to) = (Random(88_172_645_463_325_252), vec![]);
    match kind {
        "rising" | "gaps" => {
            let (mut code, step) = (0, if kind == "gaps" { 0x1_0000_0001 } else { 1 });
            while to.len() < bytes {
                code += step;
                let tag = random.pick(&TAGS);
                shaped_declaration(&mut random, code, tag, &mut |random| random.pick(&ATTRIBUTES), &mut to);
            }
            to.push(0);
        }
        "addresses" => {
            while to.len() < bytes {
                to.extend((4 + 8 * LISTED_ADDRESSES).to_le_bytes());
                to.extend([5, 0, 8, 0]);
                (0..LISTED_ADDRESSES).for_each(|_| to.extend((0x40_0000 + (random.next() >> 18)).to_le_bytes()));
            }
        }
        "string" | "strings" => {
            let len = if kind == "string" { bytes - 1 } else { 20 };
            while to.len() < bytes {
                to.extend((0..len).map(|_| b'a' + random.below(26) as u8));
                to.push(0);
            }
        }
        _ => return None,
    }
    Some(to)
}
