//! All short inputs: sections over a small alphabet, sets and units whose headers are nearly right, values of each form,
//! lookups in a few bytes, numbers of up to three bytes, and the edges of longer ones.

use crate::made::put_unsigned;
use crate::question::{Question, What};
use crate::tally::Tally;

const ALPHABET: [u8; 11] = [0x00, 0x01, 0x02, 0x03, 0x11, 0x21, 0x40, 0x7f, 0x80, 0x81, 0xff];
/// What a section begins with, and up to how many bytes of the alphabet follow: nothing, a head, a value, a declaration,
/// and the code of a second one.
const FRONTS: [(&[u8], u32); 6] = [
    (&[], 5),
    (&[1, 0x11, 0], 4),
    (&[1, 0x11, 0, 3, 0x21], 4),
    (&[1, 0x11, 0, 0, 0], 4),
    (&[1, 0x11, 0, 0, 0, 1], 4),
    (&[2, 0x11, 0, 0, 0, 2], 4),
];

/// All lists of bytes of an alphabet with this length.
fn lists(alphabet: &[u8], count: u32) -> impl Iterator<Item = Vec<u8>> + '_ {
    let digit = |index, i| alphabet[index / alphabet.len().pow(i) % alphabet.len()];
    (0..alphabet.len().pow(count)).map(move |index| (0..count).map(|i| digit(index, i)).collect())
}

/// Asks for the table of each section, also strictly and after each cut that it grew from, and for its string.
fn sections(tally: &mut Tally) {
    for (front, most) in FRONTS {
        for count in 0..=most {
            for after in lists(&ALPHABET, count) {
                let bytes = [front, &after[..]].concat();
                tally.ask(&Question::new(What::Table, 0), &bytes);
                tally.ask(&Question::new(What::Strict, 0), &bytes);
                tally.ask(&Question::new(What::Text, 0), &bytes);
                for before in front.len()..bytes.len() {
                    tally.ask(&Question { more: before, ..Question::new(What::Grown, 0) }, &bytes);
                }
            }
        }
    }
}

/// The lengths that sets begin with, lowest byte first: short ones, and those on either side of the reserved ones.
fn lengths() -> Vec<Vec<u8>> {
    let short = (0..14u32).map(|it| it.to_le_bytes().to_vec());
    let edges = [0xffff_ffefu32, 0xffff_fff0, 0xffff_fffe, 0xffff_ffff].map(|it| it.to_le_bytes().to_vec());
    let long = [0u64, 3, 4, 5, 8, 12, 1 << 32, u64::MAX].map(|it| [&[0xff; 4][..], &it.to_le_bytes()].concat());
    short.chain(edges).chain(long).collect()
}

/// Asks for the set that each of these lengths begins, with each header that is nearly right and up to five bytes of
/// entries, and for the sum of the addresses. In the other byte order most of them are malformed.
fn sets(tally: &mut Tally) {
    for length in lengths() {
        for version in [[5, 0], [4, 0], [0, 5]] {
            for (size, segments) in (0..=9).flat_map(|size| [(size, 0), (size, 1)]) {
                for entries in (0..=5).flat_map(|count| lists(&[0x01, 0xfe], count)) {
                    let bytes = [&length[..], &version, &[size, segments], &entries].concat();
                    for is_big in [false, true] {
                        tally.ask(&Question { is_big, ..Question::new(What::AddressSet, 0) }, &bytes);
                        tally.ask(&Question { is_big, ..Question::new(What::StrOffsetSet, 0) }, &bytes);
                    }
                    tally.ask(&Question::new(What::Addresses, 0), &bytes);
                }
            }
        }
    }
}

/// The headers of units that are nearly right, without their lengths: each version, type and address size, and words of
/// four or eight bytes. All fields of the longest header are there, so of others some are entries.
fn unit_headers() -> impl Iterator<Item = (bool, Vec<u8>)> {
    let fronts =
        (0..=6u8).flat_map(|version| (0..=7u8).flat_map(move |kind| (0..=9u8).map(move |size| (version, kind, size))));
    fronts.flat_map(|(version, kind, size)| {
        [false, true].map(|is_long| {
            let word = &[0x11, 0, 0, 0, 0, 0, 0, 0][..if is_long { 8 } else { 4 }];
            let fields = if version == 5 { [&[kind, size], word].concat() } else { [word, &[size]].concat() };
            (is_long, [&[version, 0], &fields[..], &[1, 2, 3, 4, 5, 6, 7, 0x88], word, &[kind]].concat())
        })
    })
}

/// Asks for the units whose first one has each of these headers, with each length up to one too many, and cut at each
/// byte. In the other byte order all but the cut ones are malformed.
fn units(tally: &mut Tally) {
    for (is_long, header) in unit_headers() {
        let with_length = |length: usize| match is_long {
            true => [&[0xff; 4], &length.to_le_bytes()[..], &header].concat(),
            false => [&(length as u32).to_le_bytes()[..], &header].concat(),
        };
        let whole = with_length(header.len());
        let cut = (0..whole.len()).map(|it| whole[..it].to_vec());
        for bytes in (0..=header.len() + 1).map(with_length).chain(cut) {
            for what in [What::InfoUnits, What::TypesUnits, What::UnitAt] {
                for is_big in [false, true] {
                    tally.ask(&Question { is_big, ..Question::new(what, 0) }, &bytes);
                }
            }
        }
    }
}

/// Asks for the entries of a unit whose first attribute has each form, in each version and format, with up to three bytes
/// and with a long value, before an attribute of one byte, and skips them.
fn entries(tally: &mut Tally) {
    let forms = (0..=0x2d).chain([0x1f01u16, 0x1f02, 0x1f20, 0x1f21, 0x1f22]);
    let long = vec![0x02, 0x61, 0x62, 0, 0x81, 0x82, 0x83, 0x84, 0x85, 0x86, 0x87, 0x88, 0x89, 0x8a, 0x8b, 0x8c, 1, 2];
    let short = (0..=3).flat_map(|count| lists(&[0x00, 0x01, 0x02, 0x0b, 0x16, 0x80, 0xff], count));
    let values: Vec<Vec<u8>> = short.chain([long]).collect();
    for form in forms {
        let mut abbrev = vec![1, 0x11, 0, 3];
        put_unsigned(&mut abbrev, form.into());
        abbrev.extend_from_slice(if form == 0x21 { &[0x7d] } else { &[] });
        abbrev.extend([4, 0x0b, 0, 0, 0]);
        for (version, size, is_long) in (2..=5).flat_map(|it| [(it, 2, false), (it, 8, false), (it, 4, true)]) {
            for value in &values {
                let mut bytes = abbrev.clone();
                put_unit(&mut bytes, (version, size, is_long), &[&[1], &value[..]].concat());
                for what in [What::Entries, What::SkippedEntries] {
                    let question = Question { more: abbrev.len(), ..Question::new(what, 0) };
                    tally.ask(&question, &bytes);
                    tally.ask(&Question { is_big: true, ..question }, &big(&bytes, abbrev.len(), is_long));
                }
            }
        }
    }
}

/// Writes a unit of these entries, with the lowest byte first, whose table is at 0.
fn put_unit(to: &mut Vec<u8>, (version, size, is_long): (u8, u8, bool), entries: &[u8]) {
    let word = &[0; 8][..if is_long { 8 } else { 4 }];
    let fields = if version == 5 { [&[1, size], word].concat() } else { [word, &[size]].concat() };
    let length = 2 + fields.len() + entries.len();
    match is_long {
        true => to.extend([&[0xff; 4], &length.to_le_bytes()[..]].concat()),
        false => to.extend((length as u32).to_le_bytes()),
    }
    to.extend([&[version, 0], &fields[..], entries].concat());
}

/// The same bytes, with the length and the version of the unit turned round.
fn big(bytes: &[u8], start: usize, is_long: bool) -> Vec<u8> {
    let mut bytes = bytes.to_vec();
    let (first, count) = if is_long { (start + 4, 8) } else { (start, 4) };
    bytes[first..first + count].reverse();
    bytes[first + count..first + count + 2].reverse();
    bytes
}

/// Asks for the number at each index, counted from each base, in up to five bytes: at small places, and where the
/// product of index and size is as large as an offset can be.
fn lookups(tally: &mut Tally) {
    let widths = (0..=9).map(|size| (What::Address, size)).chain([(What::StrOffset, 4), (What::StrOffset, 8)]);
    let widths: Vec<(What, u8)> = widths.collect();
    for bytes in (0..=5).flat_map(|count| lists(&[0x00, 0x01, 0xfe], count)) {
        for at in [0, 1, 2, 5, 6, 1 << 32] {
            for more in [0, 1, 2, 1 << 29, 1 << 30, 1 << 60, 1 << 61, 1 << 62, 1 << 63, usize::MAX] {
                for (what, size) in &widths {
                    for is_big in [false, true] {
                        tally.ask(&Question { is_big, size: *size, more, ..Question::new(*what, at) }, &bytes);
                    }
                }
            }
        }
    }
}

fn number(tally: &mut Tally, bytes: &[u8]) {
    for what in [What::Unsigned, What::Signed, What::Short, What::Skipped] {
        tally.ask(&Question::new(what, 0), bytes);
    }
}

/// Asks for each number of up to three bytes, and for each of up to two that doesn't end.
fn short_numbers(tally: &mut Tally) {
    for count in 0..=3 {
        for index in 0..1u32 << (7 * count) {
            let mut bytes: Vec<u8> = (0..count).map(|i| (index >> (7 * i)) as u8 | 0x80).collect();
            if count < 3 {
                number(tally, &bytes);
            }
            if let Some(last) = bytes.last_mut() {
                *last &= 0x7f;
                number(tally, &bytes);
            }
        }
    }
}

/// Asks for numbers of nine to eleven bytes, and of three and four that may not end, with each last byte.
fn long_numbers(tally: &mut Tally) {
    for (count, first, middle) in [3, 4, 9, 10, 11].iter().flat_map(|count| {
        let firsts = [0x80, 0x81, 0xc0, 0xff].iter();
        firsts.flat_map(move |first| [0x80, 0xbf, 0xc0, 0xff].map(|middle| (*count, *first, middle)))
    }) {
        for last in 0..=255 {
            let mut bytes = vec![middle; count];
            bytes[0] = first;
            bytes[count - 1] = last;
            number(tally, &bytes);
        }
    }
}

/// Asks for all of them.
pub fn ask(tally: &mut Tally) {
    sections(tally);
    sets(tally);
    units(tally);
    entries(tally);
    lookups(tally);
    short_numbers(tally);
    long_numbers(tally);
}
