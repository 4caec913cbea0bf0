//! The lines of tables, units, strings and sets, and names without what can't be printed.

use crate::report::Output;
use dwarf_read::constants::{
    DW_UT_compile, DW_UT_partial, DW_UT_skeleton, DW_UT_split_compile, DW_UT_split_type, DW_UT_type, DwAt, DwForm,
    DwTag, DwUt,
};
use dwarf_read::{Attribute, Format, Table, Unit, UnitType};
use std::fmt::Write;

/// A name that a file has, with escapes for what can't be printed.
pub fn plain(name: &[u8]) -> String {
    let mut text = String::new();
    let mut rest = name;
    while !rest.is_empty() {
        let end = std::str::from_utf8(rest).map_or_else(|error| error.valid_up_to(), str::len);
        for letter in std::str::from_utf8(&rest[..end]).unwrap_or_default().chars() {
            match letter {
                ' '..='~' => text.push(letter),
                '\0'..='\x7f' => text.extend((letter as u8).escape_ascii().map(char::from)),
                // A mark that changes the character before it is printed, so one is put there.
                _ => text.extend(['x', letter].iter().collect::<String>().escape_debug().skip(1)),
            }
        }
        text.extend(rest[end..].first().map(|byte| format!("\\x{byte:02x}")));
        rest = rest.get(end + 1..).unwrap_or_default();
    }
    text
}

/// How many bits an offset has in a format.
pub fn bits(format: Format) -> u8 {
    8 * format.word_size()
}

/// Puts a unit, with the offset of its table if that is known.
pub fn put_unit(output: &mut Output, unit: &Unit<'_>, table: Option<u64>) {
    put_title(output, "unit ", unit.offset() as u64, "");
    let (encoding, kind) = (unit.encoding(), type_of(unit));
    let (length, bits) = (unit.unit_length(), bits(encoding.format));
    let _ = write!(output, ": length {length}, {bits}-bit, version {}, {kind}", encoding.version);
    let _ = write!(output, ", address size {}", encoding.address_size);
    match table {
        Some(table) => put_title(output, ", table ", table, "\n"),
        None => output.put(b"\n"),
    }
}

fn type_of(unit: &Unit<'_>) -> DwUt {
    match unit.type_() {
        UnitType::Compilation => DW_UT_compile,
        UnitType::Type { .. } => DW_UT_type,
        UnitType::Partial => DW_UT_partial,
        UnitType::Skeleton(_) => DW_UT_skeleton,
        UnitType::SplitCompilation(_) => DW_UT_split_compile,
        UnitType::SplitType { .. } => DW_UT_split_type,
    }
}

/// Puts a table: a line for each abbreviation, and one for each of its attributes.
pub fn put_table(output: &mut Output, table: &Table) {
    for abbreviation in table {
        output.put_decimal(abbreviation.code());
        output.put(b" ");
        put_tag(output, abbreviation.tag());
        output.put(if abbreviation.has_children() { b" yes\n" } else { b" no\n" });
        for attribute in abbreviation.attributes() {
            put_attribute(output, attribute);
        }
    }
}

fn put_attribute(output: &mut Output, attribute: &Attribute) {
    output.put(b"  ");
    put_name(output, attribute.name());
    output.put(b" ");
    put_form(output, attribute.form());
    if let Some(value) = attribute.implicit_const() {
        let _ = write!(output, " {value}");
    }
    output.put(b"\n");
}

// Puts the name of a constant, or the text of one that has none. Copying a name is faster than formatting it.
macro_rules! put_names {
    ($($put:ident: $family:ty),*) => {
        $(fn $put(output: &mut Output, constant: $family) {
            match constant.static_string() {
                Some(name) => output.put(name.as_bytes()),
                None => { let _ = write!(output, "{constant}"); }
            }
        })*
    };
}
put_names!(put_tag: DwTag, put_name: DwAt, put_form: DwForm);

/// Puts a string, with an escape for each byte that isn't printable ASCII and for a backslash, so that no string can
/// forge a line or drive a terminal.
pub fn put_string(output: &mut Output, string: &[u8]) {
    let is_plain = |byte: &u8| (b' '..=b'~').contains(byte) && *byte != b'\\';
    // Nearly every string is put at once.
    let mut rest = string;
    while let Some(at) = rest.iter().position(|byte| !is_plain(byte)) {
        output.put(&rest[..at]);
        rest[at].escape_ascii().for_each(|byte| output.put(&[byte]));
        rest = &rest[at + 1..];
    }
    output.put(rest);
    output.put(b"\n");
}

/// Puts a title before what is at an offset.
pub fn put_title(output: &mut Output, what: &str, offset: u64, end: &str) {
    output.put(what.as_bytes());
    output.put(b"0x");
    output.put_hexadecimal(offset);
    output.put(end.as_bytes());
}
