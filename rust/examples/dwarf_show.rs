//! Reads a section from standard input and writes a part of it, as the program `dwarf_list` does. A
//! byte order other than `be` is little, and each error has status 1.
//!
//! ```text
//! dwarf_show abbrev OFFSET       the abbreviation table at an offset of .debug_abbrev
//! dwarf_show str OFFSET          the string at an offset of .debug_str
//! dwarf_show addr le|be          the sets of addresses of a whole .debug_addr
//! dwarf_show str-offsets le|be   the sets of string offsets of a whole .debug_str_offsets
//! ```

use dwarf_read::{Attribute, ByteOrder, Sets, Table};
use std::error::Error;
use std::io::{Read, Write};
use std::process::ExitCode;

type Result<T> = std::result::Result<T, Box<dyn Error>>;

fn attribute_line(attribute: &Attribute) -> String {
    let (name, form) = (attribute.name(), attribute.form());
    match attribute.implicit_const() {
        Some(value) => format!("  {name} {form} {value}"),
        None => format!("  {name} {form}"),
    }
}

fn write_table(out: &mut impl Write, section: &[u8], offset: usize) -> Result<()> {
    for it in &Table::read(section, offset)? {
        let children = if it.has_children() { "yes" } else { "no" };
        writeln!(out, "{} {} {children}", it.code(), it.tag())?;
        for attribute in it.attributes() {
            writeln!(out, "{}", attribute_line(attribute))?;
        }
    }
    Ok(())
}

fn write_string(out: &mut impl Write, section: &[u8], offset: usize) -> Result<()> {
    out.write_all(dwarf_read::string(section, offset)?)?;
    Ok(out.write_all(b"\n")?)
}

// Addresses are hexadecimal.
fn write_sets(out: &mut impl Write, sets: Sets, are_addresses: bool) -> Result<()> {
    for set in sets {
        let set = set?;
        let (offset, length, bits) =
            (set.offset(), set.unit_length(), 8 * set.format().word_size());
        write!(out, "set {offset}: length {length}, {bits}-bit")?;
        if are_addresses {
            writeln!(out, ", address size {}", set.entry_size())?;
        } else {
            writeln!(out)?;
        }
        for entry in set.entries() {
            if are_addresses {
                writeln!(out, "  {:#x}", entry?)?;
            } else {
                writeln!(out, "  {}", entry?)?;
            }
        }
    }
    Ok(())
}

// Nothing is printed before it is known that there is no error.
fn show(command: &str, word: &str) -> Result<()> {
    let (mut section, mut out) = (Vec::new(), Vec::new());
    std::io::stdin().read_to_end(&mut section)?;
    let order = if word == "be" { ByteOrder::Big } else { ByteOrder::Little };
    match command {
        "abbrev" => write_table(&mut out, &section, word.parse()?)?,
        "str" => write_string(&mut out, &section, word.parse()?)?,
        "addr" => write_sets(&mut out, dwarf_read::address_sets(&section, order), true)?,
        "str-offsets" => write_sets(&mut out, dwarf_read::str_offset_sets(&section, order), false)?,
        _ => return Err(format!("no command {command}").into()),
    }
    Ok(std::io::stdout().write_all(&out)?)
}

fn main() -> ExitCode {
    let words: Vec<String> = std::env::args().skip(1).collect();
    let shown = match words.as_slice() {
        [command, word] => show(command, word),
        _ => {
            eprintln!(
                "usage: dwarf_show abbrev OFFSET | str OFFSET | addr le|be | str-offsets le|be"
            );
            return ExitCode::from(2);
        }
    };
    match shown {
        Ok(()) => ExitCode::SUCCESS,
        Err(error) => {
            eprintln!("error: {error}");
            ExitCode::FAILURE
        }
    }
}
