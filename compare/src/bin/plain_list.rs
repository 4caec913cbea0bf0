//! Lists a section of standard input by gimli as `dwarf_list` does, written the plain way.
//!
//! gimli's tables can't be walked, so `abbrev` gets how far apart the codes are, and looks each up until there is none.
//! gimli 0.27 has no headers of sets either: they are read by its calls for words.

use gimli::{DebugAbbrev, DebugAbbrevOffset, DebugStr, DebugStrOffset, EndianSlice, LittleEndian, Reader, Result};
use std::fmt::Write as _;
use std::io::{Read, Write};

fn abbrev(input: &[u8], offset: usize, step: u64) -> Result<Vec<u8>> {
    let table = DebugAbbrev::new(input, LittleEndian).abbreviations(DebugAbbrevOffset(offset))?;
    let mut text = String::new();
    let mut code = step;
    while let Some(found) = table.get(code) {
        let children = if found.has_children() { "yes" } else { "no" };
        let _ = writeln!(text, "{code} {} {children}", found.tag());
        for attribute in found.attributes() {
            let _ = write!(text, "  {} {}", attribute.name(), attribute.form());
            if let Some(value) = attribute.implicit_const_value() {
                let _ = write!(text, " {value}");
            }
            text.push('\n');
        }
        code += step;
    }
    Ok(text.into_bytes())
}

fn string(input: &[u8], offset: usize) -> Result<Vec<u8>> {
    let found = DebugStr::new(input, LittleEndian).get_str(DebugStrOffset(offset))?;
    let mut text = found.slice().to_vec();
    text.push(b'\n');
    Ok(text)
}

fn addresses(input: &[u8]) -> Result<Vec<u8>> {
    let mut left = EndianSlice::new(input, LittleEndian);
    let mut text = String::new();
    while !left.is_empty() {
        let offset = input.len() - left.len();
        let (length, format) = left.read_initial_length()?;
        let mut set = left.split(length)?;
        let (_version, size, _segment) = (set.read_u16()?, set.read_u8()?, set.read_u8()?);
        let bits = u32::from(format.word_size()) * 8;
        let _ = writeln!(text, "set {offset}: length {length}, {bits}-bit, address size {size}");
        while !set.is_empty() {
            let _ = writeln!(text, "  {:#x}", set.read_address(size)?);
        }
    }
    Ok(text.into_bytes())
}

fn main() {
    let words: Vec<String> = std::env::args().skip(1).collect();
    let mut input = Vec::new();
    std::io::stdin().lock().read_to_end(&mut input).expect("an input");
    let number = |at: usize| words[at].parse::<u64>().expect("a number");
    let text = match words[0].as_str() {
        "abbrev" => abbrev(&input, number(1) as usize, number(2)),
        "str" => string(&input, number(1) as usize),
        _ => addresses(&input),
    };
    std::io::stdout().lock().write_all(&text.expect("a section")).expect("an output");
}
