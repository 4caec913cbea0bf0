//! Prints every entry, attribute, string and address of the sections in a folder by gimli, and counts them on standard
//! error. `tools/compare client` builds it over both copies of gimli.
//!
//! The words are the folder, whose files have the names of the sections, and `le` or `be`.

use gimli::{EndianSlice, RunTimeEndian};
use std::error::Error;
use std::io::{self, BufWriter, Write};

type Section<'a> = EndianSlice<'a, RunTimeEndian>;

struct Dump<'a, W> {
    dwarf: gimli::Dwarf<Section<'a>>,
    to: W,
    entries: u64,
    strings: u64,
}

impl<'a, W: Write> Dump<'a, W> {
    fn attribute(&mut self, unit: &gimli::Unit<Section<'a>>, found: &gimli::Attribute<Section<'a>>) -> io::Result<()> {
        let value = found.value();
        write!(self.to, "  {} {value:?}", found.name())?;
        if let Ok(Some(address)) = self.dwarf.attr_address(unit, found.value()) {
            write!(self.to, " at {address:#x}")?;
        }
        if let Ok(string) = self.dwarf.attr_string(unit, value) {
            self.strings += 1;
            write!(self.to, " '{}'", string.to_string_lossy())?;
        }
        writeln!(self.to)
    }

    fn unit(&mut self, unit: &gimli::Unit<Section<'a>>) -> Result<(), Box<dyn Error>> {
        let mut entries = unit.entries();
        while let Some((depth, entry)) = entries.next_dfs()? {
            self.entries += 1;
            let at = entry.offset().0;
            writeln!(self.to, "{depth} {at} {} {}", entry.tag(), entry.has_children())?;
            let mut attributes = entry.attrs();
            while let Some(found) = attributes.next()? {
                self.attribute(unit, &found)?;
            }
        }
        Ok(())
    }

    fn all(&mut self) -> Result<(), Box<dyn Error>> {
        let mut units = self.dwarf.units();
        while let Some(header) = units.next()? {
            writeln!(self.to, "unit {:?}", header.offset())?;
            let found = self.dwarf.unit(header).map_err(Into::into);
            if let Err(error) = found.and_then(|unit| self.unit(&unit)) {
                writeln!(self.to, "{error}")?;
            }
        }
        Ok(())
    }
}

fn main() -> io::Result<()> {
    let words: Vec<String> = std::env::args().skip(1).collect();
    let order = if words[1] == "be" { RunTimeEndian::Big } else { RunTimeEndian::Little };
    let load = |id: gimli::SectionId| -> Result<Vec<u8>, gimli::Error> {
        let path = format!("{}/{}", words[0], id.name().trim_start_matches('.'));
        Ok(std::fs::read(path).unwrap_or_default())
    };
    let owned = gimli::Dwarf::load(load).expect("sections that aren't there are empty");
    let dwarf = owned.borrow(|it| EndianSlice::new(it, order));
    let mut dump = Dump { dwarf, to: BufWriter::new(io::stdout()), entries: 0, strings: 0 };
    if let Err(error) = dump.all() {
        writeln!(dump.to, "{error}")?;
    }
    dump.to.flush()?;
    eprintln!("{} entries, {} strings", dump.entries, dump.strings);
    Ok(())
}
