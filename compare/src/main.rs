//! Compares the proved library with gimli and with a second reader, in one process over the same bytes.
//!
//! `tools/compare` runs this program, and its documentation says what the words mean.

mod all;
mod cost;
mod demand;
mod made;
mod measure;
mod ours;
mod plain;
mod question;
mod room;
mod shrink;
#[allow(dead_code)] // The crate for Rust makes all of these calls.
#[path = "../../rust/src/sys.rs"]
#[rustfmt::skip] // It is laid out there.
mod sys;
mod tally;
mod theirs;

use made::Random;
use measure::Measured;
use plain::PLANTS;
use question::{Answer, Question, What};
use std::process::ExitCode;
use std::time::{Duration, Instant};
use tally::Tally;
use theirs::HAS_UNITS;

/// How many inputs are made between two looks at the clock.
const TURN: u32 = 1000;

/// How long a planted error is looked for.
const PLANT_TIME: Duration = Duration::from_secs(10);

/// What follows the kind of a section of a file with the highest byte first.
const BIG: &str = ", big";

/// What the arguments request.
#[derive(Default)]
struct Wanted {
    seconds: f64,
    seed: u64,
    /// Sections of files: a name, what is in it, and its bytes.
    sections: Vec<(String, String, Vec<u8>)>,
    /// One question that is asked alone, and its bytes.
    case: Option<(Question, Vec<u8>)>,
    /// The command that asks a question alone, up to the question.
    again: String,
    /// What is measured in place of comparing.
    measured: Option<Measured>,
    /// Whether single tables are measured.
    is_demand: bool,
    /// The kind and the length of the only table that is measured.
    table: Option<(String, u64)>,
    /// Whether all short inputs are asked.
    is_all: bool,
    /// The errors to plant in the second reader, by their places in its list.
    plants: Vec<usize>,
    /// How many errors can't be planted with this gimli.
    left_out: usize,
}

/// How many bytes of `.debug_abbrev` come before `.debug_info` in a section of this kind, if it is of entries.
fn entries_after(kind: &str) -> Option<usize> {
    kind.strip_suffix(BIG).unwrap_or(kind).strip_prefix("entries ")?.parse().ok()
}

fn from_hexadecimal(text: &str) -> Option<Vec<u8>> {
    if text.len() % 2 != 0 || !text.is_ascii() {
        return None;
    }
    (0..text.len() / 2).map(|i| u8::from_str_radix(&text[2 * i..2 * i + 2], 16).ok()).collect()
}

/// A question as it is printed: its words, and the bytes as the last one.
fn question_of(text: &str) -> Option<(Question, Vec<u8>)> {
    let mut words: Vec<&str> = text.split(' ').collect();
    let bytes = from_hexadecimal(words.pop()?)?;
    Some((Question::from_words(&words)?, bytes))
}

fn wanted(words: &mut dyn Iterator<Item = String>) -> Result<Wanted, String> {
    let mut found = Wanted { seconds: 60.0, seed: 1, again: "compare --case".into(), ..Wanted::default() };
    while let Some(word) = words.next() {
        let mut next = || words.next().ok_or(format!("{word} needs a word after it"));
        match word.as_str() {
            "--seconds" => found.seconds = next()?.parse().map_err(|_| "--seconds needs a number")?,
            "--seed" => found.seed = next()?.parse().map_err(|_| "--seed needs a number below 2^64")?,
            "--case" => {
                let text = next()?;
                let case = question_of(&text);
                found.case = Some(case.ok_or(format!("'{text}' is no question followed by bytes in hexadecimal"))?);
            }
            "--time" => found.measured = Some(Measured::Time),
            "--count" => found.measured = Some(Measured::Calls),
            "--touched" => found.measured = Some(Measured::Touched { is_ours: next()? == "here" }),
            "--table" => {
                let (kind, count) = (next()?, next()?);
                found.table = Some((kind, count.parse().map_err(|_| "--table needs a number")?));
            }
            "--all" => found.is_all = true,
            "--demand" => found.is_demand = true,
            // The last one is planted where the units of gimli 0.27 are compared.
            "--plants" => {
                // The last two.
                found.left_out = if HAS_UNITS { 0 } else { 2 };
                found.plants = (0..PLANTS.len() - found.left_out).collect();
            }
            "--plant" => {
                let name = next()?;
                let place = PLANTS.iter().position(|it| *it == name);
                found.plants.push(place.ok_or(format!("'{name}' is none of {}", PLANTS.join(", ")))?);
            }
            "--again" => found.again = next()?,
            "--section" => {
                let (name, kind, path) = (next()?, next()?, next()?);
                let bytes = std::fs::read(&path).map_err(|error| format!("{path} can't be read: {error}"))?;
                found.sections.push((name, kind, bytes));
            }
            _ => return Err(format!("'{word}' is no word of this program")),
        }
    }
    Ok(found)
}

/// Asks the questions that a section has at a place.
fn ask_at(tally: &mut Tally, kind: &str, bytes: &[u8], at: usize, random: &mut Random) {
    let little = kind.strip_suffix(BIG);
    let (kind, is_big) = (little.unwrap_or(kind), little.is_some());
    let mut ask = |what, size, more| tally.ask(&Question { is_big, size, more, ..Question::new(what, at) }, bytes);
    match kind {
        "debug_info" | "debug_types" => {
            if at == 0 {
                ask(What::InfoUnits, 0, 0);
                ask(What::TypesUnits, 0, 0);
            }
            ask(What::UnitAt, 0, 0);
        }
        "debug_abbrev" => {
            ask(What::Table, 0, 0);
            ask(What::Strict, 0, 0);
            ask(What::Grown, 0, random.below(bytes.len() + 1));
        }
        "debug_addr" => {
            ask(What::AddressSet, 0, 0);
            ask(What::Address, 8, random.below(bytes.len()) / 8);
        }
        "debug_str_offsets" => {
            ask(What::StrOffsetSet, 0, 0);
            ask(What::StrOffset, 4, random.below(bytes.len()) / 4);
        }
        _ => ask(What::Text, 0, 0),
    }
}

/// Asks at each offset of a section, up to one past its end, in an order that leaves none out. Prints how many there
/// was time for.
fn ask_everywhere(tally: &mut Tally, section: &(String, String, Vec<u8>), until: Instant, random: &mut Random) {
    let (name, kind, bytes) = section;
    let places = bytes.len() + 2;
    let (mut at, mut asked) = (0, 0);
    while asked < places && Instant::now() < until {
        ask_at(tally, kind, bytes, at, random);
        // (a prime, so that no place comes twice)
        at = (at + 1_000_000_007) % places;
        asked += 1;
    }
    println!("{name} .{kind}: {asked} of {places} offsets");
}

/// Asks for the entries of each unit of a `.debug_info`, which follows this many bytes of `.debug_abbrev`, and skips them.
/// Prints how many there was time for.
fn ask_units(tally: &mut Tally, section: &(String, String, Vec<u8>), more: usize, until: Instant) {
    let (name, kind, bytes) = section;
    let (is_big, (abbrev, info)) = (kind.ends_with(BIG), bytes.split_at(more.min(bytes.len())));
    let units = match plain::answer(&Question { is_big, ..Question::new(What::InfoUnits, 0) }, info) {
        Answer::Units { units, .. } => units,
        _ => vec![],
    };
    let mut asked = 0;
    // (a prime, so that no unit comes twice)
    for i in (0..units.len()).map(|it| it * 1_000_000_007 % units.len()) {
        if Instant::now() >= until {
            break;
        }
        let end = units[i].first_entry as usize + units[i].entries;
        let bytes = [abbrev, &info[units[i].offset..end]].concat();
        for what in [What::Entries, What::SkippedEntries] {
            tally.ask(&Question { is_big, more: abbrev.len(), ..Question::new(what, 0) }, &bytes);
        }
        asked += 1;
    }
    println!("{name} entries: {asked} of {} units", units.len());
}

/// Plants an error in the second reader, and asks what is made until it is found or the time is over.
fn is_found(plant: usize, wanted: &Wanted) -> bool {
    let name = PLANTS[plant];
    let again = wanted.again.replace("--case", &format!("--plant {name} --case"));
    let (mut tally, mut random) = (Tally::new(&again), Random(wanted.seed));
    tally.title = format!("planted {name}");
    let start = Instant::now();
    plain::plant(plant + 1);
    while tally.differences == 0 && start.elapsed() < PLANT_TIME {
        let (question, bytes) = made::next(&mut random);
        tally.ask(&question, &bytes);
    }
    plain::plant(0);
    let (found, time) = (if tally.differences == 0 { "not found" } else { "found" }, start.elapsed().as_secs_f64());
    println!("{}: {found} in {} inputs and {time:.2} seconds", tally.title, tally.inputs);
    tally.differences != 0
}

fn compare(wanted: &Wanted) -> ExitCode {
    let mut tally = Tally::new(&wanted.again);
    if let Some((question, bytes)) = &wanted.case {
        plain::plant(wanted.plants.first().map_or(0, |it| it + 1));
        tally.ask_aloud(question, bytes);
        return ExitCode::from(u8::from(tally.differences != 0));
    }
    println!("seed {}, gimli {}", wanted.seed, env!("GIMLI_VERSION"));
    let found = wanted.plants.iter().filter(|it| is_found(**it, wanted)).count();
    let lost = wanted.plants.len() - found;
    if wanted.is_all {
        let start = Instant::now();
        all::ask(&mut tally);
        println!("all short inputs: {} in {:.1} seconds", tally.inputs, start.elapsed().as_secs_f64());
    }
    let mut random = Random(wanted.seed);
    let start = Instant::now();
    let end = start + Duration::from_secs_f64(wanted.seconds);
    // Half of the time is for real sections, each with an equal part of what is left of it.
    for (i, section) in wanted.sections.iter().enumerate() {
        let left = (wanted.seconds / 2.0 - start.elapsed().as_secs_f64()).max(0.0);
        let part = left / (wanted.sections.len() - i) as f64;
        let until = Instant::now() + Duration::from_secs_f64(part);
        match entries_after(&section.1) {
            Some(more) => ask_units(&mut tally, section, more, until),
            None => ask_everywhere(&mut tally, section, until, &mut random),
        }
    }
    while Instant::now() < end {
        for _ in 0..TURN {
            let (question, bytes) = made::next(&mut random);
            tally.ask(&question, &bytes);
        }
    }
    tally.print(found, lost, wanted.left_out);
    ExitCode::from(u8::from(tally.differences != 0 || lost != 0))
}

/// Writes a section to be listed into a file.
fn make(kind: &str, bytes: &str, path: &str) -> Result<(), String> {
    let bytes = bytes.parse().map_err(|_| "how many bytes is no number")?;
    let section = made::listed_section(kind, bytes).ok_or("there is no such section")?;
    std::fs::write(path, section).map_err(|error| format!("{path} can't be written: {error}"))
}

fn run(words: Vec<String>) -> Result<ExitCode, String> {
    match words.iter().map(String::as_str).collect::<Vec<_>>()[..] {
        ["--gimli"] => println!("{}", env!("GIMLI_VERSION")),
        ["--make", kind, bytes, path] => make(kind, bytes, path)?,
        _ => {
            let wanted = wanted(&mut words.iter().cloned())?;
            if wanted.is_demand {
                let found = wanted.sections.iter().find(|it| it.1 == "debug_abbrev");
                demand::demand(&found.ok_or("there is no .debug_abbrev")?.2)?;
                return Ok(ExitCode::SUCCESS);
            }
            let what = match wanted.measured {
                None => return Ok(compare(&wanted)),
                Some(what) => what,
            };
            let workloads = match &wanted.table {
                None => measure::workloads(&wanted.sections),
                Some((kind, count)) => measure::of_table(kind, *count),
            };
            measure::measure(&workloads, what)?;
        }
    }
    Ok(ExitCode::SUCCESS)
}

fn main() -> ExitCode {
    run(std::env::args().skip(1).collect()).unwrap_or_else(|why| {
        eprintln!("compare: {why}");
        ExitCode::from(2)
    })
}
