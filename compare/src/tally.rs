//! Asks all readers, counts what they give, and prints where they differ.

use crate::ours::{by_readers, Ours, READERS};
use crate::plain;
use crate::question::{Answer, Question};
use crate::shrink::shrink;
use crate::theirs::{Theirs, HAS_SETS, HAS_UNITS};
use std::collections::BTreeMap;

/// How many differences of one question are printed. The others are counted.
const PRINTED: u64 = 3;

/// What the readers gave.
struct Given {
    ours: Answer,
    plain: Answer,
    theirs: Option<Answer>,
    /// What the library gives in the terms of this gimli.
    wanted: Answer,
    /// What other readers of the library give, if it isn't the same.
    others: Vec<(&'static str, Answer)>,
}

impl Given {
    fn differ(&self) -> bool {
        !self.others.is_empty()
            || !self.ours.agrees(&self.plain)
            || self.theirs.as_ref().map_or(false, |it| !it.agrees(&self.wanted))
    }
}

/// What was asked and given so far.
#[derive(Default)]
pub struct Tally {
    ours: Ours,
    theirs: Theirs,
    /// The command that asks a question alone, up to the question.
    again: String,
    /// What a difference is called.
    pub title: String,
    pub inputs: u64,
    /// How many of them gimli was asked too.
    asked_of_gimli: u64,
    /// How many of them all readers of the library were asked.
    by_all: u64,
    /// How many of them have a unit whose address size is an error here, and none for gimli.
    of_any_size: u64,
    pub differences: u64,
    /// How often each question was asked, and how often it differed.
    questions: BTreeMap<&'static str, (u64, u64)>,
    reached: BTreeMap<(&'static str, &'static str), u64>,
}

pub fn hexadecimal(bytes: &[u8]) -> String {
    bytes.iter().map(|it| format!("{it:02x}")).collect()
}

impl Tally {
    pub fn new(again: &str) -> Tally {
        Tally { again: again.into(), title: "difference".into(), theirs: Theirs::new(), ..Tally::default() }
    }

    fn given(&mut self, question: &Question, bytes: &[u8], is_by_all: bool) -> Given {
        let (plain, ours) = (plain::answer(question, bytes), self.ours.answer(question, bytes));
        let theirs = self.theirs.answer(question, bytes, &plain);
        let wanted = match theirs {
            Some(_) => self.theirs.wanted(question, bytes, ours.clone()),
            None => ours.clone(),
        };
        let others = if is_by_all { by_readers(question, bytes, &ours) } else { vec![] };
        Given { ours, plain, theirs, wanted, others }
    }

    /// Asks a question, and prints the smallest input that is found to differ if this one does.
    pub fn ask(&mut self, question: &Question, bytes: &[u8]) {
        // About every sixteenth, but not of each sixteen the same, and fewer of long ones, which two readers copy.
        let bits = if bytes.len() < 4096 { 4 } else { 14 };
        let is_by_all = self.inputs.wrapping_mul(0x9e37_79b9_7f4a_7c15) >> (64 - bits) == 0;
        let given = self.given(question, bytes, is_by_all);
        self.inputs += 1;
        self.by_all += u64::from(is_by_all);
        self.asked_of_gimli += u64::from(given.theirs.is_some());
        let is_of_units = matches!(given.ours, Answer::Units { .. } | Answer::Entries { .. });
        self.of_any_size += u64::from(is_of_units && given.wanted != given.ours);
        let counts = self.questions.entry(question.name()).or_default();
        counts.0 += 1;
        *self.reached.entry((question.name(), given.ours.reached())).or_default() += 1;
        if !given.differ() {
            return;
        }
        counts.1 += 1;
        self.differences += 1;
        if counts.1 <= PRINTED {
            let (question, bytes) =
                shrink(question, bytes, &mut |question, bytes| self.given(question, bytes, is_by_all).differ());
            let given = self.given(&question, &bytes, is_by_all);
            self.print_all(&self.title, &question, &bytes, &given);
        }
    }

    /// Asks a question alone, and prints what each reader gives.
    pub fn ask_aloud(&mut self, question: &Question, bytes: &[u8]) {
        let given = self.given(question, bytes, true);
        self.print_all(if given.differ() { "difference" } else { "equal" }, question, bytes, &given);
        self.differences += u64::from(given.differ());
    }

    /// Prints what was asked and reached, question by question. The last line counts the questions, and the planted
    /// errors that were found, not found and left out.
    pub fn print(&self, found: usize, lost: usize, left_out: usize) {
        if left_out != 0 {
            println!("left out: errors that are planted where units are compared with gimli 0.27: {left_out}");
        }
        if self.inputs == 0 {
            return println!("{found} passed, {lost} failed, {left_out} skipped");
        }
        for (name, (asked, differed)) in &self.questions {
            let reached = self.reached.iter().filter(|it| it.0 .0 == *name);
            let reached: Vec<String> = reached.map(|((_, what), count)| format!("{what} {count}")).collect();
            println!("{name}: {asked} inputs, {differed} differences: {}", reached.join(", "));
        }
        let mut skipped = left_out;
        if !HAS_SETS {
            println!("left out: this gimli has no sets of addresses, so the second reader alone had them");
            skipped += 1;
        }
        if !HAS_UNITS {
            println!("left out: units and entries are compared with gimli 0.27, so the second reader alone had them");
            skipped += 1;
        }
        if self.theirs.takes_any_size {
            println!(
                "this gimli takes any address size of a unit, and was compared with a reading that does too at {} inputs",
                self.of_any_size
            );
        }
        if self.theirs.is_strict {
            println!("this gimli wants the null code of a table, so it was compared with the strict reading");
        }
        println!("{} inputs were read by {} other readers of the library too", self.by_all, READERS.len());
        println!(
            "the second reader alone had strict readings, caches, growth, written numbers and sets of string offsets"
        );
        let failed = self.questions.values().filter(|it| it.1 != 0).count();
        println!(
            "{} passed, {} failed, {skipped} skipped: {} inputs, of which gimli {} read {}, and {} differences",
            self.questions.len() - failed + found,
            failed + lost,
            self.inputs,
            env!("GIMLI_VERSION"),
            self.asked_of_gimli,
            self.differences
        );
    }

    /// Prints a question, what each reader gives, and the command that asks it again.
    fn print_all(&self, title: &str, question: &Question, bytes: &[u8], given: &Given) {
        println!("{title}: {}", question.words());
        println!("  input: {}", hexadecimal(bytes));
        println!("  here: {}", given.ours);
        println!("  second reader: {}", given.plain);
        if let Some(theirs) = &given.theirs {
            println!("  gimli {}: {theirs}", env!("GIMLI_VERSION"));
            if given.wanted != given.ours {
                println!("  here, as this gimli reads: {}", given.wanted);
            }
        }
        for (name, other) in &given.others {
            println!("  here, by {name}: {other}");
        }
        println!("  alone: {} '{} {}'", self.again, question.words(), hexadecimal(bytes));
    }
}
