//! The judge set against every other implementation, to the byte and to the number.
use crate::door::Door;
use record::Record;
use std::collections::BTreeMap;

pub mod desk;
pub mod doors;
pub mod finish;
pub mod marks;
pub mod months;
pub mod plain;
pub mod plain_rounds;
pub mod record;
pub mod rounds;
pub mod values;

/// A function, and the numbers that it can give back, so that a run which never saw one of
/// them is not taken for a full one.
type Expected = (&'static str, &'static [u8]);

/// The functions of `port`, three of them in each profile: here the proved code takes part.
const WITH_PORT: &[Expected] = &[
    ("mine", &[0, 1, 2, 3, 4, 5, 7]),
    ("mine, light", &[0, 1, 2, 3, 4, 5, 7]),
    ("listing", &[0, 1, 2, 3, 4, 5, 7]),
    ("listing, light", &[0, 1, 2, 3, 4, 5, 7]),
    ("summary", &[0, 1, 2, 3, 4, 5, 7]),
    ("no profile", &[12]),
    ("replay", &[0, 1, 2, 3, 4, 5, 6, 8, 9, 10]),
    ("rewrite", &[0, 1, 2, 3, 4, 5, 6, 7]),
    ("opening", &[0, 1, 2, 3, 4, 5, 6, 7]),
    ("step", &[0, 1, 2, 3, 4, 5, 6, 7, 8, 9, 10, 16]),
    ("finish", &[0, 1, 2, 3, 4, 5, 6, 7, 16, 17]),
    ("shut by", &[0, 1, 2, 3, 4, 5, 6]),
    ("marks", &[0, 1, 2, 3, 4, 5, 6, 18, 19]),
    ("marks text", &[0, 1, 2, 3, 4, 5, 6, 7, 18, 19]),
    ("guesses text", &[0, 3, 7, 18, 19]),
    ("replays", &[0, 1, 2, 3, 4, 5, 6, 7]),
    ("plain step", &[0, 3, 5, 7, 8, 9, 10, 16]),
    ("plain accepting", &[0, 3, 5, 7, 16]),
    ("plain replay", &[0, 3, 5, 7, 8, 9, 10, 16]),
    ("fill", &[0, 1, 2, 3, 4, 5, 6, 7]),
    ("desk open", &[0, 1, 2, 3, 4, 5, 6, 7, 13]),
    ("desk step", &[0, 1, 2, 3, 4, 5, 6, 7, 8, 9, 10, 14, 16]),
    ("desk close", &[0, 1, 2, 3, 4, 5, 6, 7, 14, 15, 16]),
    ("desk finish", &[0, 1, 2, 3, 4, 5, 6, 7, 14, 16, 17]),
    ("tally", &[0, 1, 2, 3, 4, 5, 7]),
    ("tally join", &[0, 3, 7]),
    ("tally relations", &[0, 3, 7]),
    ("relations, light", &[0, 3, 7]),
];

/// What those do not show: judge and yardstick, both Rust. These say nothing of the proved code.
const RUST_ALONE: &[Expected] = &[
    ("value read", &[0, 1, 2, 3, 4, 5, 6]),
    ("value write", &[0, 3, 5, 7, 16]),
    ("value enabled", &[0, 3, 5, 8, 9, 10, 16]),
    ("value execute", &[0, 3, 5, 8, 9, 10, 16]),
    ("value accepting", &[0, 3, 5, 16]),
    ("value replay", &[0, 3, 5, 8, 9, 10, 16]),
    ("reader", &[0, 1, 2, 3, 4, 5, 11]),
];

/// 0 to 19.
const NUMBERS: usize = 20;

pub struct Comparison {
    /// everything but the judge
    pub others: Vec<Door>,
    pub record: Record,
    inputs: BTreeMap<&'static str, u64>,
    numbers: BTreeMap<&'static str, [u64; NUMBERS]>,
    differences: u64,
    /// the one that takes least room to print
    shortest: Option<String>,
}

impl Comparison {
    pub fn with(others: Vec<Door>) -> Comparison {
        Comparison {
            others,
            record: Record::default(),
            inputs: BTreeMap::new(),
            numbers: BTreeMap::new(),
            differences: 0,
            shortest: None,
        }
    }

    pub fn input(&mut self, kind: &'static str) {
        *self.inputs.entry(kind).or_default() += 1;
    }

    /// The judge's number of one call.
    pub fn saw(&mut self, function: &'static str, number: u8) {
        self.numbers.entry(function).or_default()[usize::from(number)] += 1;
    }

    pub fn differ(&mut self, function: &str, other: &str, what: impl FnOnce() -> String) {
        self.differences += 1;
        self.keep_shorter(format!("{function}: judge and {other} differ\n{}", what()));
    }

    fn keep_shorter(&mut self, text: String) {
        let least = self.shortest.as_ref();
        if least.is_none_or(|least| (text.len(), &text) < (least.len(), least)) {
            self.shortest = Some(text);
        }
    }

    /// Takes over what another has counted and found.
    pub fn join(&mut self, other: Comparison) {
        for (kind, count) in other.inputs {
            *self.inputs.entry(kind).or_default() += count;
        }
        for (function, counts) in other.numbers {
            let sums = self.numbers.entry(function).or_default();
            for (sum, count) in sums.iter_mut().zip(counts) {
                *sum += count;
            }
        }
        self.differences += other.differences;
        if let Some(text) = other.shortest {
            self.keep_shorter(text);
        }
    }

    /// The numbers that should have been seen and were not.
    pub fn unseen(&self) -> Vec<(&'static str, u8)> {
        let mut missing = Vec::new();
        for &(function, numbers) in WITH_PORT.iter().chain(RUST_ALONE) {
            let seen = self.numbers.get(function).copied().unwrap_or_default();
            for &number in numbers {
                if seen[usize::from(number)] == 0 {
                    missing.push((function, number));
                }
            }
        }
        missing
    }

    /// Prints what was compared. Yes where all is well.
    pub fn report(&self) -> bool {
        println!("inputs");
        for (kind, count) in &self.inputs {
            println!("  {kind:<24}{count:>9}");
        }
        self.print_numbers();
        for (function, number) in self.unseen() {
            println!("never seen: {function} {number}");
        }
        if let Some(shortest) = &self.shortest {
            println!("shortest difference, {shortest}");
        }
        println!("differences {}", self.differences);
        self.differences == 0 && self.unseen().is_empty()
    }

    /// Two tables: what the proved code was held to, and what it was not.
    fn print_numbers(&self) {
        let names: Vec<&str> = self.others.iter().map(|door| door.name).collect();
        let title = format!("judge against {}, calls by number", names.join(" and "));
        self.print_table(&title, WITH_PORT);
        let title = "judge against yardstick alone, the proved code not touched";
        self.print_table(title, RUST_ALONE);
    }

    fn print_table(&self, title: &str, functions: &[Expected]) {
        let mut total = [0; NUMBERS];
        println!("{title}");
        let head: String = (0..NUMBERS).map(|number| format!("{number:>9}")).collect();
        println!("  {:<16}{head}", "");
        for (function, _) in functions {
            let counts = self.numbers.get(function).copied().unwrap_or_default();
            let mut line = format!("  {function:<16}");
            for (sum, count) in total.iter_mut().zip(counts) {
                *sum += count;
                line += &format!("{count:>9}");
            }
            println!("{line}");
        }
        let line: String = total.iter().map(|count| format!("{count:>9}")).collect();
        println!("  {:<16}{line}", "all");
    }
}

/// Bytes in decimal, as 01 writes them.
pub fn decimal(bytes: &[u8]) -> String {
    bytes
        .iter()
        .map(|byte| byte.to_string())
        .collect::<Vec<_>>()
        .join(" ")
}
