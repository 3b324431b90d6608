//! What a run met: cases by kind, accepted, and refused by number; of 5 also how many bytes were lacking; the aspects of the records;
//! and how odd fields were answered.

use crate::odd::{self, Met};
use crate::reference::plate::{Refusal, PLATE};
use crate::request::Request;
use std::collections::{BTreeMap, BTreeSet};

/// How many cases of a kind were accepted, and refused by number.
#[derive(Default)]
struct Row {
    cases: u64,
    accepted: u64,
    refused: BTreeMap<u8, u64>,
    differences: u64,
}

#[derive(Default)]
pub struct Table {
    rows: BTreeMap<String, Row>,
    strange: BTreeSet<u8>,
    /// How often a case that was refused with 5 lacked so many bytes.
    lacking: BTreeMap<u64, u64>,
    /// Records by family of types and by aspect.
    aspects: [[u64; 3]; 3],
    /// Cases by what they met of odd fields.
    odd: BTreeMap<Met, u64>,
}

/// The families of media types by which aspects are counted; of the first two every aspect must come up.
const FAMILIES: [&str; 3] = ["DV", "MPEG", "other types"];
const ASPECTS: [&str; 3] = ["4x3", "16x9", "unknown"];

/// The number of a type's family: DV types that have an aspect, MPEG video, and all others.
fn family(kind: u8) -> usize {
    match kind {
        13..=16 => 0,
        11 | 12 | 20 | 22 | 23 => 1,
        _ => 2,
    }
}

/// The refusals in a line; a walker's may stand behind accepted steps.
pub fn refusals(line: &str) -> impl Iterator<Item = Refusal> + '_ {
    let mut words = line.split_ascii_whitespace();
    std::iter::from_fn(move || {
        words.find(|word| *word == "refused")?;
        let mut figure = || {
            let word = words.next().and_then(|word| word.parse().ok());
            word.expect("figures stand behind `refused`")
        };
        let (number, place) = (figure(), figure());
        Some(Refusal {
            number: u8::try_from(number).expect("a refusal's number is small"),
            place,
            lacking: if number == 5 { figure() } else { 0 },
        })
    })
}

/// What a line says of a record as far as its aspect goes; parts are place and stored length.
#[derive(Clone, Copy, PartialEq, Eq, Debug)]
pub struct Record {
    pub kind: u8,
    pub binary: Option<(usize, usize)>,
    pub text: Option<(usize, usize)>,
    pub aspect: Option<u8>,
}

/// The records in a line, by its tokens: `record`, ID, type, four items, three parts, aspect.
pub fn records(line: &str) -> impl Iterator<Item = Record> + '_ {
    let mut words = line.split_ascii_whitespace();
    std::iter::from_fn(move || {
        words.find(|word| *word == "record")?;
        let mut item = || {
            let word = words.next().expect("a record has all its parts");
            (word != "-").then(|| word.parse::<i64>().expect("an item is a number"))
        };
        let kind = [(); 6].map(|_| item())[1];
        let mut part = || item().map(|place| (place as usize, item().unwrap_or(0) as usize));
        let [_, binary, text] = [(); 3].map(|_| part());
        Some(Record {
            kind: kind.expect("a record has a type") as u8,
            binary,
            text,
            aspect: item().map(|number| number as u8),
        })
    })
}

/// The first refusal in a line that is not on the plate.
pub fn off_plate(line: &str) -> Option<u8> {
    let mut numbers = refusals(line).map(|refusal| refusal.number);
    numbers.find(|number| !PLATE.contains(number))
}

/// Whether a program's line is the wanted one. A refusal that is not on the plate is a fault even where both sides give it.
pub fn agree(want: &str, got: Option<&str>) -> bool {
    got == Some(want) && off_plate(want).is_none()
}

impl Table {
    pub fn count(&mut self, kind: &str, line: &str) {
        self.strange.extend(off_plate(line));
        for record in records(line) {
            let aspect = record.aspect.map_or(2, usize::from);
            self.aspects[family(record.kind)][aspect] += 1;
        }
        let row = self.rows.entry(kind.to_string()).or_default();
        row.cases += 1;
        match refusals(line).next() {
            None => row.accepted += 1,
            Some(refusal) => {
                *row.refused.entry(refusal.number).or_default() += 1;
                if refusal.number == 5 {
                    *self.lacking.entry(refusal.lacking).or_default() += 1;
                }
            }
        }
    }

    /// Counts a case by what it met of odd fields.
    pub fn count_odd(&mut self, request: &Request) {
        for met in odd::met(request) {
            *self.odd.entry(met).or_default() += 1;
        }
    }

    pub fn differs(&mut self, kind: &str) {
        self.rows.entry(kind.to_string()).or_default().differences += 1;
    }

    /// All kinds in one row.
    fn all(&self) -> Row {
        let mut all = Row::default();
        for row in self.rows.values() {
            all.cases += row.cases;
            all.accepted += row.accepted;
            for (number, cases) in &row.refused {
                *all.refused.entry(*number).or_default() += cases;
            }
        }
        all
    }

    /// The numbers of the plate that no case was refused with.
    pub fn missed(&self) -> Vec<u8> {
        let reached = self.all().refused;
        let on_plate = PLATE.into_iter();
        on_plate.filter(|n| !reached.contains_key(n)).collect()
    }

    /// Refusals that cases met and that are not on the plate.
    pub fn strange(&self) -> Vec<u8> {
        self.strange.iter().copied().collect()
    }

    /// Cases that were refused with 5, by the bytes lacking: one, under a header, up to a request's limit, and more.
    pub fn figures(&self) -> String {
        let sizes = [
            ("1", 1..=1),
            ("2 to 15", 2..=15),
            ("16 to 65,536", 16..=65_536),
            ("more", 65_537..=u64::MAX),
        ];
        let told = sizes.map(|(size, range)| {
            let cases: u64 = self.lacking.range(range).map(|(_, cases)| cases).sum();
            format!("{size}: {cases}")
        });
        let most = self.lacking.keys().last().unwrap_or(&0);
        format!("{}; most: {most}", told.join(", "))
    }

    /// Records by family and aspect.
    pub fn aspects(&self) -> String {
        let told = FAMILIES.iter().zip(self.aspects).map(|(family, counts)| {
            let each = ASPECTS.iter().zip(counts).map(|(a, n)| format!("{a} {n}"));
            format!("{family}: {}", each.collect::<Vec<_>>().join(", "))
        });
        told.collect::<Vec<_>>().join("; ")
    }

    /// The aspects of DV and of MPEG that no record had.
    pub fn aspects_missed(&self) -> Vec<String> {
        let mut missed = Vec::new();
        for (family, counts) in FAMILIES[..2].iter().zip(self.aspects) {
            let none = ASPECTS.iter().zip(counts).filter(|(_, n)| *n == 0);
            missed.extend(none.map(|(aspect, _)| format!("{family} {aspect}")));
        }
        missed
    }

    /// What can be met of odd fields, and how many cases did.
    pub fn odd(&self) -> Vec<(String, u64)> {
        let cases = |met: &Met| self.odd.get(met).copied().unwrap_or(0);
        let all = odd::all();
        all.iter()
            .map(|met| (format!("{}: {}", met.0, met.1), cases(met)))
            .collect()
    }

    /// What no case met of it.
    pub fn odd_missed(&self) -> Vec<String> {
        let none = self.odd().into_iter().filter(|(_, cases)| *cases == 0);
        none.map(|(what, _)| what).collect()
    }

    pub fn print(&self) {
        println!(
            "{:<28} {:>7} {:>9}  refused (number:cases)",
            "kind", "cases", "accepted"
        );
        for (kind, row) in &self.rows {
            Self::line(kind, row);
        }
        Self::line("all", &self.all());
        println!("bytes lacking on 5 (cases): {}", self.figures());
        println!("aspects of records: {}", self.aspects());
        println!("odd fields (cases):");
        for (what, cases) in self.odd() {
            println!("  {what:<65} {cases:>7}");
        }
        println!("refusals not reached: {}", listed(&self.missed()));
        println!("aspects not reached: {}", listed(&self.aspects_missed()));
        println!("odd fields not reached: {}", listed(&self.odd_missed()));
        if !self.strange.is_empty() {
            println!("refusals not on the plate: {}", listed(&self.strange()));
        }
    }

    fn line(kind: &str, row: &Row) {
        let mut refused: Vec<String> = row
            .refused
            .iter()
            .map(|(n, c)| format!("{n}:{c}"))
            .collect();
        if row.differences > 0 {
            refused.push(format!("({} differ)", row.differences));
        }
        println!(
            "{kind:<28} {:>7} {:>9}  {}",
            row.cases,
            row.accepted,
            refused.join(" ")
        );
    }
}

/// All of them with a comma between them, or `none`.
fn listed<T: ToString>(all: &[T]) -> String {
    if all.is_empty() {
        return "none".to_string();
    }
    let words: Vec<String> = all.iter().map(T::to_string).collect();
    words.join(", ")
}
