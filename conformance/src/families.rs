//! Families of scripts that are about one rule: what their scripts have in them is marked when they
//! are made, and what they came to is counted, printed, and asked for.

use crate::compare::Answered;
use crate::counts::{refusals, show};
use crate::fresh_cells;
use crate::node_uses;
use crate::request::{Request, Source};
use crate::scratch_cells;
use crate::stations::Station;
use crate::tree::WORDS;
use reference::{Outcome, Refusal, Script};
use std::collections::BTreeMap;

/// A family, and what has to come up in it.
pub struct Family {
    pub source: Source,
    /// What its scripts are about.
    pub about: &'static str,
    pub least: Least,
    /// Whether another rule, which is said after 'answered otherwise', is known to give another answer
    /// than this one. The script is none if the text is not read.
    pub hangs: fn(Option<&Script>, Answer) -> bool,
    pub otherwise: &'static str,
    /// The refusals that its scripts have to meet, and the kinds of nodes where they have to meet 9.
    pub numbers: &'static [u8],
    pub nines: &'static [u32],
    /// Whether it is about cells, so that two entries have to be one cell in some run.
    pub cells: bool,
    /// What its scripts ask for; each one's place is its number.
    pub marks: &'static [&'static str],
}

/// The smallest shares that are enough, each as one in so many.
pub struct Least {
    /// Of the family in all requests.
    pub requests: u64,
    /// Of accepted scripts in the family.
    pub accepted: u64,
    /// Of each mark in the family.
    pub marks: u64,
}

/// The least shares of the families about cells.
pub const ABOUT_CELLS: Least = Least {
    requests: 10,
    accepted: 3,
    marks: 1000,
};

pub const FAMILIES: [&Family; 3] = [
    &fresh_cells::counts::FAMILY,
    &scratch_cells::counts::FAMILY,
    &node_uses::counts::FAMILY,
];

/// What a script asks for, of its family's marks.
#[derive(Clone, Copy, Default)]
pub struct Marks(u32);

impl Marks {
    /// Adds a mark, if the script has what it says.
    pub fn add(&mut self, mark: usize, marked: bool) {
        self.0 |= u32::from(marked) << mark;
    }

    pub fn has(&self, mark: usize) -> bool {
        self.0 >> mark & 1 == 1
    }
}

/// How many scripts have each mark.
#[derive(Default)]
pub struct MarkCounts([u64; 32]);

impl MarkCounts {
    pub fn count(&mut self, marks: Marks) {
        for (mark, count) in self.0.iter_mut().enumerate() {
            *count += u64::from(marks.has(mark));
        }
    }

    /// The marks of these names that fewer scripts have than so many.
    pub fn missing(&self, names: &[&str], few: u64) -> Vec<String> {
        let counts = self.0.iter().zip(names).filter(|mark| *mark.0 < few);
        counts
            .map(|(count, name)| format!("asked for only {count} times: {name}"))
            .collect()
    }

    pub fn print(&self, names: &[&str]) {
        for (count, name) in self.0.iter().zip(names) {
            show(*count, name);
        }
    }
}

/// The type or the number that a check gives.
pub type Answer = Result<u32, u8>;

/// The answer to the check of a text.
pub fn answer(text: &[u8]) -> Answer {
    reference::check_text(text).map_err(|refusal| refusal.number)
}

/// Whether another rule's answer is known, and is another.
pub fn differs(other: Option<Answer>, answer: Answer) -> bool {
    other.is_some_and(|other| other != answer)
}

/// What a family's scripts came to.
#[derive(Default)]
pub struct FamilyCounts {
    requests: u64,
    accepted: u64,
    refusals: BTreeMap<u8, u64>,
    /// Refusals with 9, by the kind of the node.
    nines: BTreeMap<u32, u64>,
    marks: MarkCounts,
    /// Scripts with another answer by the other rule.
    hanging: u64,
    /// Runs of accepted scripts that end with a value, and those with one cell for two entries.
    ended: u64,
    shared: u64,
}

impl FamilyCounts {
    /// Takes a request of the family and its answer into account.
    pub fn count(&mut self, family: &Family, request: &Request, answered: &Answered) {
        self.requests += 1;
        self.marks.count(request.marks);
        let answer = answered.check.map_err(|refusal| refusal.number);
        match answer {
            Ok(_) => self.accepted += 1,
            Err(number) => *self.refusals.entry(number).or_default() += 1,
        }
        let script = reference::read(&request.text).ok();
        self.hanging += u64::from((family.hangs)(script.as_ref(), answer));
        if let Some(script) = script {
            if let Err(Refusal { number: 9, place }) = answered.check {
                let node = place.expect("9 has a place");
                let kind = script.nodes[node as usize].kind;
                *self.nines.entry(kind).or_default() += 1;
            }
            if let (Ok(_), Some(Ok(Outcome::Value { .. })), Some(station)) =
                (answer, answered.run, &request.run)
            {
                self.ended += 1;
                self.shared += u64::from(share_a_cell(&script.entries, station));
            }
        }
    }

    /// What is missing in so many requests.
    pub fn missing(&self, family: &Family, requests: u64) -> Vec<String> {
        let mut missing = Vec::new();
        let least = &family.least;
        if self.requests * least.requests < requests {
            missing.push(format!("they are less than one in {}", least.requests));
        }
        if self.accepted * least.accepted < self.requests {
            let few = least.accepted;
            missing.push(format!("less than one in {few} are accepted"));
        }
        if self.hanging * 4 < self.requests {
            let otherwise = family.otherwise;
            missing.push(format!(
                "less than a quarter are answered otherwise {otherwise}"
            ));
        }
        for number in family.numbers {
            if !self.refusals.contains_key(number) {
                missing.push(format!("refusal {number} never came up"));
            }
        }
        for &kind in family.nines {
            if !self.nines.contains_key(&kind) {
                missing.push(format!(
                    "refusal 9 never came up at `{}`",
                    WORDS[kind as usize].0
                ));
            }
        }
        let few = 1 + self.requests / least.marks;
        missing.extend(self.marks.missing(family.marks, few));
        if family.cells && self.shared == 0 {
            missing.push("two entries were never one cell".into());
        }
        let about = |what| format!("scripts about {}: {what}", family.about);
        missing.into_iter().map(about).collect()
    }

    pub fn print(&self, family: &Family) {
        let Family {
            about, otherwise, ..
        } = family;
        println!("  about {about}:");
        show(self.requests, "requests");
        show(self.accepted, "accepted");
        show(self.hanging, &format!("answered otherwise {otherwise}"));
        show(self.ended, "accepted and run to a value");
        if family.cells {
            show(self.shared, "of these with one cell for two entries");
        }
        println!("  about {about}, checks {}", refusals(&self.refusals));
        for (&kind, count) in &self.nines {
            show(
                *count,
                &format!("refused with 9 at `{}`", WORDS[kind as usize].0),
            );
        }
        println!("  about {about}, scripts that ask for");
        self.marks.print(family.marks);
    }
}

/// Whether two reference entries are given the same cell.
fn share_a_cell(entries: &[u32], station: &Station) -> bool {
    let values: Vec<&[u8]> = station.values.chunks(5).collect();
    let references = |i: &usize| entries[*i] >= 2;
    let all = (0..values.len()).filter(references);
    all.clone()
        .any(|a| all.clone().any(|b| a < b && values[a] == values[b]))
}
