//! Counts what random requests came to, prints it, and says what was missing.

use crate::compare::Answered;
use crate::families::{FamilyCounts, FAMILIES};
use crate::request::{tree_of_script, Request, SOURCES};
use crate::tree::{self, Tree, EQ, GET, IF, LET, REF, SET, SYM, TYPED};
use reference::{Outcome, Refusal};
use std::collections::BTreeMap;

/// The refusals that texts, values and cells can give.
pub const NUMBERS: [u8; 16] = [1, 2, 3, 4, 5, 6, 7, 8, 9, 10, 11, 12, 13, 31, 34, 35];

/// Classes of path counts: the upper end of each, and its name.
const PATHS: [(u64, &str); 8] = [
    (1, "1"),
    (2, "2"),
    (4, "3 to 4"),
    (8, "5 to 8"),
    (16, "9 to 16"),
    (32, "17 to 32"),
    (64, "33 to 64"),
    (65, "more, some never taken"),
];

/// What rich scripts have in them: nodes of these kinds, each below the one before.
const WAYS: [(&[u32], &str); 10] = [
    (&[SYM, IF], "an `if` in a block"),
    (&[SYM, EQ], "an `eq` in a block"),
    (&[SYM, LET], "a `let` in a block"),
    (&[SYM, REF], "a `ref` in a block"),
    (&[SYM, GET], "a `get` in a block"),
    (&[SYM, SET], "a `set` in a block"),
    (&[SYM, TYPED], "`typed` in `sym`"),
    (&[SYM, SYM], "`sym` in `sym`"),
    (&[SYM, TYPED, SYM], "`sym` in `typed` in `sym`"),
    (&[SYM, TYPED, SYM, TYPED, SYM], "the same once more"),
];

#[derive(Default)]
pub struct Counts {
    pub requests: u64,
    checks: u64,
    runs: u64,
    sources: [u64; SOURCES.len()],
    accepted: u64,
    rich: u64,
    needed: u64,
    ways: [u64; WAYS.len()],
    paths: [u64; PATHS.len()],
    sizes: [u64; 5],
    values: [u64; 3],
    errors: u64,
    check_refusals: BTreeMap<u8, u64>,
    run_refusals: BTreeMap<u8, u64>,
    families: [FamilyCounts; FAMILIES.len()],
}

impl Counts {
    /// Takes one request and its answer into account.
    pub fn count(&mut self, request: &Request, answered: &Answered) {
        self.requests += 1;
        let source = SOURCES.iter().position(|source| source.0 == request.source);
        self.sources[source.expect("every source is listed")] += 1;
        match &answered.run {
            None => self.checks += 1,
            Some(run) => self.count_run(run),
        }
        match &answered.check {
            Ok(_) => self.count_accepted(&request.text),
            Err(refusal) => *self.check_refusals.entry(refusal.number).or_default() += 1,
        }
        for (counts, family) in self.families.iter_mut().zip(FAMILIES) {
            if family.source == request.source {
                counts.count(family, request, answered);
            }
        }
    }

    fn count_run(&mut self, run: &Result<Outcome, Refusal>) {
        self.runs += 1;
        match run {
            Ok(Outcome::Value { kind, .. }) => self.values[*kind as usize % 3] += 1,
            Ok(Outcome::Error { .. }) => self.errors += 1,
            Err(refusal) => *self.run_refusals.entry(refusal.number).or_default() += 1,
        }
    }

    fn count_accepted(&mut self, text: &[u8]) {
        self.accepted += 1;
        let script = reference::read(text).expect("an accepted text can be read");
        let tree = tree_of_script(&script);
        self.sizes[tree.size().ilog2().clamp(3, 7) as usize - 3] += 1;
        if !tree.has_rich_block() {
            return;
        }
        self.rich += 1;
        for (count, (kinds, _)) in self.ways.iter_mut().zip(WAYS) {
            *count += u64::from(tree.has_way(kinds));
        }
        let most = tree.most_paths();
        let class = PATHS.iter().position(|class| most <= class.0);
        self.paths[class.expect("65 is the last class")] += 1;
        if needs_block(&script.entries, &tree) {
            self.needed += 1;
        }
    }

    /// What is missing in so many requests; nothing if all came up often enough.
    pub fn missing(&self) -> Vec<String> {
        let mut missing = Vec::new();
        if self.rich * 3 < self.requests {
            missing.push("accepted scripts with rich symbolic blocks are less than a third".into());
        }
        for number in NUMBERS {
            let seen = [&self.check_refusals, &self.run_refusals];
            if !seen.iter().any(|counts| counts.contains_key(&number)) {
                missing.push(format!("refusal {number} never came up"));
            }
        }
        if self.errors == 0 {
            missing.push("the error state never came up".into());
        }
        for (counts, family) in self.families.iter().zip(FAMILIES) {
            missing.extend(counts.missing(family, self.requests));
        }
        missing
    }

    pub fn print(&self) {
        println!("  {} requests:", self.requests);
        show(self.checks, "checks");
        show(self.runs, "runs; their texts are checked too");
        println!("  by how the text came about:");
        for (count, (_, name)) in self.sources.iter().zip(SOURCES) {
            show(*count, name);
        }
        self.print_accepted();
        println!("  checks {}", refusals(&self.check_refusals));
        println!("  runs {}", refusals(&self.run_refusals));
        let [words, truths, locations] = self.values;
        println!("  runs to a word {words}, a truth {truths}, a location {locations}");
        println!("  runs to the error state {}", self.errors);
        for (counts, family) in self.families.iter().zip(FAMILIES) {
            counts.print(family);
        }
    }

    fn print_accepted(&self) {
        println!(
            "  accepted, with nodes to 15, 31, 63, 127, 128: {:?}",
            self.sizes
        );
        show(self.accepted, "accepted");
        show(self.rich, "of them with a rich symbolic block");
        show(self.needed, "of those refused if every `sym` were `typed`");
        println!("  rich scripts with");
        for (count, (_, name)) in self.ways.iter().zip(WAYS) {
            show(*count, name);
        }
        println!("  rich scripts by the most paths of a block, every `if` counted as a fork:");
        for (count, (_, name)) in self.paths.iter().zip(PATHS) {
            show(*count, name);
        }
    }
}

/// A line with a count.
pub fn show(count: u64, what: &str) {
    println!("    {count:8}  {what}");
}

/// Refusals with their counts.
pub fn refusals(counts: &BTreeMap<u8, u64>) -> String {
    let shown = counts
        .iter()
        .map(|(number, count)| format!("{number}: {count}"));
    let shown: Vec<String> = shown.collect();
    format!("refused with {}", shown.join(", "))
}

/// Whether a script is refused once each of its symbolic blocks is a typed one.
fn needs_block(entries: &[u32], tree: &Tree) -> bool {
    fn without_blocks(tree: &Tree) -> Tree {
        let kind = if tree.kind == SYM { TYPED } else { tree.kind };
        Tree {
            kind,
            number: tree.number,
            operands: tree.operands.iter().map(without_blocks).collect(),
        }
    }
    reference::check_text(&tree::text(entries, &without_blocks(tree))).is_err()
}
