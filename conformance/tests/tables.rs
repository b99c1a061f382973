//! The calls over a table of records, by the program `tables`, on stored tables and on random ones, among them such as no text gives.

use conformance::compare::line_of;
use conformance::families::MarkCounts;
use conformance::node_uses;
use conformance::random::Random;
use conformance::request::request;
use conformance::settings;
use reference::{Node, Refusal, Script};
use std::collections::BTreeMap;
use std::io::Write;
use std::path::{Path, PathBuf};
use std::process::{Command, Stdio};
use std::{env, fs, iter};

/// How many random tables the program is given.
const RANDOM: u64 = 20_000;

/// At most so many bytes of input at a time, as the program reads no more.
const INPUT: usize = 262_144;

/// How many of them are about uses of nodes.
const USES: u64 = 4_000;

/// The refusals that the tests of a table give.
const TABLE_REFUSALS: [u8; 7] = [32, 2, 3, 33, 4, 5, 13];

/// Those of them that come before the test of uses.
const BEFORE_USES: [u8; 5] = [32, 2, 3, 33, 4];

/// A table as the program's input has it.
struct Table {
    nodes: usize,
    entries: usize,
    name: String,
    lent: Vec<u32>,
    numbers: Vec<u32>,
}

fn spelled(numbers: &[u32]) -> String {
    let numbers: Vec<String> = numbers.iter().map(u32::to_string).collect();
    numbers.join(" ")
}

impl Table {
    /// The three lines that the program reads.
    fn text(&self) -> String {
        let (lent, numbers) = (spelled(&self.lent), spelled(&self.numbers));
        let head = format!("{}\t{}\t{}", self.nodes, self.entries, self.name);
        format!("{head}\n{lent}\n{numbers}\n")
    }

    /// The table whose lines come next.
    fn from<'a>(lines: &mut impl Iterator<Item = &'a str>) -> Option<Table> {
        let mut head = lines.next()?.splitn(3, '\t');
        let mut field = || head.next().expect("a header has three fields");
        let (nodes, entries) = (field().parse(), field().parse());
        let name = field().to_string();
        let mut numbers = || {
            let line = lines.next().expect("a table has three lines");
            let numbers = line.split_whitespace().map(str::parse);
            numbers.collect::<Result<_, _>>().expect("numbers")
        };
        Some(Table {
            nodes: nodes.expect("a count of nodes"),
            entries: entries.expect("a count of entries"),
            name,
            lent: numbers(),
            numbers: numbers(),
        })
    }

    /// The used places; numbers that the input does not give are 0.
    fn script(&self) -> Script {
        let number = |place: usize| self.numbers.get(place).copied().unwrap_or(0);
        let node = |i: usize| Node {
            kind: number(4 * i),
            operands: [1, 2, 3].map(|k| number(4 * i + k)),
        };
        let entries = self.lent.iter().copied().chain(iter::repeat(0));
        Script {
            entries: entries.take(self.entries).collect(),
            nodes: (0..self.nodes).map(node).collect(),
        }
    }

    /// The second program's answer to a check. It knows no lent places, so 32 is told here.
    fn checked(&self) -> Result<u32, Refusal> {
        if self.lent.len() < 16 {
            return Err(Refusal {
                number: 32,
                place: None,
            });
        }
        reference::check(&self.script())
    }

    /// The line that the program has to print, without its end.
    fn line(&self) -> String {
        let checked = self.checked();
        let refused = matches!(checked, Err(r) if TABLE_REFUSALS.contains(&r.number));
        let written = if refused {
            line_of(&checked)
        } else {
            format!("wrote\t{}", reference::write(&self.script()).len())
        };
        let checked = line_of(&checked);
        format!(
            "{}\t{}\t{}",
            self.name,
            checked.trim_end(),
            written.trim_end()
        )
    }
}

fn below_root(path: &str) -> PathBuf {
    Path::new(env!("CARGO_MANIFEST_DIR")).join("..").join(path)
}

/// What the program prints.
fn printed(input: &str) -> String {
    assert!(input.len() <= INPUT, "the program reads no more");
    let path = below_root("target/bin/tables");
    let program = Command::new(&path)
        .stdin(Stdio::piped())
        .stdout(Stdio::piped())
        .spawn();
    let mut child = program.unwrap_or_else(|error| {
        panic!("{}: {error}; make it with: ./build tables", path.display())
    });
    let mut stdin = child.stdin.take().expect("standard input is a pipe");
    let input = input.to_string();
    let writer = std::thread::spawn(move || stdin.write_all(input.as_bytes()));
    let output = child.wait_with_output().expect("the program ends");
    writer.join().expect("no panic").expect("the program reads");
    String::from_utf8(output.stdout).expect("text")
}

fn expect_lines(tables: &[Table], printed: &str) {
    let mut lines = printed.lines();
    for table in tables {
        let line = lines.next().unwrap_or("nothing");
        let expected = table.line();
        assert!(
            line == expected,
            "program:   {line}\nreference: {expected}\n{}",
            table.text()
        );
    }
    assert_eq!(lines.next(), None, "a line for each table, and no more");
}

#[test]
fn stored_tables() {
    let input = fs::read_to_string(below_root("crates/tables/stdin")).expect("stored tables");
    let stored = fs::read_to_string(below_root("crates/tables/stdout")).expect("stored answers");
    let mut lines = input.lines();
    let tables: Vec<Table> = iter::from_fn(|| Table::from(&mut lines)).collect();
    expect_lines(&tables, &stored);
    expect_lines(&tables, &printed(&input));
    println!("tables of records: {} stored ones", tables.len());
}

/// A random number where a table has one: mostly of the size that it may have there.
fn number(random: &mut Random) -> u32 {
    let most = random.pick(&[2, 16, 16, 33, 130, 146, 256]);
    random.below(most) as u32
}

/// The table of a random script, of which now and then something is changed.
fn random_table(seed: u64, index: u64) -> Table {
    let mut random = Random::new(seed ^ 0x7ab1e5, index);
    let script = reference::read(&request(seed, index).text);
    let script = script.unwrap_or_else(|_| Script {
        entries: vec![0; random.below(4)],
        nodes: Vec::new(),
    });
    changed(&mut random, &script, settings::again(seed, index))
}

/// The table of a random script about uses of nodes, likewise.
fn table_of_uses(seed: u64, index: u64) -> Table {
    let mut random = Random::new(seed ^ 0x05e5, index);
    let script = node_uses::script(&mut random);
    changed(&mut random, &script, settings::again(seed, index))
}

/// The table of a script, of which now and then something is changed.
fn changed(random: &mut Random, script: &Script, name: String) -> Table {
    let row = |n: &Node| [n.kind, n.operands[0], n.operands[1], n.operands[2]];
    let mut table = Table {
        nodes: script.nodes.len(),
        entries: script.entries.len(),
        name,
        lent: script.entries.clone(),
        numbers: script.nodes.iter().flat_map(row).map(|n| n % 256).collect(),
    };
    table.lent.resize(random.between(16, 18), 0);
    for _ in 0..random.pick(&[0, 0, 0, 1, 1, 2, 3]) {
        match random.below(12) {
            0 => table.nodes = random.between(0, 130),
            1 => table.entries = random.below(19),
            2 => table.lent.truncate(random.between(14, 16)),
            5 => {
                // `sym` over the root, several times, within the 130 places that the program has
                for _ in 0..random.between(1, 6) {
                    let nodes = table.nodes.min(129);
                    table.numbers.resize(4 * nodes, 0);
                    let root = nodes.saturating_sub(1) as u32;
                    table.numbers.extend([14, root, 0, 0]);
                    table.nodes = (nodes + 1).min(129);
                }
            }
            3 | 4 => {
                let place = random.below(table.lent.len());
                table.lent[place] = number(random);
            }
            _ => {
                let places = 4 * (table.nodes + 1).min(130);
                let length = table.numbers.len().max(places);
                table.numbers.resize(length, 0);
                let place = random.below(places);
                table.numbers[place] = number(random);
            }
        }
    }
    table
}

/// Compares what the program prints for tables with the second program, in batches; tells of each and its answer.
fn compare(tables: impl Iterator<Item = Table>, mut seen: impl FnMut(&Table, Option<u8>)) {
    let mut batch: Vec<Table> = Vec::new();
    let mut input = String::new();
    for table in tables {
        seen(&table, table.checked().err().map(|r| r.number));
        let text = table.text();
        if input.len() + text.len() > INPUT {
            expect_lines(&batch, &printed(&input));
            batch.clear();
            input.clear();
        }
        input += &text;
        batch.push(table);
    }
    expect_lines(&batch, &printed(&input));
}

#[test]
fn random_tables() {
    let seed = settings::seed();
    println!("tables of records: {RANDOM} random ones, seed {seed}");
    let only = settings::only();
    let mut answers: BTreeMap<Option<u8>, usize> = BTreeMap::new();
    let indices = only.map_or(0..RANDOM, |one| one..one + 1);
    compare(
        indices.map(|index| random_table(seed, index)),
        |_, answer| {
            *answers.entry(answer).or_default() += 1;
        },
    );
    if only.is_some() {
        return;
    }
    println!("tables of records: accepted and refused {answers:?}");
    for number in TABLE_REFUSALS {
        assert!(
            answers.contains_key(&Some(number)),
            "{number} never came up"
        );
    }
    let accepted = answers.get(&None).copied().unwrap_or(0);
    assert!(accepted * 5 >= RANDOM as usize, "only {accepted} accepted");
}

#[test]
fn random_tables_of_uses() {
    let seed = settings::seed();
    println!("tables of records: {USES} random ones about uses of nodes, seed {seed}");
    let only = settings::only();
    let mut marks = MarkCounts::default();
    let indices = only.map_or(0..USES, |one| one..one + 1);
    compare(
        indices.map(|index| table_of_uses(seed, index)),
        |table, answer| {
            if !answer.is_some_and(|number| BEFORE_USES.contains(&number)) {
                marks.count(node_uses::marks(&table.script()));
            }
        },
    );
    if only.is_some() {
        return;
    }
    println!("tables of records that ask for");
    marks.print(&node_uses::MARKS);
    let missing = marks.missing(&node_uses::MARKS, 1);
    assert!(missing.is_empty(), "seed {seed}: {}", missing.join("; "));
}
