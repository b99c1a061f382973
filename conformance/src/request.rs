//! A request: a check of a text, or a run of it on values and cells. A seed and a number make it.

use crate::damage;
use crate::families::Marks;
use crate::fresh_cells;
use crate::maker::{self, Made};
use crate::node_uses;
use crate::random::Random;
use crate::scratch_cells;
use crate::stations::{sharing, station, Station};
use crate::tree::{self, Tree};
use crate::wide::wide_script;

/// How a request's text came about.
#[derive(Clone, Copy, PartialEq, Eq, Debug)]
pub enum Source {
    Made,
    Cells,
    Scratch,
    Uses,
    Wide,
    Changed,
    Loose,
    Limits,
    Table,
    Damaged,
    Garbage,
}

pub const SOURCES: [(Source, &str); 11] = [
    (Source::Made, "made by types"),
    (Source::Cells, "new cells beside old ones"),
    (Source::Scratch, "scratch cells"),
    (Source::Uses, "uses of nodes"),
    (Source::Wide, "many forks and atoms"),
    (Source::Changed, "made by types, then changed"),
    (Source::Loose, "random trees"),
    (Source::Limits, "around the limits"),
    (Source::Table, "tables of random nodes"),
    (Source::Damaged, "damaged texts"),
    (Source::Garbage, "no text at all"),
];

pub struct Request {
    pub source: Source,
    pub text: Vec<u8>,
    /// What a run is given; none for a check.
    pub run: Option<Station>,
    /// What a script asks for, if it is of a family; nothing for other texts.
    pub marks: Marks,
}

/// The node steps that a check may take at most, by the bound that counts every `if` as a fork.
const WORK: u64 = 60_000;

/// The same for a few requests that may take long.
const LONG_WORK: u64 = 1_000_000;

/// The request of this number.
pub fn request(seed: u64, number: u64) -> Request {
    let mut random = Random::new(seed, number);
    let source = random.weighted(&[
        (28, Source::Made),
        (13, Source::Cells),
        (13, Source::Scratch),
        (6, Source::Uses),
        (9, Source::Wide),
        (14, Source::Changed),
        (5, Source::Loose),
        (3, Source::Limits),
        (4, Source::Table),
        (8, Source::Damaged),
        (3, Source::Garbage),
    ]);
    let mut marks = Marks::default();
    let text = text(&mut random, source, &mut marks);
    let run = random.chance(50).then(|| {
        let entries = entries_of(&text);
        let family = matches!(source, Source::Cells | Source::Scratch);
        if family && random.chance(50) {
            sharing(&mut random, &entries)
        } else {
            station(&mut random, &entries)
        }
    });
    Request {
        source,
        text,
        run,
        marks,
    }
}

/// A text from this source, and what it asks for if it is of a family.
fn text(random: &mut Random, source: Source, marks: &mut Marks) -> Vec<u8> {
    match source {
        Source::Cells | Source::Scratch => {
            let script = match source {
                Source::Cells => fresh_cells::script,
                _ => scratch_cells::script,
            };
            let made = within_work(random, |random| {
                let (made, asked) = script(random);
                *marks = asked;
                made
            });
            spelled(random, &made)
        }
        Source::Uses => {
            let script = node_uses::script(random);
            *marks = node_uses::marks(&script);
            reference::write(&script)
        }
        Source::Table => damage::table_text(random),
        Source::Garbage => damage::garbage(random),
        Source::Damaged => {
            let size = random.between(1, 30);
            let made = within_work(random, |random| maker::script(random, size));
            let mut text = spelled(random, &made);
            damage::damaged(random, &mut text);
            text
        }
        _ => {
            let made = within_work(random, |random| tree_of(random, source));
            spelled(random, &made)
        }
    }
}

fn tree_of(random: &mut Random, source: Source) -> Made {
    match source {
        Source::Wide => wide_script(random),
        Source::Loose => damage::loose_script(random),
        Source::Limits => damage::script_at_limits(random),
        _ => {
            let (least, most) = random.weighted(&[
                (15, (7, 15)),
                (45, (15, 40)),
                (30, (30, 75)),
                (10, (75, 124)),
            ]);
            let size = random.between(least, most);
            let mut made = maker::script(random, size);
            if source == Source::Changed {
                damage::change(random, &mut made.tree);
            }
            made
        }
    }
}

/// The first script that a check needs not too many steps for.
fn within_work(random: &mut Random, mut make: impl FnMut(&mut Random) -> Made) -> Made {
    let limit = if random.chance(1) { LONG_WORK } else { WORK };
    loop {
        let made = make(random);
        let fits = made.tree.size() <= 128 || random.chance(20);
        if fits && made.tree.typed_work() <= limit {
            return made;
        }
    }
}

/// The text of a script, its nodes in operand order most often.
pub fn spelled(random: &mut Random, made: &Made) -> Vec<u8> {
    if random.chance(70) {
        tree::text(&made.entries, &made.tree)
    } else {
        tree::shuffled_text(&made.entries, &made.tree, random)
    }
}

/// The entry types that a text seems to have, whether or not it can be read.
pub fn entries_of(text: &[u8]) -> Vec<u32> {
    let lines = text.split(|&b| b == b'\n');
    let types = lines.filter_map(|line| line.strip_prefix(b"entry\t"));
    types
        .map(|name| {
            let references = name.iter().filter(|&&b| b == b'r').count() as u32;
            (2 * references.min(15)) + u32::from(name.ends_with(b"b"))
        })
        .collect()
}

/// The tree of a script that was read.
pub fn tree_of_script(script: &reference::Script) -> Tree {
    let mut trees: Vec<Option<Tree>> = Vec::new();
    for node in &script.nodes {
        let count = tree::WORDS[node.kind as usize].1;
        let operands = node.operands[..count].iter();
        let operands = operands.filter_map(|&operand| trees[operand as usize].take());
        let tree = Tree {
            kind: node.kind,
            number: node.operands[0],
            operands: operands.collect(),
        };
        trees.push(Some(tree));
    }
    trees.pop().flatten().expect("a script has a node")
}
