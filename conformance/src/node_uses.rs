//! Scripts about uses of nodes: well-formed nodes of which some are used again or never (5), beside
//! trees whose operands stand in any order.

pub mod counts;
mod faults;
mod rules;
mod shapes;
mod table;

use crate::random::Random;
use crate::tree::{ADD, AND, EQ, FALSE, GET, IF, INT, LET, NOT, REF, SET, SYM, TRUE, TYPED, VAR};
use reference::{Node, Script};

pub use rules::{marks, MARKS};

/// The kinds of a script's nodes, by how many nodes they take, each as often as its weight says.
type Kinds = [&'static [(usize, u32)]; 4];

const TRUTHS: &[(usize, u32)] = &[(2, TRUE), (2, FALSE), (3, VAR)];
const OF_TRUTHS: &[(usize, u32)] = &[(3, AND), (2, EQ), (1, LET)];
const CHOICE: &[(usize, u32)] = &[(1, IF)];

/// Truths alone, so that a tree is accepted. With blocks of one mode only a check takes few steps.
const TYPED_TRUTHS: Kinds = [TRUTHS, &[(4, NOT), (2, TYPED)], OF_TRUTHS, CHOICE];
const SYMBOLIC_TRUTHS: Kinds = [TRUTHS, &[(9, NOT), (1, SYM)], OF_TRUTHS, CHOICE];
/// Mostly `sym`, so that it is too deep (13) unless 5 comes first.
const DEEP: Kinds = [TRUTHS, &[(7, SYM), (1, TYPED), (1, NOT)], OF_TRUTHS, CHOICE];
/// Every kind, without regard to types.
const ANY: Kinds = [
    &[(4, INT), (1, TRUE), (1, FALSE), (2, VAR)],
    &[(1, NOT), (1, REF), (1, GET), (1, TYPED), (1, SYM)],
    &[(1, ADD), (1, EQ), (1, AND), (1, LET), (1, SET)],
    CHOICE,
];

/// How many nodes there are, often about as many as a word has bits or as a script may have.
const SIZES: [(usize, (usize, usize)); 7] = [
    (3, (1, 1)),
    (20, (2, 9)),
    (12, (10, 61)),
    (20, (62, 67)),
    (11, (68, 124)),
    (9, (125, 127)),
    (25, (128, 128)),
];

/// The records of a script, all of them well formed.
pub fn script(random: &mut Random) -> Script {
    let (least, most) = random.weighted(&SIZES);
    let nodes = random.between(least, most);
    let mut shape = shapes::tree(random, nodes);
    if random.chance(70) {
        faults::go_wrong(random, &mut shape);
    }
    let kinds = random.weighted(&[
        (30, &TYPED_TRUTHS),
        (25, &SYMBOLIC_TRUTHS),
        (20, &DEEP),
        (25, &ANY),
    ]);
    let entries = random.weighted(&[(30, 1), (40, 3), (20, 8), (10, 16)]);
    let nodes = shape.iter().map(|operands| {
        let kind = random.weighted(kinds[operands.len()]);
        node(random, kind, operands, entries)
    });
    Script {
        nodes: nodes.collect(),
        entries: vec![1; entries],
    }
}

/// A node of this kind. What is no node number is small, as if it were one.
fn node(random: &mut Random, kind: u32, operands: &[usize], entries: usize) -> Node {
    let number = match kind {
        INT => random.below(128),
        VAR => random.below(entries),
        _ => 0,
    };
    let mut node = Node {
        kind,
        operands: [number as u32, 0, 0],
    };
    for (place, &operand) in node.operands.iter_mut().zip(operands) {
        *place = operand as u32;
    }
    node
}
