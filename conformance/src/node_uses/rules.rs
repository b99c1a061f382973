//! Neighbouring wrong rules of which node 5 names, and the borders at which a script tries the right
//! one.

use super::table::{once_each, with_64_apart, with_numbers, Table};
use crate::families::Marks;
use reference::{Refusal, Script};

/// The node that is named with 5, if one is.
pub type Named = Option<usize>;

/// What a wrong rule says, and the node that it names.
type Rule = (&'static str, fn(&Table) -> Named);

/// What a border says, and whether a script in which this node is named is at it.
type Border = (&'static str, fn(&Table, Named) -> bool);

#[rustfmt::skip] // one rule a line
const RULES: [Rule; 16] = [
    ("otherwise if the second wrong node is named", |table| table.wrong().nth(1).or(table.wrong().next())),
    ("otherwise if the highest wrong node is named", |table| table.wrong().last()),
    ("otherwise if the last node has to be used", |table| table.uses.iter().position(|&uses| uses != 1)),
    ("otherwise if users are counted and not places", |table| table.lowest_by(once_each)),
    ("otherwise if a node may be used again", |table| table.unused()),
    ("otherwise if a node may be left unused", |table| table.used_again()),
    ("otherwise if three uses are as good as one", |table| table.lowest(|uses| uses % 2 == 0)),
    ("otherwise if only the first 64 nodes are tried", |table| table.wrong().find(|&node| node < 64)),
    ("otherwise if only nodes from 64 on are tried", |table| table.wrong().find(|&node| node >= 64)),
    ("otherwise if from 64 on a node may be used again", |table| table.wrong().find(|&node| node < 64 || table.uses[node] == 0)),
    ("otherwise if from 64 on a node may be left unused", |table| table.wrong().find(|&node| node < 64 || table.uses[node] > 1)),
    ("otherwise if nodes 64 apart are one", |table| table.lowest_by(with_64_apart)),
    ("otherwise if an unused node comes before any used again", |table| table.unused().or(table.used_again())),
    ("otherwise if one used again comes before any unused", |table| table.used_again().or(table.unused())),
    ("otherwise if the first use again counts, not the lowest", |table| table.first_use_again()),
    ("otherwise if the number of `int` or `var` is a use", |table| table.lowest_by(with_numbers)),
];

#[rustfmt::skip] // one border a line
const BORDERS: [Border; 11] = [
    ("5 at node 0", |_, named| named == Some(0)),
    ("5 at node 62", |_, named| named == Some(62)),
    ("5 at node 63", |_, named| named == Some(63)),
    ("5 at node 64", |_, named| named == Some(64)),
    ("5 at node 126", |_, named| named == Some(126)),
    ("5 at the node below the last", |table, named| named.is_some_and(|node| node + 2 == table.uses.len())),
    ("5, with `sym` too deep besides", |table, named| named.is_some() && table.has_deep_sym()),
    ("no 5, but `sym` too deep", |table, named| named.is_none() && table.has_deep_sym()),
    ("no 5 in one node", |table, named| named.is_none() && table.uses.len() == 1),
    ("no 5 in 64 to 66 nodes", |table, named| named.is_none() && (64..=66).contains(&table.uses.len())),
    ("no 5 in 128 nodes", |table, named| named.is_none() && table.uses.len() == 128),
];

/// What each mark says: the rules, then the borders.
pub const MARKS: [&str; RULES.len() + BORDERS.len()] = {
    let mut names = [""; RULES.len() + BORDERS.len()];
    let mut mark = 0usize;
    while mark < names.len() {
        names[mark] = match mark.checked_sub(RULES.len()) {
            None => RULES[mark].0,
            Some(border) => BORDERS[border].0,
        };
        mark += 1;
    }
    names
};

/// The marks of a script whose nodes are well formed: the rules that answer otherwise, and the
/// borders. Which node is named says the second program.
pub fn marks(script: &Script) -> Marks {
    let named = match reference::read(&reference::write(script)) {
        Err(Refusal { number: 5, place }) => place.map(|node| node as usize),
        _ => None,
    };
    let table = Table::new(&script.nodes);
    let rules = RULES.iter().map(|rule| (rule.1)(&table) != named);
    let borders = BORDERS.iter().map(|border| (border.1)(&table, named));
    let mut marks = Marks::default();
    for (mark, marked) in rules.chain(borders).enumerate() {
        marks.add(mark, marked);
    }
    marks
}
