//! Counts what scripts about new cells came to.

use super::questions::ASKS;
use crate::families::{answer, differs, Answer, Family, ABOUT_CELLS};
use crate::request::{tree_of_script, Source};
use crate::rewriting::Rewriting;
use crate::tree::{self, one, two, var, Tree, GET, LET, SYM, TYPED, VAR};
use reference::Script;

pub const FAMILY: Family = Family {
    source: Source::Cells,
    about: "new cells beside old ones",
    least: ABOUT_CELLS,
    hangs: |script, answer| differs(script.and_then(answer_if_the_same), answer),
    otherwise: "if they may be the same",
    numbers: &[6, 7, 9, 10, 11, 12],
    nines: &[GET, SYM],
    cells: true,
    marks: &ASKS,
};

/// The answer that is given if a new cell may be a variable's: that to the script in which each
/// variable goes through a typed block as a path begins. None if that is too long.
fn answer_if_the_same(script: &Script) -> Option<Answer> {
    let entries = &script.entries;
    let root = Rewriting::new(entries.len(), 0);
    let tree = root.tree(&tree_of_script(script), &|here, tree| {
        handed(here, entries, tree)
    });
    (tree.size() <= 128).then(|| answer(&tree::text(entries, &tree)))
}

/// A block in which a typed block for each variable that may be a reference comes first.
fn handed(here: &Rewriting, entries: &[u32], tree: &Tree) -> Option<Tree> {
    if tree.kind != SYM || here.symbolic {
        return None;
    }
    let body = &tree.operands[0];
    let mut inside = here.clone();
    inside.symbolic = true;
    let all = 0..here.places.len();
    let reference = |i: &usize| entries.get(*i).is_none_or(|&code| code >= 2);
    let handed_over: Vec<usize> = all
        .filter(reference)
        .filter(|&i| mentions(body, i))
        .collect();
    for &variable in &handed_over {
        inside.places[variable] = inside.bound;
        inside.bound += 1;
    }
    let hand = |rest, &variable: &usize| {
        let value = one(TYPED, var(here.places[variable]));
        two(LET, value, rest)
    };
    let body = inside.tree(body, &|here, tree| handed(here, entries, tree));
    Some(one(SYM, handed_over.iter().rev().fold(body, hand)))
}

fn mentions(tree: &Tree, variable: usize) -> bool {
    tree.kind == VAR && tree.number as usize == variable
        || tree
            .operands
            .iter()
            .any(|operand| mentions(operand, variable))
}
