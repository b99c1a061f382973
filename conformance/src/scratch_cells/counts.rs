//! What scripts about scratch cells have to come to.

use super::looks::MARKS;
use crate::families::{answer, differs, Answer, Family, ABOUT_CELLS};
use crate::request::{tree_of_script, Source};
use crate::rewriting::Rewriting;
use crate::tree::{self, one, two, var, Tree, GET, LET, SYM, TYPED};
use reference::Script;

pub const FAMILY: Family = Family {
    source: Source::Scratch,
    about: "scratch cells",
    least: ABOUT_CELLS,
    hangs: |script, answer| differs(script.and_then(answer_before), answer),
    otherwise: "if every `get` needs a consistent log",
    numbers: &[6, 9, 10],
    nines: &[GET, TYPED, SYM],
    cells: true,
    marks: &MARKS,
};

/// The answer that is given if every `get` needs a consistent log: that to the script with one more
/// entry, a cell that nobody stores in, which is looked at after each `get`. None if that is too long.
fn answer_before(script: &Script) -> Option<Answer> {
    let more = script.entries.len();
    let entries = [&script.entries[..], &[2]].concat();
    let root = Rewriting::new(more, 1);
    let tree = root.tree(&tree_of_script(script), &|here, tree| {
        looked_after(here, more, tree)
    });
    let fits = tree.size() <= 128 && entries.len() <= 16;
    fits.then(|| answer(&tree::text(&entries, &tree)))
}

/// A `get` of a path, and a look at the entry `more` before its value is given.
fn looked_after(here: &Rewriting, more: usize, tree: &Tree) -> Option<Tree> {
    if tree.kind != GET || !here.symbolic {
        return None;
    }
    let read = here.kept(tree, &|here, tree| looked_after(here, more, tree));
    let look = two(LET, one(GET, var(more)), var(here.bound));
    Some(two(LET, read, look))
}
