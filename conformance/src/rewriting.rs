//! Scripts made of others, with some nodes replaced and variables that the others do not have.

use crate::tree::{one, two, var, Tree};
use crate::tree::{LET, SYM, TYPED, VAR};

/// Where a node of the old script stands in the new one.
#[derive(Clone)]
pub struct Rewriting {
    /// The number that each variable of the old script has in the new one.
    pub places: Vec<usize>,
    /// How many variables are bound in the new one.
    pub bound: usize,
    pub symbolic: bool,
}

/// A variable that no script binds.
const UNKNOWN: usize = 143;

/// What stands for a node of the old script, if it is replaced.
pub type Replaced<'a> = &'a dyn Fn(&Rewriting, &Tree) -> Option<Tree>;

impl Rewriting {
    /// At the root: the entries, and so many more behind them.
    pub fn new(entries: usize, more: usize) -> Rewriting {
        Rewriting {
            places: (0..entries).collect(),
            bound: entries + more,
            symbolic: false,
        }
    }

    /// The new tree: each node replaced, or else kept with its variables as they are numbered by now.
    pub fn tree(&self, tree: &Tree, replaced: Replaced) -> Tree {
        replaced(self, tree).unwrap_or_else(|| self.kept(tree, replaced))
    }

    /// The same node with new operands.
    pub fn kept(&self, tree: &Tree, replaced: Replaced) -> Tree {
        let mut inside = self.clone();
        match (tree.kind, &tree.operands[..]) {
            (VAR, _) => {
                let place = self.places.get(tree.number as usize);
                var(place.copied().unwrap_or(UNKNOWN))
            }
            (LET, [value, body]) => {
                inside.places.push(self.bound);
                inside.bound += 1;
                two(LET, self.tree(value, replaced), inside.tree(body, replaced))
            }
            (TYPED | SYM, [body]) => {
                inside.symbolic = tree.kind == SYM;
                one(tree.kind, inside.tree(body, replaced))
            }
            (kind, operands) => {
                let operands = operands.iter();
                Tree {
                    kind,
                    number: tree.number,
                    operands: operands.map(|tree| self.tree(tree, replaced)).collect(),
                }
            }
        }
    }
}
