//! Looks at cells while something wrong is in one, and uses of what was read at its own type.

use super::log::Value;
use super::Block;
use crate::known::{Content, Origin};
use crate::parts::Part;
use crate::tree::{int, one, two, var, Tree};
use crate::tree::{ADD, EQ, GET, NOT, SET};

/// What is marked. The first are looks that need a consistent log by the rule before; then come uses
/// of something wrong that was read; the last three are what wrong rules have another answer to.
#[derive(Clone, Copy, PartialEq, Eq)]
pub enum Mark {
    Wrong,
    Right,
    Past,
    Copy,
    NewCell,
    OtherCell,
    Several,
    Newest,
    Inner,
    Flag,
    Word,
    Reference,
    Stored,
    OwnCell,
    Given,
    OneBranch,
    CellType,
    NothingFound,
    FurtherBack,
}

/// What each mark says; its place is the mark's number.
pub const MARKS: [&str; 19] = [
    "a look at something wrong",
    "a look at something right, with another cell wrong",
    "one of these past a certainly different cell's write",
    "one of these through a copy of the reference",
    "one of these at a cell that `ref` made",
    "one of these at a cell that `get` or a typed block gave",
    "one of these with several cells wrong",
    "one of these at the newer of two wrong writes",
    "one of these inside a typed block",
    "`if` or `not` of a truth out of another type's cell",
    "`add` of a word out of another type's cell",
    "a reference out of another type's cell, used as one",
    "something wrong that was read, stored elsewhere",
    "something wrong that was read, stored where it was",
    "something wrong that was read as the block's value",
    "something wrong that is read on one branch of a fork",
    "otherwise if what is found has the cell's type",
    "otherwise if finding nothing needs no consistent log",
    "otherwise if a write is found past a possible alias",
];

/// A look that finds a write.
#[derive(Clone, Copy)]
pub struct Look {
    pub reference: usize,
    pub value: Value,
}

impl Block<'_> {
    /// Marks the script, if this is reached.
    pub fn mark(&mut self, mark: Mark, marked: bool) {
        self.marks.add(mark as usize, marked && !self.over);
    }

    /// A look that finds something, rather something wrong.
    pub fn look(&mut self) -> Option<Look> {
        let mut looks = Vec::new();
        for (reference, symbol) in self.references() {
            if let Some(value) = self.log.seen(symbol) {
                let wrong = value.code != self.cell(reference);
                looks.push((if wrong { 5 } else { 1 }, Look { reference, value }));
            }
        }
        (!looks.is_empty()).then(|| self.random.weighted(&looks))
    }

    /// Marks what a look is at.
    pub fn mark_look(&mut self, look: Look) {
        let Value {
            symbol, content, ..
        } = self.variables[look.reference];
        let symbol = symbol.expect("a reference");
        let wrong = self.is_strange(look);
        let waiting = self.log.wrong().len();
        let origin = self.log.origin(symbol);
        let marks = [
            (Mark::Wrong, wrong),
            (Mark::Right, !wrong),
            (Mark::Past, self.log.newest_is_other(symbol)),
            (Mark::Copy, content != Content::Variable(look.reference)),
            (Mark::NewCell, origin == Origin::New),
            (
                Mark::OtherCell,
                matches!(origin, Origin::Read | Origin::Block),
            ),
            (Mark::Several, waiting > 1),
            (Mark::Newest, self.log.wrong_twice(symbol)),
            (Mark::Inner, self.frame.inner),
        ];
        for (mark, marked) in marks {
            self.mark(mark, marked && waiting > 0);
        }
    }

    /// Whether what is read has another type than its cell's.
    pub fn is_strange(&self, look: Look) -> bool {
        look.value.code != self.cell(look.reference)
    }

    /// Looks at a cell and uses what is read at its own type.
    pub fn look_and_use(&mut self) {
        let Some(look) = self.look() else {
            return;
        };
        self.mark_look(look);
        let mut tree = one(GET, var(look.reference));
        if self.random.chance(50) {
            let index = self.bind(tree, look.value);
            if self.is_strange(look) {
                self.strange.push(index);
            }
            tree = var(index);
        }
        let mark = match self.random.below(10) {
            0 => self.store_elsewhere(tree, look),
            1 if look.value.code < 6 => {
                self.new_cell_of(tree, look.value);
                Mark::Stored
            }
            2 => self.compare(tree, look.value),
            _ => match look.value.code {
                0 => self.use_word(tree, look.value),
                1 => self.use_truth(tree, look.value),
                _ => self.use_reference(tree, look.value),
            },
        };
        let strange = self.is_strange(look);
        self.mark(mark, strange);
        self.mark(Mark::CellType, strange && mark != Mark::Stored);
    }

    /// What was read goes in another cell, be it right there or wrong.
    fn store_elsewhere(&mut self, tree: Tree, look: Look) -> Mark {
        let (reference, _) = self.random.pick(&self.references());
        self.store(reference, tree, look.value);
        Mark::Stored
    }

    /// Something wrong that is read goes back where it was, and is wrong still.
    pub fn back_into_its_own(&mut self) {
        let Some(look) = self.look().filter(|&look| self.is_strange(look)) else {
            return;
        };
        self.mark_look(look);
        self.mark(Mark::OwnCell, true);
        self.store(look.reference, one(GET, var(look.reference)), look.value);
    }

    /// An `if` on whether what was read is what was stored.
    fn compare(&mut self, tree: Tree, value: Value) -> Mark {
        let equal = two(EQ, value.content.tree(), tree);
        self.choose(equal, true, true);
        match value.code {
            0 => Mark::Word,
            1 => Mark::Flag,
            _ => Mark::Reference,
        }
    }

    fn use_word(&mut self, tree: Tree, value: Value) -> Mark {
        let sum = two(ADD, tree, int(1));
        match value.content {
            Content::Word(number) => {
                let value = Value::constant(Content::Word(number + 1));
                self.bind(sum, value);
            }
            _ => self.bind_other(sum, 0),
        }
        Mark::Word
    }

    fn use_truth(&mut self, tree: Tree, value: Value) -> Mark {
        match value.content {
            Content::Truth(value) if self.random.chance(70) => self.choose(tree, value, true),
            Content::Truth(value) => self.choose(one(NOT, tree), !value, true),
            Content::Variable(index) => self.use_variable_truth(tree, index),
            Content::Word(_) => unreachable!("a truth is no word"),
        }
        Mark::Flag
    }

    /// Forks on a truth that is a free variable's, or asks again for what the path decided.
    fn use_variable_truth(&mut self, tree: Tree, variable: usize) {
        let decided = self.decided.iter().find(|decided| decided.0 == variable);
        let decided = decided.map(|decided| decided.1);
        let free = self.free.iter().position(|&free| free == variable);
        match (decided, free) {
            (Some(value), _) => self.choose(tree, value, true),
            (_, Some(place)) if self.decided.len() < 4 => {
                self.free.swap_remove(place);
                let value = self.random.chance(50);
                self.choose(tree, value, false);
                self.decided.push((variable, value));
            }
            _ => self.bind_other(one(NOT, tree), 1),
        }
    }

    /// A store or a look through the reference that was read, or an `eq` with it.
    fn use_reference(&mut self, tree: Tree, value: Value) -> Mark {
        let symbol = value.symbol.expect("a reference");
        let cell = value.code - 2;
        let has_right = cell < 2 || !self.of_type(cell).is_empty();
        match self.random.below(3) {
            0 if has_right => {
                let stored = self.right(cell);
                self.log.put(symbol, cell, stored);
                self.bind(two(SET, tree, stored.content.tree()), stored);
            }
            1 => match self.log.seen(symbol) {
                Some(found) => {
                    self.bind(one(GET, tree), found);
                }
                None if self.log.consistent() => {
                    self.bind_fresh(one(GET, tree), cell, Origin::Read);
                }
                None => return self.compare(tree, value),
            },
            _ => return self.compare(tree, value),
        }
        Mark::Reference
    }

    /// An `if` that goes on in the branch for this value. If it is decided, no path takes the other.
    pub fn choose(&mut self, condition: Tree, value: bool, decided: bool) {
        let other = if decided && self.random.chance(85) {
            self.junk()
        } else {
            self.ending(self.want)
        };
        self.parts.add(Part::Choose(condition, value, other));
    }
}
