//! The parts of a symbolic block that is being made, each around all that follows it.

use crate::tree::{choice, one, two, Tree};
use crate::tree::{LET, SYM};

/// A part of a block, around all that follows it.
pub enum Part {
    /// A `let` of this value.
    Bind(Tree),
    /// An `if` that goes on where its condition has this value. The other branch is given.
    Choose(Tree, bool, Tree),
    /// A `sym`, which changes nothing here.
    Sym,
}

/// The parts of a block so far.
#[derive(Default)]
pub struct Parts {
    parts: Vec<Part>,
    size: usize,
}

impl Parts {
    pub fn add(&mut self, part: Part) {
        self.size += match &part {
            Part::Bind(value) => 1 + value.size(),
            Part::Choose(condition, _, other) => 1 + condition.size() + other.size(),
            Part::Sym => 1,
        };
        self.parts.push(part);
    }

    /// How many nodes the parts have.
    pub fn size(&self) -> usize {
        self.size
    }

    /// The parts around a last value.
    pub fn around(self, last: Tree) -> Tree {
        let around = |rest, part| match part {
            Part::Bind(value) => two(LET, value, rest),
            Part::Choose(condition, true, other) => choice(condition, rest, other),
            Part::Choose(condition, false, other) => choice(condition, other, rest),
            Part::Sym => one(SYM, rest),
        };
        self.parts.into_iter().rev().fold(last, around)
    }
}
