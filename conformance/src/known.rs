//! What the maker of a block knows of its path: where the symbol of each reference comes from, and the
//! log of writes. Beside the right rule of what is found there stand wrong ones, so that a script can
//! ask what tells them from it.

use crate::tree::{int, truth, var, Tree};

/// Where the symbol of a reference comes from.
#[derive(Clone, Copy, PartialEq, Eq)]
pub enum Origin {
    /// It stood for an entry when the path began.
    Entry,
    /// It stood for another variable when the path began.
    Outer,
    /// The same, and the variable is a new cell of the path around the block.
    OuterCell,
    /// A `ref` of this path made it.
    New,
    /// A `get` made it.
    Read,
    /// It is a typed block's value.
    Block,
}

/// A rule of which symbols are certainly different.
#[derive(Clone, Copy, PartialEq, Eq)]
pub enum Rule {
    /// Two new cells, and a new cell and a variable.
    Right,
    /// Wrong: two new cells only.
    NewOnly,
    /// Wrong: of the variables the entries only.
    EntriesOnly,
    /// Wrong: also a new cell and a reference that `get` made.
    Reads,
    /// Wrong: also a new cell and a typed block's value.
    Blocks,
    /// Wrong: also two variables.
    Variables,
    /// Wrong: also two variables that are new cells of the path around.
    OuterCells,
}

/// The rules; each one's place is its number.
pub const RULES: [Rule; 7] = [
    Rule::Right,
    Rule::NewOnly,
    Rule::EntriesOnly,
    Rule::Reads,
    Rule::Blocks,
    Rule::Variables,
    Rule::OuterCells,
];

impl Rule {
    /// Whether two different symbols are certainly different cells.
    fn apart(self, a: Origin, b: Origin) -> bool {
        match (a, b) {
            (Origin::New, old) | (old, Origin::New) => self.never_new(old),
            (Origin::Read | Origin::Block, _) | (_, Origin::Read | Origin::Block) => false,
            (Origin::OuterCell, Origin::OuterCell) => {
                matches!(self, Rule::Variables | Rule::OuterCells)
            }
            _ => self == Rule::Variables,
        }
    }

    /// Whether a symbol is certainly different from another one that is a new cell.
    fn never_new(self, other: Origin) -> bool {
        match other {
            Origin::New => true,
            Origin::Entry => self != Rule::NewOnly,
            Origin::Outer | Origin::OuterCell => !matches!(self, Rule::NewOnly | Rule::EntriesOnly),
            Origin::Read => self == Rule::Reads,
            Origin::Block => self == Rule::Blocks,
        }
    }
}

/// What a cell holds, if it is known: a constant, or a variable's value.
#[derive(Clone, Copy, PartialEq, Eq)]
pub enum Content {
    Word(u32),
    Truth(bool),
    Variable(usize),
}

impl Content {
    pub fn tree(self) -> Tree {
        match self {
            Content::Word(number) => int(number),
            Content::Truth(value) => truth(value),
            Content::Variable(index) => var(index),
        }
    }
}

/// The symbols of a path, and the writes through them.
pub struct Log<W> {
    origins: Vec<Origin>,
    writes: Vec<(usize, W)>,
}

impl<W> Default for Log<W> {
    fn default() -> Log<W> {
        Log {
            origins: Vec::new(),
            writes: Vec::new(),
        }
    }
}

impl<W: Copy> Log<W> {
    /// A symbol that nothing was stored through.
    pub fn add(&mut self, origin: Origin) -> usize {
        self.origins.push(origin);
        self.origins.len() - 1
    }

    pub fn origin(&self, symbol: usize) -> Origin {
        self.origins[symbol]
    }

    pub fn symbols(&self) -> std::ops::Range<usize> {
        0..self.origins.len()
    }

    pub fn store(&mut self, symbol: usize, write: W) {
        self.writes.push((symbol, write));
    }

    /// A typed block empties the log.
    pub fn forget(&mut self) {
        self.writes.clear();
    }

    /// The writes with their symbols, the newest first.
    pub fn newest(&self) -> impl Iterator<Item = (usize, W)> + '_ {
        self.writes.iter().rev().copied()
    }

    /// What a rule finds through a symbol.
    pub fn found(&self, rule: Rule, symbol: usize) -> Option<W> {
        let (through, write) = self
            .newest()
            .find(|&(through, _)| !self.apart(rule, through, symbol))?;
        (through == symbol).then_some(write)
    }

    /// Whether two symbols are certainly different by a rule.
    pub fn apart(&self, rule: Rule, a: usize, b: usize) -> bool {
        a != b && rule.apart(self.origins[a], self.origins[b])
    }
}
