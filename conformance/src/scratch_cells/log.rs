//! What the maker of a block about scratch cells knows of its path: each value's own type, and which
//! writes are of a wrong type.

use crate::known::{self, Content, Rule};

/// A value on a path.
#[derive(Clone, Copy)]
pub struct Value {
    /// Its own type.
    pub code: u32,
    /// Its symbol, if it is a reference.
    pub symbol: Option<usize>,
    /// The constant that it is, or the first variable that has it.
    pub content: Content,
}

impl Value {
    /// A constant word or truth.
    pub fn constant(content: Content) -> Value {
        Value {
            code: u32::from(matches!(content, Content::Truth(_))),
            symbol: None,
            content,
        }
    }
}

/// A write: the type of the cell, and what was stored.
#[derive(Clone, Copy)]
pub struct Write {
    cell: u32,
    value: Value,
}

/// The symbols of a path, and its log.
pub type Log = known::Log<Write>;

impl Log {
    /// Stores a value in a cell of this type.
    pub fn put(&mut self, symbol: usize, cell: u32, value: Value) {
        self.store(symbol, Write { cell, value });
    }

    /// Whether two symbols are possibly, but not certainly, the same cell.
    pub fn may_be_one(&self, a: usize, b: usize) -> bool {
        a != b && !self.apart(Rule::Right, a, b)
    }

    /// What a look gives.
    pub fn seen(&self, symbol: usize) -> Option<Value> {
        self.found(Rule::Right, symbol).map(|write| write.value)
    }

    /// Whether the newest write is through another symbol.
    pub fn newest_is_other(&self, symbol: usize) -> bool {
        let newest = self.newest().next();
        newest.is_some_and(|(through, _)| through != symbol)
    }

    /// Whether the newest two writes through the symbol are of wrong types.
    pub fn wrong_twice(&self, symbol: usize) -> bool {
        let mut own = self.are_wrong(symbol);
        own.next() == Some(true) && own.next() == Some(true)
    }

    /// The symbols whose newest write is of a wrong type. The log is consistent if there are none.
    pub fn wrong(&self) -> Vec<usize> {
        let all = self.symbols();
        all.filter(|&symbol| self.are_wrong(symbol).next() == Some(true))
            .collect()
    }

    pub fn consistent(&self) -> bool {
        self.wrong().is_empty()
    }

    /// Of each write through a symbol, the newest first, whether it is of a wrong type.
    fn are_wrong(&self, symbol: usize) -> impl Iterator<Item = bool> + '_ {
        let own = self.newest().filter(move |&(through, _)| through == symbol);
        own.map(|(_, write)| write.value.code != write.cell)
    }
}
