//! What a block about scratch cells does beside looks: references of every origin, wrong values that
//! it puts in, writes between, and right values that it puts back.

use super::log::Value;
use super::looks::Mark;
use super::{block, Begun, Block, Frame};
use crate::known::{Content, Origin};
use crate::maker::OPEN;
use crate::parts::Part;
use crate::tree::{choice, int, one, two, var, Tree};
use crate::tree::{ADD, EQ, GET, IF, LET, NOT, REF, SET, TYPED};

impl Block<'_> {
    /// Binds one more reference, or begins a `sym`.
    pub fn make(&mut self) {
        let (reference, _) = self.random.pick(&self.references());
        match self.random.below(12) {
            0 | 1 => self.read(),
            2 if self.log.consistent() => {
                self.typed(var(reference), self.variables[reference].code)
            }
            3 if self.log.consistent() => self.typed(one(REF, int(1)), 2),
            4 | 5 => self.copy(reference),
            6 => self.begin_sym(),
            7 | 8 if self.frame.syms < 4 && self.log.consistent() => self.inner_block(),
            _ => {
                let code = self.random.weighted(&[(4, 0), (3, 1), (1, 2), (1, 3)]);
                self.new_cell(code);
            }
        }
    }

    /// One of the things that a block does while something wrong is in a cell.
    pub fn go_on(&mut self) {
        if self.over {
            return;
        }
        match self.random.below(16) {
            0..=6 => self.look_and_use(),
            7 | 8 => self.write_between(),
            9 => self.put_in(),
            10 => self.wrong_again(),
            11 => self.back_into_its_own(),
            12 => self.on_one_branch(),
            13 => self.begin_sym(),
            14 => {
                let (reference, _) = self.random.pick(&self.references());
                self.copy(reference);
            }
            _ => {
                self.new_cell(0);
            }
        }
    }

    fn begin_sym(&mut self) {
        if self.frame.syms < 4 {
            self.frame.syms += 1;
            self.parts.add(Part::Sym);
        }
    }

    fn copy(&mut self, reference: usize) {
        self.bind(var(reference), self.variables[reference]);
    }

    /// Binds a new cell that holds something of this type.
    pub fn new_cell(&mut self, code: u32) -> usize {
        let value = self.right(code);
        self.new_cell_of(value.content.tree(), value)
    }

    /// Binds a new cell that holds this value.
    pub fn new_cell_of(&mut self, tree: Tree, value: Value) -> usize {
        let index = self.bind_fresh(one(REF, tree), value.code + 2, Origin::New);
        let symbol = self.variables[index].symbol.expect("a reference");
        self.log.put(symbol, value.code, value);
        index
    }

    /// Binds what is read from a cell of references, as far as a look is allowed.
    fn read(&mut self) {
        let mut cells = self.references();
        cells.retain(|cell| self.variables[cell.0].code >= 4);
        if cells.is_empty() {
            return;
        }
        let (reference, symbol) = self.random.pick(&cells);
        let read = one(GET, var(reference));
        match self.log.seen(symbol) {
            Some(value) => {
                self.bind(read, value);
            }
            None if self.log.consistent() => {
                self.bind_fresh(read, self.cell(reference), Origin::Read);
            }
            None => {}
        }
    }

    /// Binds a typed block's value.
    pub fn typed(&mut self, inside: Tree, code: u32) {
        self.log.forget();
        self.bind_fresh(one(TYPED, inside), code, Origin::Block);
    }

    /// Binds the value of a typed block with a symbolic one inside. What goes wrong may do so there.
    fn inner_block(&mut self) {
        let origin = |value: &Value| match value.symbol.map(|symbol| self.log.origin(symbol)) {
            Some(Origin::Entry) => Origin::Entry,
            _ => Origin::Outer,
        };
        let begins = |value: &Value| (value.code, origin(value));
        let begun: Vec<Begun> = self.variables.iter().map(begins).collect();
        let fault = match self.random.chance(40) {
            true => self.frame.fault.take(),
            false => None,
        };
        let frame = Frame {
            syms: self.frame.syms + 1,
            inner: true,
            rounds: 1,
            fault,
        };
        let made = block(self.random, self.marks, &begun, frame);
        self.typed(made.tree, made.code);
        self.over |= made.refused;
    }

    /// A value of this type; a reference to a new cell, if no variable has the type.
    pub fn right(&mut self, code: u32) -> Value {
        let found = self.of_type(code);
        if !found.is_empty() && (code >= 2 || self.random.chance(30)) {
            return self.variables[self.random.pick(&found)];
        }
        match code {
            0 => Value::constant(Content::Word(self.random.below(4) as u32)),
            1 => Value::constant(Content::Truth(self.random.chance(50))),
            _ => {
                let index = self.new_cell(code - 2);
                self.variables[index]
            }
        }
    }

    /// A value of another type.
    pub fn misfit(&mut self, code: u32) -> Value {
        loop {
            let value = match self.random.below(8) {
                0..=2 => self.right(1),
                3..=5 => self.right(0),
                _ => {
                    let (reference, _) = self.random.pick(&self.references());
                    self.variables[reference]
                }
            };
            if value.code != code {
                return value;
            }
        }
    }

    /// Binds a write through a variable.
    pub fn store(&mut self, reference: usize, tree: Tree, value: Value) -> usize {
        let symbol = self.variables[reference].symbol.expect("a reference");
        let write = two(SET, var(reference), tree);
        self.log.put(symbol, self.cell(reference), value);
        self.bind(write, value)
    }

    /// Stores a value of the cell's type.
    pub fn store_right(&mut self, reference: usize) {
        let value = self.right(self.cell(reference));
        self.store(reference, value.content.tree(), value);
    }

    /// Stores a value of another type.
    pub fn store_wrong(&mut self, reference: usize) {
        let value = self.misfit(self.cell(reference));
        self.store(reference, value.content.tree(), value);
    }

    /// Puts something wrong in some cell.
    pub fn put_in(&mut self) {
        let (reference, _) = self.random.pick(&self.references());
        self.store_wrong(reference);
    }

    /// Puts something wrong over something wrong.
    fn wrong_again(&mut self) {
        let wrong = self.wrong_cells();
        if !wrong.is_empty() {
            let reference = self.random.pick(&wrong);
            self.store_wrong(reference);
        }
    }

    /// The variables whose cells hold something wrong.
    pub fn wrong_cells(&self) -> Vec<usize> {
        let wrong = self.log.wrong();
        let mut cells = self.references();
        cells.retain(|cell| wrong.contains(&cell.1));
        cells.into_iter().map(|cell| cell.0).collect()
    }

    /// A right write through some reference, rather one that is certainly none of the wrong cells.
    fn write_between(&mut self) {
        let wrong = self.log.wrong();
        let mut cells = self.references();
        cells.retain(|cell| !wrong.contains(&cell.1));
        let other = |cell: &&(usize, usize)| {
            let may_be = |&symbol: &usize| self.log.may_be_one(cell.1, symbol);
            !wrong.iter().any(may_be)
        };
        let apart: Vec<(usize, usize)> = cells.iter().filter(other).copied().collect();
        let cells = match !apart.is_empty() && self.random.chance(80) {
            true => apart,
            false => cells,
        };
        if !cells.is_empty() {
            let (reference, _) = self.random.pick(&cells);
            self.store_right(reference);
        }
    }

    /// Puts right values back in all cells but one that is left, in any order.
    pub fn put_back(&mut self) {
        loop {
            let mut wrong = self.wrong_cells();
            wrong.retain(|&reference| self.variables[reference].symbol != self.left);
            if wrong.is_empty() {
                return;
            }
            let reference = self.random.pick(&wrong);
            self.store_right(reference);
        }
    }

    /// Something wrong is put in, and looked at, on one branch only or otherwise on each. After both
    /// something right is put back.
    fn on_one_branch(&mut self) {
        if self.free.is_empty() || self.parts.size() > 60 {
            return;
        }
        let (reference, _) = self.random.pick(&self.references());
        let test = self.random.pick(&self.free);
        let here = self.looked_at(reference);
        let there = match self.random.below(3) {
            0 => self.looked_at(reference),
            1 => two(SET, var(reference), self.leaf(self.cell(reference))),
            _ => self.leaf(0),
        };
        let fork = match self.random.chance(50) {
            true => choice(var(test), here, there),
            false => choice(var(test), there, here),
        };
        self.mark(Mark::OneBranch, true);
        self.mark(Mark::CellType, true);
        self.bind_other(fork, OPEN);
        self.store_right(reference);
    }

    /// A wrong constant put in a cell, and a use of it as it is read there.
    fn looked_at(&mut self, reference: usize) -> Tree {
        let (content, kind) = match self.cell(reference) {
            0 => (Content::Truth(self.random.chance(50)), NOT),
            1 => (Content::Word(self.random.below(4) as u32), ADD),
            _ if self.random.chance(50) => (Content::Truth(self.random.chance(50)), IF),
            _ => (Content::Word(self.random.below(4) as u32), EQ),
        };
        let read = one(GET, var(reference));
        let used = match kind {
            NOT => one(NOT, read),
            IF => choice(read, int(1), int(2)),
            _ => two(kind, int(1), read),
        };
        two(LET, two(SET, var(reference), content.tree()), used)
    }
}
