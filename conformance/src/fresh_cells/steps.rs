//! What a block about new cells does before it asks: references of every origin, and writes.

use super::{block, Begun, Block, Manner, Variable};
use crate::known::{Content, Origin, Rule};
use crate::parts::Part;
use crate::tree::{choice, int, one, two, var, Tree};
use crate::tree::{GET, LET, REF, SET, TYPED};

impl Block<'_> {
    /// Binds a new cell.
    pub fn new_cell(&mut self) {
        let code = self.random.weighted(&[(4, 0), (4, 1), (1, 2), (1, 3)]);
        let Some(content) = self.content(code) else {
            return;
        };
        let symbol = self.cells.add(Origin::New);
        self.cells.store(symbol, content);
        self.bind(one(REF, content.tree()), code + 2, Some(symbol));
    }

    /// Binds one more reference, mostly a new one of some origin, or begins a `sym`.
    pub fn make(&mut self) {
        let (reference, symbol) = self.random.pick(&self.references());
        let code = self.variables[reference].code;
        match self.random.below(16) {
            0..=3 => self.read(),
            4 | 5 => self.typed(var(reference), code),
            6 => self.typed(one(REF, int(1)), 2),
            7 => self.bind(var(reference), code, Some(symbol)),
            8 if self.syms < 4 => {
                self.syms += 1;
                self.parts.add(Part::Sym);
            }
            9 | 10 if self.syms < 4 => {
                self.new_cell();
                self.inner_block();
            }
            _ => self.new_cell(),
        }
    }

    /// Binds what is read from some cell.
    fn read(&mut self) {
        let cells = self.references();
        self.read_one_of(cells);
    }

    /// Binds what is read from one of these cells, rather from one with a reference in it.
    fn read_one_of(&mut self, mut cells: Vec<(usize, usize)>) {
        if cells.iter().any(|cell| self.variables[cell.0].code >= 4) {
            cells.retain(|cell| self.variables[cell.0].code >= 4);
        }
        let (reference, symbol) = self.random.pick(&cells);
        let code = self.variables[reference].code - 2;
        let symbol = match self.cells.found(Rule::Right, symbol) {
            Some(Content::Variable(index)) => self.variables[index].symbol,
            None if code >= 2 => Some(self.cells.add(Origin::Read)),
            _ => None,
        };
        self.bind(one(GET, var(reference)), code, symbol);
    }

    /// Binds a typed block's value.
    fn typed(&mut self, inside: Tree, code: u32) {
        self.cells.forget();
        let symbol = (code >= 2).then(|| self.cells.add(Origin::Block));
        self.bind(one(TYPED, inside), code, symbol);
    }

    /// Binds the value of a typed block with a symbolic one inside, where what is bound here are the
    /// variables that paths begin with, and perhaps one more.
    fn inner_block(&mut self) {
        let begins = |variable: &Variable| {
            let origin = variable.symbol.map(|symbol| self.cells.origin(symbol));
            let origin = match origin {
                Some(Origin::New) => Origin::OuterCell,
                Some(Origin::Entry) => Origin::Entry,
                _ => Origin::Outer,
            };
            (variable.code, origin)
        };
        let mut begun: Vec<Begun> = self.variables.iter().map(begins).collect();
        let one_more = self.random.chance(30);
        if one_more {
            begun.push((2, Origin::Outer));
        }
        let manner = Manner {
            inner: true,
            crowded: false,
            ..self.manner
        };
        let (mut inside, code) = block(self.random, self.asked, &begun, self.syms + 1, (1, manner));
        if one_more {
            inside = two(LET, one(REF, int(0)), inside);
        }
        self.typed(inside, code);
    }

    /// A write, perhaps on both sides of a fork, or after one of a wrong type that it mends.
    pub fn store(&mut self) {
        let Some((reference, content)) = self.some_write() else {
            return;
        };
        let write = two(SET, var(reference), content.tree());
        match self.random.below(10) {
            0 if self.atoms < 4 => {
                let fork = choice(self.atom(), write.clone(), write);
                self.stored(fork, reference, content);
            }
            1 | 2 => {
                self.misfit_stored(reference);
                if self.random.chance(30) {
                    self.store();
                }
                self.stored(write, reference, content);
            }
            _ => self.stored(write, reference, content),
        }
    }

    /// Reads a cell of which nothing is known while a write of a wrong type waits to be mended.
    pub fn look_too_early(&mut self) {
        if let Some((reference, content)) = self.some_write() {
            self.misfit_stored(reference);
            let mut cells = self.references();
            cells.retain(|cell| self.cells.found(Rule::Right, cell.1).is_none());
            if !cells.is_empty() {
                self.read_one_of(cells);
            }
            let write = two(SET, var(reference), content.tree());
            self.stored(write, reference, content);
        }
    }

    /// A reference and what may be stored through it; a new cell or a variable most often.
    fn some_write(&mut self) -> Option<(usize, Content)> {
        let weigh = |(reference, symbol)| match self.cells.origin(symbol) {
            Origin::Read | Origin::Block => (2, reference),
            Origin::OuterCell => (6, reference),
            _ => (3, reference),
        };
        let cells: Vec<(usize, usize)> = self.references().into_iter().map(weigh).collect();
        let reference = self.random.weighted(&cells);
        let content = self.content(self.variables[reference].code - 2)?;
        Some((reference, content))
    }

    /// Binds a write that stores this.
    fn stored(&mut self, write: Tree, reference: usize, content: Content) {
        let Variable { code, symbol } = self.variables[reference];
        self.cells.store(symbol.expect("a reference"), content);
        let symbol = match content {
            Content::Variable(index) => self.variables[index].symbol,
            _ => None,
        };
        self.bind(write, code - 2, symbol);
    }

    /// Binds a write of a wrong type.
    fn misfit_stored(&mut self, reference: usize) {
        let Variable { code, symbol } = self.variables[reference];
        let content = self.misfit(code - 2);
        self.cells.store(symbol.expect("a reference"), content);
        let write = two(SET, var(reference), content.tree());
        let code = u32::from(matches!(content, Content::Truth(_)));
        self.bind(write, code, None);
    }
}
