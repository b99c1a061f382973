//! Conditions for symbolic blocks: truths of atoms, sums of words, pairs of references.

use crate::maker::{Maker, Scope};
use crate::tree::{int, one, truth, two, var, Tree};
use crate::tree::{ADD, AND, EQ, GET, NOT, REF, TYPED};

/// A condition with the value that it always has, or that a wrong rule would give it.
pub struct Decided {
    pub condition: Tree,
    pub value: bool,
}

impl Maker<'_> {
    /// A condition that every assignment makes the same.
    pub fn decided(&mut self, scope: &Scope) -> Decided {
        let truths = scope.of_type(1);
        let references = scope.references();
        let (condition, value) = match self.random.below(6) {
            0 if !truths.is_empty() && self.atoms > 0 => {
                let test = self.random.pick(&truths);
                (two(AND, one(NOT, var(test)), var(test)), false)
            }
            1 if !truths.is_empty() && self.atoms > 0 => {
                let test = self.random.pick(&truths);
                (two(EQ, var(test), var(test)), true)
            }
            2 if !references.is_empty() => {
                let reference = self.random.pick(&references);
                (two(EQ, var(reference), var(reference)), true)
            }
            3 => {
                let cells = (one(REF, int(1)), one(REF, int(1)));
                (two(EQ, cells.0, cells.1), false)
            }
            4 => self.equal_sums(scope),
            _ => {
                let value = self.random.chance(50);
                (truth(value), value)
            }
        };
        Decided { condition, value }
    }

    /// A condition that is open, or false by where its references come from; a wrong rule would have
    /// it otherwise.
    pub fn doubtful(&mut self, scope: &Scope) -> Option<Decided> {
        let references = scope.references();
        if references.is_empty() {
            return None;
        }
        let first = self.random.pick(&references);
        let second = self.random.pick(&scope.of_type(scope.types[first]));
        let (condition, value) = match self.random.below(5) {
            0 => (two(EQ, var(first), var(second)), first == second),
            1 => {
                let cell = one(REF, self.leaf(scope, scope.types[first] - 2));
                (two(EQ, cell, var(first)), false)
            }
            2 if !scope.pending => {
                let (a, b) = (one(GET, var(first)), one(GET, var(second)));
                (two(EQ, a, b), true)
            }
            3 if !scope.pending => (one(TYPED, truth(true)), true),
            4 if !scope.pending => {
                let again = one(TYPED, var(first));
                (two(EQ, again, var(first)), true)
            }
            _ => return None,
        };
        Some(Decided { condition, value })
    }

    /// Two spellings of one sum, perhaps a constant apart.
    fn equal_sums(&mut self, scope: &Scope) -> (Tree, bool) {
        let (a, b) = (self.term(scope), self.term(scope));
        let (k, apart) = (self.random.word(), self.random.below(2) as u32);
        let left = two(ADD, two(ADD, a.clone(), int(k)), b.clone());
        let right = two(ADD, b, two(ADD, int(k.wrapping_add(apart)), a));
        (two(EQ, left, right), apart == 0)
    }

    /// A truth with so many atoms at most.
    pub fn condition(&mut self, scope: &Scope, atoms: usize) -> Tree {
        match atoms {
            0 => truth(self.random.chance(50)),
            1 => self.atom(scope),
            _ => {
                let part = self.random.between(1, atoms - 1);
                let first = self.condition(scope, part);
                let second = self.condition(scope, atoms - part);
                match self.random.below(5) {
                    0 => two(EQ, first, second),
                    1 => one(NOT, two(AND, one(NOT, first), one(NOT, second))),
                    2 => two(AND, first, one(NOT, second)),
                    _ => two(AND, first, second),
                }
            }
        }
    }

    fn atom(&mut self, scope: &Scope) -> Tree {
        self.atoms = self.atoms.saturating_sub(1);
        let truths = scope.of_type(1);
        let cells = scope.of_type(3);
        match self.random.below(10) {
            0..=3 if !truths.is_empty() => var(self.random.pick(&truths)),
            4 if !cells.is_empty() && !scope.pending => one(GET, var(self.random.pick(&cells))),
            5 | 6 => self.reference_pair(scope),
            _ => {
                let (left, right) = (self.sum(scope), self.sum(scope));
                two(EQ, left, right)
            }
        }
    }

    fn reference_pair(&mut self, scope: &Scope) -> Tree {
        let references = scope.references();
        if references.is_empty() {
            return two(EQ, self.term(scope), int(self.random.word()));
        }
        let first = self.random.pick(&references);
        let others = scope.of_type(scope.types[first]);
        two(EQ, var(first), var(self.random.pick(&others)))
    }

    /// A word: a variable, a cell's content, or a constant.
    pub fn term(&mut self, scope: &Scope) -> Tree {
        let words = scope.of_type(0);
        let cells = scope.of_type(2);
        if !words.is_empty() && self.random.chance(85) {
            return var(self.random.pick(&words));
        }
        if !cells.is_empty() && !scope.pending && self.random.chance(60) {
            return one(GET, var(self.random.pick(&cells)));
        }
        int(self.random.word())
    }

    /// A sum of one to four terms.
    fn sum(&mut self, scope: &Scope) -> Tree {
        let terms = self.random.weighted(&[(40, 1), (35, 2), (15, 3), (10, 4)]);
        let mut sum = self.term(scope);
        for _ in 1..terms {
            let term = self.term(scope);
            sum = if self.random.chance(50) {
                two(ADD, sum, term)
            } else {
                two(ADD, term, sum)
            };
        }
        sum
    }
}
