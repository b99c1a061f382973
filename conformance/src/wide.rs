//! Blocks around the limits of paths and atoms.

use crate::maker::{Made, Maker, Scope};
use crate::random::Random;
use crate::tree::{choice, int, one, two, var, Tree};
use crate::tree::{EQ, LET, SYM};

/// A block with several independent forks in a row, and perhaps a few paths beside them.
pub fn wide_script(random: &mut Random) -> Made {
    let forks = random.weighted(&[(1, 3), (1, 4), (2, 5), (5, 6), (2, 7)]);
    let truths = random.between(2, 8);
    let entries = [vec![1; truths], vec![0, 0, 2, 2, 3]].concat();
    let mut maker = Maker {
        random,
        forks: 0,
        atoms: 64,
    };
    let scope = Scope {
        types: entries.clone(),
        symbolic: true,
        syms: 1,
        blocks: 1,
        ..Scope::default()
    };
    let want = maker.some_type(&scope);
    let mut tree = maker.forks_in_a_row(&scope, want, forks, truths);
    if maker.random.chance(40) {
        tree = maker.beside(&scope, want, tree);
    }
    let tree = one(SYM, tree);
    Made { entries, tree }
}

impl Maker<'_> {
    /// Binds so many forks; each has a truth entry of its own, while there are some, or more atoms.
    fn forks_in_a_row(&mut self, scope: &Scope, want: u32, forks: usize, truths: usize) -> Tree {
        let per_fork = self.random.weighted(&[(60, 1), (25, 2), (15, 3)]);
        let mut scope = scope.clone();
        let mut parts = Vec::new();
        let mut conditions = Vec::new();
        for fork in 0..forks {
            let condition = match (per_fork, fork < truths) {
                (1, true) => var(fork),
                _ => self.condition(&scope, per_fork),
            };
            let code = self.random.below(3) as u32;
            let (yes, no) = (self.value(&scope, code, 2), self.value(&scope, code, 2));
            parts.push(choice(condition.clone(), yes, no));
            conditions.push(condition);
            scope = scope.with(code);
        }
        let mut tree = self.value(&scope, want, 4);
        if self.random.chance(40) {
            tree = self.wrong_on_one_path(&scope, &conditions, want, &tree);
        }
        let bind = |rest, part| two(LET, part, rest);
        parts.into_iter().rev().fold(tree, bind)
    }

    /// The forks' conditions asked again: one choice of them all ends in something wrong, so that
    /// it matters which paths come before it.
    fn wrong_on_one_path(
        &mut self,
        scope: &Scope,
        conditions: &[Tree],
        want: u32,
        tree: &Tree,
    ) -> Tree {
        let mut wrong = self.junk(scope);
        for (place, condition) in conditions.iter().enumerate() {
            let other = if place == 0 {
                tree.clone()
            } else {
                self.leaf(scope, want)
            };
            wrong = if self.random.chance(50) {
                choice(condition.clone(), wrong, other)
            } else {
                choice(condition.clone(), other, wrong)
            };
        }
        wrong
    }

    /// One or two paths more, before or after those of the tree.
    fn beside(&mut self, scope: &Scope, want: u32, tree: Tree) -> Tree {
        let mut other = self.leaf(scope, want);
        if self.random.chance(40) {
            other = choice(self.new_atom(scope), other, self.leaf(scope, want));
        }
        let condition = self.new_atom(scope);
        if self.random.chance(50) {
            choice(condition, tree, other)
        } else {
            choice(condition, other, tree)
        }
    }

    /// An atom that hardly comes up elsewhere.
    fn new_atom(&mut self, scope: &Scope) -> Tree {
        let words = scope.of_type(0);
        let number = int(1000 + self.random.below(1000) as u32);
        two(EQ, var(self.random.pick(&words)), number)
    }
}
