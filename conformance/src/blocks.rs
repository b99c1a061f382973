//! Shapes that only symbolic blocks allow: writes of a wrong type that are mended, branches that
//! no path takes, and values whose type depends on the path.

use crate::maker::{Maker, Scope, OPEN};
use crate::tree::{choice, int, one, truth, two, var, Tree};
use crate::tree::{ADD, AND, EQ, GET, LET, NOT, REF, SET, TYPED};

impl Maker<'_> {
    /// One of the shapes, if there is room for it here.
    pub fn shape(&mut self, scope: &Scope, want: u32, size: usize) -> Option<Tree> {
        let fork = self.forks > 0 && self.atoms > 0 && size >= 8;
        match self.random.below(8) {
            0 | 1 if size >= 8 => Some(self.mended(scope, want, size)),
            2 if fork => Some(self.mended_after_fork(scope, want, size)),
            3 if fork && size >= 11 => Some(self.open_type(scope, want, size)),
            4 if size >= 5 => Some(self.one_branch(scope, want, size)),
            5 if fork => Some(self.named_fork(scope, want, size)),
            6 if size >= 10 && !scope.pending => Some(self.read_back(scope, want, size)),
            7 if fork => self.respelled(scope, want, size),
            _ => None,
        }
    }

    /// Hands a reference variable to a shape, a new one if there is none.
    fn with_reference(
        &mut self,
        scope: &Scope,
        shape: impl FnOnce(&mut Self, &Scope, usize) -> Tree,
    ) -> Tree {
        let found = scope.references();
        if !found.is_empty() && self.random.chance(80) {
            let reference = self.random.pick(&found);
            return shape(self, scope, reference);
        }
        let code = self.random.below(4) as u32;
        let cell = one(REF, self.leaf(scope, code));
        let inside = scope.with(code + 2);
        two(LET, cell, shape(self, &inside, scope.types.len()))
    }

    /// A type other than this one.
    fn other_type(&mut self, scope: &Scope, code: u32) -> u32 {
        let other = self.some_type(scope);
        if other == code {
            other ^ 1
        } else {
            other
        }
    }

    /// Stores a wrong type, perhaps does something else, and stores the right type.
    fn mended(&mut self, scope: &Scope, want: u32, size: usize) -> Tree {
        self.with_reference(scope, |maker, scope, reference| {
            let code = scope.types[reference] - 2;
            let other = maker.other_type(scope, code);
            let (part, rest) = maker.split(size - 4);
            let wrong = two(SET, var(reference), maker.value(scope, other, part.min(6)));
            let inside = scope.with(other).waiting(true);
            if maker.random.chance(50) {
                let mended = maker.mending(&inside, scope, reference, want, rest);
                return two(LET, wrong, mended);
            }
            let extra = maker.some_type(&inside);
            let between = maker.value(&inside, extra, part.min(8));
            let inside = inside.with(extra);
            let mended = maker.mending(&inside, scope, reference, want, rest);
            two(LET, wrong, two(LET, between, mended))
        })
    }

    /// The right write, and what follows it; `before` is the scope before the wrong write.
    fn mending(
        &mut self,
        scope: &Scope,
        before: &Scope,
        reference: usize,
        want: u32,
        size: usize,
    ) -> Tree {
        let code = scope.types[reference] - 2;
        let value = self.value(scope, code, size.min(4));
        let through = if self.random.chance(6) {
            self.random.pick(&scope.of_type(code + 2))
        } else {
            reference
        };
        let right = two(SET, var(through), value);
        if code == want && self.random.chance(30) {
            return right;
        }
        let after = scope.with(code).waiting(before.pending);
        two(LET, right, self.value(&after, want, size))
    }

    /// A write whose type is wrong on one side of a fork, mended after both.
    fn mended_after_fork(&mut self, scope: &Scope, want: u32, size: usize) -> Tree {
        self.with_reference(scope, |maker, scope, reference| {
            let code = scope.types[reference] - 2;
            let other = maker.other_type(scope, code);
            let wrong = two(SET, var(reference), maker.value(scope, other, 3));
            let right = two(SET, var(reference), maker.value(scope, code, 3));
            let condition = maker.fork_condition(scope);
            let fork = if maker.random.chance(50) {
                choice(condition, wrong, right)
            } else {
                choice(condition, right, wrong)
            };
            let inside = scope.with(OPEN).waiting(true);
            let rest = maker.mending(&inside, scope, reference, want, size - 6);
            two(LET, fork, rest)
        })
    }

    /// A variable whose type depends on the path, used by each side as it is there.
    fn open_type(&mut self, scope: &Scope, want: u32, size: usize) -> Tree {
        let (test, open) = (scope.types.len(), scope.types.len() + 1);
        let condition = self.fork_condition(scope);
        let named = scope.with(1);
        let code = self.some_type(scope);
        let other = self.other_type(scope, code);
        let (a, b) = self.split(size - 7);
        let yes = self.value(&named.knowing(test, true), code, a.min(5));
        let no = self.value(&named.knowing(test, false), other, a.min(5));
        let value = choice(var(test), yes, no);
        let here = named.with(code).knowing(test, true);
        let there = named.with(other).knowing(test, false);
        let yes = self.use_of(&here, open, want, b / 2 + 1);
        let no = self.use_of(&there, open, want, b / 2 + 1);
        let again = self.spelled_again(test, true, yes, no);
        two(LET, condition, two(LET, value, again))
    }

    /// Something of the wanted type that looks at a variable.
    fn use_of(&mut self, scope: &Scope, variable: usize, want: u32, size: usize) -> Tree {
        let code = scope.types[variable];
        let seen = match code {
            0 => two(ADD, var(variable), int(1)),
            1 => one(NOT, var(variable)),
            _ => two(EQ, var(variable), var(variable)),
        };
        let bound = if code == 0 { 0 } else { 1 };
        two(LET, seen, self.value(&scope.with(bound), want, size))
    }

    /// An `if` on a truth variable, spelled in one of several ways that mean the same.
    fn spelled_again(&mut self, variable: usize, value: bool, yes: Tree, no: Tree) -> Tree {
        let (yes, no) = if value { (yes, no) } else { (no, yes) };
        match self.random.below(5) {
            0 => choice(one(NOT, var(variable)), no, yes),
            1 => choice(two(AND, var(variable), var(variable)), yes, no),
            2 => choice(two(EQ, truth(true), var(variable)), yes, no),
            _ => choice(var(variable), yes, no),
        }
    }

    /// An `if` of which only one branch can be taken; the other is never followed.
    fn one_branch(&mut self, scope: &Scope, want: u32, size: usize) -> Tree {
        let junk = self.junk(scope);
        if !scope.known.is_empty() && self.random.chance(70) {
            let (test, value) = self.random.pick(&scope.known);
            let taken = self.value(scope, want, size - 4);
            return self.spelled_again(test, value, taken, junk);
        }
        let doubtful = if self.random.chance(12) {
            self.doubtful(scope)
        } else {
            None
        };
        let decided = doubtful.unwrap_or_else(|| self.decided(scope));
        let taken = self.value(scope, want, size.saturating_sub(7));
        if decided.value {
            choice(decided.condition, taken, junk)
        } else {
            choice(decided.condition, junk, taken)
        }
    }

    /// A branch that is wrong in some way, for places that no path reaches.
    pub fn junk(&mut self, scope: &Scope) -> Tree {
        let references = scope.references();
        match self.random.below(6) {
            0 => two(ADD, truth(true), int(1)),
            1 => var(scope.types.len() + self.random.below(3)),
            2 => one(GET, int(self.random.word())),
            3 if !references.is_empty() => {
                let reference = self.random.pick(&references);
                let other = self.other_type(scope, scope.types[reference] - 2);
                two(SET, var(reference), self.leaf(scope, other))
            }
            4 => one(TYPED, one(NOT, int(3))),
            _ => {
                let code = self.some_type(scope);
                self.leaf(scope, code)
            }
        }
    }

    /// Binds a condition, and forks on it.
    fn named_fork(&mut self, scope: &Scope, want: u32, size: usize) -> Tree {
        let test = scope.types.len();
        let condition = self.fork_condition(scope);
        let inside = scope.with(1);
        let (a, b) = self.split(size - 5);
        let yes = self.value(&inside.knowing(test, true), want, a);
        let no = self.value(&inside.knowing(test, false), want, b);
        two(LET, condition, choice(var(test), yes, no))
    }

    /// Stores a value and reads it again; what is read is what was stored, unless something between
    /// makes it unknown.
    fn read_back(&mut self, scope: &Scope, want: u32, size: usize) -> Tree {
        self.with_reference(scope, |maker, scope, reference| {
            let code = scope.types[reference] - 2;
            let stored = scope.types.len();
            let bound = maker.value(scope, code, 3);
            let inside = scope.with(code);
            let store = two(SET, var(reference), var(stored));
            let mut inside = inside.with(code);
            let mut steps = vec![bound, store];
            if maker.random.chance(35) {
                steps.push(maker.between(&mut inside));
            }
            let equal = two(EQ, one(GET, var(reference)), var(stored));
            let taken = maker.value(&inside, want, size.saturating_sub(8 + steps.len()));
            let test = choice(equal, taken, maker.junk(&inside));
            let bind = |rest, step| two(LET, step, rest);
            steps.into_iter().rev().fold(test, bind)
        })
    }

    /// A step that may or may not change what a cell is known to hold.
    fn between(&mut self, scope: &mut Scope) -> Tree {
        let references = scope.references();
        let (code, step) = match self.random.below(4) {
            0 => (1, one(TYPED, truth(true))),
            1 => (2, one(REF, int(1))),
            2 => (1, truth(true)),
            _ => {
                let reference = self.random.pick(&references);
                let code = scope.types[reference] - 2;
                (code, two(SET, var(reference), self.leaf(scope, code)))
            }
        };
        *scope = scope.with(code);
        step
    }

    /// An equality, and inside each branch the same equality spelled in another way.
    fn respelled(&mut self, scope: &Scope, want: u32, size: usize) -> Option<Tree> {
        let (first, again) = self.two_spellings(scope)?;
        self.forks -= 1;
        self.atoms -= 1;
        let (a, b) = self.split(size - 4);
        let yes = self.value(scope, want, a.saturating_sub(6));
        let no = self.value(scope, want, b.saturating_sub(6));
        let yes = choice(again.clone(), yes, self.junk(scope));
        let no = choice(again, self.junk(scope), no);
        Some(choice(first, yes, no))
    }

    /// An equality of words or of references, spelled in two ways.
    fn two_spellings(&mut self, scope: &Scope) -> Option<(Tree, Tree)> {
        let words = scope.of_type(0);
        if !words.is_empty() && self.random.chance(60) {
            let (a, b) = (var(self.random.pick(&words)), self.term(scope));
            let (j, k) = (int(self.random.word()), int(self.random.word()));
            let first = two(EQ, two(ADD, a.clone(), j.clone()), b.clone());
            let right = two(ADD, two(ADD, j, k.clone()), a);
            return Some((first, two(EQ, two(ADD, b, k), right)));
        }
        let references = scope.references();
        if references.is_empty() {
            return None;
        }
        let first = self.random.pick(&references);
        let others = scope.of_type(scope.types[first]);
        let (a, b) = (var(first), var(self.random.pick(&others)));
        Some((two(EQ, a.clone(), b.clone()), two(EQ, b, a)))
    }
}
