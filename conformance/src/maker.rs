//! Makes scripts by the types that are wanted, in typed and in symbolic mode, so that most are
//! accepted. `blocks` has the shapes that only a symbolic block allows.

use crate::random::Random;
use crate::tree::{choice, int, one, truth, two, var, Tree};
use crate::tree::{ADD, AND, EQ, GET, LET, NOT, REF, SET, SYM, TYPED};

/// The type of a variable whose type depends on the path; no node may use it.
pub const OPEN: u32 = 99;

/// What is known where a node is made.
#[derive(Clone, Default)]
pub struct Scope {
    /// The environment's types.
    pub types: Vec<u32>,
    /// Truth variables whose value the path condition decides.
    pub known: Vec<(usize, bool)>,
    pub symbolic: bool,
    /// A write of a wrong type waits to be mended, so no `typed` may come, and no `get` does here.
    pub pending: bool,
    /// How many `sym` are around, and how many of them are entered from typed mode.
    pub syms: usize,
    pub blocks: usize,
}

impl Scope {
    pub fn with(&self, code: u32) -> Scope {
        let mut scope = self.clone();
        scope.types.push(code);
        scope
    }

    pub fn knowing(&self, variable: usize, value: bool) -> Scope {
        let mut scope = self.clone();
        scope.known.push((variable, value));
        scope
    }

    pub fn waiting(&self, pending: bool) -> Scope {
        let mut scope = self.clone();
        scope.pending = pending;
        scope
    }

    /// The variables of a type.
    pub fn of_type(&self, code: u32) -> Vec<usize> {
        let all = 0..self.types.len();
        all.filter(|&i| self.types[i] == code).collect()
    }

    /// The variables that are references.
    pub fn references(&self) -> Vec<usize> {
        let all = 0..self.types.len();
        all.filter(|&i| (2..32).contains(&self.types[i])).collect()
    }

    fn may_look(&self) -> bool {
        !(self.symbolic && self.pending)
    }
}

/// The kinds of node that `value` chooses among.
#[derive(Clone, Copy)]
enum Make {
    Leaf,
    Add,
    Eq,
    Not,
    And,
    If,
    Let,
    Ref,
    Get,
    Set,
    Typed,
    Sym,
}

/// A generator with what it may still spend in the present symbolic block.
pub struct Maker<'a> {
    pub random: &'a mut Random,
    pub forks: usize,
    pub atoms: usize,
}

/// A script: entry types and the tree of its root.
pub struct Made {
    pub entries: Vec<u32>,
    pub tree: Tree,
}

/// A script of about `size` nodes that is probably accepted.
pub fn script(random: &mut Random, size: usize) -> Made {
    let mut maker = Maker {
        random,
        forks: 0,
        atoms: 0,
    };
    let entries = maker.entries();
    let scope = Scope {
        types: entries.clone(),
        ..Scope::default()
    };
    let want = maker.some_type(&scope);
    let tree = if maker.random.chance(75) {
        maker.block(&scope, want, size)
    } else {
        maker.value(&scope, want, size)
    };
    Made { entries, tree }
}

impl Maker<'_> {
    fn entries(&mut self) -> Vec<u32> {
        let most = self.random.weighted(&[(5, 1), (55, 4), (30, 8), (10, 16)]);
        let count = self.random.between(0, most);
        (0..count).map(|_| self.plain_type()).collect()
    }

    /// A type, small ones most often.
    pub fn plain_type(&mut self) -> u32 {
        let small = [(30, 0), (25, 1), (20, 2), (12, 3), (7, 4), (4, 5), (2, 99)];
        match self.random.weighted(&small) {
            99 => self.random.below(32) as u32,
            code => code,
        }
    }

    /// A type, often one that a variable has.
    pub fn some_type(&mut self, scope: &Scope) -> u32 {
        if !scope.types.is_empty() && self.random.chance(40) {
            let code = self.random.pick(&scope.types);
            if code != OPEN {
                return code;
            }
        }
        self.plain_type()
    }

    /// A tree of the wanted type with about `size` nodes.
    pub fn value(&mut self, scope: &Scope, want: u32, size: usize) -> Tree {
        if size <= 1 {
            return self.leaf(scope, want);
        }
        if scope.symbolic && self.random.chance(45) {
            if let Some(tree) = self.shape(scope, want, size) {
                return tree;
            }
        }
        match self.kind(scope, want, size) {
            Make::Leaf => self.leaf(scope, want),
            Make::Add => self.pair(ADD, scope, (0, 0), size),
            Make::Eq => {
                let code = self.some_type(scope);
                self.pair(EQ, scope, (code, code), size)
            }
            Make::Not => one(NOT, self.value(scope, 1, size - 1)),
            Make::And => self.pair(AND, scope, (1, 1), size),
            Make::If => self.branches(scope, want, size),
            Make::Let => self.binding(scope, want, size),
            Make::Ref => one(REF, self.value(scope, want - 2, size - 1)),
            Make::Get => one(GET, self.value(scope, want + 2, size - 1)),
            Make::Set => self.pair(SET, scope, (want + 2, want), size),
            Make::Typed => self.typed_block(scope, want, size),
            Make::Sym => self.block(scope, want, size),
        }
    }

    fn kind(&mut self, scope: &Scope, want: u32, size: usize) -> Make {
        let has = |test: bool, weight: usize| if test { weight } else { 0 };
        let deeper = want + 2 < 32;
        let found = deeper && !scope.of_type(want + 2).is_empty();
        let small = want < 4 && size > 3;
        let fork = !scope.symbolic || self.forks > 0;
        let sym = if scope.symbolic { 3 } else { 14 };
        self.random.weighted(&[
            (4, Make::Leaf),
            (has(want == 0, 18), Make::Add),
            (has(want == 1, 14), Make::Eq),
            (has(want == 1, 5), Make::Not),
            (has(want == 1, 9), Make::And),
            (has(fork && size > 3, 22), Make::If),
            (has(size > 2, 24), Make::Let),
            (has(want >= 2, 16), Make::Ref),
            (
                has(scope.may_look() && found, 16) + has(scope.may_look() && small, 4),
                Make::Get,
            ),
            (has(found, 16) + has(small, 3), Make::Set),
            (has(scope.may_look() && size > 2, 6), Make::Typed),
            (has(scope.syms < 4 && size > 2, sym), Make::Sym),
        ])
    }

    /// A variable, a constant, or references around one.
    pub fn leaf(&mut self, scope: &Scope, want: u32) -> Tree {
        let found = scope.of_type(want);
        if !found.is_empty() && (want >= 2 || self.random.chance(75)) {
            return var(self.random.pick(&found));
        }
        match want {
            0 => int(self.random.word()),
            1 => truth(self.random.chance(50)),
            _ => one(REF, self.leaf(scope, want - 2)),
        }
    }

    /// Divides a size in two, one node taken off for the parent.
    pub fn split(&mut self, size: usize) -> (usize, usize) {
        let left = self.random.between(1, (size.max(3)) - 2);
        (left, size.saturating_sub(1 + left).max(1))
    }

    fn pair(&mut self, kind: u32, scope: &Scope, codes: (u32, u32), size: usize) -> Tree {
        let (a, b) = self.split(size);
        let first = self.value(scope, codes.0, a);
        two(kind, first, self.value(scope, codes.1, b))
    }

    fn binding(&mut self, scope: &Scope, want: u32, size: usize) -> Tree {
        let (a, b) = self.split(size);
        let code = self.some_type(scope);
        let bound = self.value(scope, code, a);
        two(LET, bound, self.value(&scope.with(code), want, b))
    }

    /// An `if` with branches of one type.
    fn branches(&mut self, scope: &Scope, want: u32, size: usize) -> Tree {
        let (first, rest) = self.split(size);
        let condition = if scope.symbolic {
            self.fork_condition(scope)
        } else {
            self.value(scope, 1, first.min(8))
        };
        let (b, c) = self.split(rest);
        let yes = self.value(scope, want, b);
        choice(condition, yes, self.value(scope, want, c))
    }

    /// A condition for one more fork: some atoms, if any are left.
    pub fn fork_condition(&mut self, scope: &Scope) -> Tree {
        self.forks = self.forks.saturating_sub(1);
        let most = self
            .atoms
            .min(self.random.weighted(&[(60, 1), (25, 2), (15, 3)]));
        self.condition(scope, most)
    }

    fn typed_block(&mut self, scope: &Scope, want: u32, size: usize) -> Tree {
        let inside = Scope {
            symbolic: false,
            known: Vec::new(),
            ..scope.clone()
        };
        one(TYPED, self.value(&inside, want, size - 1))
    }

    /// A `sym`: in symbolic mode its operand, in typed mode a block with its own forks and atoms.
    pub fn block(&mut self, scope: &Scope, want: u32, size: usize) -> Tree {
        let mut inside = scope.clone();
        inside.syms += 1;
        if scope.symbolic {
            return one(SYM, self.value(&inside, want, size - 1));
        }
        inside.symbolic = true;
        inside.pending = false;
        inside.known.clear();
        inside.blocks += 1;
        let most = [6, 4, 2, 1][scope.blocks.min(3)];
        let outside = (self.forks, self.atoms);
        self.forks = self
            .random
            .weighted(&[(1, 0), (1, 1), (2, most / 2), (4, most)]);
        self.atoms = self.random.weighted(&[(80, 10), (15, 9), (5, 14)]);
        let tree = self.value(&inside, want, size - 1);
        (self.forks, self.atoms) = outside;
        one(SYM, tree)
    }
}
