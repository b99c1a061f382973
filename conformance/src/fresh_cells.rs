//! Scripts about new cells beside old ones: a symbolic block makes cells with `ref`, stores through
//! them and through other references in turn, and asks what is still known of them.

pub mod counts;
mod questions;
mod steps;

use crate::families::Marks;
use crate::known::{Content, Log, Origin};
use crate::maker::Made;
use crate::parts::{Part, Parts};
use crate::random::Random;
use crate::stations::shuffle;
use crate::tree::{choice, int, one, truth, two, var, Tree};
use crate::tree::{GET, LET, REF, SYM};

/// A variable: its type, and its symbol if it is a reference.
#[derive(Clone, Copy)]
struct Variable {
    code: u32,
    symbol: Option<usize>,
}

/// A block that is being made, and what its path knows so far.
struct Block<'a> {
    random: &'a mut Random,
    asked: &'a mut Marks,
    variables: Vec<Variable>,
    cells: Log<Content>,
    parts: Parts,
    /// The type of the block's value.
    want: u32,
    /// How many atoms the path's condition has.
    atoms: usize,
    /// Truth variables that are no atom of the condition.
    truths: Vec<usize>,
    /// How many `sym` are around.
    syms: usize,
    manner: Manner,
}

/// How a block goes about it.
#[derive(Clone, Copy, Default)]
struct Manner {
    /// It stands in a typed block of another path.
    inner: bool,
    /// It ends with 64 paths, so that one more is refused.
    crowded: bool,
    /// A branch of it that is taken may be wrong.
    daring: bool,
}

/// A variable as a path begins: its type, and where a reference's symbol comes from.
type Begun = (u32, Origin);

/// No further round begins after so many nodes.
const ENOUGH: usize = 60;

/// A script, and what it asks.
pub fn script(random: &mut Random) -> (Made, Marks) {
    let mut asked = Marks::default();
    let entries = entries(random);
    let mut begun: Vec<Begun> = entries.iter().map(|&code| (code, Origin::Entry)).collect();
    let mut outer = Vec::new();
    for _ in 0..random.weighted(&[(50, 0), (35, 1), (15, 2)]) {
        let (value, code) = outer_value(random, &mut asked, &begun);
        begun.push((code, Origin::Outer));
        outer.push(value);
    }
    let manner = Manner {
        inner: false,
        crowded: random.chance(10),
        daring: random.chance(40),
    };
    let rounds = match manner.crowded {
        true => 1,
        false => random.weighted(&[(40, 1), (40, 2), (20, 3)]),
    };
    let (block, _) = block(random, &mut asked, &begun, 1, (rounds, manner));
    let bind = |rest, value| two(LET, value, rest);
    let tree = outer.into_iter().rev().fold(block, bind);
    (Made { entries, tree }, asked)
}

/// Truths and a word for atoms, and some references.
fn entries(random: &mut Random) -> Vec<u32> {
    let truths = random.weighted(&[(40, 1), (30, 3), (15, 6), (15, 10)]);
    let mut entries = vec![1; truths];
    entries.push(0);
    for _ in 0..random.between(1, 4) {
        entries.push(random.weighted(&[(3, 2), (3, 3), (2, 4), (2, 5)]));
    }
    shuffle(random, &mut entries);
    entries
}

/// What a `let` around the block binds: an entry again, what a cell holds, another block's value, or
/// a new cell.
fn outer_value(random: &mut Random, asked: &mut Marks, begun: &[Begun]) -> (Tree, u32) {
    let all = 0..begun.len();
    let references: Vec<usize> = all.filter(|&i| begun[i].0 >= 2).collect();
    let variable = random.pick(&references);
    let code = begun[variable].0;
    match random.below(5) {
        0 => (var(variable), code),
        1 if code >= 4 => (one(GET, var(variable)), code - 2),
        2 => block(random, asked, begun, 1, (1, Manner::default())),
        3 if code < 4 => (one(REF, var(variable)), code + 2),
        _ if random.chance(50) => (one(REF, int(0)), 2),
        _ => (one(REF, truth(true)), 3),
    }
}

/// A symbolic block of some rounds in typed mode, and the type of its value.
fn block(
    random: &mut Random,
    asked: &mut Marks,
    begun: &[Begun],
    syms: usize,
    (rounds, manner): (usize, Manner),
) -> (Tree, u32) {
    let mut cells = Log::default();
    let variables = begun.iter().map(|&(code, origin)| Variable {
        code,
        symbol: (code >= 2).then(|| cells.add(origin)),
    });
    let variables = variables.collect();
    let truths = (0..begun.len()).filter(|&i| begun[i].0 == 1).collect();
    let want = random.weighted(&[(40, 0), (30, 1), (15, 2), (15, 3)]);
    let mut block = Block {
        random,
        asked,
        variables,
        cells,
        parts: Parts::default(),
        want,
        atoms: 0,
        truths,
        syms,
        manner,
    };
    for _ in 0..rounds {
        block.round();
        if block.parts.size() > ENOUGH || block.atoms > 10 {
            break;
        }
    }
    (one(SYM, block.end()), want)
}

impl Block<'_> {
    /// Makes some references, stores something through some, and asks.
    fn round(&mut self) {
        self.new_cell();
        for _ in 0..self.random.between(0, 3) {
            self.make();
        }
        for _ in 0..self.random.between(2, 4) {
            self.store();
        }
        for _ in 0..self.random.between(1, 2) {
            self.ask();
        }
    }

    /// The parts around a last value.
    fn end(mut self) -> Tree {
        let last = self.last();
        self.parts.around(last)
    }

    /// The block's value; in a crowded block after six forks.
    fn last(&mut self) -> Tree {
        let cells = self.of_type(self.want + 2);
        let last = if !cells.is_empty() && self.random.chance(50) {
            one(GET, var(self.random.pick(&cells)))
        } else {
            self.leaf(self.want)
        };
        if self.manner.crowded && self.atoms <= 4 {
            for _ in 0..6 {
                let fork = choice(self.atom(), int(1), int(2));
                self.parts.add(Part::Bind(fork));
            }
        }
        last
    }

    fn bind(&mut self, value: Tree, code: u32, symbol: Option<usize>) {
        self.parts.add(Part::Bind(value));
        self.variables.push(Variable { code, symbol });
    }

    fn of_type(&self, code: u32) -> Vec<usize> {
        let all = 0..self.variables.len();
        all.filter(|&i| self.variables[i].code == code).collect()
    }

    /// The variables that are references, each with its symbol.
    fn references(&self) -> Vec<(usize, usize)> {
        let all = self.variables.iter().enumerate();
        all.filter_map(|(index, variable)| Some((index, variable.symbol?)))
            .collect()
    }

    /// A constant or a variable of this type, if there is one.
    fn content(&mut self, code: u32) -> Option<Content> {
        let found = self.of_type(code);
        if !found.is_empty() && (code >= 2 || self.random.chance(30)) {
            return Some(Content::Variable(self.random.pick(&found)));
        }
        match code {
            0 => Some(Content::Word(self.random.below(4) as u32)),
            1 => Some(Content::Truth(self.random.chance(50))),
            _ => None,
        }
    }

    /// A value of this type, without a look at any cell.
    fn leaf(&mut self, code: u32) -> Tree {
        match self.content(code) {
            Some(content) => content.tree(),
            None => one(REF, self.leaf(code - 2)),
        }
    }

    /// A constant of another type.
    fn misfit(&mut self, code: u32) -> Content {
        match code {
            0 => Content::Truth(self.random.chance(50)),
            _ => Content::Word(self.random.below(4) as u32),
        }
    }
}
