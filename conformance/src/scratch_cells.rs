//! Scripts about scratch cells: a symbolic block puts a value of a wrong type in a cell, looks at it
//! while it is in, uses what it read, and puts a right value back, or goes wrong on the way.

pub mod counts;
mod faults;
mod log;
mod looks;
mod steps;

use crate::families::Marks;
use crate::known::{Content, Origin};
use crate::maker::{Made, OPEN};
use crate::parts::{Part, Parts};
use crate::random::Random;
use crate::stations::shuffle;
use crate::tree::{int, one, truth, two, var, Tree};
use crate::tree::{ADD, GET, LET, REF, SET, SYM, TYPED};
use faults::{Fault, FAULTS};
use log::{Log, Value};
use looks::Mark;

/// A block that is being made, and what its path knows so far.
struct Block<'a> {
    random: &'a mut Random,
    marks: &'a mut Marks,
    variables: Vec<Value>,
    log: Log,
    parts: Parts,
    /// The type of the block's value.
    want: u32,
    /// Truth variables that are no atom of the path's condition, and those that it decides.
    free: Vec<usize>,
    decided: Vec<(usize, bool)>,
    /// Variables that were read with another type than their cell's.
    strange: Vec<usize>,
    /// The symbol of a cell that nothing right is put back in.
    left: Option<usize>,
    /// The path is refused, so nothing that follows counts.
    over: bool,
    frame: Frame,
}

/// Where a block stands, and how it goes about it.
#[derive(Clone, Copy)]
struct Frame {
    /// How many `sym` are around.
    syms: usize,
    /// It stands in a typed block of another path.
    inner: bool,
    rounds: usize,
    /// What goes wrong in it, after some round.
    fault: Option<Fault>,
}

/// A variable as a path begins: its type, and where a reference's symbol comes from.
type Begun = (u32, Origin);

/// No further round begins after so many nodes.
const ENOUGH: usize = 45;

/// A script, and what it asks for.
pub fn script(random: &mut Random) -> (Made, Marks) {
    let mut marks = Marks::default();
    let entries = entries(random);
    let mut begun: Vec<Begun> = entries.iter().map(|&code| (code, Origin::Entry)).collect();
    let mut outer = Vec::new();
    for _ in 0..random.weighted(&[(70, 0), (30, 1)]) {
        let (value, code) = outer_value(random, &begun);
        begun.push((code, Origin::Outer));
        outer.push(value);
    }
    let frame = Frame {
        syms: 1,
        inner: false,
        rounds: random.weighted(&[(45, 1), (40, 2), (15, 3)]),
        fault: random.chance(48).then(|| random.weighted(&FAULTS)),
    };
    let made = block(random, &mut marks, &begun, frame);
    let bind = |rest, value| two(LET, value, rest);
    let tree = outer.into_iter().rev().fold(made.tree, bind);
    (Made { entries, tree }, marks)
}

/// Some truths, a word, and references of several depths.
fn entries(random: &mut Random) -> Vec<u32> {
    let mut entries = vec![1; random.between(1, 3)];
    entries.push(0);
    for _ in 0..random.between(1, 4) {
        entries.push(random.weighted(&[(5, 2), (3, 3), (2, 4), (2, 5)]));
    }
    shuffle(random, &mut entries);
    entries
}

/// What a `let` around the block binds: an entry again, what a cell holds, or a new cell.
fn outer_value(random: &mut Random, begun: &[Begun]) -> (Tree, u32) {
    let all = 0..begun.len();
    let references: Vec<usize> = all.filter(|&i| begun[i].0 >= 2).collect();
    let variable = random.pick(&references);
    let code = begun[variable].0;
    match random.below(4) {
        0 => (var(variable), code),
        1 if code >= 4 => (one(GET, var(variable)), code - 2),
        2 => (one(REF, truth(true)), 3),
        _ => (one(REF, int(0)), 2),
    }
}

/// A symbolic block in typed mode, the type of its value, and whether it is refused.
struct MadeBlock {
    tree: Tree,
    code: u32,
    refused: bool,
}

fn block(random: &mut Random, marks: &mut Marks, begun: &[Begun], frame: Frame) -> MadeBlock {
    let want = random.weighted(&[(35, 0), (35, 1), (15, 2), (15, 3)]);
    let mut block = Block {
        random,
        marks,
        variables: Vec::new(),
        log: Log::default(),
        parts: Parts::default(),
        want,
        free: Vec::new(),
        decided: Vec::new(),
        strange: Vec::new(),
        left: None,
        over: false,
        frame,
    };
    for &(code, origin) in begun {
        block.fresh(code, origin);
    }
    for round in 1..=frame.rounds {
        block.round();
        let last = round == frame.rounds || block.parts.size() > ENOUGH;
        let wrong = block.frame.fault.is_some() && (last || block.random.chance(60));
        if wrong {
            block.go_wrong();
        }
        if wrong || last || block.over {
            break;
        }
        block.put_back();
    }
    block.end()
}

impl Block<'_> {
    /// Makes some references, puts something wrong in a cell, and does something while it is in.
    fn round(&mut self) {
        for _ in 0..self.random.between(0, 2) {
            self.make();
        }
        self.put_in();
        for _ in 0..self.random.between(1, 4) {
            self.go_on();
        }
    }

    /// Puts right values back, and gives the block's value.
    fn end(mut self) -> MadeBlock {
        self.put_back();
        let strange = self.strange.iter().copied();
        let own: Vec<usize> = strange
            .filter(|&index| self.variables[index].code == self.want)
            .collect();
        let last = if !own.is_empty() && self.random.chance(70) {
            self.mark(Mark::Given, true);
            self.mark(Mark::CellType, true);
            var(self.random.pick(&own))
        } else {
            self.last()
        };
        MadeBlock {
            tree: one(SYM, self.parts.around(last)),
            code: self.want,
            refused: self.over || self.left.is_some(),
        }
    }

    /// What a cell of the wanted type holds, or something else of that type.
    fn last(&mut self) -> Tree {
        let cells = self.of_type(self.want + 2);
        if !cells.is_empty() && self.left.is_none() && self.random.chance(40) {
            return one(GET, var(self.random.pick(&cells)));
        }
        self.leaf(self.want)
    }

    /// A variable that is a fresh symbol, if it is not yet bound by a part.
    fn fresh(&mut self, code: u32, origin: Origin) -> usize {
        let index = self.variables.len();
        if code == 1 {
            self.free.push(index);
        }
        self.variables.push(Value {
            code,
            symbol: (2..OPEN).contains(&code).then(|| self.log.add(origin)),
            content: Content::Variable(index),
        });
        index
    }

    /// Binds a fresh symbol that this gives.
    fn bind_fresh(&mut self, tree: Tree, code: u32, origin: Origin) -> usize {
        self.parts.add(Part::Bind(tree));
        self.fresh(code, origin)
    }

    /// Binds a value that is known.
    fn bind(&mut self, tree: Tree, value: Value) -> usize {
        self.parts.add(Part::Bind(tree));
        self.variables.push(value);
        self.variables.len() - 1
    }

    /// Binds a word or a truth of which nothing is known, or something that is never used.
    fn bind_other(&mut self, tree: Tree, code: u32) {
        let content = Content::Variable(self.variables.len());
        let symbol = None;
        self.bind(
            tree,
            Value {
                code,
                symbol,
                content,
            },
        );
    }

    fn of_type(&self, code: u32) -> Vec<usize> {
        let all = 0..self.variables.len();
        all.filter(|&i| self.variables[i].code == code).collect()
    }

    /// The variables that are references, each with its symbol.
    fn references(&self) -> Vec<(usize, usize)> {
        let all = self.variables.iter().enumerate();
        all.filter_map(|(index, value)| Some((index, value.symbol?)))
            .collect()
    }

    /// The type of what a reference's cell should hold.
    fn cell(&self, reference: usize) -> u32 {
        self.variables[reference].code - 2
    }

    /// A value of this type, without a look at any cell.
    fn leaf(&mut self, code: u32) -> Tree {
        let found = self.of_type(code);
        if !found.is_empty() && (code >= 2 || self.random.chance(40)) {
            return var(self.random.pick(&found));
        }
        match code {
            0 => int(self.random.below(4) as u32),
            1 => truth(self.random.chance(50)),
            _ => one(REF, self.leaf(code - 2)),
        }
    }

    /// What ends a path here with a value of this type: right values put back, then the value.
    fn ending(&mut self, code: u32) -> Tree {
        let last = self.leaf(code);
        let mut tree = last;
        for symbol in self.log.wrong() {
            let (reference, right) = self.mending(symbol);
            tree = two(LET, two(SET, var(reference), right), tree);
        }
        tree
    }

    /// A variable with this symbol, and something of its cell's type.
    fn mending(&mut self, symbol: usize) -> (usize, Tree) {
        let mut same = self.references();
        same.retain(|reference| reference.1 == symbol);
        let (reference, _) = self.random.pick(&same);
        (reference, self.leaf(self.cell(reference)))
    }

    /// A branch that is refused if a path takes it.
    fn junk(&mut self) -> Tree {
        match self.random.below(6) {
            0 => two(ADD, truth(true), int(1)),
            1 => var(self.variables.len() + self.random.below(3)),
            2 => one(TYPED, two(ADD, int(1), truth(false))),
            3 => self.misfit(self.want).content.tree(),
            _ => self.ending(if self.want == 0 { 1 } else { 0 }),
        }
    }
}
