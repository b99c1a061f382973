//! What a block about new cells asks: an `if` on what was read back, or on whether two references are
//! the same. A branch that no path takes by the right rule is mostly wrong in some way, so that a
//! checker that takes it gives another answer.

use super::Block;
use crate::known::{Content, Origin, Rule, RULES};
use crate::parts::Part;
use crate::tree::{choice, int, one, truth, two, var, Tree};
use crate::tree::{ADD, AND, EQ, GET, NOT, SET, TYPED};

/// Kinds of questions that are counted. The first three are those that hang on a new cell and a
/// variable, the next three say more of these, and the last four would hang on them by a wrong rule.
#[derive(Clone, Copy, PartialEq, Eq)]
pub enum Ask {
    NewCell,
    Variable,
    Equal,
    AtLimit,
    OuterLet,
    InnerBlock,
    NearRead,
    NearBlock,
    NearVariables,
    NearOuterCells,
}

/// What each kind asks for; its place is the kind's number.
pub const ASKS: [&str; 10] = [
    "a new cell, past a variable's write",
    "a variable's cell, past a new cell's write",
    "`eq` of a new cell and a variable",
    "that `eq` beside ten atoms",
    "one of these with an outer `let`'s variable",
    "one of these inside a typed block",
    "nearly: a reference that `get` made",
    "nearly: a typed block's value",
    "nearly: two variables",
    "nearly: two new cells around a block",
];

/// Which rules have another answer to a question than the right one.
type Differs = [bool; RULES.len()];

/// How often a question is asked, beside others.
fn weight(differs: &Differs) -> usize {
    if differs[Rule::NewOnly as usize] || differs[Rule::OuterCells as usize] {
        8
    } else if differs.contains(&true) {
        4
    } else {
        1
    }
}

impl Block<'_> {
    /// Asks something, if there is anything to ask.
    pub fn ask(&mut self) {
        match self.random.below(20) {
            0 if self.manner.daring => self.look_too_early(),
            0..=10 => self.ask_content(),
            _ => self.ask_equal(),
        }
    }

    /// Whether a cell holds what some rule knows of it.
    fn ask_content(&mut self) {
        let known = |rule: Rule, symbol: usize| self.cells.found(rule, symbol);
        let mut cells = Vec::new();
        for (reference, symbol) in self.references() {
            let right = known(Rule::Right, symbol);
            let differs = RULES.map(|rule| known(rule, symbol) != right);
            if let Some(content) = RULES.iter().find_map(|&rule| known(rule, symbol)) {
                cells.push((weight(&differs), (reference, symbol, content, differs)));
            }
        }
        if cells.is_empty() {
            return;
        }
        let (reference, symbol, content, differs) = self.random.weighted(&cells);
        let decided = self.cells.found(Rule::Right, symbol).is_some();
        let ask = match self.cells.origin(symbol) {
            Origin::New => Ask::NewCell,
            _ => Ask::Variable,
        };
        self.mark(ask, &differs);
        self.atoms += usize::from(!decided);
        let (condition, value) = self.compared(one(GET, var(reference)), content);
        self.go_on(condition, value, decided);
    }

    /// A condition that is decided if this content is read, and the value that it then has.
    fn compared(&mut self, read: Tree, content: Content) -> (Tree, bool) {
        let plain = self.random.chance(50);
        match content {
            Content::Truth(value) if plain => (read, value),
            Content::Truth(value) => (one(NOT, read), !value),
            Content::Word(number) if plain => (two(EQ, read, int(number)), true),
            Content::Word(number) => (two(EQ, int(number), two(ADD, read, int(1))), false),
            Content::Variable(index) => {
                if let Some(place) = self.truths.iter().position(|&truth| truth == index) {
                    self.truths.swap_remove(place);
                    self.atoms += 1;
                }
                (two(EQ, var(index), read), true)
            }
        }
    }

    /// Whether two references are the same, perhaps with other atoms beside that.
    fn ask_equal(&mut self) {
        let mut pairs = Vec::new();
        let cells = self.references();
        for &(a, first) in &cells {
            for &(b, second) in &cells {
                if a != b && self.variables[a].code == self.variables[b].code {
                    let apart = |rule: Rule| self.cells.apart(rule, first, second);
                    let differs = RULES.map(|rule| apart(rule) != apart(Rule::Right));
                    let equal = (first == second || apart(Rule::Right)).then_some(first == second);
                    pairs.push((weight(&differs), (a, b, equal, differs)));
                }
            }
        }
        if pairs.is_empty() {
            return;
        }
        let (a, b, equal, differs) = self.random.weighted(&pairs);
        let others = self.other_atoms();
        self.mark(Ask::Equal, &differs);
        let at_limit = differs[Rule::NewOnly as usize] && self.atoms + others == 10;
        self.asked.add(Ask::AtLimit as usize, at_limit);
        self.choose_equal(two(EQ, var(a), var(b)), equal, others);
    }

    /// An `if` on an equality of references and on other atoms.
    fn choose_equal(&mut self, pair: Tree, equal: Option<bool>, others: usize) {
        self.atoms += usize::from(equal.is_none());
        if equal == Some(false) && (others == 0 || self.random.chance(70)) {
            let never = self.all(pair, others);
            if self.random.chance(50) {
                self.go_on(never, false, true);
            } else {
                self.go_on(one(NOT, never), true, true);
            }
            return;
        }
        let pair = match equal {
            Some(false) => one(NOT, pair),
            _ => pair,
        };
        let condition = self.all(pair, others);
        self.go_on(condition, equal.is_some(), equal.is_some() && others == 0);
    }

    /// The conjunction of a truth and of so many new atoms.
    fn all(&mut self, first: Tree, atoms: usize) -> Tree {
        let mut all = first;
        for _ in 0..atoms {
            let atom = self.atom();
            all = if self.random.chance(50) {
                two(AND, all, atom)
            } else {
                two(AND, atom, all)
            };
        }
        all
    }

    /// How many other atoms stand beside an equality: often as many as there is room for.
    fn other_atoms(&mut self) -> usize {
        let room = 10_usize.saturating_sub(self.atoms);
        match self.random.below(10) {
            _ if self.manner.crowded => 0,
            0..=3 => 0,
            4..=6 => self.random.between(1, 3),
            _ if self.parts.size() < 60 => {
                self.random
                    .pick(&[room.saturating_sub(1), room, room, room + 1])
            }
            _ => 1,
        }
    }

    /// An atom that the path's condition does not have.
    pub fn atom(&mut self) -> Tree {
        self.atoms += 1;
        if !self.truths.is_empty() && self.random.chance(70) {
            let place = self.random.below(self.truths.len());
            return var(self.truths.swap_remove(place));
        }
        let word = self.of_type(0)[0];
        two(EQ, var(word), int(1000 + self.atoms as u32))
    }

    /// An `if` that goes on in the branch for this value. If it is decided, no path takes the other.
    fn go_on(&mut self, condition: Tree, value: bool, decided: bool) {
        let wrong = match decided {
            _ if self.manner.crowded => false,
            true => self.random.chance(90),
            false => self.manner.daring && self.random.chance(70),
        };
        let other = if wrong {
            self.wrong()
        } else {
            self.leaf(self.want)
        };
        self.parts.add(Part::Choose(condition, value, other));
    }

    /// A branch that is refused if a path takes it.
    fn wrong(&mut self) -> Tree {
        match self.random.below(10) {
            0 => two(ADD, truth(true), int(1)),
            1 => var(self.variables.len() + self.random.below(3)),
            2 => one(TYPED, one(NOT, int(3))),
            3 | 4 => {
                let (reference, _) = self.random.pick(&self.references());
                let content = self.misfit(self.variables[reference].code - 2);
                two(SET, var(reference), content.tree())
            }
            5 if self.parts.size() < 40 => {
                let before = (self.atoms, self.truths.clone());
                let first = self.atom();
                let many = self.all(first, 10);
                (self.atoms, self.truths) = before;
                choice(many, self.leaf(self.want), self.leaf(self.want))
            }
            _ => self.misfit(self.want).tree(),
        }
    }

    /// Notes a question of this kind, and which wrong rules have another answer to it.
    fn mark(&mut self, ask: Ask, differs: &Differs) {
        let by = |rule: Rule| differs[rule as usize];
        let marks = [
            (ask, by(Rule::NewOnly)),
            (Ask::InnerBlock, by(Rule::NewOnly) && self.manner.inner),
            (Ask::OuterLet, by(Rule::EntriesOnly)),
            (Ask::NearRead, by(Rule::Reads)),
            (Ask::NearBlock, by(Rule::Blocks)),
            (Ask::NearVariables, by(Rule::Variables)),
            (Ask::NearOuterCells, by(Rule::OuterCells)),
        ];
        for (ask, marked) in marks {
            self.asked.add(ask as usize, marked);
        }
    }
}
