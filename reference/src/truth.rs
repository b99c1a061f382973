//! Symbolic truths, path conditions and their satisfiability.
//!
//! Truths are nodes of one list for each path and name their parts by index, so that a truth used
//! twice is stored once. A condition is kept as its truth table over its atoms: it has at most 10,
//! hence at most 1024 assignments, one bit each.

use crate::sum::{Sum, Symbol};
use std::rc::Rc;

/// "more than 10 different atoms" is refused.
const MAX_ATOMS: usize = 10;
/// 2^10 assignments in words of 64 bits.
const TABLE_WORDS: usize = (1 << MAX_ATOMS) / 64;

/// The index of a truth in its path's list.
pub(crate) type TruthId = usize;

/// What is unknown about a truth. Equal atoms are equal records.
#[derive(Clone, PartialEq, Eq)]
enum Atom {
    /// "A truth symbol is an atom."
    Symbol(Symbol),
    /// This sum is 0. Of a difference and its negation the lesser one is kept.
    Zero(Rc<Sum>),
    /// These two references are the same; the lesser symbol comes first.
    Same(Symbol, Symbol),
}

/// A truth over earlier truths of the list; none is simplified.
#[derive(Clone, Copy)]
enum Truth {
    Constant(bool),
    Atom(usize),
    Not(TruthId),
    And(TruthId, TruthId),
    Equal(TruthId, TruthId),
}

/// The truths and the different atoms of one path.
#[derive(Clone, Default)]
pub(crate) struct Truths {
    truths: Vec<Truth>,
    atoms: Vec<Atom>,
}

impl Truths {
    fn add(&mut self, truth: Truth) -> TruthId {
        self.truths.push(truth);
        self.truths.len() - 1
    }

    fn add_atom(&mut self, atom: Atom) -> TruthId {
        let known = self.atoms.iter().position(|other| *other == atom);
        let index = known.unwrap_or_else(|| {
            self.atoms.push(atom);
            self.atoms.len() - 1
        });
        self.add(Truth::Atom(index))
    }

    /// A known truth.
    pub fn constant(&mut self, value: bool) -> TruthId {
        self.add(Truth::Constant(value))
    }

    /// A truth symbol.
    pub fn symbol(&mut self, symbol: Symbol) -> TruthId {
        self.add_atom(Atom::Symbol(symbol))
    }

    /// The negation of a truth.
    pub fn not(&mut self, a: TruthId) -> TruthId {
        self.add(Truth::Not(a))
    }

    /// The conjunction of two truths.
    pub fn and(&mut self, a: TruthId, b: TruthId) -> TruthId {
        self.add(Truth::And(a, b))
    }

    /// The equality of two truths.
    pub fn equal_truths(&mut self, a: TruthId, b: TruthId) -> TruthId {
        self.add(Truth::Equal(a, b))
    }

    /// "An equality of words is true if the difference is 0, false if it is another constant, else
    /// an atom; a difference and its negation are one atom."
    pub fn equal_words(&mut self, a: &Sum, b: &Sum) -> TruthId {
        let difference = a.plus(&b.negated());
        match difference.as_constant() {
            Some(constant) => self.constant(constant == 0),
            None => {
                let opposite = difference.negated();
                self.add_atom(Atom::Zero(Rc::new(difference.min(opposite))))
            }
        }
    }

    /// The atom that two different reference symbols are the same: "the unordered pair".
    pub fn same_references(&mut self, a: Symbol, b: Symbol) -> TruthId {
        self.add_atom(Atom::Same(a.min(b), a.max(b)))
    }

    /// For each truth up to this one, whether this one is built of it.
    fn parts_of(&self, whole: TruthId) -> Vec<bool> {
        let mut parts = vec![false; whole + 1];
        parts[whole] = true;
        for id in (0..=whole).rev() {
            match self.truths[id] {
                Truth::Not(a) if parts[id] => parts[a] = true,
                Truth::And(a, b) | Truth::Equal(a, b) if parts[id] => {
                    parts[a] = true;
                    parts[b] = true;
                }
                _ => {}
            }
        }
        parts
    }

    /// The truth table of a truth. `parts` are its parts; an atom's place in `atoms` is its bit in
    /// the assignments' numbers.
    fn table_of(&self, whole: TruthId, parts: &[bool], atoms: &[usize]) -> Table {
        let mut tables = vec![Table::constant(false); whole + 1];
        for id in (0..=whole).filter(|id| parts[*id]) {
            tables[id] = match self.truths[id] {
                Truth::Constant(value) => Table::constant(value),
                Truth::Atom(atom) => {
                    let place = atoms.iter().position(|other| *other == atom);
                    Table::atom(place.expect("every atom of the truth is listed"))
                }
                Truth::Not(a) => tables[a].not(),
                Truth::And(a, b) => tables[a].and(&tables[b]),
                Truth::Equal(a, b) => tables[a].equal(&tables[b]),
            };
        }
        tables[whole]
    }
}

/// One bit for each assignment of true and false to [`MAX_ATOMS`] atoms.
#[derive(Clone, Copy)]
struct Table([u64; TABLE_WORDS]);

impl Table {
    fn constant(value: bool) -> Table {
        Table([if value { u64::MAX } else { 0 }; TABLE_WORDS])
    }

    /// The assignments that have this bit of their number set. The low 6 bits of the number choose
    /// a bit in a word of the table, the others choose the word.
    fn atom(bit: usize) -> Table {
        const IN_WORD: [u64; 6] = [
            0xAAAA_AAAA_AAAA_AAAA,
            0xCCCC_CCCC_CCCC_CCCC,
            0xF0F0_F0F0_F0F0_F0F0,
            0xFF00_FF00_FF00_FF00,
            0xFFFF_0000_FFFF_0000,
            0xFFFF_FFFF_0000_0000,
        ];
        Table(std::array::from_fn(|word| match IN_WORD.get(bit) {
            Some(pattern) => *pattern,
            None if word >> (bit - IN_WORD.len()) & 1 == 1 => u64::MAX,
            None => 0,
        }))
    }

    fn not(&self) -> Table {
        Table(self.0.map(|word| !word))
    }

    fn and(&self, other: &Table) -> Table {
        Table(std::array::from_fn(|i| self.0[i] & other.0[i]))
    }

    fn equal(&self, other: &Table) -> Table {
        Table(std::array::from_fn(|i| !(self.0[i] ^ other.0[i])))
    }
}

/// A path condition: its different atoms, in the order in which they came, and its truth table.
///
/// The atoms of every part ever added stay listed, for "no truth is simplified, so every atom in it
/// counts".
#[derive(Clone)]
pub(crate) struct Condition {
    atoms: Vec<usize>,
    table: Table,
}

impl Condition {
    /// The condition at first: true.
    pub fn at_first() -> Condition {
        Condition {
            atoms: Vec::new(),
            table: Table::constant(true),
        }
    }

    /// The condition with the new part added, and with the new part's negation added; nothing if
    /// that has more than 10 different atoms.
    pub fn split(&self, truths: &Truths, part: TruthId) -> Option<(Condition, Condition)> {
        let parts = truths.parts_of(part);
        let mut atoms = self.atoms.clone();
        for id in (0..=part).filter(|id| parts[*id]) {
            if let Truth::Atom(atom) = truths.truths[id] {
                if !atoms.contains(&atom) {
                    atoms.push(atom);
                }
            }
        }
        if atoms.len() > MAX_ATOMS {
            return None;
        }
        let table = truths.table_of(part, &parts, &atoms);
        let when_true = Condition {
            table: self.table.and(&table),
            atoms: atoms.clone(),
        };
        let when_false = Condition {
            table: self.table.and(&table.not()),
            atoms,
        };
        Some((when_true, when_false))
    }

    /// Whether "some assignment of true and false to the atoms satisfies the condition".
    pub fn is_satisfiable(&self) -> bool {
        self.table.0.iter().any(|word| *word != 0)
    }
}
