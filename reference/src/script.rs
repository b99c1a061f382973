//! The script as a table of records, and the rules of the table itself (2, 3, 33, 4, 5, 13).

use crate::types;

/// Why an input is turned down: its number, and its place where it has one.
#[derive(Clone, Copy, PartialEq, Eq, Debug)]
pub struct Refusal {
    /// The number in the list of refusals.
    pub number: u8,
    /// The line (1, 2 and 4 in text) or the node (4 in a table, 5 to 13).
    pub place: Option<u32>,
}

impl Refusal {
    /// A refusal at a line or a node.
    pub(crate) fn at(number: u8, place: u32) -> Refusal {
        Refusal {
            number,
            place: Some(place),
        }
    }

    /// A refusal that has no place.
    pub(crate) fn nowhere(number: u8) -> Refusal {
        Refusal {
            number,
            place: None,
        }
    }
}

/// One record: "a kind, 0 to 14 in this order, and three operands of 32 bits".
#[derive(Clone, Copy, PartialEq, Eq, Debug)]
pub struct Node {
    /// The word's number, in the order of the words.
    pub kind: u32,
    /// The operands; unused ones are 0.
    pub operands: [u32; 3],
}

/// The type codes of the entries, and the nodes; the last node is the root.
#[derive(Clone, PartialEq, Eq, Debug)]
pub struct Script {
    /// The entries' type codes.
    pub entries: Vec<u32>,
    /// The nodes, numbered from 0.
    pub nodes: Vec<Node>,
}

/// "128 nodes and 16 entries are limits of the script itself."
pub(crate) const MAX_NODES: usize = 128;
/// See [`MAX_NODES`].
pub(crate) const MAX_ENTRIES: usize = 16;
/// "`var` k (0 to 143)".
const MAX_VARIABLE: u32 = 143;
/// "At most 4 `sym` nodes lie on any way from the root."
const MAX_SYMS: u32 = 4;

/// The kinds' numbers.
pub(crate) mod kind {
    pub const INT: u32 = 0;
    pub const TRUE: u32 = 1;
    pub const FALSE: u32 = 2;
    pub const VAR: u32 = 3;
    pub const ADD: u32 = 4;
    pub const EQ: u32 = 5;
    pub const NOT: u32 = 6;
    pub const AND: u32 = 7;
    pub const IF: u32 = 8;
    pub const LET: u32 = 9;
    pub const REF: u32 = 10;
    pub const GET: u32 = 11;
    pub const SET: u32 = 12;
    pub const TYPED: u32 = 13;
    pub const SYM: u32 = 14;
}

/// One row of the table of words.
pub(crate) struct Word {
    /// The word's fixed spelling.
    pub name: &'static str,
    /// How many operands follow it.
    pub operands: usize,
}

/// Each word and its operand count; a row's index is its kind.
pub(crate) const WORDS: [Word; 15] = [
    word("int", 1),
    word("true", 0),
    word("false", 0),
    word("var", 1),
    word("add", 2),
    word("eq", 2),
    word("not", 1),
    word("and", 2),
    word("if", 3),
    word("let", 2),
    word("ref", 1),
    word("get", 1),
    word("set", 2),
    word("typed", 1),
    word("sym", 1),
];

const fn word(name: &'static str, operands: usize) -> Word {
    Word { name, operands }
}

/// The largest number that may stand as an operand of this kind.
pub(crate) fn largest_operand(kind: u32) -> u32 {
    match kind {
        kind::INT => u32::MAX,
        kind::VAR => MAX_VARIABLE,
        _ => MAX_NODES as u32 - 1,
    }
}

impl Node {
    /// The operands that are node numbers ("the operand of `int` and `var` is a number, every other
    /// operand a node number"). A kind without a word has none.
    pub(crate) fn children(&self) -> &[u32] {
        match WORDS.get(self.kind as usize) {
            Some(word) if self.kind != kind::INT && self.kind != kind::VAR => {
                &self.operands[..word.operands]
            }
            _ => &[],
        }
    }

    /// Whether every operand that is a node number names a node before this one.
    pub(crate) fn has_earlier_children(&self, own_number: usize) -> bool {
        self.children()
            .iter()
            .all(|child| (*child as usize) < own_number)
    }

    /// Whether 4 does not hold of this record in a table.
    fn is_well_formed(&self, own_number: usize) -> bool {
        let Some(word) = WORDS.get(self.kind as usize) else {
            return false;
        };
        let (operands, unused) = self.operands.split_at(word.operands);
        let in_range =
            self.kind != kind::VAR || operands.iter().all(|number| *number <= MAX_VARIABLE);
        in_range
            && unused.iter().all(|number| *number == 0)
            && self.has_earlier_children(own_number)
    }
}

impl Script {
    /// The node with this number.
    pub(crate) fn node(&self, number: u32) -> Node {
        self.nodes[number as usize]
    }

    /// The number of the last node, which is the root.
    pub(crate) fn root(&self) -> u32 {
        self.nodes.len() as u32 - 1
    }

    /// The table's own refusals: "2 (without a place), 3, 33, 4, 5, 13".
    pub(crate) fn test(&self) -> Result<(), Refusal> {
        if self.nodes.len() > MAX_NODES || self.entries.len() > MAX_ENTRIES {
            return Err(Refusal::nowhere(2));
        }
        if self.nodes.is_empty() {
            return Err(Refusal::nowhere(3));
        }
        if self.entries.iter().any(|code| *code > types::LARGEST) {
            return Err(Refusal::nowhere(33));
        }
        let malformed =
            (0..self.nodes.len()).find(|number| !self.nodes[*number].is_well_formed(*number));
        if let Some(number) = malformed {
            return Err(Refusal::at(4, number as u32));
        }
        self.test_tree()
    }

    /// 3, 5 and 13, each at its lowest node; the nodes' operands are earlier nodes.
    pub(crate) fn test_tree(&self) -> Result<(), Refusal> {
        if self.nodes.is_empty() {
            return Err(Refusal::nowhere(3));
        }
        if let Some(number) = self.lowest_not_used_once() {
            return Err(Refusal::at(5, number));
        }
        if let Some(number) = self.lowest_sym_too_deep() {
            return Err(Refusal::at(13, number));
        }
        Ok(())
    }

    /// The lowest node but the last that is not an operand "of exactly one later node, in one place
    /// of it".
    fn lowest_not_used_once(&self) -> Option<u32> {
        let mut uses = vec![0; self.nodes.len()];
        for node in &self.nodes {
            for child in node.children() {
                uses[*child as usize] += 1;
            }
        }
        (0..self.root()).find(|number| uses[*number as usize] != 1)
    }

    /// The lowest `sym` with four or more `sym` around it, blocks of the other kind not stopping the
    /// count. Every node but the root has one parent, with a higher number.
    fn lowest_sym_too_deep(&self) -> Option<u32> {
        let mut around = vec![0; self.nodes.len()];
        for (number, node) in self.nodes.iter().enumerate().rev() {
            let own = u32::from(node.kind == kind::SYM);
            for child in node.children() {
                around[*child as usize] = around[number] + own;
            }
        }
        (0..=self.root()).find(|number| {
            self.node(*number).kind == kind::SYM && around[*number as usize] >= MAX_SYMS
        })
    }
}
