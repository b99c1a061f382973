//! Scripts as trees, as the generators build them, and their text.

use crate::random::Random;

pub const INT: u32 = 0;
pub const TRUE: u32 = 1;
pub const FALSE: u32 = 2;
pub const VAR: u32 = 3;
pub const ADD: u32 = 4;
pub const EQ: u32 = 5;
pub const NOT: u32 = 6;
pub const AND: u32 = 7;
pub const IF: u32 = 8;
pub const LET: u32 = 9;
pub const REF: u32 = 10;
pub const GET: u32 = 11;
pub const SET: u32 = 12;
pub const TYPED: u32 = 13;
pub const SYM: u32 = 14;

/// Each kind's word, and how many nodes it takes.
pub const WORDS: [(&str, usize); 15] = [
    ("int", 0),
    ("true", 0),
    ("false", 0),
    ("var", 0),
    ("add", 2),
    ("eq", 2),
    ("not", 1),
    ("and", 2),
    ("if", 3),
    ("let", 2),
    ("ref", 1),
    ("get", 1),
    ("set", 2),
    ("typed", 1),
    ("sym", 1),
];

/// A node with the trees of its operands. `number` is the operand of `int` and `var`.
#[derive(Clone)]
pub struct Tree {
    pub kind: u32,
    pub number: u32,
    pub operands: Vec<Tree>,
}

pub fn int(number: u32) -> Tree {
    leaf(INT, number)
}

pub fn truth(value: bool) -> Tree {
    leaf(if value { TRUE } else { FALSE }, 0)
}

pub fn var(index: usize) -> Tree {
    leaf(VAR, index as u32)
}

fn leaf(kind: u32, number: u32) -> Tree {
    node(kind, number, Vec::new())
}

fn node(kind: u32, number: u32, operands: Vec<Tree>) -> Tree {
    Tree {
        kind,
        number,
        operands,
    }
}

pub fn one(kind: u32, a: Tree) -> Tree {
    node(kind, 0, vec![a])
}

pub fn two(kind: u32, a: Tree, b: Tree) -> Tree {
    node(kind, 0, vec![a, b])
}

pub fn choice(a: Tree, b: Tree, c: Tree) -> Tree {
    node(IF, 0, vec![a, b, c])
}

impl Tree {
    /// How many nodes it has.
    pub fn size(&self) -> usize {
        1 + self.operands.iter().map(Tree::size).sum::<usize>()
    }

    /// Whether it has a node of one of these kinds.
    pub fn has(&self, kinds: &[u32]) -> bool {
        kinds.contains(&self.kind) || self.operands.iter().any(|tree| tree.has(kinds))
    }

    /// Whether some way down from the root meets these kinds in this order.
    pub fn has_way(&self, kinds: &[u32]) -> bool {
        let left = match kinds {
            [first, rest @ ..] if *first == self.kind => rest,
            _ => kinds,
        };
        left.is_empty() || self.operands.iter().any(|tree| tree.has_way(left))
    }

    /// Whether some symbolic block has something in it: six nodes, and a choice, a store or a border.
    pub fn has_rich_block(&self) -> bool {
        if self.kind == SYM {
            return self.size() >= 7 && self.has(&[IF, SET, GET, TYPED]);
        }
        self.operands.iter().any(Tree::has_rich_block)
    }

    /// The node steps that checking takes at most, in typed mode.
    pub fn typed_work(&self) -> u64 {
        if self.kind == SYM {
            let (paths, work) = self.operands[0].path_work();
            return paths * work;
        }
        1 + self.operands.iter().map(Tree::typed_work).sum::<u64>()
    }

    /// How many paths there are at most (65 means more than 64), and the node steps of one.
    pub fn path_work(&self) -> (u64, u64) {
        if self.kind == TYPED {
            return (1, 1 + self.operands[0].typed_work());
        }
        let parts: Vec<(u64, u64)> = self.operands.iter().map(Tree::path_work).collect();
        let (paths, work) = match parts[..] {
            [a, b, c] => (a.0 * (b.0 + c.0), 1 + a.1 + b.1.max(c.1)),
            _ => (
                parts.iter().map(|part| part.0).product(),
                1 + parts.iter().map(|part| part.1).sum::<u64>(),
            ),
        };
        (paths.min(65), work)
    }

    /// The most paths that one of its blocks has at most.
    pub fn most_paths(&self) -> u64 {
        let own = match self.kind {
            SYM => self.operands[0].path_work().0,
            _ => 0,
        };
        let below = self.operands.iter().map(Tree::most_paths).max();
        own.max(below.unwrap_or(0))
    }

    /// The n-th node in the order of `visit`, to be changed in place.
    pub fn nth(&mut self, n: usize) -> &mut Tree {
        if n == 0 {
            return self;
        }
        let mut left = n - 1;
        for operand in &mut self.operands {
            let size = operand.size();
            if left < size {
                return operand.nth(left);
            }
            left -= size;
        }
        unreachable!("n is below the size")
    }
}

/// A line of a node: its kind, its number, its operands' numbers.
struct Line {
    kind: u32,
    number: u32,
    operands: Vec<usize>,
}

/// The text of a script with the nodes in operand order, each after its operands.
pub fn text(entries: &[u32], tree: &Tree) -> Vec<u8> {
    let mut lines = Vec::new();
    in_order(tree, &mut lines);
    spell(entries, &lines)
}

fn in_order(tree: &Tree, lines: &mut Vec<Line>) -> usize {
    let operands = tree.operands.iter();
    let operands = operands.map(|operand| in_order(operand, lines)).collect();
    lines.push(Line {
        kind: tree.kind,
        number: tree.number,
        operands,
    });
    lines.len() - 1
}

/// The text of a script with the nodes in any order that has operands before their node.
pub fn shuffled_text(entries: &[u32], tree: &Tree, random: &mut Random) -> Vec<u8> {
    let mut nodes = Vec::new();
    flatten(tree, None, &mut nodes);
    let mut waiting: Vec<usize> = nodes.iter().map(|node| node.0.operands.len()).collect();
    let mut ready: Vec<usize> = (0..nodes.len()).filter(|&i| waiting[i] == 0).collect();
    let mut numbers = vec![Vec::new(); nodes.len()];
    let mut lines = Vec::new();
    while !ready.is_empty() {
        let next = ready.swap_remove(random.below(ready.len()));
        let (node, parent) = nodes[next];
        let mut operands: Vec<(usize, usize)> = std::mem::take(&mut numbers[next]);
        operands.sort_unstable();
        if let Some((parent, place)) = parent {
            numbers[parent].push((place, lines.len()));
            waiting[parent] -= 1;
            if waiting[parent] == 0 {
                ready.push(parent);
            }
        }
        lines.push(Line {
            kind: node.kind,
            number: node.number,
            operands: operands.iter().map(|operand| operand.1).collect(),
        });
    }
    spell(entries, &lines)
}

/// A node, and its parent's index with the operand's place in it.
type Placed<'a> = (&'a Tree, Option<(usize, usize)>);

fn flatten<'a>(tree: &'a Tree, parent: Option<(usize, usize)>, nodes: &mut Vec<Placed<'a>>) {
    let own = nodes.len();
    nodes.push((tree, parent));
    for (place, operand) in tree.operands.iter().enumerate() {
        flatten(operand, Some((own, place)), nodes);
    }
}

fn spell(entries: &[u32], lines: &[Line]) -> Vec<u8> {
    let mut text = String::new();
    for &code in entries {
        text += &format!("entry\t{}\n", type_name(code));
    }
    for line in lines {
        text += WORDS[line.kind as usize].0;
        if line.kind == INT || line.kind == VAR {
            text += &format!("\t{}", line.number);
        }
        for operand in &line.operands {
            text += &format!("\t{operand}");
        }
        text.push('\n');
    }
    text.into_bytes()
}

/// A type as text: its letters `r`, then `i` or `b`.
pub fn type_name(code: u32) -> String {
    let letter = if code & 1 == 0 { "i" } else { "b" };
    "r".repeat(code as usize / 2) + letter
}
