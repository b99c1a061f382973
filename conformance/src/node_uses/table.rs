//! A table of nodes, and how often each is used by several ways of counting.

use super::rules::Named;
use crate::tree::{INT, SYM, VAR, WORDS};
use reference::Node;

/// The nodes, and how often each is used, counting places.
pub struct Table<'a> {
    nodes: &'a [Node],
    pub uses: Vec<usize>,
}

/// The nodes that a node takes, in the order of its places.
fn operands(node: &Node) -> &[u32] {
    &node.operands[..WORDS[node.kind as usize].1]
}

/// How often each node is used, if each of them uses these.
fn uses_by<'a>(nodes: &'a [Node], used: fn(&'a Node) -> Vec<u32>) -> Vec<usize> {
    let mut uses = vec![0; nodes.len()];
    for operand in nodes.iter().flat_map(used) {
        if let Some(uses) = uses.get_mut(operand as usize) {
            *uses += 1;
        }
    }
    uses
}

/// The lowest node but the last whose count of uses is wrong.
fn lowest(uses: &[usize], wrong: fn(usize) -> bool) -> Named {
    let (_, uses) = uses.split_last()?;
    uses.iter().position(|&uses| wrong(uses))
}

impl Table<'_> {
    pub fn new(nodes: &[Node]) -> Table<'_> {
        let uses = uses_by(nodes, |node| operands(node).to_vec());
        Table { nodes, uses }
    }

    /// The lowest node but the last whose count of uses is wrong.
    pub fn lowest(&self, wrong: fn(usize) -> bool) -> Named {
        lowest(&self.uses, wrong)
    }

    /// The lowest node but the last that is not used once, if each node uses these.
    pub fn lowest_by(&self, used: fn(&Node) -> Vec<u32>) -> Named {
        lowest(&uses_by(self.nodes, used), |uses| uses != 1)
    }

    /// The nodes but the last that are not used once.
    pub fn wrong(&self) -> impl Iterator<Item = usize> + '_ {
        let last = self.uses.len() - 1;
        (0..last).filter(|&node| self.uses[node] != 1)
    }

    pub fn unused(&self) -> Named {
        self.lowest(|uses| uses == 0)
    }

    pub fn used_again(&self) -> Named {
        self.lowest(|uses| uses > 1)
    }

    /// The lower of the lowest unused node and the one whose second use comes first.
    pub fn first_use_again(&self) -> Named {
        let mut used = vec![false; self.uses.len()];
        let mut operands = self
            .nodes
            .iter()
            .flat_map(operands)
            .map(|&node| node as usize);
        let again = operands.find(|&node| std::mem::replace(&mut used[node], true));
        self.unused().into_iter().chain(again).min()
    }

    /// Whether a `sym` has four or more around it, on some way.
    pub fn has_deep_sym(&self) -> bool {
        let mut around = vec![0; self.nodes.len()];
        for (number, node) in self.nodes.iter().enumerate().rev() {
            let own = usize::from(node.kind == SYM);
            if own == 1 && around[number] >= 4 {
                return true;
            }
            for &operand in operands(node) {
                let operand = operand as usize;
                around[operand] = around[operand].max(around[number] + own);
            }
        }
        false
    }
}

/// The operands, each node once.
pub fn once_each(node: &Node) -> Vec<u32> {
    let mut once = operands(node).to_vec();
    once.sort_unstable();
    once.dedup();
    once
}

/// The operands, and the number of `int` or `var`.
pub fn with_numbers(node: &Node) -> Vec<u32> {
    match node.kind {
        INT | VAR => vec![node.operands[0]],
        _ => operands(node).to_vec(),
    }
}

/// The operands, and with each the node 64 before or after it.
pub fn with_64_apart(node: &Node) -> Vec<u32> {
    let operands = operands(node).iter();
    operands
        .flat_map(|&operand| [operand, operand ^ 64])
        .collect()
}
