//! Scripts that the search tries, as trees that can be changed.

use conformance::spelling::spelled;
use conformance::tree::{self, Tree, SYM, TYPED};

/// A script, and where it came from.
#[derive(Clone)]
pub struct Candidate {
    pub from: String,
    pub entries: Vec<u32>,
    pub tree: Tree,
}

/// "128 nodes and 16 entries are limits of the script itself."
pub const MOST_NODES: usize = 128;
/// At most so many `sym` lie on any way from the root.
pub const MOST_SYMS: usize = 4;

impl Candidate {
    /// A script from its entry types and an expression; none if it has too many nodes.
    pub fn spelled(from: String, entries: &str, expression: &str) -> Option<Candidate> {
        let words = expression.split([' ', '(', ')']);
        if words.filter(|word| !word.is_empty()).count() > MOST_NODES {
            return None;
        }
        Candidate::read(from, &spelled(entries, expression).text)
    }

    /// A script from its text; none if the text is refused.
    pub fn read(from: String, text: &[u8]) -> Option<Candidate> {
        let script = reference::read(text).ok()?;
        let root = script.nodes.len() as u32 - 1;
        Some(Candidate {
            from,
            tree: tree_at(&script, root),
            entries: script.entries,
        })
    }

    pub fn text(&self) -> Vec<u8> {
        tree::text(&self.entries, &self.tree)
    }

    /// Whether reading accepts it.
    pub fn is_script(&self) -> bool {
        self.tree.size() <= MOST_NODES && syms(&self.tree) <= MOST_SYMS
    }

    /// How many symbolic blocks are nested in each other, at most: 0 to 4.
    pub fn blocks(&self) -> usize {
        blocks(&self.tree, false)
    }
}

fn tree_at(script: &reference::Script, node: u32) -> Tree {
    let node = &script.nodes[node as usize];
    let count = tree::WORDS[node.kind as usize].1;
    let operands = node.operands[..count].iter();
    Tree {
        kind: node.kind,
        number: if count == 0 { node.operands[0] } else { 0 },
        operands: operands.map(|&operand| tree_at(script, operand)).collect(),
    }
}

/// The most `sym` on a way down.
fn syms(tree: &Tree) -> usize {
    let below = tree.operands.iter().map(syms).max();
    below.unwrap_or(0) + usize::from(tree.kind == SYM)
}

/// The most `sym` on a way down that are met in typed mode.
fn blocks(tree: &Tree, symbolic: bool) -> usize {
    let inside = match tree.kind {
        SYM => true,
        TYPED => false,
        _ => symbolic,
    };
    let below = tree.operands.iter().map(|tree| blocks(tree, inside)).max();
    below.unwrap_or(0) + usize::from(inside && !symbolic)
}

#[cfg(test)]
pub(crate) mod tests {
    use super::*;

    pub(crate) fn candidate(expression: &str) -> Candidate {
        Candidate::spelled(String::new(), "b i", expression).expect("a script")
    }

    #[test]
    fn a_text_comes_back_from_its_tree() {
        let text = spelled("b i", "(sym (if v0 (add v1 7) (let 3 v2)))").text;
        let read = Candidate::read(String::new(), &text).expect("a script");
        assert_eq!(read.text(), text);
    }

    #[test]
    fn blocks_are_the_sym_in_typed_mode() {
        assert_eq!(candidate("v1").blocks(), 0);
        assert_eq!(candidate("(sym (sym v1))").blocks(), 1);
        assert_eq!(
            candidate("(sym (add (typed (sym v1)) (typed v1)))").blocks(),
            2
        );
    }

    #[test]
    fn five_nested_sym_are_no_script() {
        let mut candidate = candidate("(sym (sym (sym (sym v1))))");
        assert!(candidate.is_script());
        candidate.tree = tree::one(SYM, candidate.tree);
        assert!(!candidate.is_script());
    }
}
