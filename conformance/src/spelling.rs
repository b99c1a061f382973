//! Scripts for fixed cases, spelled as nested expressions: `(if v0 1 (add v1 2))`. A number is an
//! `int`, `v` and a number a `var`. A `!` before a node marks the place that a refusal names.

use crate::tree::{self, Tree, WORDS};

/// A script: its text, and the number of the marked node, or of the last node if none is marked.
pub struct Spelled {
    pub text: Vec<u8>,
    pub place: u32,
}

/// The text of an expression under entries, which are types parted by blanks.
pub fn spelled(entries: &str, expression: &str) -> Spelled {
    let entries: Vec<u32> = entries.split_whitespace().map(type_code).collect();
    let open = expression.replace('(', "( ").replace(')', " ) ");
    let mut words = open.split_whitespace().peekable();
    let mut parser = Parser::default();
    let tree = parser.tree(&mut words);
    assert!(words.next().is_none(), "one expression: {expression}");
    Spelled {
        text: tree::text(&entries, &tree),
        place: parser.marked.unwrap_or(parser.nodes - 1),
    }
}

/// The code of a type that is spelled right.
pub fn type_code(name: &str) -> u32 {
    let references = name.len() as u32 - 1;
    2 * references + u32::from(name.ends_with('b'))
}

type Words<'a> = std::iter::Peekable<std::str::SplitWhitespace<'a>>;

/// Counts nodes in operand order, as `tree::text` numbers them.
#[derive(Default)]
struct Parser {
    nodes: u32,
    marked: Option<u32>,
}

impl Parser {
    fn tree(&mut self, words: &mut Words) -> Tree {
        let mut word = words.next().expect("a node");
        let outside = word.strip_prefix('!');
        let mut mark = outside.is_some();
        word = outside.unwrap_or(word);
        let tree = if word == "(" {
            let kind = words.next().expect("a word");
            mark |= kind.starts_with('!');
            let tree = self.operands(kind.trim_start_matches('!'), words);
            assert_eq!(words.next(), Some(")"), "the end of {kind}");
            tree
        } else {
            leaf(word)
        };
        if mark {
            self.marked = Some(self.nodes);
        }
        self.nodes += 1;
        tree
    }

    fn operands(&mut self, word: &str, words: &mut Words) -> Tree {
        let kind = WORDS.iter().position(|row| row.0 == word);
        let kind = kind.unwrap_or_else(|| panic!("no word: {word}"));
        let mut operands = Vec::new();
        while words.peek() != Some(&")") {
            operands.push(self.tree(words));
        }
        assert_eq!(operands.len(), WORDS[kind].1, "operands of {word}");
        Tree {
            kind: kind as u32,
            number: 0,
            operands,
        }
    }
}

fn leaf(word: &str) -> Tree {
    if let Some(index) = word.strip_prefix('v') {
        return tree::var(index.parse().expect("a variable"));
    }
    match word {
        "true" => tree::truth(true),
        "false" => tree::truth(false),
        _ => tree::int(word.parse().expect("a number")),
    }
}
