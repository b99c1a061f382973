//! Nested blocks: each `sym` in a typed block of the one around it, so that paths multiply.

use conformance::spelling::spelled;

/// What the forks of a nest bind.
#[derive(Clone, Copy, PartialEq, Eq)]
pub enum Types {
    /// A word on both sides: `(if v0 1 2)`.
    Same,
    /// A word or a truth: `(if v0 1 true)`, which nothing mentions.
    Differ,
    /// The same, and so many forks of each inner block mention one of the block around it:
    /// `(if v0 v9 v6)`, where `v9` is such a variable and `v6` an entry of a type that it never has.
    Mentioned(usize),
}

/// So many blocks, each with so many forks on entries of its own symbols.
#[derive(Clone, Copy)]
pub struct Nest {
    pub depth: usize,
    pub forks: usize,
    pub types: Types,
}

/// Entries of other types than `i` and `b`, one for each inner block.
const OTHERS: [&str; 3] = ["ri", "rb", "rri"];

impl Nest {
    /// The paths of all blocks that follow every path anew.
    pub fn paths(&self) -> usize {
        1 << (self.depth * self.forks)
    }

    pub fn text(&self) -> Vec<u8> {
        let mut script = "3".to_string();
        for level in (0..self.depth).rev() {
            let forks: String = (0..self.forks).map(|k| self.fork(level, k)).collect();
            script = format!("(sym {forks}{script}{})", ")".repeat(self.forks));
            if level > 0 {
                script = format!("(typed {script})");
            }
        }
        let entries = [vec!["b"; self.forks], self.others().to_vec()].concat();
        spelled(&entries.join(" "), &script).text
    }

    fn others(&self) -> &[&str] {
        match self.types {
            Types::Mentioned(_) => &OTHERS,
            _ => &[],
        }
    }

    /// The beginning of a `let` that binds a fork.
    fn fork(&self, level: usize, k: usize) -> String {
        let entries = self.forks + self.others().len();
        match self.types {
            Types::Same => format!("(let (if v{k} 1 2) "),
            Types::Mentioned(count) if level > 0 && k < count => {
                let outer = entries + (level - 1) * self.forks + k;
                let other = self.forks + level - 1;
                format!("(let (if v{k} v{outer} v{other}) ")
            }
            _ => format!("(let (if v{k} 1 true) "),
        }
    }
}

#[cfg(test)]
mod tests {
    use super::*;
    use crate::programs::nodes;
    use conformance::library;

    #[test]
    fn nests_are_accepted_with_a_word() {
        let types = [
            Types::Same,
            Types::Differ,
            Types::Mentioned(1),
            Types::Mentioned(2),
        ];
        for types in types {
            let nest = Nest {
                depth: 4,
                forks: 2,
                types,
            };
            assert_eq!(library::check(&nest.text()), Ok(0));
        }
    }

    #[test]
    fn four_deep_with_six_forks_take_all_nodes() {
        for types in [Types::Same, Types::Mentioned(6)] {
            let nest = Nest {
                depth: 4,
                forks: 6,
                types,
            };
            assert_eq!(nodes(&nest.text()), 128);
            assert_eq!(nest.paths(), 16_777_216);
        }
    }
}
