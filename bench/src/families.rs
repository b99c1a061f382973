//! Hand-made families of scripts whose checks may be slow: nested blocks whose variables' types
//! differ on every path, around a block whose paths are dear.

use crate::candidates::Candidate;

/// The entries of every script: ten truths, two words, and references of four types.
pub const ENTRIES: &str = "b b b b b b b b b b i i ri rb rri rrrri";

/// The first variable that is no entry.
const FIRST: usize = 16;
const WORDS: [usize; 2] = [10, 11];
/// An entry of another type than `i` and `b`, for each outer block.
const OTHERS: [usize; 3] = [12, 13, 14];
/// The cell that is written, and the reference that is followed.
const CELL: usize = 12;
const CHAIN: usize = 15;

/// The blocks around the inner one. Each has `cheap` forks in the condition of the first of its
/// `bound` forks, of which each binds a variable.
#[derive(Clone, Copy, Debug)]
pub struct Outer {
    pub blocks: usize,
    pub cheap: usize,
    pub bound: usize,
    pub binds: Binds,
}

/// What the outer blocks bind, and what the next block mentions of it.
#[derive(Clone, Copy, Debug, PartialEq, Eq)]
pub enum Binds {
    /// Words; nothing is mentioned.
    Words,
    /// A type that differs by path; each variable is mentioned.
    Differing,
    /// Words, with so many more variables; each is mentioned.
    Many(usize),
}

/// What the inner block does on each path.
#[derive(Clone, Copy, Debug)]
pub enum Inner {
    /// Forks, so many of them with two atoms in the condition.
    Forks {
        cheap: usize,
        bound: usize,
        pairs: usize,
        atoms: Atoms,
    },
    /// Forks, then so many writes of a wrong type, one of the right type, and reads.
    Log {
        cheap: usize,
        writes: usize,
        reads: usize,
    },
    /// Forks whose conditions share a truth with so many negations in it.
    Shared { forks: usize, nots: usize },
    /// Forks on a sum of so many terms.
    Sums { forks: usize, terms: usize },
    /// So many typed blocks beside each other after so many forks, each with forks of its own.
    Beside {
        forks: usize,
        blocks: usize,
        inside: usize,
    },
    /// Forks on so many guards, then so many on the same guards again, each with one branch only;
    /// these name a guard by its variable, or are written anew.
    Forced {
        guards: Guards,
        forks: usize,
        again: usize,
        anew: bool,
    },
}

/// The guards that come again: six truths over the truth entries, none of which follows from the
/// others.
#[derive(Clone, Copy, Debug)]
pub enum Guards {
    /// Entries.
    Plain,
    /// Two entries each, and then one.
    Pairs,
    /// The equality of two entries.
    Equal,
    /// The equality of an entry and that of two others, the last of which is the next one's first.
    Linked,
}

/// What the conditions of an inner block ask.
#[derive(Clone, Copy, Debug)]
pub enum Atoms {
    Truths,
    Words,
    References,
}

/// The variables that the block being made is to mention, as far as it has not yet.
struct Mentions(Vec<usize>);

impl Mentions {
    /// The next one, or something else if there is none.
    fn or(&mut self, other: &str) -> String {
        match self.0.pop() {
            Some(variable) => format!("v{variable}"),
            None => other.to_string(),
        }
    }
}

/// An expression being made from outside in: what is open, and how many variables are bound.
struct Making {
    script: String,
    open: usize,
    variables: usize,
}

impl Making {
    fn node(&mut self, word: &str) {
        self.script += &format!("({word} ");
        self.open += 1;
    }

    /// Binds a value, and gives the variable.
    fn bind(&mut self, value: &str) -> usize {
        self.script += &format!("(let {value} ");
        self.open += 1;
        self.variables += 1;
        self.variables - 1
    }

    /// The variable of a value, which is bound if it is none itself.
    fn name(&mut self, value: &str) -> String {
        match value.starts_with('v') {
            true => value.to_string(),
            false => format!("v{}", self.bind(value)),
        }
    }

    fn end(mut self, last: &str) -> String {
        self.script += last;
        self.script + &")".repeat(self.open)
    }
}

/// So many forks in a condition on truth entries, three nodes each.
fn cheap(count: usize) -> String {
    let mut condition = "v0".to_string();
    for k in 1..=count {
        condition = format!("(if {condition} v{k} v{k})");
    }
    condition
}

impl Outer {
    /// Opens the block of a level, and gives the variables that the next one is to mention.
    fn open(&self, level: usize, making: &mut Making, mut mentions: Mentions) -> Mentions {
        making.node("sym");
        let mut bound = Vec::new();
        if let Binds::Many(more) = self.binds {
            bound.extend((0..more).map(|_| making.bind("1")));
        }
        for k in 0..self.bound {
            let condition = match k {
                0 => cheap(self.cheap),
                _ => format!("v{}", self.cheap + k),
            };
            let (yes, no) = match (self.binds, level) {
                (Binds::Differing, 0) => ("1".to_string(), "true".to_string()),
                (Binds::Differing, _) => (mentions.or("1"), format!("v{}", OTHERS[level - 1])),
                _ => (mentions.or("1"), mentions.or("2")),
            };
            bound.push(making.bind(&format!("(if {condition} {yes} {no})")));
        }
        making.node("typed");
        if self.binds == Binds::Words {
            bound.clear();
        }
        Mentions(bound)
    }
}

impl Inner {
    /// The block's expression, with all mentions in it.
    fn close(&self, mut making: Making, mut mentions: Mentions) -> String {
        making.node("sym");
        let mut last = "3".to_string();
        match *self {
            Inner::Forks {
                cheap,
                bound,
                pairs,
                atoms,
            } => forks(&mut making, &mut mentions, (cheap, bound, pairs), atoms),
            Inner::Log {
                cheap,
                writes,
                reads,
            } => last = log(&mut making, &mut mentions, cheap, writes, reads),
            Inner::Shared { forks, nots } => {
                let truth = "(not ".repeat(nots) + "v9" + &")".repeat(nots);
                let shared = making.bind(&truth);
                for k in 0..forks {
                    fork(&mut making, &mut mentions, &format!("(and v{shared} v{k})"));
                }
            }
            Inner::Sums { forks, terms } => {
                let sum = making.bind(&sum(terms));
                for k in 0..forks {
                    fork(&mut making, &mut mentions, &format!("(eq v{sum} {k})"));
                }
            }
            Inner::Beside {
                forks,
                blocks,
                inside,
            } => beside(&mut making, &mut mentions, forks, blocks, inside),
            Inner::Forced {
                guards,
                forks,
                again,
                anew,
            } => forced(&mut making, &mut mentions, guards, (forks, again), anew),
        };
        while let Some(variable) = mentions.0.pop() {
            making.bind(&format!("v{variable}"));
        }
        making.end(&last)
    }
}

/// Binds a fork between two variables to be mentioned, or words.
fn fork(making: &mut Making, mentions: &mut Mentions, condition: &str) {
    let (yes, no) = (mentions.or("1"), mentions.or("2"));
    making.bind(&format!("(if {condition} {yes} {no})"));
}

/// Forks of an inner block: so many cheap ones, so many bound ones, and two atoms in so many.
fn forks(
    making: &mut Making,
    mentions: &mut Mentions,
    (unbound, bound, pairs): (usize, usize, usize),
    atoms: Atoms,
) {
    let mut next = 0;
    let mut atom = || {
        next += 1;
        atoms.atom(next - 1)
    };
    for k in 0..bound {
        let mut condition = match k {
            0 if unbound > 0 => cheap(unbound),
            _ => atom(),
        };
        if k < pairs {
            condition = format!("(and {condition} {})", atom());
        }
        fork(making, mentions, &condition);
    }
}

/// Forks, then typed blocks beside each other, each with so many forks inside.
fn beside(
    making: &mut Making,
    mentions: &mut Mentions,
    forks: usize,
    blocks: usize,
    inside: usize,
) {
    for k in 0..forks {
        fork(making, mentions, &format!("v{k}"));
    }
    let condition = cheap(inside.saturating_sub(1));
    for _ in 0..blocks {
        making.bind(&format!("(typed (sym (if {condition} 1 2)))"));
    }
}

/// Forks on so many guards, then so many on the same guards again, in turn.
fn forced(
    making: &mut Making,
    mentions: &mut Mentions,
    guards: Guards,
    (forks, again): (usize, usize),
    anew: bool,
) {
    let written: Vec<String> = (0..forks).map(|k| guards.guard(k)).collect();
    let named: Vec<String> = written.iter().map(|guard| making.name(guard)).collect();
    for guard in &named {
        fork(making, mentions, guard);
    }
    let later = if anew { &written } else { &named };
    for guard in later.iter().cycle().take(again) {
        fork(making, mentions, guard);
    }
}

impl Guards {
    /// The k-th of the six.
    fn guard(&self, k: usize) -> String {
        let (a, b, c) = (2 * k, 2 * k + 1, (2 * k + 2) % 10);
        match (self, k) {
            (Guards::Plain, _) => format!("v{k}"),
            (Guards::Pairs, 0..4) => format!("(and v{a} v{b})"),
            (Guards::Pairs, _) => format!("v{}", k + 4),
            (Guards::Equal, 0..5) => format!("(eq v{a} v{b})"),
            (Guards::Equal, _) => "(eq v1 v2)".to_string(),
            (Guards::Linked, 0..5) => format!("(eq v{a} (eq v{b} v{c}))"),
            (Guards::Linked, _) => "(eq v1 v5)".to_string(),
        }
    }
}

impl Atoms {
    /// The k-th of ten different atoms.
    fn atom(&self, k: usize) -> String {
        match self {
            Atoms::Truths => format!("v{}", 9 - k % 10),
            Atoms::Words => format!("(eq (add v{} v{}) {k})", WORDS[0], WORDS[1]),
            Atoms::References => format!("(eq v{CELL} (ref {k}))"),
        }
    }
}

/// Forks, writes of a wrong type, one of the right type, and what reads follow.
fn log(
    making: &mut Making,
    mentions: &mut Mentions,
    unbound: usize,
    writes: usize,
    reads: usize,
) -> String {
    fork(making, mentions, &cheap(unbound));
    let value = mentions.or("true");
    let wrong = format!("(set v{CELL} ").repeat(writes) + &value + &")".repeat(writes);
    making.bind(&wrong);
    making.bind(&format!("(set v{CELL} 1)"));
    let mut last = format!("v{CHAIN}");
    for k in 0..reads {
        last = match k {
            0..4 => format!("(get {last})"),
            _ => format!("(add (get v{CELL}) {last})"),
        };
    }
    last
}

fn sum(terms: usize) -> String {
    let term = |k: usize| format!("v{}", WORDS[k % 2]);
    (1..terms).fold(term(0), |sum, k| format!("(add {} {sum})", term(k)))
}

/// A script of the families; none if it has too many nodes.
pub fn script(outer: &Outer, inner: &Inner) -> Option<Candidate> {
    let mut making = Making {
        script: String::new(),
        open: 0,
        variables: FIRST,
    };
    let mut mentions = Mentions(Vec::new());
    for level in 0..outer.blocks {
        mentions = outer.open(level, &mut making, mentions);
    }
    let from = match outer.blocks {
        0 => format!("{inner:?}"),
        _ => format!("{inner:?} in {outer:?}"),
    };
    Candidate::spelled(from, ENTRIES, &inner.close(making, mentions))
}

#[cfg(test)]
mod tests {
    use super::*;
    use conformance::spelling::spelled;

    /// Two guards and one of them again, in no other block.
    fn forced(guards: Guards, anew: bool) -> Vec<u8> {
        let outer = Outer {
            blocks: 0,
            cheap: 0,
            bound: 0,
            binds: Binds::Words,
        };
        let inner = Inner::Forced {
            guards,
            forks: 2,
            again: 1,
            anew,
        };
        script(&outer, &inner).expect("a script").text()
    }

    #[test]
    fn guards_come_again_by_their_variables_or_anew() {
        let pairs = |last: &str| {
            let forks = format!("(let (if v16 1 2) (let (if v17 1 2) (let (if {last} 1 2) 3)))");
            let script = format!("(sym (let (and v0 v1) (let (and v2 v3) {forks})))");
            spelled(ENTRIES, &script).text
        };
        assert_eq!(forced(Guards::Pairs, false), pairs("v16"));
        assert_eq!(forced(Guards::Pairs, true), pairs("(and v0 v1)"));
    }

    #[test]
    fn entries_are_guards_that_are_not_bound() {
        let script = "(sym (let (if v0 1 2) (let (if v1 1 2) (let (if v0 1 2) 3))))";
        assert_eq!(forced(Guards::Plain, false), spelled(ENTRIES, script).text);
    }
}
