//! The sets of inputs that are timed.

use crate::alone::{Alone, ALONE};
use crate::nests::{Nest, Types};
use crate::programs::{Call, Host, Input};
use crate::scripts::TYPICAL;
use crate::texts;
use crate::worst::worst;
use conformance::fixed::{location, truth, word};
use conformance::spelling::spelled;
use conformance::stations::{lend, LENT};

/// Which program takes 10 s or so for a call; it is left out unless all is wanted.
#[derive(Clone, Copy, PartialEq, Eq)]
pub enum Slow {
    Neither,
    Reference,
    Both,
}

pub struct Set {
    pub name: String,
    pub inputs: Vec<Input>,
    /// The refusal that every call ends with; 0 for none.
    pub refusal: u8,
    pub slow: Slow,
}

impl Set {
    /// Whether the reference has the set's calls.
    pub fn has_reference(&self) -> bool {
        let mut calls = self.inputs.iter().map(|input| &input.call);
        !calls.any(|call| matches!(call, Call::Uses(_)))
    }
}

pub fn sets() -> Vec<Set> {
    let mut sets = vec![
        set("checks: typical scripts", typical()),
        set("checks: 64 paths, 10 atoms each", many_paths()),
        set("checks: one path, many reads", many_reads()),
        set(
            "checks: 4 `sym` deep, 4 paths each",
            vec![nested([2, 2, 2, 2])],
        ),
        set(
            "checks: 4 `sym` deep, 8 paths each",
            vec![nested([3, 3, 3, 3])],
        ),
        set("checks: 64 paths in each of 64", vec![nested_two([6, 6])]),
    ];
    sets.extend([3, 4].into_iter().flat_map(deep));
    sets.extend(worst());
    sets.extend([
        set("checks: 128 nodes, typed", plain_checks()),
        Set {
            refusal: 13,
            ..set("reading: 128 nodes, refused with 13", largest(5))
        },
        set("runs: short", short_runs()),
        set("runs: long, with cells", long_runs()),
    ]);
    if texts::LINKED {
        sets.extend(ALONE.iter().map(Alone::set));
    }
    sets
}

/// A set of calls that are quick and not refused.
pub fn set(name: &str, inputs: Vec<Input>) -> Set {
    Set {
        name: name.to_string(),
        inputs,
        refusal: 0,
        slow: Slow::Neither,
    }
}

/// So many blocks with six forks each, without and with variables whose type differs by path.
fn deep(depth: usize) -> Vec<Set> {
    let kinds = [
        (Types::Same, ""),
        (Types::Differ, ", types differ"),
        (Types::Mentioned(2), ", types differ, 2 mentioned"),
        (Types::Mentioned(6), ", types differ, 6 mentioned"),
    ];
    kinds
        .map(|(types, what)| {
            let forks = 6;
            let nest = Nest {
                depth,
                forks,
                types,
            };
            let input = Input {
                text: nest.text(),
                paths: nest.paths(),
                call: Call::Check,
            };
            let slow = match (depth, types) {
                (4, Types::Mentioned(6)) => Slow::Both,
                (4, _) => Slow::Reference,
                _ => Slow::Neither,
            };
            let name = format!("checks: {depth} `sym` deep, 6 forks each{what}");
            Set {
                slow,
                ..set(&name, vec![input])
            }
        })
        .into()
}

fn check(entries: &str, expression: &str, paths: usize) -> Input {
    Input {
        text: spelled(entries, expression).text,
        paths,
        call: Call::Check,
    }
}

fn typical() -> Vec<Input> {
    let rows = TYPICAL.iter();
    rows.map(|&(entries, expression, paths)| check(entries, expression, paths))
        .collect()
}

/// Six forks with ten atoms in all, so that each path's condition ends with ten.
fn many_paths() -> Vec<Input> {
    let truths: Vec<String> = (0..10).map(|k| format!("v{k}")).collect();
    let words: Vec<String> = (0..10)
        .map(|k| format!("(eq (add v0 v1) (add v1 {k}))"))
        .collect();
    let references: Vec<String> = (0..5)
        .flat_map(|a| (a + 1..5).map(move |b| format!("(eq v{a} v{b})")))
        .collect();
    [
        (["b"; 10].join(" "), truths),
        ("i i".to_string(), words),
        (["ri"; 5].join(" "), references),
    ]
    .map(|(entries, atoms)| check(&entries, &six_forks(&atoms), 64))
    .into()
}

fn six_forks(atoms: &[String]) -> String {
    let mut script = "(sym ".to_string();
    for pair in atoms[..8].chunks(2) {
        script += &format!("(let (if (and {} {}) 1 2) ", pair[0], pair[1]);
    }
    for atom in &atoms[8..] {
        script += &format!("(let (if {atom} 1 2) ");
    }
    script + "3" + &")".repeat(7)
}

/// A cell counted up; one read again and again after many wrong writes and a right one; and one read
/// past the writes of many new cells.
fn many_reads() -> Vec<Input> {
    let bound = |value: &str, count: usize, rest: &str| {
        format!("(let {value} ").repeat(count) + rest + &")".repeat(count)
    };
    let reads = "(add (get v0) ".repeat(18) + "1" + &")".repeat(18);
    let mended = format!("(let (set v0 1) {reads})");
    [
        counter(17),
        bound("(set v0 true)", 15, &mended),
        format!("(let (set v0 1) {})", bound("(ref 2)", 20, &reads)),
    ]
    .map(|script| check("ri", &format!("(sym {script})"), 1))
    .into()
}

/// Binds so many forks on truth entries around `body`.
fn forks(count: usize, body: &str) -> String {
    let mut script = String::new();
    for entry in 0..count {
        script += &format!("(let (if v{entry} 1 2) ");
    }
    script + body + &")".repeat(count)
}

/// Four blocks, each in a typed block of the one around it; paths multiply.
fn nested(counts: [usize; 4]) -> Input {
    let mut script = "3".to_string();
    for (depth, &count) in counts.iter().rev().enumerate() {
        let block = format!("(sym {})", forks(count, &script));
        script = if depth < 3 {
            format!("(typed {block})")
        } else {
            block
        };
    }
    check(
        "b b b b",
        &script,
        counts.iter().map(|count| 1 << count).product(),
    )
}

fn nested_two(counts: [usize; 2]) -> Input {
    let inner = format!("(typed (sym {}))", forks(counts[1], "3"));
    let script = format!("(sym {})", forks(counts[0], &inner));
    check("b b b b b b", &script, 1 << (counts[0] + counts[1]))
}

/// A balanced tree of sums with so many leaves.
fn sums(leaves: usize) -> String {
    if leaves == 1 {
        return "v0".to_string();
    }
    format!("(add {} {})", sums(leaves / 2), sums(leaves - leaves / 2))
}

fn nots(count: usize) -> String {
    "(not ".repeat(count) + "true" + &")".repeat(count)
}

fn lets(count: usize) -> String {
    let lets: String = (0..count).map(|k| format!("(let v{k} ")).collect();
    lets + &format!("v{count}") + &")".repeat(count)
}

/// A cell, so many times counted up.
fn counter(times: usize) -> String {
    "(let (set v0 (add (get v0) 1)) ".repeat(times) + "(get v0)" + &")".repeat(times)
}

fn plain_checks() -> Vec<Input> {
    vec![
        check("i", &format!("(typed {})", sums(64)), 0),
        check("", &nots(127), 0),
        check("i", &format!("(typed {})", lets(63)), 0),
        check("ri", &counter(18), 0),
    ]
}

/// Scripts of 128 nodes with so many nested `sym`: four are allowed. A fifth is the last that
/// reading looks for, so with five a check ends with 13 after all of reading.
pub fn largest(syms: usize) -> Vec<Input> {
    let deep = |script: String| {
        let not = 5 - syms;
        "(not ".repeat(not) + &"(sym ".repeat(syms) + &script + &")".repeat(5)
    };
    let deepest = vec!["r".repeat(15) + "b"; 16].join(" ");
    let words = "(add 4294967295 ".repeat(61) + "4294967295" + &")".repeat(61);
    vec![
        check("i", &deep(format!("(not (not {}))", sums(61))), 0),
        check("", &deep(nots(122)), 0),
        check(
            "b b b b b b",
            &deep(format!("(ref (ref {}))", forks(24, "3"))),
            0,
        ),
        check(&deepest, &deep(words), 0),
    ]
}

fn run(entries: &str, expression: &str, values: &[[u8; 5]], used: &[[u8; 5]]) -> Input {
    let saved = lend(&used.concat(), LENT);
    Input {
        call: Call::Run(Host {
            values: values.concat(),
            cells: saved.clone(),
            saved,
            used: used.len() as u32,
        }),
        ..check(entries, expression, 0)
    }
}

fn short_runs() -> Vec<Input> {
    vec![
        run("", "(add 4294967295 1)", &[], &[]),
        run(
            "b i",
            "(if v0 (add v1 1) (add v1 2))",
            &[truth(0), word(7)],
            &[],
        ),
        run(
            "ri",
            "(set v0 (add (get v0) 1))",
            &[location(0)],
            &[word(5)],
        ),
        run(
            "i i",
            "(let (ref v0) (let (set v2 v1) (get v2)))",
            &[word(1), word(2)],
            &[word(3)],
        ),
    ]
}

fn long_runs() -> Vec<Input> {
    let cells = [word(1); 64];
    let at = [location(63)];
    vec![
        run("i", &format!("(typed {})", sums(64)), &[word(3)], &cells),
        run("ri", &counter(18), &at, &cells),
        run(
            "",
            &("(ref ".repeat(127) + "true" + &")".repeat(127)),
            &[],
            &cells,
        ),
        run("i", &format!("(typed {})", lets(63)), &[word(3)], &cells),
        run("", &nots(127), &[], &cells),
    ]
}
