//! The cases of request U2: a scratch cell holds a value of another type for a while.
//!
//! A block is written as its steps in turn, each in prefix form. Every step but the last is bound
//! by a `let`, so after two entries the first step's value is `v2`. A `*` marks the node that
//! refuses.

mod short_form;

use reference::{run_text, Outcome};
use short_form::{cells, decided, says, says_bytes, text};

/// The nodes of a block in the short form.
#[derive(Default)]
struct Block {
    nodes: Vec<String>,
    marked: Option<usize>,
}

impl Block {
    /// The steps in turn, without the `sym` over them.
    fn of(steps: &str) -> Block {
        let mut block = Block::default();
        let plain = steps.replace(['(', ')'], "");
        let mut roots: Vec<usize> = plain
            .split("; ")
            .map(|step| block.add(&mut step.split(' ')))
            .collect();
        let mut body = roots.pop().expect("a last step");
        for root in roots.into_iter().rev() {
            block.nodes.push(format!("let {root} {body}"));
            body = block.nodes.len() - 1;
        }
        block
    }

    /// Adds the nodes of an expression, operands first, and gives the number of its own.
    fn add<'a>(&mut self, words: &mut impl Iterator<Item = &'a str>) -> usize {
        let word = words.next().expect("an operand");
        let name = word.trim_end_matches('*');
        let operands = match name {
            "if" => 3,
            "add" | "eq" | "and" | "let" | "set" => 2,
            "not" | "ref" | "get" | "typed" | "sym" => 1,
            _ => 0,
        };
        let mut line = match name.strip_prefix('v') {
            Some(number) => format!("var {number}"),
            None if name.parse::<u32>().is_ok() => format!("int {name}"),
            None => name.to_string(),
        };
        for _ in 0..operands {
            line += &format!(" {}", self.add(words));
        }
        self.nodes.push(line);
        let number = self.nodes.len() - 1;
        if name != word {
            self.marked = Some(number);
        }
        number
    }
}

/// Entry lines of types that are parted by spaces.
fn entry_lines(types: &str) -> String {
    let names = types.split_whitespace();
    names.map(|name| format!("entry {name}; ")).collect()
}

/// The whole script: the entries, the steps and a `sym` over them.
fn script(types: &str, steps: &str) -> String {
    let nodes = Block::of(steps).nodes;
    let body = nodes.len() - 1;
    format!("{}{}; sym {body}", entry_lines(types), nodes.join("; "))
}

/// Checks what is said of each script: a type, or a refusal at the marked node, else at the `sym`.
fn all_say(cases: &[(&str, &str, &str)]) {
    for (types, steps, answer) in cases {
        let block = Block::of(steps);
        let place = block.marked.unwrap_or(block.nodes.len());
        let answer = match answer.parse::<u8>() {
            Ok(number) => format!("{number} at {place}"),
            Err(_) => answer.to_string(),
        };
        assert_eq!(says(&script(types, steps)), answer, "{types}: {steps}");
    }
}

/// Checks of each last step whether it is known to be true, known to be false, or open.
fn all_decided(cases: &[(&str, &str, Option<bool>)]) {
    for (types, steps, answer) in cases {
        let condition = Block::of(steps).nodes.join("; ");
        assert_eq!(
            decided(&entry_lines(types), &condition),
            *answer,
            "{types}: {steps}"
        );
    }
}

#[test]
fn steps_are_bound_in_turn() {
    let short = "entry ri; var 0; true; set 0 1; var 0; get 3; var 0; int 7; set 5 6; let 4 7; \
                 let 2 8; sym 9";
    assert_eq!(script("ri", "set v0 true; get v0; set v0 7"), short);
    assert_eq!(says(short), "i");
    let marked = Block::of("set v0 true; get (get* v1)").marked;
    assert_eq!(marked, Some(4));
}

#[test]
fn a_flag_is_looked_at_and_the_word_put_back() {
    all_say(&[
        // An entry's cell, a new cell, and a word in a cell of truths.
        ("ri", "set v0 true; get v0; set v0 7", "i"),
        ("", "ref 1; set v0 true; get v0; set v0 2", "i"),
        ("rb", "set v0 5; get v0; set v0 true", "b"),
        // The word that was there comes back.
        ("ri", "get v0; set v0 true; get v0; set v0 v1", "i"),
        // The look alone, another flag, the same flag and a word elsewhere bring no word back.
        ("ri", "set v0 true; get v0", "9"),
        ("ri", "set v0 true; get v0; set v0 false", "9"),
        ("ri", "set v0 true; set v0 (get v0)", "9"),
        ("ri ri", "set v0 true; get v0; set v1 7", "9"),
        // A flag may go on to a cell of truths; in another cell of words it is a wrong write again.
        ("ri rb", "set v0 true; set v1 (get v0); set v0 7", "i"),
        ("ri ri", "set v0 true; set v1 (get v0); set v0 7", "9"),
    ]);
    // One block puts the flag in, the next one would put the word back.
    let two_blocks = "entry ri; var 0; true; set 0 1; sym 2; var 0; int 7; set 4 5; sym 6; let 3 7";
    assert_eq!(says(two_blocks), "9 at 3");
    // Typed mode is as it was.
    let without = script("ri", "set v0 true; get v0; set v0 7").replace("; sym 9", "");
    assert_eq!(says(&without), "6 at 2");
}

#[test]
#[rustfmt::skip]
fn a_look_that_finds_none_needs_a_consistent_log() {
    all_say(&[
        // Through another entry, and for the operand of another `get`.
        ("ri ri", "set v0 true; get* v1; set v0 7", "9"),
        ("ri rri", "set v0 true; get (get* v1); set v0 7", "9"),
        // A write that may be to the same cell is the next one.
        ("ri ri", "set v0 true; set v1 5; get* v0", "9"),
        ("ri ri", "set v0 1; set v1 true; get* v0", "9"),
        // So may one through a reference of another type.
        ("rri ri", "set v0 v1; set v1 true; get* v0", "9"),
        // What a `get` or a typed block made is a symbol too, and none but itself.
        ("rri", "get v0; set v1 true; get v1; set v1 7", "i"),
        ("rri", "get v0; get v0; set v1 true; get* v2", "9"),
        ("ri", "typed v0; set v1 true; get v1; set v1 7", "i"),
        ("ri", "typed v0; set v1 true; get* v0", "9"),
        // It may be the new cell.
        ("rri", "get v0; ref 5; set v2 true; set v1 6; get* v2", "9"),
        // With a consistent log the answer is a fresh symbol of the cell's type.
        ("ri ri", "set v0 true; set v0 1; set v1 2; not* (get v0)", "6"),
        ("ri ri", "set v0 true; set v0 1; set v1 2; add (get v0) 1", "i"),
        // 6 comes before 9.
        ("ri i", "set v0 true; get* v1", "6"),
    ]);
}

#[test]
#[rustfmt::skip]
fn certainly_different_cells_are_passed_over() {
    all_say(&[
        // The flag goes in before the other cell's write, or after it.
        ("ri", "ref 1; set v0 true; set v1 2; if (get v0) 3 v99; set v0 7", "i"),
        ("ri", "ref 1; set v1 2; set v0 true; if (get v0) 3 v99; set v0 7", "i"),
        ("ri", "set v0 true; ref 1; if (get v0) 3 v99; set v0 7", "i"),
        ("", "ref 1; ref 2; set v0 true; set v1 5; if (get v0) 3 v99; set v0 7", "i"),
        // Both cells hold flags, and both must get a word.
        (
            "ri",
            "ref 1; set v0 true; set v1 false; if (get v1) v99 (get v0); set v1 1; set v0 7",
            "i",
        ),
        ("ri", "ref 1; set v0 true; set v1 false; if (get v1) v99 (get v0); set v0 7", "9"),
        ("ri", "ref 1; set v0 true; set v1 false; if (get v1) v99 (get v0); set v1 1", "9"),
        // Where all writes are passed over, none is found.
        ("ri", "ref 1; set v1 true; get* v0; set v1 2", "9"),
        ("ri", "ref 1; set v1 true; get v1; set v1 2; get v0", "i"),
        // Behind the new cell's write is one that may be to the same cell.
        ("ri ri", "set v0 true; set v1 5; ref 1; get* v0", "9"),
        // A right value is found while another cell holds a flag; its word is due later.
        ("ri ri", "set v1 true; set v0 5; get v0; set v1 7", "i"),
        ("ri ri", "set v1 true; set v0 5; get v0", "9"),
        ("ri ri", "set v1 true; set v0 5; get v0; get* v1", "9"),
        ("ri", "ref 1; set v0 true; get v1; set v0 7", "i"),
        ("ri", "ref 1; set v0 true; get v1", "9"),
        ("ri", "ref 1; set v0 true; get v1; typed* 2", "9"),
    ]);
}

#[test]
#[rustfmt::skip]
fn what_is_found_is_known() {
    all_decided(&[
        ("ri", "set v0 true; get v0; set v0 7; v2", Some(true)),
        ("ri", "set v0 false; get v0; set v0 7; v2", Some(false)),
        ("rb", "set v0 5; eq (add (get v0) 1) 6; set v0 true; v2", Some(true)),
        // The very symbols of an open truth and of an open word.
        ("ri b", "set v0 v1; get v0; set v0 7; v3", None),
        ("ri b", "set v0 (not v1); and (get v0) v1; set v0 7; v3", Some(false)),
        ("rb i", "set v0 v1; eq (get v0) v1; set v0 true; v3", Some(true)),
        // The newest of two wrong writes, and a right one after a wrong one.
        ("ri", "set v0 true; set v0 false; get v0; set v0 7; v3", Some(false)),
        ("ri", "set v0 true; set v0 1; eq (get v0) 1", Some(true)),
        // Nothing is found behind a write that may be to the same cell.
        ("ri ri", "set v0 true; set v0 1; set v1 2; eq (get v0) 1", None),
        ("ri ri", "set v0 1; set v1 true; set v1 2; eq (get v0) 1", None),
        // Right values are found while other cells hold flags.
        ("ri ri", "set v1 true; set v0 5; eq (get v0) 5; set v1 7; v4", Some(true)),
        ("ri", "ref 1; set v0 5; set v1 true; eq (get v0) 5; set v1 2; v4", Some(true)),
        (
            "ri ri",
            "ref 5; set v0 true; set v1 false; eq (get v2) 5; set v0 1; set v1 2; v5",
            Some(true),
        ),
        // References: the same symbol, what it refers to, and what is written through it.
        ("ri", "ref 5; set v0 v1; eq (get v0) v1; set v0 7; v3", Some(true)),
        ("ri", "set v0 v0; eq (get v0) v0; set v0 7; v2", Some(true)),
        ("ri", "ref 5; set v0 v1; eq (get (get v0)) 5; set v0 7; v3", Some(true)),
        ("ri", "ref 5; set v0 v1; set (get v0) 6; eq (get v1) 6; set v0 7; v4", Some(true)),
    ]);
}

#[test]
#[rustfmt::skip]
fn what_is_found_has_its_own_type() {
    all_say(&[
        ("ri", "set v0 true; get v0; set v0 7; v2", "b"),
        ("ri", "set v0 true; and (get v0) (not (get v0)); set v0 7; v2", "b"),
        ("ri", "set v0 true; ref (get v0); set v0 7; v2", "rb"),
        ("ri b", "set v0 v1; if (get v0) 1 2; set v0 7", "i"),
        ("rb", "set v0 5; add (get v0) 1; set v0 true; v2", "i"),
        // 6 comes before the 9 of the path's end.
        ("ri", "set v0 true; add* (get v0) 1", "6"),
        ("ri", "set v0 7; set v0 true; add* (get v0) 1", "6"),
        ("ri", "set v0 true; eq* (get v0) 1", "6"),
        ("ri", "set v0 true; get* (get v0)", "6"),
        ("ri", "set v0 true; set* (get v0) 7", "6"),
        ("rri", "set v0 5; get* (get v0)", "6"),
        ("rb", "set v0 5; not* (get v0)", "6"),
        ("rb", "set v0 5; if* (get v0) 1 v99", "6"),
        // A reference with 15 `r` comes from a cell of words.
        ("ri rrrrrrrrrrrrrrri", "set v0 v1; ref* (get v0)", "8"),
        // The newest of two wrong writes has another type than the one before.
        ("ri", "set v0 v0; set v0 true; get* (get v0)", "6"),
        ("ri", "set v0 true; set v0 v0; get (get v0); set v0 7", "i"),
    ]);
}

#[test]
#[rustfmt::skip]
fn references_in_cells_of_other_types() {
    all_say(&[
        // A new cell's reference in a cell of words.
        ("ri", "ref 5; set v0 v1; get (get v0); set v0 7", "i"),
        ("ri", "ref 5; set v0 v1; set (get v0) 6; set v0 7", "i"),
        // A flag is put in through it.
        (
            "ri",
            "ref 5; set v0 v1; set (get v0) true; if (get (get v0)) 1 v99; set (get v0) 6; \
             set v0 7",
            "i",
        ),
        ("ri", "ref 5; set v0 v1; set (get v0) true; get (get v0); set v0 7", "9"),
        // An entry's reference: it is found, what it refers to is not.
        ("ri ri", "set v0 v1; set (get v0) 5; set v0 7", "i"),
        ("ri ri", "set v0 v1; get* (get v0); set v0 7", "9"),
        ("rri rb", "set v0 v1; get* (get v0)", "9"),
        // A truth's cell in a cell for references to words.
        ("rri", "ref true; set v0 v1; if (get (get v0)) 1 v99; set v0 (ref 5)", "ri"),
        ("rri", "ref true; set v0 v1; add* (get (get v0)) 1", "6"),
        // A cell that holds its own reference; the word may go back through what is read.
        ("ri", "set v0 v0; get (get (get v0)); set v0 7; v2", "ri"),
        ("ri", "set v0 v0; set (get v0) 7", "i"),
        ("ri", "set v0 v0; get v0", "9"),
    ]);
}

#[test]
#[rustfmt::skip]
fn looks_and_blocks() {
    all_say(&[
        // A typed block needs a consistent log, also after a look.
        ("ri", "set v0 true; get v0; typed* 1", "9"),
        ("ri", "set v0 true; typed* (get v0)", "9"),
        ("ri", "set v0 true; typed* (sym (get v0))", "9"),
        // In it a `get` has the cell's type, a variable its value's.
        ("ri", "set v0 true; typed (not* (get v0))", "6"),
        ("ri", "set v0 true; get v0; set v0 7; typed (not v2)", "b"),
        ("ri", "set v0 true; get v0; set v0 7; typed (add* v2 1)", "6"),
        // After it the log is empty.
        ("ri", "set v0 true; set v0 7; typed 1; not* (get v0)", "6"),
        ("ri", "typed 0; set v0 true; get v0; set v0 7", "i"),
        // A `sym` in it begins a path of its own, one on the path is its operand.
        ("ri", "typed (sym (let (set v0 true) (let (get v0) (set v0 7))))", "i"),
        ("ri", "typed (sym* (let (set v0 true) (get v0)))", "9"),
        ("ri", "set v0 true; sym (get v0); set v0 7", "i"),
        ("ri", "sym (set v0 true); get v0; set v0 7", "i"),
    ]);
}

#[test]
#[rustfmt::skip]
fn looks_on_branches() {
    all_say(&[
        // A look on one branch only.
        ("ri b", "set v0 true; if v1 (get v0) false; set v0 7", "i"),
        ("ri ri b", "set v0 true; if v2 (get v0) (get* v1); set v0 7", "9"),
        ("ri ri b", "set v0 true; if v2 (get* v1) (get v0); set v0 7", "9"),
        // A word back on both branches, or on one.
        ("ri b", "set v0 v1; if (get v0) (set v0 7) (set v0 8)", "i"),
        ("ri b", "set v0 v1; if (get v0) (set v0 7) 8", "9"),
        ("ri b", "set v0 true; if v1 (let (get v0) (set v0 7)) (get v0)", "9"),
        // A flag on one branch only: each path goes by its own log.
        ("ri b", "if v1 (set v0 true) (set v0 5); get v0; set v0 7; v3", "10"),
        ("ri b", "if v1 (set v0 true) 5; add* (get v0) 1", "6"),
        ("ri b", "if v1 5 (set v0 true); add* (get v0) 1", "6"),
        // The flag that is read is the entry's own truth.
        ("ri b", "set v0 v1; if v1 (if (get v0) 1 v99) 2; set v0 7", "i"),
    ]);
}

/// A word, a truth or a location as 5 bytes.
fn bytes(kind: u8, bits: u8) -> [u8; 5] {
    [kind, bits, 0, 0, 0]
}

#[test]
fn runs_leave_cells_of_their_types() {
    let word = |bits| bytes(0, bits);
    let truth = |bits| bytes(1, bits);
    let location = |bits| bytes(2, bits);
    // What the checker says, and the value and the used cells of a run.
    let ends = |types, steps, values: &[[u8; 5]], before: &[[u8; 5]]| {
        let text = text(&script(types, steps));
        let mut lent = cells(before);
        let outcome = run_text(&text, &values.concat(), &mut lent, before.len() as u32);
        let Ok(Outcome::Value { kind, bits, used }) = outcome else {
            panic!("{outcome:?} of {types}: {steps}");
        };
        lent.truncate(used as usize * 5);
        (says_bytes(&text), bytes(kind, bits as u8), lent)
    };
    let end = |answer: &str, value, after: &[[u8; 5]]| (answer.to_string(), value, after.concat());
    // The flag decides, and the word that was there is back.
    let steps = "get v0; set v0 true; if (get v0) 1 2; set v0 v1; v3";
    assert_eq!(
        ends("ri", steps, &[location(0)], &[word(9)]),
        end("i", word(1), &[word(9)])
    );
    // The flag itself is the value.
    let steps = "set v0 true; get v0; set v0 7; v2";
    assert_eq!(
        ends("ri", steps, &[location(0)], &[word(9)]),
        end("b", truth(1), &[word(7)])
    );
    // A word in a cell of truths.
    let steps = "set v0 4294967295; add (get v0) 2; set v0 false; v2";
    assert_eq!(
        ends("rb", steps, &[location(0)], &[truth(1)]),
        end("i", word(1), &[truth(0)])
    );
    // Each flag brings its own word.
    let steps = "set v0 v1; if (get v0) (set v0 7) (set v0 8)";
    for (flag, left) in [(1, 7), (0, 8)] {
        assert_eq!(
            ends("ri b", steps, &[location(0), truth(flag)], &[word(9)]),
            end("i", word(left), &[word(left)])
        );
    }
    // A new cell is written through a cell of words.
    let steps = "ref 5; set v0 v1; set (get v0) 6; set v0 7; get v1";
    assert_eq!(
        ends("ri", steps, &[location(0)], &[word(9)]),
        end("i", word(6), &[word(7), word(6)])
    );
    // A cell that holds its own reference.
    let steps = "set v0 v0; set (get v0) 7";
    assert_eq!(
        ends("ri", steps, &[location(0)], &[word(9)]),
        end("i", word(7), &[word(7)])
    );
    // Two entries name one cell, or two.
    let steps = "set v1 true; set v0 5; get v0; set v1 7; get v0";
    assert_eq!(
        ends("ri ri", steps, &[location(0); 2], &[word(9)]),
        end("i", word(7), &[word(7)])
    );
    assert_eq!(
        ends("ri ri", steps, &[location(0), location(1)], &[word(9); 2]),
        end("i", word(5), &[word(5), word(7)])
    );
    // A run does not need acceptance: here the flag stays.
    let steps = "set v0 true; get v0";
    assert_eq!(
        ends("ri", steps, &[location(0)], &[word(9)]),
        end("9 at 6", truth(1), &[truth(1)])
    );
}
