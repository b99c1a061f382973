//! Fixed scripts for new cells beside old ones: a cell that `ref` made on a path is none that a
//! variable stood for when the path began. What `get` or a typed block gave may be any cell.

use conformance::fixed::{gives, location, word, Trial};

#[test]
#[rustfmt::skip] // one case a line
fn reads_of_new_cells() {
    let mut trial = Trial::new();
    trial.expressions(&[
        ("made, stored, an entry stored, read", "ri", "(sym (let (ref 1) (let (set v1 5) (let (set v0 6) (if (eq (get v1) 5) 1 true)))))", "i"),
        ("what it was made with", "ri", "(sym (let (ref 5) (let (set v0 6) (if (eq (get v1) 5) 1 true))))", "i"),
        ("what was stored last", "ri", "(sym (let (ref 5) (let (set v1 6) (let (set v0 7) (if (eq (get v1) 5) true 1)))))", "i"),
        ("a truth", "rb", "(sym (let (ref true) (let (set v0 false) (if (get v1) 1 (add true 1)))))", "i"),
        ("a truth, turned", "rb", "(sym (let (ref false) (let (set v0 true) (if (get v1) v9 2))))", "i"),
        ("an entry of another type", "rb", "(sym (let (ref 5) (let (set v0 true) (if (eq (get v1) 5) 1 true))))", "i"),
        ("an entry of another depth", "rri ri", "(sym (let (ref 5) (let (set v0 v1) (if (eq (get v2) 5) 1 true))))", "i"),
        ("two entries", "ri ri", "(sym (let (ref 5) (let (set v0 6) (let (set v1 7) (if (eq (get v2) 5) 1 true)))))", "i"),
        ("entries and another new cell", "ri", "(sym (let (ref 5) (let (ref 6) (let (set v0 7) (let (set v2 8) (let (set v0 9) (if (eq (get v1) 5) 1 true)))))))", "i"),
        ("on each side of a fork", "b ri", "(sym (let (if v0 (ref 5) (ref 5)) (let (set v1 6) (if (eq (get v2) 5) 1 true))))", "i"),
        ("a reference in it", "ri ri", "(sym (let (ref v0) (let (set v1 7) (if (eq (get v2) v0) 1 true))))", "i"),
        ("stored through an entry", "rri", "(sym (let (set v0 (ref 5)) (if (eq (get (get v0)) 5) 1 true)))", "i"),
        ("an entry out of a new cell", "ri", "(sym (let (ref v0) (let (ref 5) (let (set (get v1) 6) (if (eq (get v2) 5) 1 true)))))", "i"),
        ("a wrong write through an entry, mended", "ri", "(sym (let (ref 5) (let (set v0 true) (let (set v0 6) (if (eq (get v1) 5) 1 true)))))", "i"),
        ("a wrong write through an entry, not yet mended", "ri", "(sym (let (ref 5) (let (set v0 true) (let (get v1) (set v0 6)))))", "i"),
        ("a wrong write through an entry, not yet mended, another entry read", "ri ri", "(sym (let (ref 5) (let (set v0 true) (let (!get v1) (set v0 6)))))", "9"),
        ("a wrong write through an entry, not mended by a new cell", "ri", "(!sym (let (ref 5) (let (set v0 true) (set v1 6))))", "9"),
        ("what get made", "rri", "(!sym (let (ref 5) (let (get v0) (let (set v2 6) (if (eq (get v1) 5) 1 true)))))", "10"),
        ("what get made earlier", "rri", "(!sym (let (get v0) (let (ref 5) (let (set v1 6) (if (eq (get v2) 5) 1 true)))))", "10"),
        ("what get made, then an entry", "ri rri", "(!sym (let (ref 5) (let (get v1) (let (set v3 6) (let (set v0 7) (if (eq (get v2) 5) 1 true))))))", "10"),
        ("a typed block's value", "ri", "(!sym (let (typed v0) (let (ref 5) (let (set v1 6) (if (eq (get v2) 5) 1 true)))))", "10"),
        ("a typed block's new cell", "", "(!sym (let (typed (ref 1)) (let (ref 5) (let (set v0 6) (if (eq (get v1) 5) 1 true)))))", "10"),
        ("a typed block's value, the same cell", "", "(!sym (let (ref 1) (let (typed v0) (let (set v0 5) (let (set v1 6) (if (eq (get v0) 5) 1 true))))))", "10"),
    ]);
    trial.end("reads of new cells");
}

#[test]
#[rustfmt::skip] // one case a line
fn reads_of_variables() {
    let mut trial = Trial::new();
    trial.expressions(&[
        ("a cell is made", "ri", "(sym (let (set v0 5) (let (ref 6) (if (eq (get v0) 5) 1 true))))", "i"),
        ("a new cell is stored", "ri", "(sym (let (ref 6) (let (set v0 5) (let (set v1 7) (if (eq (get v0) 5) 1 true)))))", "i"),
        ("a new cell of another type", "ri", "(sym (let (set v0 5) (let (ref true) (if (eq (get v0) 5) 1 true))))", "i"),
        ("a truth", "rb", "(sym (let (set v0 true) (let (ref false) (if (get v0) 1 (not 1)))))", "i"),
        ("both are known", "ri", "(sym (let (ref 1) (let (set v0 5) (let (set v1 6) (if (eq (get v0) 5) (if (eq (get v1) 6) 1 true) true)))))", "i"),
        ("nothing was stored", "ri", "(!sym (let (ref 5) (if (eq (get v0) 5) 1 true)))", "10"),
        ("nothing was stored, read twice", "ri", "(!sym (let (ref 5) (if (eq (get v0) (get v0)) 1 true)))", "10"),
        ("a wrong write to a new cell, mended", "ri", "(sym (let (ref 6) (let (set v0 5) (let (set v1 true) (let (set v1 7) (if (eq (get v0) 5) 1 true))))))", "i"),
        ("a wrong write to a new cell, not yet mended", "ri", "(sym (let (ref 6) (let (set v1 true) (let (!get v0) (set v1 7)))))", "9"),
        ("another entry", "ri ri", "(!sym (let (set v0 5) (let (set v1 6) (if (eq (get v0) 5) 1 true))))", "10"),
        ("another entry of another type", "ri rb", "(!sym (let (set v0 5) (let (set v1 true) (if (eq (get v0) 5) 1 true))))", "10"),
        ("another entry after a new cell", "ri ri", "(!sym (let (set v0 5) (let (ref 6) (let (set v1 7) (if (eq (get v0) 5) 1 true)))))", "10"),
        ("what get made", "ri rri", "(!sym (let (get v1) (let (set v0 5) (let (set v2 6) (if (eq (get v0) 5) 1 true)))))", "10"),
        ("a typed block's value", "ri", "(!sym (let (typed v0) (let (set v0 5) (let (set v1 6) (if (eq (get v0) 5) 1 true)))))", "10"),
        ("what get made is read past a new cell", "rri", "(!sym (let (get v0) (let (set v1 5) (let (ref 6) (if (eq (get v1) 5) 1 true)))))", "10"),
        ("what get made is read past an entry", "ri rri", "(!sym (let (get v1) (let (set v2 5) (let (set v0 6) (if (eq (get v2) 5) 1 true)))))", "10"),
        ("a typed block's value is read past a new cell", "ri", "(!sym (let (typed v0) (let (set v1 5) (let (ref 6) (if (eq (get v1) 5) 1 true)))))", "10"),
    ]);
    trial.end("reads of variables");
}

#[test]
#[rustfmt::skip] // one case a line
fn equalities() {
    let mut trial = Trial::new();
    trial.expressions(&[
        ("a new cell and an entry", "ri", "(sym (if (eq (ref 1) v0) true 1))", "i"),
        ("an entry and a new cell", "ri", "(sym (if (eq v0 (ref 1)) true 1))", "i"),
        ("an outer let's variable", "", "(let (ref 1) (sym (if (eq v0 (ref 1)) true 1)))", "i"),
        ("an inner let of an entry", "ri", "(sym (let v0 (let (ref 1) (if (eq v1 v2) true 1))))", "i"),
        ("false, not just no atom", "ri", "(sym (if (not (eq v0 (ref 1))) 1 true))", "i"),
        ("what get made", "rri", "(!sym (if (eq (get v0) (ref 1)) true 1))", "10"),
        ("an inner let of what get made", "rri", "(!sym (let (get v0) (let (ref 1) (if (eq v1 v2) true 1))))", "10"),
        ("a new cell that get gave back", "rri", "(sym (let (ref 1) (let (set v0 v1) (if (eq (get v0) v1) 1 true))))", "i"),
        ("a new cell that get may have found", "rri", "(!sym (let (ref 1) (let (set v0 v1) (let (typed 1) (if (eq (get v0) v1) true 1)))))", "10"),
        ("a typed block's value", "ri", "(!sym (if (eq (typed v0) (ref 1)) true 1))", "10"),
        ("a typed block's value of a new cell", "", "(!sym (let (ref 1) (if (eq (typed v0) v0) true 1)))", "10"),
        ("two entries", "ri ri", "(!sym (if (eq v0 v1) true 1))", "10"),
        ("an entry and what get made", "ri rri", "(!sym (if (eq v0 (get v1)) true 1))", "10"),
        ("an entry and a typed block's value", "ri", "(!sym (if (eq v0 (typed v0)) true 1))", "10"),
        ("other types", "rb", "(sym (!eq v0 (ref 1)))", "6"),
    ]);
    trial.end("equalities of new cells and others");
}

/// A block that makes a cell, stores through this variable, and reads the cell, which is `next`.
fn kept(variable: &str, next: &str) -> String {
    format!("(let (ref 5) (let (set {variable} 6) (if (eq (get {next}) 5) 1 true)))")
}

#[test]
#[rustfmt::skip] // one case a line
fn variables_when_a_path_begins() {
    let mut trial = Trial::new();
    let rows = [
        ("an outer let's new cell", "", format!("(let (ref 1) (sym {}))", kept("v0", "v1")), "i"),
        ("an outer let's entry", "ri", format!("(let v0 (sym {}))", kept("v1", "v2")), "i"),
        ("what an outer let read", "rri", format!("(let (get v0) (sym {}))", kept("v1", "v2")), "i"),
        ("another block's value", "", format!("(let (sym (ref 1)) (sym {}))", kept("v0", "v1")), "i"),
        ("the second of two outer lets", "", format!("(let 1 (let (ref 1) (sym {})))", kept("v1", "v2")), "i"),
        ("an inner let of an entry", "ri", format!("(sym (let v0 {}))", kept("v1", "v2")), "i"),
        ("an inner let of one of two entries", "b ri ri", format!("(sym (let (if v0 v1 v2) {}))", kept("v3", "v4")), "i"),
        ("an inner let of what get made", "rri", format!("(!sym (let (get v0) {}))", kept("v1", "v2")), "10"),
        ("an inner let of an entry or of what get made", "b ri rri", format!("(!sym (let (if v0 v1 (get v2)) {}))", kept("v3", "v4")), "10"),
        ("an inner let of an inner let of what get made", "rri", format!("(!sym (let (get v0) (let v1 {})))", kept("v2", "v3")), "10"),
        ("sym in sym begins no path", "rri", format!("(!sym (let (get v0) (sym {})))", kept("v1", "v2")), "10"),
        ("sym in sym ends none", "ri", format!("(sym (let 1 (sym {})))", kept("v0", "v2")), "i"),
        ("an inner block's entry", "ri", format!("(sym (typed (sym {})))", kept("v0", "v1")), "i"),
        ("a new cell of the path around", "", format!("(sym (let (ref 1) (typed (sym {}))))", kept("v0", "v1")), "i"),
        ("what get made on the path around", "rri", format!("(sym (let (get v0) (typed (sym {}))))", kept("v1", "v2")), "i"),
        ("a typed block's value on the path around", "ri", format!("(sym (let (typed v0) (typed (sym {}))))", kept("v1", "v2")), "i"),
        ("a let in the typed block", "", format!("(sym (typed (let (ref 1) (sym {}))))", kept("v0", "v1")), "i"),
    ];
    for (name, entries, expression, answer) in &rows {
        trial.expressions(&[(name, entries, expression, answer)]);
    }
    trial.expressions(&[
        ("two new cells of the path around", "", "(sym (let (ref 1) (let (ref 2) (typed (!sym (if (eq v0 v1) true 1))))))", "10"),
        ("writes to new cells of the path around", "", "(sym (let (ref 1) (let (ref 2) (typed (!sym (let (set v0 5) (let (set v1 6) (if (eq (get v0) 5) 1 true))))))))", "10"),
        ("an entry and a new cell of the path around", "ri", "(sym (let (ref 1) (typed (!sym (if (eq v0 v1) true 1)))))", "10"),
    ]);
    trial.end("variables when a path begins");
}

#[test]
#[rustfmt::skip] // one case a line
fn after_typed_blocks() {
    let mut trial = Trial::new();
    trial.expressions(&[
        ("a new cell and an entry are still two", "ri", "(sym (let (ref 1) (let (typed true) (if (eq v0 v1) true 1))))", "i"),
        ("also after an inner block", "ri", "(sym (let (ref 1) (let (typed (sym (ref v1))) (if (eq v0 v1) true 1))))", "i"),
        ("writes are still passed over", "ri", "(sym (let (ref 1) (let (typed true) (let (set v1 5) (let (set v0 6) (if (eq (get v1) 5) 1 true))))))", "i"),
        ("and the other way round", "ri", "(sym (let (ref 1) (let (typed true) (let (set v0 5) (let (set v1 6) (if (eq (get v0) 5) 1 true))))))", "i"),
        ("a cell that is made after it", "ri", "(sym (let (typed true) (let (ref 5) (let (set v0 6) (if (eq (get v2) 5) 1 true)))))", "i"),
        ("what was stored before it is lost", "ri", "(!sym (let (ref 5) (let (typed 1) (let (set v0 6) (if (eq (get v1) 5) 1 true)))))", "10"),
        ("an inner block's new cell and an entry", "ri", "(!sym (let (typed (sym (ref 5))) (if (eq v0 v1) true 1)))", "10"),
        ("an inner block's new cell and a new cell", "", "(!sym (let (typed (sym (ref 5))) (if (eq v0 (ref 1)) true 1)))", "10"),
    ]);
    trial.end("new cells after typed blocks");
}

#[test]
#[rustfmt::skip] // one case a line
fn runs() {
    let mut trial = Trial::new();
    let one = [location(0)];
    let same = [location(0), location(0)];
    let cells = [word(9)];
    trial.runs(&[
        (("a new cell keeps its value", "ri", "(sym (let (ref 1) (let (set v1 5) (let (set v0 6) (get v1)))))", "i"), &one, &cells, gives(word(5), &[word(6), word(5)])),
        (("an entry's cell keeps its value", "ri", "(sym (let (set v0 5) (let (ref 6) (get v0))))", "i"), &one, &cells, gives(word(5), &[word(5), word(6)])),
        (("two entries are one cell", "ri ri", "(sym (let (set v0 5) (let (ref 6) (let (set v1 7) (get v0)))))", "i"), &same, &cells, gives(word(7), &[word(7), word(6)])),
        (("a typed block's value is the new cell", "ri", "(sym (let (ref 1) (let (typed v1) (let (set v1 5) (let (set v2 6) (get v1))))))", "i"), &one, &cells, gives(word(6), &[word(9), word(6)])),
    ]);
    trial.end("runs with new cells");
}
