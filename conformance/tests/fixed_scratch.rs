//! Fixed scripts for scratch cells: `get` gives what was written through the same symbol, with its own
//! type, also while a cell holds something wrong. Where it finds nothing, that is 9 as before.

use conformance::fixed::{fails, gives, location, truth, word, Trial};

#[test]
#[rustfmt::skip] // one case a line
fn a_flag_in_and_the_word_back() {
    let mut trial = Trial::new();
    trial.expressions(&[
        ("flag in, look, word back", "ri", "(sym (let (set v0 true) (let (get v0) (set v0 7))))", "i"),
        ("an if on the flag", "ri", "(sym (let (set v0 true) (let (if (get v0) 1 2) (set v0 7))))", "i"),
        ("an if on an entry as flag", "ri b", "(sym (let (set v0 v1) (let (if (get v0) 1 2) (set v0 7))))", "i"),
        ("an if after the word is back", "ri b", "(sym (let (set v0 v1) (let (get v0) (let (set v0 7) (if v3 1 2)))))", "i"),
        ("the flag is not put back", "ri", "(!sym (let (set v0 true) (get v0)))", "9"),
        ("the flag is used and not put back", "ri", "(!sym (let (set v0 true) (if (get v0) 1 2)))", "9"),
        ("two looks", "ri", "(sym (let (set v0 true) (let (get v0) (let (get v0) (set v0 7)))))", "i"),
        ("a look at the word that is back", "ri", "(sym (let (set v0 true) (let (get v0) (let (set v0 7) (if (eq (get v0) 7) 1 true)))))", "i"),
        ("flag in again", "ri", "(sym (let (set v0 true) (let (get v0) (let (set v0 7) (let (set v0 false) (let (if (get v0) true 1) (set v0 8)))))))", "i"),
        ("flag in again, and not put back", "ri", "(!sym (let (set v0 true) (let (set v0 7) (let (set v0 false) (get v0)))))", "9"),
        ("the word that was there", "ri", "(sym (let (get v0) (let (set v0 true) (let (get v0) (set v0 v1)))))", "i"),
        ("inside one operand", "ri", "(sym (let (if (let (set v0 true) (get v0)) 1 2) (set v0 7)))", "i"),
        ("beside its own write", "ri", "(sym (let (eq (set v0 true) (get v0)) (set v0 7)))", "i"),
        ("a new cell", "", "(sym (let (ref 5) (let (set v0 true) (let (if (get v0) 1 2) (set v0 6)))))", "i"),
        ("a new cell, not put back", "", "(!sym (let (ref 5) (let (set v0 true) (if (get v0) 1 2))))", "9"),
        ("an outer let's cell", "", "(let (ref 5) (sym (let (set v0 true) (let (if (get v0) 1 2) (set v0 6)))))", "i"),
        ("not in typed mode", "ri", "(let (!set v0 true) (let (get v0) (set v0 7)))", "6"),
    ]);
    trial.end("a flag in and the word back");
}

#[test]
#[rustfmt::skip] // one case a line
fn through_other_symbols() {
    let mut trial = Trial::new();
    trial.expressions(&[
        ("another entry", "ri ri", "(sym (let (set v0 true) (let (!get v1) (set v0 7))))", "9"),
        ("another entry of the flag's type", "rb ri", "(sym (let (set v0 5) (let (!get v1) (set v0 true))))", "9"),
        ("a copy", "ri", "(sym (let v0 (let (set v0 true) (let (if (get v1) 1 2) (set v1 7)))))", "i"),
        ("in through a copy, read through the entry", "ri", "(sym (let v0 (let (set v1 true) (let (if (get v0) 1 2) (set v0 7)))))", "i"),
        ("an outer let's copy", "ri", "(let v0 (sym (let (set v0 true) (let (!get v1) (set v0 7)))))", "9"),
        ("what get gave", "rri", "(sym (let (get v0) (let (set v1 true) (let (if (get v1) 1 2) (set v1 7)))))", "i"),
        ("an entry, read through what get gave", "ri rri", "(sym (let (get v1) (let (set v0 true) (let (!get v2) (set v0 7)))))", "9"),
        ("what get gave, asked for again", "rri", "(sym (let (get v0) (let (set v1 true) (let (get (!get v0)) (set v1 7)))))", "9"),
        ("a typed block's value", "ri", "(sym (let (typed v0) (let (set v1 true) (let (if (get v1) 1 2) (set v1 7)))))", "i"),
        ("a typed block's value, read through the entry", "ri", "(sym (let (typed v0) (let (set v1 true) (let (!get v0) (set v1 7)))))", "9"),
        ("a reference out of a new cell", "ri", "(sym (let (ref v0) (let (set v0 true) (let (if (get (get v1)) 1 2) (set v0 7)))))", "i"),
        ("a new cell that nothing wrong is in", "ri", "(sym (let (ref 5) (let (set v0 true) (let (if (eq (get v1) 5) 1 true) (set v0 6)))))", "i"),
        ("an entry's cell that nothing was put in", "rb", "(sym (let (ref 6) (let (set v1 true) (let (!get v0) (set v1 7)))))", "9"),
        ("the word back through a copy", "ri", "(sym (let (set v0 true) (let (get v0) (let v0 (set v3 7)))))", "i"),
        ("the word back through another entry", "ri ri", "(!sym (let (set v0 true) (let (get v0) (set v1 7))))", "9"),
    ]);
    trial.end("looks through other symbols");
}

#[test]
#[rustfmt::skip] // one case a line
fn writes_between() {
    let mut trial = Trial::new();
    trial.expressions(&[
        ("two new cells", "", "(sym (let (ref 1) (let (ref 2) (let (set v0 true) (let (set v1 3) (let (if (get v0) 1 2) (set v0 4)))))))", "i"),
        ("a new cell, an entry between", "ri", "(sym (let (ref 1) (let (set v1 true) (let (set v0 3) (let (if (get v1) 1 2) (set v1 4))))))", "i"),
        ("an entry, a new cell between", "ri", "(sym (let (ref 1) (let (set v0 true) (let (set v1 3) (let (if (get v0) 1 2) (set v0 4))))))", "i"),
        ("an entry, a cell made between", "ri", "(sym (let (set v0 true) (let (ref 1) (let (if (get v0) 1 2) (set v0 4)))))", "i"),
        ("two entries", "ri ri", "(sym (let (set v0 true) (let (set v1 3) (let (!get v0) (set v0 4)))))", "9"),
        ("two entries of two types", "ri rb", "(sym (let (set v0 true) (let (set v1 false) (let (!get v0) (set v0 4)))))", "9"),
        ("an entry, what get gave between", "ri rri", "(sym (let (get v1) (let (set v0 true) (let (set v2 3) (let (!get v0) (set v0 4))))))", "9"),
        ("a new cell, what get gave between", "rri", "(sym (let (get v0) (let (ref 1) (let (set v2 true) (let (set v1 3) (let (!get v2) (set v2 4)))))))", "9"),
        ("what get gave, a new cell between", "rri", "(sym (let (get v0) (let (set v1 true) (let (ref 1) (let (!get v1) (set v1 4))))))", "9"),
        ("a typed block's value, a new cell between", "ri", "(sym (let (typed v0) (let (set v1 true) (let (ref 1) (let (!get v1) (set v1 4))))))", "9"),
        ("a typed block's value, an entry between", "ri", "(sym (let (typed v0) (let (set v1 true) (let (set v0 3) (let (!get v1) (set v1 4))))))", "9"),
        ("two entries, flag in again", "ri ri", "(sym (let (set v0 true) (let (set v1 3) (let (set v0 false) (let (if (get v0) true 1) (set v0 4))))))", "i"),
        ("two entries, the newer is looked at", "ri ri", "(sym (let (set v0 true) (let (set v1 3) (let (if (eq (get v1) 3) 1 true) (set v0 4)))))", "i"),
        ("a right one further back", "ri ri", "(!sym (let (set v0 true) (let (set v0 5) (let (set v1 6) (if (eq (get v0) 5) 1 true)))))", "10"),
        ("a right one that is the newest", "ri ri", "(sym (let (set v1 6) (let (set v0 true) (let (set v0 5) (if (eq (get v0) 5) 1 true)))))", "i"),
        ("a right one further back, a wrong one between", "ri ri", "(sym (let (set v0 5) (let (set v1 true) (let (!get v0) (set v1 6)))))", "9"),
        ("a wrong and a right one further back, a wrong one between", "ri ri", "(sym (let (set v0 true) (let (set v0 5) (let (set v1 true) (let (!get v0) (set v1 6))))))", "9"),
    ]);
    trial.end("writes between");
}

#[test]
#[rustfmt::skip] // one case a line
fn several_wrong_writes() {
    let mut trial = Trial::new();
    trial.expressions(&[
        ("the newer of two", "ri", "(sym (let (set v0 true) (let (set v0 false) (let (if (get v0) true 1) (let (add v3 1) (set v0 7))))))", "i"),
        ("the newer of two types", "rb", "(sym (let (set v0 5) (let (set v0 v0) (let (eq (get v0) v0) (set v0 true)))))", "b"),
        ("not the older of two types", "rb", "(sym (let (set v0 5) (let (set v0 v0) (let (!add (get v0) 1) (set v0 true)))))", "6"),
        ("a right one, then a wrong one", "ri", "(sym (let (set v0 5) (let (set v0 true) (let (not (get v0)) (set v0 6)))))", "i"),
        ("a wrong one, then a right one", "ri", "(sym (let (set v0 true) (let (set v0 5) (!not (get v0)))))", "6"),
        ("two new cells, both looked at", "", "(sym (let (ref 1) (let (ref true) (let (set v0 false) (let (set v1 2) (let (if (get v0) true (add (get v1) 1)) (let (set v0 1) (set v1 true))))))))", "b"),
        ("two new cells, one put back", "", "(!sym (let (ref 1) (let (ref true) (let (set v0 false) (let (set v1 2) (let (get v0) (set v0 1)))))))", "9"),
        ("a right one in one cell, a wrong one in another", "ri", "(sym (let (ref 1) (let (set v1 true) (let (set v0 5) (let (if (eq (get v0) 5) 1 true) (set v1 2))))))", "i"),
        ("two entries, the newer", "ri ri", "(sym (let (set v0 true) (let (set v1 false) (let (if (get v1) true 1) (let (set v0 2) (set v1 3))))))", "i"),
        ("two entries, the older", "ri ri", "(sym (let (set v0 true) (let (set v1 false) (let (!get v0) (let (set v0 2) (set v1 3))))))", "9"),
        ("two entries, the newer is back", "ri ri", "(!sym (let (set v0 true) (let (set v1 false) (let (get v1) (set v1 3)))))", "9"),
    ]);
    trial.end("several wrong writes");
}

#[test]
#[rustfmt::skip] // one case a line
fn words_and_truths_at_their_own_type() {
    let mut trial = Trial::new();
    trial.expressions(&[
        ("not and and of a flag", "ri", "(sym (let (set v0 true) (let (and (not (get v0)) (get v0)) (set v0 7))))", "i"),
        ("a flag and a truth", "ri", "(sym (let (set v0 true) (let (if (eq (get v0) true) 1 true) (let (add v2 1) (set v0 7)))))", "i"),
        ("a flag as a word", "ri", "(sym (let (set v0 true) (let (!add (get v0) 1) (set v0 7))))", "6"),
        ("a flag and a word", "ri", "(sym (let (set v0 true) (let (!eq (get v0) 1) (set v0 7))))", "6"),
        ("a flag as a reference", "ri", "(sym (let (set v0 true) (let (!get (get v0)) (set v0 7))))", "6"),
        ("a flag stored through", "ri", "(sym (let (set v0 true) (let (!set (get v0) 1) (set v0 7))))", "6"),
        ("a word out of a cell of truths", "rb", "(sym (let (set v0 5) (let (if (eq (add (get v0) 1) 6) 1 true) (let (add v2 1) (set v0 true)))))", "b"),
        ("a word as a truth", "rb", "(sym (let (set v0 5) (let (!not (get v0)) (set v0 true))))", "6"),
        ("a word as a condition", "rb", "(sym (let (set v0 5) (let (!if (get v0) 1 2) (set v0 true))))", "6"),
        ("a word out of a cell of references", "rri", "(sym (let (set v0 5) (let (add (get v0) 1) (set v0 (ref 1)))))", "ri"),
        ("a word as its cell's reference", "rri", "(sym (let (set v0 5) (let (!get (get v0)) (set v0 (ref 1)))))", "6"),
        ("stored where it is right", "ri rb", "(sym (let (set v0 true) (let (set v1 (get v0)) (set v0 7))))", "i"),
        ("stored where it is wrong", "ri ri", "(!sym (let (set v0 true) (let (set v1 (get v0)) (set v0 7))))", "9"),
        ("stored where it was", "ri", "(!sym (let (set v0 true) (set v0 (get v0))))", "9"),
        ("stored where it was, and looked at", "ri", "(sym (let (set v0 true) (let (set v0 (get v0)) (let (if (get v0) 1 2) (set v0 7)))))", "i"),
        ("a new cell of it", "ri", "(sym (let (set v0 true) (let (ref (get v0)) (let (set v0 7) (get v2)))))", "b"),
    ]);
    trial.end("words and truths at their own type");
}

#[test]
#[rustfmt::skip] // one case a line
fn references_at_their_own_type() {
    let mut trial = Trial::new();
    trial.expressions(&[
        ("a look through it", "ri", "(sym (let (ref true) (let (set v0 v1) (let (if (get (get v0)) 1 2) (set v0 7)))))", "i"),
        ("a look through it that finds nothing", "ri rb", "(sym (let (set v1 true) (let (set v0 v1) (let (!get (get v0)) (set v0 7)))))", "9"),
        ("a store through it", "ri", "(sym (let (ref true) (let (set v0 v1) (let (set (get v0) false) (let (if (get v1) true 1) (let (add v4 1) (set v0 7)))))))", "i"),
        ("a wrong store through it", "ri", "(!sym (let (ref true) (let (set v0 v1) (let (set (get v0) 3) (set v0 7)))))", "9"),
        ("a wrong store through it, looked at and put back", "ri", "(sym (let (ref true) (let (set v0 v1) (let (set (get v0) 3) (let (add (get v1) 1) (let (set v1 true) (set v0 7)))))))", "i"),
        ("its own reference", "ri", "(sym (let (set v0 v0) (let (if (eq (get v0) v0) 1 true) (let (set (get v0) 7) (add v2 1)))))", "i"),
        ("its own reference, twice", "ri", "(sym (let (set v0 v0) (let (eq (get (get v0)) v0) (set v0 7))))", "i"),
        ("beside a reference of its cell's type", "ri rb", "(sym (let (set v0 v1) (let (!eq (get v0) v0) (set v0 7))))", "6"),
        ("as a word", "ri", "(sym (let (set v0 v0) (let (!add (get v0) 1) (set v0 7))))", "6"),
        ("of another depth in a cell of references", "rri ri", "(sym (let (set v0 v0) (let (eq (get v0) v0) (set v0 v1))))", "ri"),
        ("of another depth beside its cell's type", "rri ri", "(sym (let (set v0 v0) (let (!eq (get v0) v1) (set v0 v1))))", "6"),
    ]);
    trial.end("references at their own type");
}

#[test]
#[rustfmt::skip] // one case a line
fn borders_and_order() {
    let mut trial = Trial::new();
    trial.expressions(&[
        ("a typed block with the flag in", "ri", "(sym (let (set v0 true) (let (get v0) (let (!typed 1) (set v0 7)))))", "9"),
        ("a typed block with the word back", "ri", "(sym (let (set v0 true) (let (get v0) (let (set v0 7) (typed (get v0))))))", "i"),
        ("the flag in a typed block", "ri", "(sym (let (set v0 true) (let (get v0) (let (set v0 7) (typed (if v2 1 2))))))", "i"),
        ("the flag as a word in a typed block", "ri", "(sym (let (set v0 true) (let (get v0) (let (set v0 7) (typed (!add v2 1))))))", "6"),
        ("the operand before the log", "ri", "(sym (let (set v0 true) (let (get v0) (typed (!add v2 1)))))", "6"),
        ("what a typed block forgets", "ri", "(!sym (let (set v0 true) (let (get v0) (let (set v0 7) (let (typed 1) (if (eq (get v0) 7) 1 true))))))", "10"),
        ("after a typed block", "ri", "(sym (let (typed 1) (let (set v0 true) (let (if (get v0) 1 2) (set v0 7)))))", "i"),
        ("an inner block", "ri", "(sym (typed (sym (let (set v0 true) (let (if (get v0) 1 2) (set v0 7))))))", "i"),
        ("an inner block, not put back", "ri", "(sym (typed (!sym (let (set v0 true) (get v0)))))", "9"),
        ("an inner block with the flag in", "ri", "(sym (let (set v0 true) (let (get v0) (let (!typed (sym (let (set v0 false) (let (get v0) (set v0 7))))) (set v0 8)))))", "9"),
        ("sym in sym", "ri", "(sym (let (sym (set v0 true)) (let (sym (if (get v0) 1 2)) (sym (set v0 7)))))", "i"),
        ("sym in sym, not put back", "ri", "(!sym (let (set v0 true) (sym (get v0))))", "9"),
        ("two blocks", "ri", "(let (!sym (let (set v0 true) (get v0))) (sym (set v0 7)))", "9"),
        ("6 before 9", "ri", "(sym (let (set v0 true) (let (!get v1) (set v0 7))))", "6"),
        ("7 before 9", "ri", "(sym (let (set v0 true) (let (get !v9) (set v0 7))))", "7"),
        ("the operand's 9 first", "ri rri", "(sym (let (set v0 true) (let (get (!get v1)) (set v0 7))))", "9"),
        ("the operand puts the flag in", "ri", "(sym (let (get (let (set v0 true) v0)) (set v0 7)))", "i"),
        ("the operand puts the word back", "ri ri", "(sym (let (set v0 true) (get (let (set v0 7) v1))))", "i"),
        ("9 at the end before 10", "b ri", "(!sym (if v0 1 (let (set v1 true) (get v1))))", "9"),
    ]);
    trial.end("borders of blocks, and the order of refusals");
}

#[test]
#[rustfmt::skip] // one case a line
fn paths() {
    let mut trial = Trial::new();
    trial.expressions(&[
        ("a flag as the block's value", "ri", "(sym (let (set v0 true) (let (get v0) (let (set v0 7) v2))))", "b"),
        ("a word as the block's value", "rb", "(sym (let (set v0 5) (let (get v0) (let (set v0 true) v2))))", "i"),
        ("a reference as the block's value", "ri", "(sym (let (ref true) (let (set v0 v1) (let (get v0) (let (set v0 7) v3)))))", "rb"),
        ("a flag out of the block", "ri", "(if (sym (let (set v0 true) (let (get v0) (let (set v0 7) v2)))) 1 2)", "i"),
        ("a flag, and a truth on the other path", "b ri rb", "(sym (let (if v0 (let (set v1 true) (get v1)) (get v2)) (let (set v1 7) v3)))", "b"),
        ("a flag, and a word on the other path", "b ri", "(!sym (let (if v0 (let (set v1 true) (get v1)) (get v1)) (let (set v1 7) v2)))", "10"),
        ("a flag here, a word there", "b ri", "(sym (let (if v0 (set v1 true) (set v1 5)) (let (if v0 (if (get v1) 1 2) (add (get v1) 1)) (set v1 7))))", "i"),
        ("a flag here, a word there, both as words", "b ri", "(sym (let (if v0 (set v1 true) (set v1 5)) (let (!add (get v1) 1) (set v1 7))))", "6"),
        ("put back on one path only", "b ri", "(!sym (let (set v1 true) (let (get v1) (if v0 (set v1 2) 3))))", "9"),
        ("another look on a branch never taken", "ri ri", "(sym (let (set v0 true) (let (if (get v0) 1 (get v1)) (set v0 7))))", "i"),
        ("another look on a branch that is taken", "ri ri b", "(sym (let (set v0 v2) (let (if (get v0) 1 (!get v1)) (set v0 7))))", "9"),
        ("an entry as flag decides again", "ri b", "(sym (let (set v0 v1) (if (get v0) (let (set v0 7) (if v1 1 true)) (let (set v0 8) (if v1 true 2)))))", "i"),
    ]);
    trial.end("paths with scratch cells");
}

#[test]
#[rustfmt::skip] // one case a line
fn runs() {
    let mut trial = Trial::new();
    let one = [location(0)];
    let same = [location(0), location(0)];
    let no = [location(0), truth(0)];
    let cells = [word(9)];
    trial.runs(&[
        (("flag in, look, word back", "ri", "(sym (let (set v0 true) (let (get v0) (set v0 7))))", "i"), &one, &cells, gives(word(7), &[word(7)])),
        (("a flag as the block's value", "ri", "(sym (let (set v0 true) (let (get v0) (let (set v0 7) v2))))", "b"), &one, &cells, gives(truth(1), &[word(7)])),
        (("an entry as flag", "ri b", "(sym (let (set v0 v1) (let (if (get v0) 1 2) (let (set v0 7) v3))))", "i"), &no, &cells, gives(word(2), &[word(7)])),
        (("the word that was there", "ri", "(sym (let (get v0) (let (set v0 true) (let (get v0) (set v0 v1)))))", "i"), &one, &cells, gives(word(9), &[word(9)])),
        (("two entries are one cell", "ri ri", "(sym (let (set v0 true) (let (set v1 3) (let (set v0 false) (let (if (get v0) true 1) (set v0 4))))))", "i"), &same, &cells, gives(word(4), &[word(4)])),
        (("a store through a reference", "ri", "(sym (let (ref true) (let (set v0 v1) (let (set (get v0) false) (let (if (get v1) true 1) (let (set v0 7) v4))))))", "i"), &one, &cells, gives(word(1), &[word(7), truth(0)])),
        (("its own reference", "ri", "(sym (let (set v0 v0) (let (if (eq (get v0) v0) 1 true) (let (set (get v0) 7) (add v2 1)))))", "i"), &one, &cells, gives(word(2), &[word(7)])),
        (("a new cell of it", "ri", "(sym (let (set v0 true) (let (ref (get v0)) (let (set v0 7) (get v2)))))", "b"), &one, &cells, gives(truth(1), &[word(7), truth(1)])),
        (("why a look through another symbol is refused", "ri ri", "(sym (let (set v0 true) (let (add (!get v1) 1) (set v0 7))))", "9"), &same, &cells, fails(6, &[truth(1)])),
        (("why an alias between is refused", "ri ri", "(sym (let (set v0 true) (let (set v1 3) (let (not (!get v0)) (set v0 7)))))", "9"), &same, &cells, fails(8, &[word(3)])),
    ]);
    trial.end("runs with scratch cells");
}
