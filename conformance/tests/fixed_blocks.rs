//! Fixed scripts for symbolic blocks: writes and reads, equalities, branches, borders of blocks, and
//! the four traps.

use conformance::fixed::Trial;

#[test]
#[rustfmt::skip] // one case a line
fn writes_of_wrong_types() {
    let mut trial = Trial::new();
    trial.expressions(&[
        ("wrong at the end", "ri", "(!sym (set v0 true))", "9"),
        ("mended", "ri", "(sym (let (set v0 true) (set v0 7)))", "i"),
        ("right, then wrong", "ri", "(!sym (let (set v0 7) (set v0 true)))", "9"),
        ("wrong twice, right once", "ri", "(sym (let (set v0 true) (let (set v0 v0) (set v0 1))))", "i"),
        ("wrong, right, wrong", "ri", "(!sym (let (set v0 true) (let (set v0 1) (set v0 true))))", "9"),
        ("two mended in any order", "ri rb", "(sym (let (set v0 true) (let (set v1 1) (let (set v0 2) (set v1 true)))))", "b"),
        ("a wrong type of the same depth", "rri", "(!sym (set v0 (ref true)))", "9"),
        ("a deeper cell mended", "rri", "(sym (let (set v0 5) (set v0 (ref 5))))", "ri"),
        ("a wrong write is not mended by a deeper right one", "rri", "(!sym (let (set v0 5) (set v0 (ref true))))", "9"),
        ("a reference stored in its own cell", "ri", "(!sym (set v0 v0))", "9"),
        ("a new cell mended", "", "(sym (let (ref 5) (let (set v0 true) (set v0 6))))", "i"),
        ("a new cell not mended", "", "(!sym (let (ref 5) (set v0 true)))", "9"),
        ("the value of set has the stored type", "ri", "(sym (let (if (set v0 true) 1 true) (let (add v1 1) (set v0 3))))", "i"),
        ("the value of set, wrong type", "ri", "(sym (let (!add (set v0 true) 1) (set v0 3)))", "6"),
        ("set through a word", "", "(sym (!set 1 2))", "6"),
        ("set through a truth", "b", "(sym (!set v0 v0))", "6"),
        ("set: operands first", "", "(sym (set 1 !v0))", "7"),
        ("get before it is mended", "ri", "(sym (let (set v0 true) (let (get v0) (set v0 7))))", "i"),
        ("get of another cell before it is mended", "ri rb", "(sym (let (set v0 true) (let (!get v1) (set v0 7))))", "9"),
        ("get of a new cell before it is mended", "ri", "(sym (let (set v0 true) (let (get (ref 1)) (set v0 7))))", "i"),
        ("get of a typed block's new cell before it is mended", "ri", "(sym (let (typed (ref 1)) (let (set v0 true) (let (!get v1) (set v0 7)))))", "9"),
        ("get after it is mended", "ri", "(sym (let (set v0 true) (let (set v0 7) (get v0))))", "i"),
        ("get: 6 before 9", "ri", "(sym (let (set v0 true) (!get 3)))", "6"),
        ("eq and ref do not look", "ri", "(sym (let (set v0 true) (let (eq v0 (ref 2)) (set v0 7))))", "i"),
        ("wrong on one branch, mended after both", "b ri", "(sym (let (if v0 (set v1 true) (set v1 2)) (set v1 3)))", "i"),
        ("wrong on one branch only", "b ri", "(!sym (let (if v0 (set v1 2) (set v1 true)) 3))", "9"),
        ("wrong on a branch never taken", "ri", "(sym (if (eq v0 v0) 1 (set v0 true)))", "i"),
        ("mended on one branch only", "b ri", "(!sym (let (set v1 true) (if v0 (set v1 2) 3)))", "9"),
        ("9 before 10", "b ri", "(!sym (if v0 1 (set v1 true)))", "9"),
        ("10 if the log is consistent", "b rb", "(!sym (if v0 1 (set v1 true)))", "10"),
    ]);
    trial.end("writes of wrong types");
}

#[test]
#[rustfmt::skip] // one case a line
fn reads() {
    let mut trial = Trial::new();
    let known = "(if (eq (get v0) 5) 1 true)";
    let after = |writes: &str| {
        let ends = ")".repeat(writes.matches("(let").count());
        format!("(!sym {writes} {known}{ends})")
    };
    trial.expressions(&[
        ("what was written", "ri", &after("(let (set v0 5)"), "i"),
        ("what was written last", "ri", &after("(let (set v0 6) (let (set v0 5)"), "i"),
        ("not what was written first", "ri", "(sym (let (set v0 5) (let (set v0 6) (if (eq (get v0) 5) true 1))))", "i"),
        ("a constant apart", "ri i", "(sym (let (set v0 v1) (if (eq (get v0) (add v1 1)) true 1)))", "i"),
        ("nothing was written", "ri", &after(""), "10"),
        ("two reads of nothing written", "ri", "(!sym (if (eq (get v0) (get v0)) 1 true))", "10"),
        ("a read of nothing written, bound", "ri", "(sym (let (get v0) (if (eq v1 v1) 1 true)))", "i"),
        ("a read of a truth is an atom", "rb", "(sym (let (get v0) (if v1 (if v1 1 true) 2)))", "i"),
        ("a new cell", "", &after("(let (ref 5)"), "i"),
        ("new cells are passed over", "", &after("(let (ref 5) (let (ref 6)"), "i"),
        ("writes to new cells are passed over", "", &after("(let (ref 5) (let (ref 6) (let (set v1 7)"), "i"),
        ("a wrong write to another new cell, mended", "", &after("(let (ref 5) (let (ref 6) (let (set v1 true) (let (set v1 7)"), "i"),
        ("an entry's cell is passed over for a new cell", "ri", "(sym (let (ref 5) (let (set v0 6) (if (eq (get v1) 5) 1 true))))", "i"),
        ("a new cell is passed over for an entry's", "ri", &after("(let (set v0 5) (let (ref 6)"), "i"),
        ("a new cell after an entry's write", "ri", "(sym (let (set v0 6) (let (ref 5) (if (eq (get v2) 5) 1 true))))", "i"),
        ("a cell in a new cell", "", "(sym (let (ref (ref 5)) (if (eq (get (get v0)) 5) 1 true)))", "i"),
        ("types do not tell cells apart", "ri rri", "(!sym (let (set v0 5) (let (set v1 v0) (if (eq (get v0) 5) 1 true))))", "10"),
        ("a stored reference comes back", "rri ri", "(sym (let (set v0 v1) (if (eq (get v0) v1) 1 true)))", "i"),
        ("a reference that was read is no new cell", "rri", "(!sym (let (get v0) (let (ref 5) (let (set v1 6) (if (eq (get v2) 5) 1 true)))))", "10"),
        ("the type of a read", "rrb", "(sym (get v0))", "rb"),
        ("a read of a word", "", "(sym (!get 1))", "6"),
    ]);
    trial.end("reads");
}

#[test]
#[rustfmt::skip] // one case a line
fn equalities() {
    let mut trial = Trial::new();
    trial.expressions(&[
        ("sums in another order", "i i", "(sym (if (eq (add v0 v1) (add v1 v0)) 1 true))", "i"),
        ("sums of constants", "", "(sym (if (eq (add 1 2) 3) 1 true))", "i"),
        ("a sum around 2^32", "i", "(sym (if (eq (add (add v0 4294967295) 1) v0) 1 true))", "i"),
        ("a constant apart", "i", "(sym (if (eq (add v0 1) v0) true 1))", "i"),
        ("coefficients", "i i", "(sym (if (eq (add v0 (add v1 v0)) (add v1 (add v0 v0))) 1 true))", "i"),
        ("a difference that is open", "i i", "(!sym (if (eq v0 v1) 1 true))", "10"),
        ("a symbol and a constant", "i", "(!sym (if (eq v0 0) 1 true))", "10"),
        ("exchanged", "i i", "(sym (if (eq v0 v1) (if (eq v1 v0) 1 true) (if (eq v1 v0) true 1)))", "i"),
        ("negated, with constants", "i i", "(sym (if (eq (add v0 3) v1) (if (eq (add v1 1) (add v0 4)) 1 true) (if (eq (add v1 1) (add v0 4)) true 1)))", "i"),
        ("the same difference", "i i i", "(sym (if (eq v0 v1) (if (eq (add v2 v0) (add v1 v2)) 1 true) 2))", "i"),
        ("a doubled difference", "i i", "(!sym (if (eq v0 v1) (if (eq (add v0 v0) (add v1 v1)) 1 true) 2))", "10"),
        ("another constant", "i i", "(!sym (if (eq v0 v1) (if (eq v0 (add v1 1)) 1 true) 2))", "10"),
        ("another constant excludes nothing", "i i", "(!sym (if (eq v0 v1) (if (eq v0 (add v1 1)) true 1) 2))", "10"),
        ("atoms know nothing of each other", "i", "(!sym (if (eq v0 1) (if (eq v0 2) true 1) 1))", "10"),
        ("truths: a symbol and itself", "b", "(sym (if (eq v0 v0) 1 true))", "i"),
        ("truths: a symbol and its negation", "b", "(sym (if (eq v0 (not v0)) true 1))", "i"),
        ("truths: never both", "b", "(sym (if (and v0 (not v0)) true 1))", "i"),
        ("truths: exchanged", "b b", "(sym (if (eq v0 v1) (if (eq v1 v0) 1 true) 2))", "i"),
        ("truths: equality by parts", "b b", "(sym (if (eq v0 v1) (if v0 (if v1 1 true) 2) 3))", "i"),
        ("truths: independent", "b b", "(!sym (if v0 (if v1 1 true) 2))", "10"),
        ("truths: with a constant", "b", "(sym (if (eq v0 false) (if v0 true 1) (if v0 2 true)))", "i"),
        ("references: the same", "ri", "(sym (if (eq v0 v0) 1 true))", "i"),
        ("references: exchanged", "ri ri", "(sym (if (eq v0 v1) (if (eq v1 v0) 1 true) (if (eq v1 v0) true 1)))", "i"),
        ("references: two new cells", "", "(sym (if (eq (ref 1) (ref 1)) true 1))", "i"),
        ("references: one new cell", "", "(sym (let (ref 1) (if (eq v0 v0) 1 true)))", "i"),
        ("references: a new cell and an entry", "ri", "(sym (if (eq (ref 1) v0) true 1))", "i"),
        ("references: no conclusions", "ri ri ri", "(!sym (if (eq v0 v1) (if (eq v1 v2) (if (eq v0 v2) 1 true) 1) 1))", "10"),
        ("references: other types", "ri rb", "(sym (!eq v0 v1))", "6"),
        ("word and truth", "i b", "(sym (!eq v0 v1))", "6"),
        ("types decide, not constants", "", "(sym (!eq 1 true))", "6"),
    ]);
    trial.end("equalities");
}

#[test]
#[rustfmt::skip] // one case a line
fn branches() {
    let mut trial = Trial::new();
    trial.expressions(&[
        ("a constant condition", "", "(sym (if true 1 true))", "i"),
        ("a constant condition, false", "", "(sym (if false true 1))", "i"),
        ("an untaken branch is not looked at", "", "(sym (if true 1 v9))", "i"),
        ("an untaken branch with a deep reference", "rrrrrrrrrrrrrrri", "(sym (if false (ref v0) 1))", "i"),
        ("the true branch first", "b", "(sym (if v0 (!add true 1) (not 1)))", "6"),
        ("the other branch after it", "b", "(sym (if v0 1 (!not 1)))", "6"),
        ("a path goes to its end first", "b", "(sym (let (if v0 1 true) (!add v1 1)))", "6"),
        ("the first path's end before the second path", "b ri", "(!sym (let (if v0 (set v1 true) 1) (if v0 1 (add true 1))))", "9"),
        ("the second path before its type", "b", "(sym (let (if v0 1 true) (if v0 2 (!not 3))))", "6"),
        ("a type for each path", "b", "(sym (let (if v0 1 true) (if v0 (add v1 1) (if v1 1 2))))", "i"),
        ("6 right after the condition", "", "(sym (!if 1 v9 2))", "6"),
        ("6 of a reference as condition", "rb", "(sym (!if v0 1 2))", "6"),
        ("the condition's own refusal first", "", "(sym (if (!not 1) v9 2))", "6"),
        ("7 in a taken branch", "b", "(sym (if v0 1 !v9))", "7"),
        ("8 in a taken branch", "b rrrrrrrrrrrrrrri", "(sym (let (if v0 1 (!ref v1)) 1))", "8"),
        ("conditions through let", "b", "(sym (let (not v0) (if v0 (if v1 true 1) (if v1 2 true))))", "i"),
        ("conditions through memory", "b rb", "(sym (let (set v1 v0) (if (get v1) (if v0 1 true) 2)))", "i"),
        ("a condition that a fork chose", "b b", "(sym (let (if v0 v1 true) (if v2 1 (if v0 (if v1 true 2) false))))", "i"),
        ("10 at the second path", "b b", "(!sym (if v0 1 (if v1 true 2)))", "10"),
        ("10 at the last path", "b b", "(!sym (if v0 1 (if v1 2 true)))", "10"),
        ("10 by depth", "b ri", "(!sym (if v0 v1 (ref v1)))", "10"),
    ]);
    trial.end("branches");
}

#[test]
#[rustfmt::skip] // one case a line
fn borders_of_blocks() {
    let mut trial = Trial::new();
    trial.expressions(&[
        ("typed with the environment's types", "b", "(sym (let (if v0 1 true) (typed (!add v1 v1))))", "6"),
        ("typed with each path's types", "b", "(sym (let (if v0 1 true) (let (typed v1) (if v0 (add v2 1) (if v2 1 2)))))", "i"),
        ("typed demands equal branches", "", "(sym (typed (!if true 1 true)))", "6"),
        ("typed demands right writes", "ri", "(sym (typed (let (!set v0 true) (set v0 1))))", "6"),
        ("a log that is not consistent", "ri", "(sym (let (set v0 true) (!typed 1)))", "9"),
        ("the operand before the log", "ri", "(sym (let (set v0 true) (typed (!not 1))))", "6"),
        ("a wrong write inside its operand's block", "ri", "(sym (typed (!sym (set v0 true))))", "9"),
        ("an inner block before the log", "b ri", "(sym (let (set v1 true) (typed (!sym (if v0 1 true)))))", "10"),
        ("the value is a fresh truth", "", "(!sym (if (typed true) 1 true))", "10"),
        ("the value is a fresh word", "", "(!sym (if (eq (typed 5) 5) 1 true))", "10"),
        ("a variable in typed is another symbol", "i", "(!sym (if (eq (typed v0) v0) 1 true))", "10"),
        ("the value, bound", "", "(sym (let (typed true) (if v0 (if v0 1 true) 2)))", "i"),
        ("the value is a reference", "", "(sym (let (typed (ref 1)) (let (set v0 true) (set v0 3))))", "i"),
        ("the value is no new cell", "", "(!sym (if (eq (typed (ref 1)) (ref 1)) true 1))", "10"),
        ("the value is another symbol", "ri", "(!sym (let (typed v0) (let (set v0 true) (set v1 3))))", "9"),
        ("new cells stay different", "", "(sym (let (ref 1) (let (ref 2) (let (typed true) (if (eq v0 v1) true 1)))))", "i"),
        ("new cells are passed over after it", "", "(sym (let (ref 1) (let (ref 2) (let (typed true) (let (set v0 5) (let (set v1 6) (if (eq (get v0) 5) 1 true)))))))", "i"),
        ("the condition stays", "b", "(sym (if v0 (let (typed 1) (if v0 1 true)) 2))", "i"),
        ("the condition does not go in", "b", "(sym (if v0 (typed (!sym (if v0 1 true))) 1))", "10"),
        ("the first path's type is the inner block's own", "b", "(sym (if v0 (typed (sym 1)) (typed (sym 2))))", "i"),
        ("sym, typed, sym, typed, sym", "b", "(sym (typed (sym (if v0 (typed (sym (if v0 1 2))) 3))))", "i"),
        ("sym in sym has no end", "ri", "(sym (let (sym (set v0 true)) (set v0 7)))", "i"),
        ("sym in sym, 9 at the outer one", "ri", "(!sym (sym (set v0 true)))", "9"),
        ("sym in sym keeps the condition", "b", "(sym (if v0 (sym (if v0 1 true)) 2))", "i"),
        ("sym in sym keeps the log", "ri", "(sym (let (set v0 5) (sym (if (eq (get v0) 5) 1 true))))", "i"),
        ("sym in sym keeps types apart", "b", "(sym (let (sym (if v0 1 true)) (if v0 (add v1 1) (if v1 1 2))))", "i"),
        ("sym in sym, 10 at the outer one", "b", "(!sym (let 1 (sym (if v0 1 true))))", "10"),
        ("a block in typed mode forgets constants", "", "(let true (!sym (if v0 1 true)))", "10"),
        ("a block's variables are fresh", "i", "(let v0 (!sym (if (eq v0 v1) 1 true)))", "10"),
        ("two blocks, each with its log", "ri", "(let (!sym (set v0 true)) (sym (set v0 1)))", "9"),
    ]);
    trial.end("borders of blocks");
}

#[test]
#[rustfmt::skip] // one case a line
fn traps() {
    let mut trial = Trial::new();
    trial.expressions(&[
        ("1: a right write through another entry", "ri ri", "(!sym (let (set v0 true) (set v1 7)))", "9"),
        ("1: of two wrong ones the newer is mended", "ri ri", "(!sym (let (set v0 true) (let (set v1 true) (set v1 7))))", "9"),
        ("1: of two wrong ones the older is mended", "ri ri", "(!sym (let (set v0 true) (let (set v1 true) (set v0 7))))", "9"),
        ("1: at a get that finds the right one", "ri ri", "(sym (let (set v0 true) (let (set v1 7) (let (get v1) (set v0 7)))))", "i"),
        ("1: at a get", "ri ri", "(sym (let (set v0 true) (let (set v1 7) (let (!get v0) (set v0 7)))))", "9"),
        ("1: at a get of a third entry", "ri ri ri", "(sym (let (set v0 true) (let (set v1 7) (let (!get v2) (set v0 7)))))", "9"),
        ("1: at a typed block", "ri ri", "(sym (let (set v0 true) (let (set v1 7) (let (!typed 1) (set v0 7)))))", "9"),
        ("1: by a new cell", "ri", "(!sym (let (set v0 true) (let (ref 7) 1)))", "9"),
        ("1: among new cells", "", "(!sym (let (ref 1) (let (ref 2) (let (set v0 true) (set v1 3)))))", "9"),
        ("1: equal by the condition", "ri ri", "(!sym (let (set v0 true) (if (eq v0 v1) (set v1 1) (set v0 1))))", "9"),
        ("2: what an entry's cell held", "ri", "(!sym (let (set v0 5) (let (typed 1) (if (eq (get v0) 5) 1 true))))", "10"),
        ("2: what a new cell held", "", "(!sym (let (ref 5) (let (typed 1) (if (eq (get v0) 5) 1 true))))", "10"),
        ("2: a truth", "rb", "(!sym (let (set v0 true) (let (typed 1) (if (get v0) 1 true))))", "10"),
        ("2: a write after the block counts", "ri", "(sym (let (set v0 5) (let (typed 1) (let (set v0 6) (if (eq (get v0) 6) 1 true)))))", "i"),
        ("2: a typed block that stores", "ri", "(!sym (let (set v0 5) (let (typed (set v0 6)) (if (eq (get v0) 5) 1 true))))", "10"),
        ("3: two entries compared", "ri ri", "(!sym (if (eq v0 v1) 1 true))", "10"),
        ("3: a write through the other entry", "ri ri", "(!sym (let (set v0 5) (let (set v1 6) (if (eq (get v0) 5) 1 true))))", "10"),
        ("3: the newer entry is known", "ri ri", "(sym (let (set v0 5) (let (set v1 6) (if (eq (get v1) 6) 1 true))))", "i"),
        ("3: an entry and a reference that was read", "ri rri", "(!sym (if (eq v0 (get v1)) 1 true))", "10"),
        ("3: an entry and a typed block's value", "ri", "(!sym (let (typed v0) (if (eq v0 v1) 1 true)))", "10"),
        ("4: the same condition again", "b", "(sym (if v0 1 (if v0 true 2)))", "i"),
        ("4: after the fork", "b", "(sym (let (if v0 1 2) (if v0 (if v0 1 true) (if v0 true 1))))", "i"),
        ("4: an inner branch", "b b", "(!sym (let (if v0 (if v1 1 2) 3) (if v0 1 (if v1 2 true))))", "10"),
        ("4: an inner branch, turned", "b b", "(!sym (let (if v0 (if v1 1 2) 3) (if v0 1 (if v1 true 2))))", "10"),
        ("4: a word's atom", "i", "(sym (if (eq v0 3) 1 (if (eq v0 3) true 2)))", "i"),
        ("4: three in a row", "b b b", "(sym (let (if v0 1 2) (let (if v1 1 2) (let (if v2 1 2) (if v0 (if v1 v5 1) (if v0 true 2))))))", "i"),
    ]);
    trial.end("traps");
}
