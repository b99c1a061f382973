//! Typical scripts: entry types, an expression, and how many paths the check follows in all.
//! They are what a station's maker might write: readings in cells, limits, counters, flags.

pub type Typical = (&'static str, &'static str, usize);

#[rustfmt::skip] // one script a line
pub const TYPICAL: [Typical; 26] = [
    // A counter, and a flag when it reaches its limit.
    ("ri rb i", "(let (set v0 (add (get v0) 1)) (sym (if (eq (get v0) v2) (set v1 true) (get v1))))", 2),
    // A cell that holds a flag for a while, then a word again.
    ("ri b", "(sym (let (set v0 v1) (let (if v2 1 2) (let (set v0 v3) (add (get v0) v3)))))", 2),
    // A result by two tests.
    ("i i i b", "(sym (if v3 (if (eq v0 v1) 1 2) (if (eq v1 v2) 3 4)))", 4),
    // The test that was made is not made again.
    ("b i ri", "(sym (let (if v0 v1 (eq v1 3)) (if v0 (set v2 (add v3 1)) (if v3 (set v2 0) (get v2)))))", 3),
    // A level, a comparison, a sum in a cell, and a report by the stored flag.
    ("i i i rb ri", "(sym (let (if (eq v0 0) 1 (if (eq v0 1) 2 3)) (let (if (eq v1 v2) (set v3 true) (set v3 false)) (let (set v4 (add v5 (add v0 v1))) (if v6 (add (get v4) 1) (get v4))))))", 6),
    // Swap two cells, and see that they are swapped.
    ("ri ri", "(sym (let (get v0) (let (get v1) (let (set v0 v3) (let (set v1 v2) (if (eq (get v1) v2) 1 true))))))", 1),
    // A new cell as a work place.
    ("i i", "(sym (let (ref v0) (let (set v2 (add (get v2) v1)) (let (set v2 (add (get v2) v1)) (get v2)))))", 1),
    // Two work places that never meet.
    ("i i b", "(sym (let (ref v0) (let (ref v1) (let (set v3 (add (get v3) (get v4))) (if v2 (get v3) (get v4))))))", 2),
    // A sum of readings, and one question about it.
    ("i i i i", "(sym (let (add (add v0 v1) (add v2 v3)) (if (eq v4 100) 1 (if (eq v4 200) 2 3))))", 3),
    // Three switches.
    ("b b b ri", "(sym (let (if v0 1 0) (let (if v1 2 0) (let (if v2 4 0) (set v3 (add v4 (add v5 v6)))))))", 8),
    // A typed part between two symbolic ones.
    ("b ri i", "(let (sym (if v0 (set v1 1) (set v1 2))) (let (set v1 (add v3 v2)) (sym (if (eq v2 0) (get v1) v3))))", 4),
    // A typed block inside a symbolic one.
    ("b ri", "(sym (if v0 (let (typed (set v1 (add (get v1) 1))) (add v2 1)) (typed (get v1))))", 2),
    // A reference chosen by a flag.
    ("b ri ri", "(sym (let (if v0 v1 v2) (let (set v3 7) (let (get v3) (add v5 1)))))", 2),
    // The same cell or not.
    ("ri ri", "(sym (let (set v0 1) (let (set v1 2) (if (eq v0 v1) (add (get v0) 1) (get v1)))))", 2),
    // A result word of a kind that depends on the mode, used as what it is.
    ("b i b", "(sym (let (if v0 v1 v2) (if v0 (add v3 1) (if v3 1 0))))", 3),
    // A limit in two spellings.
    ("i i", "(sym (if (eq (add v0 2) v1) (if (eq (add v1 1) (add v0 3)) 1 true) 2))", 2),
    // A list of two cells.
    ("rri", "(sym (let (get v0) (let (get v1) (let (set v1 (add v2 1)) (let (set v0 (ref 0)) (get v1))))))", 1),
    // All three must hold.
    ("b b i ri", "(sym (if (and v0 (and v1 (eq v2 5))) (set v3 1) (let (set v3 0) (if v0 2 3))))", 3),
    // Wrong for a while in two cells.
    ("ri rb b", "(sym (let (set v0 v2) (let (set v1 5) (let (if v2 1 2) (let (set v0 v5) (set v1 true))))))", 2),
    // A protocol step: state, event, next state.
    ("i i ri", "(sym (set v2 (if (eq v0 0) (if (eq v1 1) 1 0) (if (eq v0 1) (if (eq v1 2) 2 1) v0))))", 5),
    // A block inside a block, read as its operand.
    ("b b i", "(sym (let (sym (if v0 (add v2 1) v2)) (sym (if v1 (add v3 1) v3))))", 4),
    // A self test: store, read, compare, restore.
    ("ri", "(sym (let (get v0) (let (set v0 4294967295) (let (eq (get v0) 4294967295) (let (set v0 v1) v3)))))", 1),
    // A flag from a cell decides, and is cleared.
    ("rb ri", "(sym (let (get v0) (let (set v0 false) (if v2 (set v1 (add (get v1) 1)) (get v1)))))", 2),
    // An odd or even pair of flags.
    ("b b b", "(sym (if (eq v0 v1) (if v2 1 2) (if (and v0 v1) true 3)))", 3),
    // A cell lent to a flag while a number is made ready for it.
    ("b b b rb ri i", "(sym (let (set v4 v0) (let (if v1 (add v5 1) v5) (let (if v2 (add v7 2) v7) (let (set v4 v8) (let (set v3 (and v0 (eq (get v4) v8))) (if (get v3) (add v8 1) (get v4))))))))", 8),
    // Two blocks with typed work between, and a report cell.
    ("b b ri rb", "(let (sym (if v0 (if v1 1 2) 3)) (let (set v2 (add v4 (get v2))) (sym (let (set v3 5) (let (set v3 (eq v5 10)) (if (get v3) v5 v4))))))", 5),
];
