//! Fixed scripts around the limits of a block: 64 paths (11) and 10 different atoms (12).

use conformance::fixed::Trial;

/// Entry types, so many of one.
fn entries(name: &str, count: usize) -> String {
    vec![name; count].join(" ")
}

/// Binds so many independent forks, one for each truth entry from `first` on, around `body`.
fn forks(first: usize, count: usize, body: &str) -> String {
    let mut script = String::new();
    for entry in first..first + count {
        script += &format!("(let (if v{entry} 1 2) ");
    }
    script + body + &")".repeat(count)
}

/// The conjunction of these truths.
fn all(truths: &[String]) -> String {
    let (last, rest) = truths.split_last().expect("a truth");
    let mut script = String::new();
    for truth in rest {
        script += &format!("(and {truth} ");
    }
    script + last + &")".repeat(rest.len())
}

/// The truth entries from `first` to below `end`.
fn truths(first: usize, end: usize) -> Vec<String> {
    (first..end).map(|entry| format!("v{entry}")).collect()
}

/// `then` after these choices for the truth entries from `first` on, 1 for every other choice.
fn after(first: usize, choices: &[bool], then: &str) -> String {
    let mut script = then.to_string();
    for (place, &taken) in choices.iter().enumerate().rev() {
        let entry = first + place;
        script = if taken {
            format!("(if v{entry} {script} 1)")
        } else {
            format!("(if v{entry} 1 {script})")
        };
    }
    script
}

#[test]
#[rustfmt::skip] // one case a line
fn paths() {
    let mut trial = Trial::new();
    let six = forks(0, 6, "3");
    let five_twice = format!("(!sym (if v5 {} {}))", forks(0, 5, "3"), forks(0, 5, "3"));
    let one_more = format!("(!sym (if v6 {six} 4))");
    let one_before = format!("(!sym (if v6 4 {six}))");
    let shared = format!("(!sym {})", forks(0, 6, "(if v0 (if v1 1 2) (if v5 3 4))"));
    let two_blocks = format!("(let (sym {six}) (sym {six}))");
    let inner = format!("(!sym {})", forks(0, 6, &format!("(let (sym {six}) 1)")));
    let b = |count: usize| entries("b", count);
    trial.expressions(&[
        ("six forks", &b(6), &format!("(sym {six})"), "i"),
        ("seven forks", &b(7), &format!("(!sym {})", forks(0, 7, "3")), "11"),
        ("ten forks", &b(10), &format!("(!sym {})", forks(0, 10, "3")), "11"),
        ("eleven forks: 12 comes on the first path", &b(11), &format!("(sym {})", forks(0, 10, "(!if v10 1 2)")), "12"),
        ("32 and 32 paths", &b(6), &five_twice, "i"),
        ("64 and 1 paths", &b(7), &one_more, "11"),
        ("1 and 64 paths", &b(7), &one_before, "11"),
        ("conditions that are decided fork no more", &b(6), &shared, "i"),
        ("two blocks of 64 paths", &b(6), &two_blocks, "i"),
        ("a sym in symbolic mode has no paths of its own", &b(6), &inner, "i"),
        ("in a block in symbolic mode, 11 at the outer one", &b(7), &format!("(!sym (sym {}))", forks(0, 7, "3")), "11"),
        ("64 times 64 paths", &b(6), &format!("(sym {})", forks(0, 6, &format!("(typed (sym {six}))"))), "i"),
        ("11 in an inner block", &b(7), &format!("(sym {})", forks(0, 2, &format!("(typed (!sym {}))", forks(0, 7, "3")))), "11"),
        ("64 beside a new cell and an entry", &format!("{} ri", b(6)), &format!("(sym (if (eq (ref 1) v6) 4 {six}))"), "i"),
        ("65 with a new cell and what get made", &format!("{} rri", b(6)), &format!("(!sym (if (eq (ref 1) (get v6)) 4 {six}))"), "11"),
        ("64 paths, the last of another type", &b(6), &format!("(!sym {})", forks(0, 6, &after(0, &[false; 6], "true"))), "10"),
    ]);
    trial.end("paths");
}

#[test]
#[rustfmt::skip] // one case a line
fn the_64th_and_the_65th_path() {
    let mut trial = Trial::new();
    let last = [true, false, false, false, false, false, false];
    let next = [false, true, true, true, true, true, true];
    let script = |choices: &[bool], then: &str, at: &str| format!("({at}sym {})", forks(1, 7, &after(1, choices, then)));
    let types = "ri b b b b b b b";
    let rows = [
        ("6 on the 64th path", script(&last, "(!add true 1)", ""), "6"),
        ("6 on the 65th path", script(&next, "(add true 1)", "!"), "11"),
        ("10 on the 64th path", script(&last, "true", "!"), "10"),
        ("10 on the 65th path", script(&next, "true", "!"), "11"),
        ("9 on the 64th path", script(&last, "(set v0 true)", "!"), "9"),
        ("9 on the 65th path", script(&next, "(set v0 true)", "!"), "11"),
        ("7 on the 64th path", script(&last, "!v77", ""), "7"),
        ("7 on the 65th path", script(&next, "v77", "!"), "11"),
    ];
    for (name, expression, answer) in &rows {
        trial.expressions(&[(name, types, expression, answer)]);
    }
    trial.end("the 64th and the 65th path");
}

#[test]
#[rustfmt::skip] // one case a line
fn atoms() {
    let mut trial = Trial::new();
    let test = |condition: &str| format!("(sym (!if {condition} 1 2))");
    let words = |count: u32| -> Vec<String> { (0..count).map(|k| format!("(eq v0 {k})")).collect() };
    let pairs: Vec<String> = (0..5).flat_map(|a| (a + 1..5).map(move |b| format!("(eq v{a} v{b})"))).collect();
    let more_pairs = [&pairs[..], &["(eq v5 v0)".to_string()]].concat();
    let turned: Vec<String> = pairs.iter().map(|pair| turn(pair)).collect();
    let mixed = [truths(0, 9), vec!["(eq v11 v12)".into()], truths(0, 9)].concat();
    let ten = all(&truths(0, 10));
    let b = |count: usize| entries("b", count);
    let ri = |count: usize| entries("ri", count);
    let rows = [
        ("10 truths", b(10), test(&ten), "i"),
        ("11 truths", b(11), test(&all(&truths(0, 11))), "12"),
        ("16 truths", b(16), test(&all(&truths(0, 16))), "12"),
        ("10 equalities of words", "i".into(), test(&all(&words(10))), "i"),
        ("11 equalities of words", "i".into(), test(&all(&words(11))), "12"),
        ("10 pairs of references", ri(5), test(&all(&pairs)), "i"),
        ("11 pairs of references", ri(6), test(&all(&more_pairs)), "12"),
        ("each pair twice", ri(5), test(&all(&[&pairs[..], &turned[..]].concat())), "i"),
        ("each truth twice", b(10), test(&format!("(and {ten} {ten})")), "i"),
        ("mixed, some twice", format!("{} i i i", b(10)), test(&all(&mixed)), "i"),
        ("a constant is no atom", b(10), test(&format!("(and true (and {ten} (eq 1 2)))")), "i"),
        ("false and 11 atoms", b(11), test(&format!("(and false {})", all(&truths(0, 11)))), "12"),
        ("11 in an equality", b(11), test(&format!("(eq {ten} v10)")), "12"),
        ("11 under not", b(11), test(&format!("(not (and (not {ten}) v10))")), "12"),
        ("11 atoms and no if", b(11), format!("(sym {})", all(&truths(0, 11))), "b"),
        ("11 atoms and another if", b(11), format!("(sym (let {} (if v0 1 2)))", all(&truths(0, 11))), "i"),
        ("1 atom inside 10", b(11), format!("(sym (if {ten} (!if v10 1 2) 3))"), "12"),
        ("10 inside 1", b(11), format!("(sym (if v10 (!if {ten} 1 2) 3))"), "12"),
        ("10 inside the same 10", b(10), format!("(sym (if {ten} (if {ten} 1 true) 3))"), "i"),
        ("in the false branch", b(11), format!("(sym (if {ten} 1 (!if v10 1 2)))"), "12"),
        ("of an impossible branch, later", b(11), format!("(sym (let (if (and false {ten}) 1 2) (!if v10 1 2)))"), "12"),
        ("of a decided condition, later", b(11), format!("(sym (let (if (eq {ten} {ten}) 1 2) (!if v10 1 2)))"), "12"),
        ("a constant condition after 10", b(10), format!("(sym (let (if {ten} 1 2) (if (eq (ref 1) (ref 1)) true 3)))"), "i"),
        ("typed gives one more atom", b(10), format!("(sym (let (if {ten} 1 2) (!if (typed true) 1 2)))"), "12"),
        ("an inner block starts anew", b(10), format!("(sym (let (if {ten} 1 2) (typed (sym (if {ten} 1 2)))))"), "i"),
        ("a sym in symbolic mode does not", b(11), format!("(sym (let (if {ten} 1 2) (sym (!if v10 1 2))))"), "12"),
        ("a new cell and an entry are none", format!("{} ri", b(10)), format!("(sym (if (and (eq (ref 1) v10) {ten}) true 1))"), "i"),
        ("an entry and a new cell are none", format!("{} ri", b(10)), format!("(sym (if (and {ten} (eq v10 (ref 1))) true 1))"), "i"),
        ("nor are they later", format!("{} ri", b(10)), format!("(sym (let (if (eq (ref 1) v10) true 1) (if {ten} 1 2)))"), "i"),
        ("11 beside a new cell and an entry", format!("{} ri", b(11)), test(&format!("(and (eq (ref 1) v11) {})", all(&truths(0, 11)))), "12"),
        ("a new cell and what get made are one", format!("{} rri", b(10)), test(&format!("(and (eq (ref 1) (get v10)) {ten})")), "12"),
        ("a new cell and a typed block's value are one", format!("{} ri", b(10)), test(&format!("(and (eq (ref 1) (typed v10)) {ten})")), "12"),
        ("two entries are one", format!("{} ri ri", b(10)), test(&format!("(and (eq v10 v11) {ten})")), "12"),
        ("two entries are one of 10", format!("{} ri ri", b(9)), format!("(!sym (if (and (eq v9 v10) {}) true 1))", all(&truths(0, 9))), "10"),
        ("6 before 12", b(11), format!("(sym (let {} (!if 3 1 2)))", all(&truths(0, 11))), "6"),
        ("typed mode counts none", b(11), format!("(if {} 1 2)", all(&truths(0, 11))), "i"),
    ];
    for (name, entries, expression, answer) in &rows {
        trial.expressions(&[(name, entries, expression, answer)]);
    }
    trial.end("atoms");
}

/// `(eq a b)` as `(eq b a)`.
fn turn(pair: &str) -> String {
    let words: Vec<&str> = pair
        .trim_matches(|c| c == '(' || c == ')')
        .split(' ')
        .collect();
    format!("(eq {} {})", words[2], words[1])
}
