//! The paper's own cases, at least one case for each refusal of a script in text, and the cases of
//! request U1.

mod short_form;

use reference::{
    check, check_line, read, run, run_text, type_name, write, Node, Outcome, Refusal, Script,
};
use short_form::{cells, decided, says, says_bytes, text};

fn nowhere(number: u8) -> Refusal {
    Refusal {
        number,
        place: None,
    }
}

/// Runs without entry values and used cells.
fn runs(short: &str) -> Outcome {
    run_text(&text(short), &[], &mut cells(&[]), 0).expect("within the limits")
}

/// `count` independent truth entries and as many `if`s in a row, one after another by `let`.
fn ifs_in_a_row(count: usize) -> String {
    let mut lines: Vec<String> = (0..count).map(|_| "entry b".to_string()).collect();
    let mut nodes: Vec<String> = Vec::new();
    for k in 0..count {
        let first = nodes.len();
        nodes.push(format!("var {k}"));
        nodes.push("int 1".to_string());
        nodes.push("int 2".to_string());
        nodes.push(format!("if {first} {} {}", first + 1, first + 2));
    }
    nodes.push("int 0".to_string());
    for k in (0..count).rev() {
        let body = nodes.len() - 1;
        nodes.push(format!("let {} {body}", 4 * k + 3));
    }
    let body = nodes.len() - 1;
    nodes.push(format!("sym {body}"));
    lines.extend(nodes);
    lines.join("; ")
}

/// One `if` under `sym` whose condition is the conjunction of `count` truth entries.
fn conjunction_of(count: usize) -> String {
    let mut lines: Vec<String> = (0..count).map(|_| "entry b".to_string()).collect();
    lines.push("var 0".to_string());
    for k in 1..count {
        lines.push(format!("var {k}"));
        lines.push(format!("and {} {}", 2 * k - 2, 2 * k - 1));
    }
    let condition = 2 * count - 2;
    lines.push("int 1".to_string());
    lines.push("int 2".to_string());
    lines.push(format!(
        "if {condition} {} {}",
        condition + 1,
        condition + 2
    ));
    lines.push(format!("sym {}", condition + 3));
    lines.join("; ")
}

#[test]
fn proved_cases() {
    let cases = [
        ("true; int 5; true; int 3; add 2 3; if 0 1 4; sym 5", "i"),
        ("true; int 5; true; int 3; add 2 3; if 0 1 4", "6 at 4"),
        ("entry b; var 0; int 1; true; if 0 1 2; sym 3", "10 at 4"),
        (
            "entry b; var 0; var 0; int 1; true; int 1; add 3 4; if 1 2 5; int 2; if 0 6 7; sym 8",
            "i",
        ),
        (
            "entry ri; var 0; true; set 0 1; var 0; int 7; set 3 4; let 2 5; sym 6",
            "i",
        ),
        (
            "entry ri; entry ri; var 0; true; set 0 1; var 1; int 7; set 3 4; let 2 5; sym 6",
            "9 at 7",
        ),
        ("entry rrrrrrrrrrrrrrri; var 0; ref 0", "8 at 1"),
        ("", "3"),
    ];
    for (short, answer) in cases {
        assert_eq!(says(short), answer, "{short}");
    }
    let sum = Outcome::Value {
        kind: 0,
        bits: 0,
        used: 0,
    };
    assert_eq!(runs("int 4294967295; int 1; add 0 1"), sum);
}

#[test]
fn printed_lines() {
    let printed = b"entry\tri\nvar\t0\ntrue\nset\t0\t1\nsym\t2\n";
    assert_eq!(check_line(printed), "refused\t9\t3\n");
    let p1 = text("true; int 5; true; int 3; add 2 3; if 0 1 4; sym 5");
    assert_eq!(check_line(&p1), "accepted\ti\n");
    assert_eq!(check_line(b""), "refused\t3\t-\n");
    assert_eq!(check_line(&[b'x'; 8193]), "refused\t31\t-\n");
}

#[test]
fn compared_cases() {
    assert_eq!(says("int 4294967296"), "1 at 0");
    assert_eq!(says("int 4294967295"), "i");
    assert_eq!(says(&ifs_in_a_row(6)), "i");
    assert_eq!(says(&ifs_in_a_row(7)), "11 at 36");
    assert_eq!(says(&conjunction_of(10)), "i");
    assert_eq!(says(&conjunction_of(11)), "12 at 23");

    let mut chain = vec!["true".to_string()];
    chain.extend((0..127).map(|operand| format!("not {operand}")));
    assert_eq!(says(&chain.join("; ")), "b");
    chain.push("not 127".to_string());
    assert_eq!(says(&chain.join("; ")), "2 at 128");
}

#[test]
fn traps() {
    // A write of the right type through one reference does not clear one through another.
    assert_eq!(
        says("entry ri; entry ri; var 0; true; set 0 1; var 1; int 7; set 3 4; let 2 5; sym 6"),
        "9 at 7"
    );
    // After a typed block the log is empty, so the value read is unknown: both branches are taken.
    let read_back = "entry ri; var 0; int 1; set 0 1; typed 2; var 0; get 4; int 1; eq 5 6; \
                     int 5; true; if 7 8 9; let 3 10; sym 11";
    assert_eq!(says(read_back), "10 at 12");
    // Without another write between, it is known.
    let known = "entry ri; var 0; int 1; set 0 1; var 0; get 3; int 1; eq 4 5; int 5; true; \
                 if 6 7 8; let 2 9; sym 10";
    assert_eq!(says(known), "i");
    // A write before a typed block is not seen after it.
    let before = "entry ri; var 0; int 1; set 0 1; true; typed 3; let 2 4; var 0; get 6; int 1; \
                  eq 7 8; int 5; true; if 9 10 11; let 5 12; sym 13";
    assert_eq!(says(before), "10 at 14");
    // Two entry symbols may be one cell: the equality is open, both branches are taken.
    assert_eq!(
        says("entry ri; entry ri; var 0; var 1; eq 0 1; int 5; true; if 2 3 4; sym 5"),
        "10 at 6"
    );
    // Nor is a write through one passed over when the other is read.
    let through_other = "entry ri; entry ri; var 0; int 1; set 0 1; var 1; int 2; set 3 4; var 0; \
                         get 6; int 1; eq 7 8; int 5; true; if 9 10 11; let 5 12; let 2 13; sym 14";
    assert_eq!(says(through_other), "10 at 15");
    // A branch's condition does not hold in the other branch.
    let both = "entry b; var 0; int 1; int 2; if 0 1 2; var 0; int 5; true; if 4 5 6; let 3 7; \
                sym 8";
    assert_eq!(says(both), "10 at 9");
}

#[test]
fn refusal_1_form_turn_and_range() {
    let form: [&[u8]; 21] = [
        b"\n",
        b"true",
        b"true\t\n",
        b"\ttrue\n",
        b"true\r\n",
        b" true\n",
        b"True\n",
        b"int\n",
        b"int\t\n",
        b"int\t00\n",
        b"int\t01\n",
        b"int\t+1\n",
        b"int\t-1\n",
        b"int\t1\t2\n",
        b"int\t99999999999999999999999\n",
        b"var\t144\n",
        b"not\t128\n",
        b"entry\n",
        b"entry\tr\n",
        b"entry\tir\n",
        b"entry\trrrrrrrrrrrrrrrri\n",
    ];
    for bytes in form {
        assert_eq!(says_bytes(bytes), "1 at 0", "{bytes:?}");
    }
    assert_eq!(says_bytes(b"true\nint\t5"), "1 at 1");
    assert_eq!(says_bytes(b"true\n\n"), "1 at 1");
    assert_eq!(says("true; entry i"), "1 at 1");
    assert_eq!(says("int 0"), "i");
    assert_eq!(says("var 143"), "7 at 0");
}

#[test]
fn refusals_2_3_4_and_31_in_order() {
    let entries = |count: usize| vec!["entry i"; count].join("; ");
    assert_eq!(says(&entries(16)), "3");
    assert_eq!(says(&entries(17)), "2 at 16");
    assert_eq!(says(&(entries(16) + "; entry x")), "1 at 16");
    assert_eq!(says(&(entries(16) + "; true; entry i")), "1 at 17");
    assert_eq!(says("not 0"), "4 at 0");
    assert_eq!(says("true; not 1"), "4 at 1");
    assert_eq!(says("entry i; true; not 127"), "4 at 2");
    // Line by line: a 4 of an earlier line comes before a 1 of a later one.
    assert_eq!(says("not 0; wrong"), "4 at 0");
    // In the 129th node 1 comes before 2, and 2 before 4.
    let full = vec!["true"; 128].join("; ");
    assert_eq!(says(&(full.clone() + "; not 128")), "1 at 128");
    assert_eq!(says(&(full.clone() + "; not 127")), "2 at 128");
    assert_eq!(
        says_bytes(&[text(&full), b"true".to_vec()].concat()),
        "1 at 128"
    );
    assert_eq!(says_bytes(&[b'\n'; 8193]), "31");
    assert_eq!(says_bytes(&[b'\n'; 8192]), "1 at 0");
}

#[test]
fn refusals_5_and_13_name_the_lowest_node() {
    assert_eq!(says("true; true"), "5 at 0");
    assert_eq!(says("true; and 0 0"), "5 at 0");
    assert_eq!(says("true; not 0; not 0; and 1 2"), "5 at 0");
    assert_eq!(says("true; true; true; and 0 2"), "5 at 1");
    assert_eq!(says("true; sym 0; sym 1; sym 2; sym 3"), "b");
    assert_eq!(says("true; sym 0; sym 1; sym 2; sym 3; sym 4"), "13 at 1");
    // Typed blocks between do not start the count anew; of six the lower two are too deep.
    assert_eq!(
        says("true; sym 0; sym 1; typed 2; sym 3; sym 4; typed 5; sym 6; sym 7"),
        "13 at 1"
    );
    // 5 comes before 13.
    assert_eq!(
        says("true; sym 0; sym 1; sym 2; sym 3; sym 4; true"),
        "5 at 5"
    );
}

#[test]
fn refusals_6_7_8_in_typed_mode() {
    let cases = [
        ("true; int 1; add 0 1", "6 at 2"),
        ("true; int 1; eq 0 1", "6 at 2"),
        ("entry ri; entry rb; var 0; var 1; eq 0 1", "6 at 2"),
        ("int 1; not 0", "6 at 1"),
        ("true; int 1; and 0 1", "6 at 2"),
        ("int 1; get 0", "6 at 1"),
        ("int 1; int 1; set 0 1", "6 at 2"),
        ("entry ri; var 0; true; set 0 1", "6 at 2"),
        ("entry rri; var 0; var 0; get 1; set 0 2", "ri"),
        // The 6 of an `if` comes after its three operands.
        ("int 1; int 2; var 0; if 0 1 2", "7 at 2"),
        ("int 1; int 2; int 3; if 0 1 2", "6 at 3"),
        ("true; int 2; true; if 0 1 2", "6 at 3"),
        // Operands left to right, before their node.
        ("int 1; not 0; var 9; and 1 2", "6 at 1"),
        ("int 1; var 0; let 0 1", "i"),
        // A `let` binds in its second operand only.
        ("var 0; var 0; let 0 1", "7 at 0"),
        ("entry b; int 1; var 1; let 0 1", "i"),
        ("entry b; int 1; var 0; let 0 1; var 1; let 2 3", "b"),
        ("int 1; var 0; let 0 1; var 0; add 2 3", "7 at 3"),
        ("entry rrrrrrrrrrrrrrrb; var 0; ref 0", "8 at 1"),
        ("entry rrrrrrrrrrrrrrb; var 0; ref 0", "rrrrrrrrrrrrrrrb"),
        ("int 1; typed 0; typed 1", "i"),
    ];
    for (short, answer) in cases {
        assert_eq!(says(short), answer, "{short}");
    }
}

#[test]
fn symbolic_types_and_branches() {
    let cases = [
        // The 6 of an `if` comes right after the condition.
        ("int 1; int 2; var 0; if 0 1 2; sym 3", "6 at 3"),
        // A branch that is not taken is not looked at.
        ("false; var 9; int 2; if 0 1 2; sym 3", "i"),
        ("true; int 2; var 9; if 0 1 2; sym 3", "i"),
        ("var 0; sym 0", "7 at 0"),
        ("entry rrrrrrrrrrrrrrri; var 0; ref 0; sym 1", "8 at 1"),
        // `set` gives the stored value, with that value's type.
        ("int 1; ref 0; true; set 1 2; not 3; sym 4", "9 at 5"),
        ("int 1; true; set 0 1; sym 2", "6 at 2"),
        // 6 comes before 9 at `get`.
        ("int 1; ref 0; true; set 1 2; get 3; sym 4", "6 at 4"),
        // The unfollowed path's refusal stays hidden: the first path fails at its end.
        (
            "entry b; var 0; int 1; ref 1; true; set 2 3; var 9; if 0 4 5; sym 6",
            "9 at 7",
        ),
        // The rest of the first path comes before the second branch.
        (
            "entry b; var 0; int 1; var 9; if 0 1 2; true; add 3 4; sym 5",
            "6 at 5",
        ),
        // `sym` in symbolic mode is its operand, on the same path.
        (
            "entry b; var 0; int 1; true; if 0 1 2; sym 3; int 2; let 4 5; sym 6",
            "i",
        ),
        (
            "entry b; var 0; int 1; true; if 0 1 2; sym 3; typed 4; sym 5",
            "10 at 4",
        ),
    ];
    for (short, answer) in cases {
        assert_eq!(says(short), answer, "{short}");
    }
}

#[test]
fn refusal_9_and_10() {
    let cases = [
        (
            "entry ri; entry ri; var 0; true; set 0 1; var 1; get 3; let 2 4; sym 5",
            "9 at 4",
        ),
        // A typed block looks at the log once its operand is checked.
        (
            "entry ri; var 0; true; set 0 1; int 1; typed 3; let 2 4; sym 5",
            "9 at 4",
        ),
        (
            "entry ri; var 0; true; set 0 1; var 9; typed 3; let 2 4; sym 5",
            "7 at 3",
        ),
        // Wrong, right, wrong is inconsistent.
        (
            "entry ri; var 0; true; set 0 1; var 0; int 7; set 3 4; var 0; true; set 6 7; \
             let 5 8; let 2 9; sym 10",
            "9 at 11",
        ),
        // 9 before 10 at a path's end.
        (
            "entry b; entry ri; var 0; int 1; var 1; true; set 2 3; if 0 1 4; sym 5",
            "9 at 6",
        ),
        // Paths of the types i, i and b.
        (
            "entry b; entry b; var 0; int 1; var 1; int 2; true; if 2 3 4; if 0 1 5; sym 6",
            "10 at 7",
        ),
    ];
    for (short, answer) in cases {
        assert_eq!(says(short), answer, "{short}");
    }
}

/// Whether `condition`'s nodes, put before an `if` with branches of two types, leave one path only.
fn one_path(entries: &str, condition: &[&str]) -> bool {
    decided(entries, &condition.join("; ")).is_some()
}

#[test]
fn equalities_and_the_log() {
    // Words: x + 1 = 1 + x is true, x + 1 = 2 + x is false, x = 1 is open.
    assert!(one_path(
        "entry i; ",
        &["var 0", "int 1", "add 0 1", "int 1", "var 0", "add 3 4", "eq 2 5"]
    ));
    assert!(one_path(
        "entry i; ",
        &["var 0", "int 1", "add 0 1", "int 2", "var 0", "add 3 4", "eq 2 5"]
    ));
    assert!(!one_path("entry i; ", &["var 0", "int 1", "eq 0 1"]));
    // x = y and not y = x is impossible: a difference and its negation are one atom.
    assert!(one_path(
        "entry i; entry i; ",
        &["var 0", "var 1", "eq 0 1", "var 1", "var 0", "eq 3 4", "not 5", "and 2 6"]
    ));
    // The same of two references.
    assert!(one_path(
        "entry ri; entry ri; ",
        &["var 0", "var 1", "eq 0 1", "var 1", "var 0", "eq 3 4", "not 5", "and 2 6"]
    ));
    // 2 x = 2 and not x = 1 is possible, for different differences are different atoms.
    assert!(!one_path(
        "entry i; ",
        &[
            "var 0", "var 0", "add 0 1", "int 2", "eq 2 3", "var 0", "int 1", "eq 5 6", "not 7",
            "and 4 8"
        ]
    ));
    // Truths: b = b always, b = not b never.
    assert!(one_path("entry b; ", &["var 0", "var 0", "eq 0 1"]));
    assert!(one_path(
        "entry b; ",
        &["var 0", "var 0", "not 1", "eq 0 2"]
    ));
    // Two `ref` symbols differ, and by U1 an entry's and a `ref`'s do.
    assert!(one_path(
        "",
        &["int 1", "ref 0", "int 1", "ref 2", "eq 1 3"]
    ));
    assert!(one_path(
        "entry ri; ",
        &["var 0", "int 1", "ref 1", "eq 0 2"]
    ));
    // A read passes over a write through another `ref` symbol, and by U1 over one through an entry.
    let read = [
        "int 1", "ref 0", "int 2", "ref 2", "var 0", "get 4", "int 1", "eq 5 6", "let 3 7",
        "let 1 8",
    ];
    assert!(one_path("", &read));
    let entry_write = [
        "int 1", "ref 0", "var 0", "int 2", "set 2 3", "var 1", "get 5", "int 1", "eq 6 7",
        "let 4 8", "let 1 9",
    ];
    assert!(one_path("entry ri; ", &entry_write));
    // Two reads without a write give two fresh symbols.
    assert!(!one_path(
        "entry ri; ",
        &["var 0", "get 0", "var 0", "get 2", "eq 1 3"]
    ));
    // A `ref` symbol stays one after a typed block.
    let after = [
        "int 1", "ref 0", "int 2", "ref 2", "int 0", "typed 4", "var 0", "var 1", "eq 6 7",
        "let 5 8", "let 3 9", "let 1 10",
    ];
    assert!(one_path("", &after));
}

/// A new cell, `var` 2, in a block with one entry, beside the reference that two nodes give and a
/// `let` binds, `var` 1: whether the cell's value is known after a write through the reference, the
/// reference's after the write of the cell, and whether the two are the same.
fn beside_a_new_cell(entry: &str, reference: &str) -> [Option<bool>; 3] {
    [
        "int 1; ref 2; var 1; int 2; set 4 5; var 2; get 7; int 1; eq 8 9; let 6 10; let 3 11; \
         let 1 12",
        "var 1; int 1; set 2 3; int 2; ref 5; var 1; get 7; int 1; eq 8 9; let 6 10; let 4 11; \
         let 1 12",
        "int 1; ref 2; var 2; var 1; eq 4 5; let 3 6; let 1 7",
    ]
    .map(|rest| decided(entry, &format!("{reference}; {rest}")))
}

#[test]
fn a_new_cell_is_never_an_old_one() {
    // A `ref`, a store through it, a store through an entry: what is read back is known.
    assert_eq!(
        says(
            "entry rb; false; ref 0; var 1; true; set 2 3; var 0; false; set 5 6; var 1; get 8; \
             int 1; var 99; if 9 10 11; let 7 12; let 4 13; let 1 14; sym 15"
        ),
        "i"
    );
    // A `let` that binds a variable's symbol or a `ref` symbol leaves it what it is.
    let different = [Some(true), Some(true), Some(false)];
    assert_eq!(beside_a_new_cell("entry ri; ", "var 0; sym 0"), different);
    assert_eq!(beside_a_new_cell("entry ri; ", "int 5; ref 0"), different);
    // What a `get` or a typed block makes may be the new cell.
    assert_eq!(beside_a_new_cell("entry rri; ", "var 0; get 0"), [None; 3]);
    assert_eq!(beside_a_new_cell("entry ri; ", "var 0; typed 0"), [None; 3]);
    let cases = [
        // The same of a variable itself, in both orders of `eq`.
        ("entry ri; ", "var 0; int 1; ref 1; eq 0 2", Some(false)),
        ("entry ri; ", "int 1; ref 0; var 0; eq 1 2", Some(false)),
        (
            "entry ri; ",
            "var 0; int 1; set 0 1; int 2; ref 3; var 0; get 5; int 1; eq 6 7; let 4 8; let 2 9",
            Some(true),
        ),
        // Writes through two entries are passed over, one of them of another type.
        (
            "entry ri; entry rb; ",
            "int 1; ref 0; var 0; int 2; set 2 3; var 1; true; set 5 6; var 2; get 8; int 1; \
             eq 9 10; let 7 11; let 4 12; let 1 13",
            Some(true),
        ),
        // Two entries may still be one cell, also behind a new cell's write.
        (
            "entry ri; entry ri; ",
            "var 0; int 1; set 0 1; var 1; int 2; set 3 4; int 3; ref 6; var 0; get 8; int 1; \
             eq 9 10; let 7 11; let 5 12; let 2 13",
            None,
        ),
        // A `get` that finds an entry's symbol in the log gives that symbol.
        (
            "entry ri; ",
            "var 0; ref 0; int 1; ref 2; var 1; get 4; int 2; set 5 6; var 2; get 8; int 1; \
             eq 9 10; let 7 11; let 3 12; let 1 13",
            Some(true),
        ),
        // After a typed block it finds none.
        (
            "entry ri; ",
            "var 0; ref 0; int 0; typed 2; int 1; ref 4; var 1; get 6; int 2; set 7 8; var 3; \
             get 10; int 1; eq 11 12; let 9 13; let 5 14; let 3 15; let 1 16",
            None,
        ),
        // On each of two paths the new cell is not the entry's.
        (
            "entry ri; entry b; ",
            "var 1; int 1; ref 1; int 2; ref 3; if 0 2 4; var 0; eq 5 6",
            Some(false),
        ),
    ];
    for (entries, condition, answer) in cases {
        assert_eq!(decided(entries, condition), answer, "{condition}");
    }
}

#[test]
fn a_new_cell_changes_no_other_rule() {
    let cases = [
        // Types come first in `eq`.
        ("entry rb; int 1; ref 0; var 0; eq 1 2; sym 3", "6 at 3"),
        // A wrong write through a certainly different symbol is a wrong write.
        (
            "entry ri; int 1; ref 0; var 1; true; set 2 3; var 0; get 5; let 4 6; let 1 7; sym 8",
            "9 at 6",
        ),
        (
            "entry ri; var 0; true; set 0 1; int 7; ref 3; let 2 4; sym 5",
            "9 at 6",
        ),
    ];
    for (short, answer) in cases {
        assert_eq!(says(short), answer, "{short}");
    }
}

#[test]
fn variables_are_those_when_the_path_began() {
    // A new cell is read back after a write through what the `let` outside of it binds; the `sym`
    // stands over the `let`, or in it, or both, or both with a typed block between.
    let answers = |entry: &str, reference: &str| {
        [
            "let 1 15; sym 16",
            "sym 15; let 1 16",
            "sym 15; let 1 16; sym 17",
            "sym 15; typed 16; let 1 17; sym 18",
        ]
        .map(|blocks| {
            says(&format!(
                "{entry}; {reference}; int 1; ref 2; var 1; int 2; set 4 5; var 2; get 7; int 1; \
                 eq 8 9; let 6 10; let 3 11; int 1; true; if 12 13 14; {blocks}"
            ))
        })
    };
    let open_inside = ["10 at 17", "i", "10 at 18", "i"];
    assert_eq!(answers("entry rri", "var 0; get 0"), open_inside);
    assert_eq!(answers("entry ri", "var 0; typed 0"), open_inside);
    assert_eq!(answers("entry ri", "var 0; sym 0"), ["i"; 4]);
    assert_eq!(answers("entry ri", "int 5; ref 0"), ["i"; 4]);
    // Two `ref` cells of an outer path are variables, and may be one cell, on an inner path.
    let cells = [
        ("let 3 9; let 1 10; sym 11", "b"),
        ("sym 9; let 3 10; let 1 11", "10 at 10"),
        ("sym 9; let 3 10; let 1 11; sym 12", "b"),
        ("sym 9; typed 10; let 3 11; let 1 12; sym 13", "10 at 10"),
    ];
    for (blocks, answer) in cells {
        let short = format!(
            "int 1; ref 0; int 1; ref 2; var 0; var 1; eq 4 5; int 1; true; if 6 7 8; {blocks}"
        );
        assert_eq!(says(&short), answer, "{short}");
    }
    // After a typed block the outer path's symbols are what they were.
    let after = [
        (
            "int 1; ref 0; var 1; sym 2; typed 3; var 0; var 1; eq 5 6; let 4 7; let 1 8",
            Some(false),
        ),
        (
            "int 0; ref 0; int 0; typed 2; var 1; int 1; set 4 5; var 0; int 2; set 7 8; var 1; \
             get 10; int 1; eq 11 12; let 9 13; let 6 14; let 3 15; let 1 16",
            Some(true),
        ),
        (
            "int 0; typed 0; var 0; int 1; set 2 3; int 2; ref 5; var 0; get 7; int 1; eq 8 9; \
             let 6 10; let 4 11; let 1 12",
            Some(true),
        ),
    ];
    for (condition, answer) in after {
        assert_eq!(decided("entry ri; ", condition), answer, "{condition}");
    }
}

#[test]
fn a_new_cell_and_an_old_one_bring_no_atom() {
    // One `if` on ten truth entries and on two references not being the same.
    let with_ten_atoms = |references: &str| {
        let mut lines = vec!["entry b".to_string(); 10];
        lines.extend(["entry ri", "entry ri", "entry rri", "var 0"].map(String::from));
        for k in 1..10 {
            lines.push(format!("var {k}"));
            lines.push(format!("and {} {}", 2 * k - 2, 2 * k - 1));
        }
        lines.push(references.to_string());
        lines.push("eq 20 21; not 22; and 18 23; int 1; int 2; if 24 25 26; sym 27".to_string());
        says(&lines.join("; "))
    };
    assert_eq!(with_ten_atoms("int 1; ref 19; var 10"), "i");
    assert_eq!(with_ten_atoms("var 11; sym 19; var 10"), "12 at 27");
    assert_eq!(with_ten_atoms("var 12; get 19; var 10"), "12 at 27");
    assert_eq!(with_ten_atoms("var 10; typed 19; var 10"), "12 at 27");
}

#[test]
fn atoms_of_a_forced_branch_count() {
    // `if (and b0 (not b0))` takes the false branch only, and its atom still counts.
    let mut lines = vec!["entry b".to_string(); 11];
    lines.extend(
        [
            "var 0", "var 0", "not 1", "and 0 2", "int 1", "int 2", "if 3 4 5",
        ]
        .map(String::from),
    );
    lines.push("var 1".to_string());
    let mut last = 7;
    for k in 2..11 {
        lines.push(format!("var {k}"));
        lines.push(format!("and {last} {}", last + 1));
        last += 2;
    }
    for line in [
        "int 1".to_string(),
        "int 2".to_string(),
        format!("if {last} {} {}", last + 1, last + 2),
        format!("let 6 {}", last + 3),
        format!("sym {}", last + 4),
    ] {
        lines.push(line);
    }
    assert_eq!(says(&lines.join("; ")), format!("12 at {}", last + 3));
    // With one entry less in the conjunction there are 10.
    let fewer = lines.join("; ").replacen("var 10", "var 1", 1);
    assert_eq!(says(&fewer), "i");
}

#[test]
fn the_64th_path_ends_before_11() {
    // The last `if` gives a truth in its false branch, and it is the value of the block.
    let mixed = "entry b; ".repeat(7)
        + "var 0; int 1; int 2; if 0 1 2; var 1; int 1; int 2; if 4 5 6; var 2; int 1; int 2; \
           if 8 9 10; var 3; int 1; int 2; if 12 13 14; var 4; int 1; int 2; if 16 17 18; var 5; \
           int 1; int 2; if 20 21 22; var 6; int 1; true; if 24 25 26; let 23 27; let 19 28; \
           let 15 29; let 11 30; let 7 31; let 3 32; sym 33";
    assert_eq!(says(&mixed), "10 at 34");
    // The first `if`'s false branch starts the 65th path: 11 comes before its unknown variable.
    let late = ifs_in_a_row(7).replacen("int 2", "var 99", 1);
    assert_eq!(says(&late), "11 at 36");
    // The second `if`'s false branch is met on the 33rd path.
    let early = ifs_in_a_row(7).replacen("var 1; int 1; int 2", "var 1; int 1; var 99", 1);
    assert_eq!(says(&early), "7 at 6");
}

#[test]
fn shared_truths_stay_small() {
    // let x = and x x, thirty times.
    let mut lines = vec!["entry b".to_string()];
    for k in 0..30 {
        lines.push(format!("var {k}"));
        lines.push(format!("var {k}"));
        lines.push(format!("and {} {}", 3 * k, 3 * k + 1));
    }
    lines.extend(["var 30", "int 1", "int 2", "if 90 91 92"].map(String::from));
    let mut body = 93;
    for k in (0..30).rev() {
        lines.push(format!("let {} {body}", 3 * k + 2));
        body += 1;
    }
    lines.push(format!("sym {body}"));
    assert_eq!(says(&lines.join("; ")), "i");
}

#[test]
fn writing_gives_the_one_spelling() {
    let all = text(
        "entry b; entry rri; int 4294967295; true; false; var 143; add 0 1; eq 2 3; not 4; and 5 6; \
         true; true; if 7 8 9; int 0; let 10 11; ref 12; get 13; int 3; set 14 15; typed 16; sym 17",
    );
    let script = read(&all).expect("a script");
    assert_eq!(script.entries, [1, 4]);
    assert_eq!(script.nodes[10].kind, 8);
    assert_eq!(script.nodes[10].operands, [7, 8, 9]);
    assert_eq!(script.nodes[2].operands, [0, 0, 0]);
    assert_eq!(write(&script), all);
    let names: Vec<String> = [0, 1, 2, 5, 31].into_iter().map(type_name).collect();
    assert_eq!(names, ["i", "b", "ri", "rrb", "rrrrrrrrrrrrrrrb"]);
}

#[test]
fn runs_with_cells() {
    // set entry 0 to 300, then ref true, then read entry 0 again.
    let short = "entry ri; var 0; int 300; set 0 1; true; ref 3; var 0; get 5; let 4 6; let 2 7";
    let mut lent = cells(&[[0, 9, 0, 0, 0], [1, 1, 0, 0, 0]]);
    let outcome = run_text(&text(short), &[2, 0, 0, 0, 0], &mut lent, 2);
    let value = Outcome::Value {
        kind: 0,
        bits: 300,
        used: 3,
    };
    assert_eq!(outcome, Ok(value));
    let expected = cells(&[[0, 44, 1, 0, 0], [1, 1, 0, 0, 0], [1, 1, 0, 0, 0]]);
    assert_eq!(lent, expected);

    let location = Outcome::Value {
        kind: 2,
        bits: 0,
        used: 1,
    };
    assert_eq!(runs("int 1; ref 0"), location);
    let truth = |bits| Outcome::Value {
        kind: 1,
        bits,
        used: 2,
    };
    assert_eq!(runs("int 1; ref 0; int 1; ref 2; eq 1 3"), truth(0));
    assert_eq!(
        runs("int 1; ref 0; ref 1; get 2; var 0; var 0; eq 4 5; let 3 6"),
        truth(1)
    );
    // A run does not need acceptance: one branch only is evaluated, blocks have no effect.
    let five = Outcome::Value {
        kind: 0,
        bits: 5,
        used: 0,
    };
    assert_eq!(
        runs("true; int 5; true; int 3; add 2 3; if 0 1 4; typed 5; sym 6"),
        five
    );
}

#[test]
fn most_cells_fit() {
    let mut lines = vec!["true".to_string()];
    lines.extend((0..127).map(|operand| format!("ref {operand}")));
    let mut lent = cells(&[[0; 5]; 64]);
    let outcome = run_text(&text(&lines.join("; ")), &[], &mut lent, 64);
    let value = Outcome::Value {
        kind: 2,
        bits: 190,
        used: 191,
    };
    assert_eq!(outcome, Ok(value));
    assert_eq!(lent[950..955], [2, 189, 0, 0, 0]);
    assert_eq!(lent[955..], [0xEE; 5]);
}

#[test]
fn error_states() {
    let error = |node, used| Outcome::Error { node, used };
    assert_eq!(runs("int 1; true; add 0 1"), error(2, 0));
    assert_eq!(runs("int 1; true; eq 0 1"), error(2, 0));
    assert_eq!(runs("int 1; not 0"), error(1, 0));
    assert_eq!(runs("false; int 1; and 0 1"), error(2, 0));
    assert_eq!(runs("int 1; int 1; int 1; if 0 1 2"), error(3, 0));
    assert_eq!(runs("int 0; get 0"), error(1, 0));
    assert_eq!(runs("int 0; int 1; ref 1; set 0 2"), error(3, 1));
    assert_eq!(runs("var 0"), error(0, 0));
    assert_eq!(runs("int 1; var 0; let 0 1; var 0; add 2 3"), error(3, 0));
    // The cells are as they were then: the store and the new cell stay.
    let short = "entry ri; var 0; true; set 0 1; int 6; ref 3; var 9; let 4 5; let 2 6";
    let mut lent = cells(&[[0, 9, 0, 0, 0]]);
    let outcome = run_text(&text(short), &[2, 0, 0, 0, 0], &mut lent, 1);
    assert_eq!(outcome, Ok(error(5, 2)));
    assert_eq!(lent, cells(&[[1, 1, 0, 0, 0], [0, 6, 0, 0, 0]]));
}

#[test]
fn refusals_34_and_35() {
    let script = read(&text("entry i; var 0; ref 0")).expect("a script");
    let refused = |values: &[u8], mut lent: Vec<u8>, used: u32| {
        let before = lent.clone();
        let answer = run(&script, values, &mut lent, used);
        assert_eq!(lent, before);
        answer.map(|_| ()).expect_err("a refusal")
    };
    let word = [0, 1, 0, 0, 0];
    assert_eq!(refused(&word, cells(&[word; 65]), 65), nowhere(35));
    assert_eq!(refused(&word, vec![0; 959], 0), nowhere(35));
    // 35 comes before 34.
    assert_eq!(refused(&[], vec![0; 955], 0), nowhere(35));
    assert_eq!(refused(&[], cells(&[]), 0), nowhere(34));
    assert_eq!(refused(&[0; 10], cells(&[]), 0), nowhere(34));
    assert_eq!(refused(&[0; 6], cells(&[]), 0), nowhere(34));
    assert_eq!(refused(&[3, 0, 0, 0, 0], cells(&[]), 0), nowhere(34));
    assert_eq!(refused(&[1, 2, 0, 0, 0], cells(&[]), 0), nowhere(34));
    assert_eq!(refused(&[1, 1, 0, 0, 1], cells(&[]), 0), nowhere(34));
    assert_eq!(refused(&[2, 0, 0, 0, 0], cells(&[]), 0), nowhere(34));
    assert_eq!(refused(&[2, 1, 0, 0, 0], cells(&[word]), 1), nowhere(34));
    assert_eq!(refused(&word, cells(&[[3, 0, 0, 0, 0]]), 1), nowhere(34));
    assert_eq!(refused(&word, cells(&[[2, 1, 0, 0, 0]]), 1), nowhere(34));
    assert_eq!(refused(&word, vec![0; 961], 0), nowhere(34));
    // A kind need not be that of the entry's type, and unused cells may hold anything.
    let mut lent = cells(&[]);
    assert!(run(&script, &[1, 1, 0, 0, 0], &mut lent, 0).is_ok());
    // The text's own refusals come first.
    assert_eq!(run_text(b"", &[], &mut [], 99), Err(nowhere(3)));
}

#[test]
fn a_table_that_no_text_gives_is_refused_too() {
    let leaf = Node {
        kind: 1,
        operands: [0; 3],
    };
    let refused = |entries: Vec<u32>, nodes: Vec<Node>| {
        check(&Script { entries, nodes }).expect_err("a refusal")
    };
    let at = |number, place| Refusal {
        number,
        place: Some(place),
    };
    assert_eq!(refused(vec![0; 17], vec![leaf]), nowhere(2));
    assert_eq!(refused(vec![], vec![leaf; 129]), nowhere(2));
    assert_eq!(refused(vec![], vec![]), nowhere(3));
    assert_eq!(refused(vec![32], vec![leaf]), nowhere(33));
    let odd = |kind, operands| Node { kind, operands };
    assert_eq!(refused(vec![], vec![leaf, odd(15, [0; 3])]), at(4, 1));
    assert_eq!(refused(vec![], vec![odd(3, [144, 0, 0])]), at(4, 0));
    assert_eq!(refused(vec![], vec![odd(1, [0, 0, 1])]), at(4, 0));
    assert_eq!(refused(vec![], vec![odd(6, [0, 0, 0])]), at(4, 0));
    assert_eq!(refused(vec![], vec![leaf, leaf]), at(5, 0));
}
