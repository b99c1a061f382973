//! Fixed runs: values, error states, used counts and cells, and the refusals 34 and 35.

use conformance::fixed::{fails, gives, refused, refused_whole, station, text, turned_down};
use conformance::fixed::{location, truth, word, Ran, Trial};
use conformance::spelling::spelled;
use conformance::stations::{lend, Station};

type Values<'a> = &'a [[u8; 5]];

/// Runs of expressions: a name, the expression, entry values, used cells, and what comes of it.
fn expressions(trial: &mut Trial, rows: &[(&str, &str, Values, Values, Ran)]) {
    for (name, expression, values, cells, expected) in rows {
        let entries = vec!["i"; values.len()].join(" ");
        let script = spelled(&entries, expression);
        trial.run(name, &script.text, &station(values, cells), expected);
    }
}

#[test]
#[rustfmt::skip] // one case a line
fn values() {
    let mut trial = Trial::new();
    let max = u32::MAX;
    expressions(
        &mut trial,
        &[
            ("int", "7", &[], &[], gives(word(7), &[])),
            ("the largest int", "4294967295", &[], &[], gives(word(max), &[])),
            ("true", "true", &[], &[], gives(truth(1), &[])),
            ("false", "false", &[], &[], gives(truth(0), &[])),
            ("var", "v1", &[word(1), word(0x0403_0201)], &[], gives(word(0x0403_0201), &[])),
            ("add around", "(add v0 v0)", &[word(1 << 31)], &[], gives(word(0), &[])),
            ("add to the largest", "(add v0 2)", &[word(max)], &[], gives(word(1), &[])),
            ("eq of words", "(eq v0 3)", &[word(3)], &[], gives(truth(1), &[])),
            ("eq of other words", "(eq v0 3)", &[word(4)], &[], gives(truth(0), &[])),
            ("eq of truths", "(eq v0 false)", &[truth(0)], &[], gives(truth(1), &[])),
            ("eq of locations", "(eq v0 v1)", &[location(0), location(0)], &[word(1)], gives(truth(1), &[word(1)])),
            ("eq of other locations with equal cells", "(eq v0 v1)", &[location(0), location(1)], &[word(1), word(1)], gives(truth(0), &[word(1), word(1)])),
            ("not", "(not v0)", &[truth(1)], &[], gives(truth(0), &[])),
            ("and", "(and v0 true)", &[truth(1)], &[], gives(truth(1), &[])),
            ("and with false", "(and v0 true)", &[truth(0)], &[], gives(truth(0), &[])),
            ("if true", "(if v0 1 2)", &[truth(1)], &[], gives(word(1), &[])),
            ("if false", "(if v0 1 2)", &[truth(0)], &[], gives(word(2), &[])),
            ("let", "(let 5 (let true (add v0 v0)))", &[], &[], gives(word(10), &[])),
            ("entries before lets", "(let 5 (add v0 v1))", &[word(2)], &[], gives(word(7), &[])),
            ("ref", "(ref 9)", &[], &[], gives(location(0), &[word(9)])),
            ("ref behind a used cell", "(ref v0)", &[location(0)], &[truth(1)], gives(location(1), &[truth(1), location(0)])),
            ("ref of ref", "(ref (ref true))", &[], &[], gives(location(1), &[truth(1), location(0)])),
            ("get", "(get v0)", &[location(1)], &[word(1), word(2)], gives(word(2), &[word(1), word(2)])),
            ("set", "(set v0 v1)", &[location(0), word(5)], &[word(1)], gives(word(5), &[word(5)])),
            ("set of another kind", "(set v0 true)", &[location(0)], &[word(1)], gives(truth(1), &[truth(1)])),
            ("set of its own location", "(set v0 v0)", &[location(0)], &[word(1)], gives(location(0), &[location(0)])),
            ("blocks have no effect", "(typed (sym (typed v0)))", &[word(3)], &[], gives(word(3), &[])),
            ("counting in a cell", "(let (ref 1) (let (set v0 (add (get v0) 1)) (set v0 (add (get v0) 1))))", &[], &[], gives(word(3), &[word(3)])),
        ],
    );
    trial.end("values of runs");
}

#[test]
#[rustfmt::skip] // one case a line
fn order_of_evaluation() {
    let mut trial = Trial::new();
    let at = |cell: u32| [location(cell)];
    expressions(
        &mut trial,
        &[
            ("left, then right", "(add (set v0 5) (get v0))", &at(0), &[word(1)], gives(word(10), &[word(5)])),
            ("right after left", "(add (get v0) (set v0 5))", &at(0), &[word(1)], gives(word(6), &[word(5)])),
            ("and evaluates both", "(and false (set v0 true))", &at(0), &[word(1)], gives(truth(0), &[truth(1)])),
            ("if evaluates one branch", "(if true 1 (set v0 5))", &at(0), &[word(1)], gives(word(1), &[word(1)])),
            ("if evaluates the other", "(if false (set v0 5) 1)", &at(0), &[word(1)], gives(word(1), &[word(1)])),
            ("let evaluates its value once", "(let (set v0 (add (get v0) 1)) (add v1 v1))", &at(0), &[word(1)], gives(word(4), &[word(2)])),
            ("let evaluates an unused value", "(let (set v0 5) 1)", &at(0), &[word(1)], gives(word(1), &[word(5)])),
            ("set evaluates its location first", "(set (let (set v0 3) v0) (get v0))", &at(0), &[word(1)], gives(word(3), &[word(3)])),
            ("cells in order", "(eq (ref 1) (ref 2))", &[], &[], gives(truth(0), &[word(1), word(2)])),
        ],
    );
    let turned = text("entry ri; var 0; get 0; var 0; int 5; set 2 3; add 4 1");
    let cells = station(&at(0), &[word(1)]);
    trial.run("by place, not by number", &turned, &cells, &gives(word(10), &[word(5)]));
    trial.end("order of evaluation");
}

#[test]
#[rustfmt::skip] // one case a line
fn error_states() {
    let mut trial = Trial::new();
    let two = [location(0), word(3)];
    let wrong_kinds = [
        ("(add v1 true)", 2),
        ("(add true v1)", 2),
        ("(add v0 v1)", 2),
        ("(eq v1 true)", 2),
        ("(eq v0 v1)", 2),
        ("(eq true v0)", 2),
        ("(not v1)", 1),
        ("(not v0)", 1),
        ("(and true v1)", 2),
        ("(and v1 true)", 2),
        ("(and false v1)", 2),
        ("(if v1 1 2)", 3),
        ("(if v0 1 2)", 3),
        ("(get v1)", 1),
        ("(get true)", 1),
        ("(set v1 v1)", 2),
        ("(set false v1)", 2),
        ("v2", 0),
        ("(let 1 v3)", 1),
        ("(let v2 1)", 0),
        ("(sym (typed (not v1)))", 1),
        ("(add (not v1) v9)", 1),
    ];
    for (expression, node) in wrong_kinds {
        expressions(&mut trial, &[(expression, expression, &two, &[word(1)], fails(node, &[word(1)]))]);
    }
    expressions(
        &mut trial,
        &[
            ("what was stored before stays", "(let (set v0 5) (not v1))", &two, &[word(1)], fails(4, &[word(5)])),
            ("what operands stored stays", "(add (set v0 true) (ref 4))", &two, &[word(1)], fails(5, &[truth(1), word(4)])),
            ("cells that were added stay", "(let (ref 8) (get true))", &two, &[word(1)], fails(3, &[word(1), word(8)])),
            ("a wrong set stores nothing", "(set v1 (ref 6))", &two, &[word(1)], fails(3, &[word(1), word(6)])),
            ("an if before its branches", "(if (ref 6) (set v0 2) (set v0 3))", &two, &[word(1)], fails(8, &[word(1), word(6)])),
            ("among 64 used cells", "(not v1)", &two, &[word(1); 64], fails(1, &[word(1); 64])),
            ("an untaken branch gives no error", "(if true 1 (not 1))", &[], &[], gives(word(1), &[])),
            ("no error by types alone", "(if true 1 true)", &[], &[], gives(word(1), &[])),
            ("a wrong content only when it is used", "(let (set v0 true) (add (get v0) 1))", &two, &[word(1)], fails(6, &[truth(1)])),
        ],
    );
    trial.end("error states");
}

#[test]
#[rustfmt::skip] // one case a line
fn lent_lengths_and_used_counts() {
    let mut trial = Trial::new();
    let script = text("int 1; ref 0");
    let host = |length: usize, used: u32| Station { values: Vec::new(), cells: lend(&[0; 960], length), used };
    let all = |used: usize| vec![word(0); used];
    let added = |used: usize| gives(location(used as u32), &[all(used), vec![word(1)]].concat());
    trial.run("960 bytes", &script, &host(960, 0), &added(0));
    trial.run("965 bytes", &script, &host(965, 0), &added(0));
    trial.run("4,000 bytes", &script, &host(4000, 3), &added(3));
    trial.run("64 used", &script, &host(960, 64), &added(64));
    for length in [0, 1, 5, 320, 955, 956, 959] {
        let name = format!("{length} bytes");
        trial.run(&name, &script, &host(length, 0), &turned_down(refused_whole(35)));
    }
    for length in [961, 962, 963, 964, 966, 1001] {
        let name = format!("{length} bytes");
        trial.run(&name, &script, &host(length, 0), &turned_down(refused_whole(34)));
    }
    for used in [65, 66, 128, 191, 192, 193, 256, 65_536, 1 << 31, u32::MAX] {
        let name = format!("{used} used");
        trial.run(&name, &script, &host(960, used), &turned_down(refused_whole(35)));
    }
    let mut refs = "true".to_string();
    for node in 1..128 {
        refs += &format!("; ref {}", node - 1);
    }
    let mut cells = vec![word(0); 64];
    cells.push(truth(1));
    cells.extend((64..190).map(location));
    trial.run("127 added to 64", &text(&refs), &host(960, 64), &gives(location(190), &cells));
    trial.end("lent lengths and used counts");
}

#[test]
#[rustfmt::skip] // one case a line
fn values_and_cells_that_are_refused() {
    let mut trial = Trial::new();
    let script = text("entry i; entry b; int 1; ref 0");
    let good = [word(1), truth(0)];
    let kind = |kind: u8, bits: u32| conformance::stations::bytes_of(kind, bits);
    let wrong = || turned_down(refused_whole(34));
    trial.run("taken", &script, &station(&good, &[]), &gives(location(0), &[word(1)]));
    trial.run("kinds need not fit types", &script, &station(&[truth(1), word(9)], &[]), &gives(location(0), &[word(1)]));
    let bad_values = [kind(3, 0), kind(255, 0), truth(2), truth(256), truth(u32::MAX), location(1), location(u32::MAX)];
    for bad in bad_values {
        let cells = [word(5)];
        trial.run("a value", &script, &station(&[word(1), bad], &cells), &wrong());
        trial.run("the first value", &script, &station(&[bad, word(1)], &cells), &wrong());
        trial.run("one value too many", &script, &station(&[word(1), word(1), bad], &cells), &wrong());
    }
    for bad in [kind(3, 0), kind(255, 0), truth(2), truth(256), location(2), location(64), location(u32::MAX)] {
        trial.run("a used cell", &script, &station(&good, &[bad, word(1)]), &wrong());
        trial.run("the last used cell", &script, &station(&good, &[word(1), bad]), &wrong());
    }
    trial.run("a location without used cells", &script, &station(&[location(0), word(1)], &[]), &wrong());
    trial.run("too few values", &script, &station(&good[..1], &[]), &wrong());
    trial.run("no value", &script, &station(&[], &[]), &wrong());
    trial.run("too many values", &script, &station(&[word(1); 3], &[]), &wrong());
    for length in [1, 4, 6, 9, 11, 14] {
        let mut host = station(&[word(1); 3], &[]);
        host.values.truncate(length);
        trial.run("values cut off", &script, &host, &wrong());
    }
    let mut host = station(&good, &[word(4)]);
    host.cells[5..10].copy_from_slice(&[9, 9, 9, 9, 9]);
    host.cells[10..15].copy_from_slice(&truth(7));
    trial.run("cells behind the used ones", &script, &host, &gives(location(1), &[word(4), word(1)]));
    trial.end("values and cells that are refused");
}

#[test]
#[rustfmt::skip] // one case a line
fn order_of_refusals_in_runs() {
    let mut trial = Trial::new();
    let bad = |used: u32, length: usize| Station { values: vec![7], cells: lend(&[], length), used };
    let rows = [
        ("the text before 35", "x", refused(1, 0)),
        ("3 before 35", "", refused_whole(3)),
        ("4 before 35", "not 0", refused(4, 0)),
        ("5 before 35", "true; true", refused(5, 0)),
        ("13 before 35", "true; sym 0; sym 1; sym 2; sym 3; sym 4", refused(13, 1)),
        ("35 before 34", "true", refused_whole(35)),
        ("a run needs no acceptance: 35, not 6", "int 1; not 0", refused_whole(35)),
    ];
    for (name, script, answer) in rows {
        trial.run(name, &text(script), &bad(65, 960), &turned_down(answer));
        trial.run(name, &text(script), &bad(0, 959), &turned_down(answer));
        trial.run(name, &text(script), &bad(u32::MAX, 0), &turned_down(answer));
    }
    trial.run("31 before all", &[b'\n'; 8193], &bad(65, 0), &turned_down(refused_whole(31)));
    trial.run("34 where 35 does not fit", &text("true"), &bad(0, 960), &turned_down(refused_whole(34)));
    trial.run("not accepted, but run", &text("int 1; not 0"), &station(&[], &[]), &fails(1, &[]));
    let unknown = text("entry i; var 7; var 0; let 1 0; sym 2");
    trial.run("an unknown variable in a block", &unknown, &station(&[word(1)], &[]), &fails(0, &[]));
    trial.end("order of refusals in runs");
}
