//! Fixed scripts with nodes that are used again or never (5), around the ends of a script and of a
//! word of 64 bits. Others are in `fixed_text`.

use conformance::fixed::{accepted, nots, refused, text, Trial};
use std::collections::BTreeSet;

/// A line and its place, which is the node's number.
type Line = (usize, String);

/// So many nodes, `not` over `true`, but for some lines.
fn nots_but(nodes: usize, lines: &[Line]) -> String {
    let script = nots(nodes);
    let mut all: Vec<&str> = script.split("; ").collect();
    for (place, line) in lines {
        all[*place] = line;
    }
    all.join("; ")
}

/// The line after a node, which alone has used it: by none, twice, three times.
fn unused(node: usize) -> Line {
    (node + 1, "true".into())
}

fn twice(node: usize) -> Line {
    (node + 1, format!("and {node} {node}"))
}

fn three_times(node: usize) -> Line {
    (node + 1, format!("if {node} {node} {node}"))
}

/// The 128th line, if it uses this node too.
fn also_at_the_end(node: usize) -> Line {
    (127, format!("and 126 {node}"))
}

#[test]
#[rustfmt::skip] // one case a line
fn uses_in_short_scripts() {
    let mut trial = Trial::new();
    trial.rows(&[
        ("one node", "false", accepted("b")),
        ("one node, an entry", "entry ri; var 0", accepted("ri")),
        ("two places of one", "true; and 0 0", refused(5, 0)),
        ("three places of one", "true; if 0 0 0", refused(5, 0)),
        ("two of three places", "true; true; if 0 1 0", refused(5, 0)),
        ("the other two of three places", "true; true; if 0 1 1", refused(5, 1)),
        ("by three nodes", "true; not 0; not 0; not 0; if 1 2 3", refused(5, 0)),
        ("two places each of two nodes", "true; and 0 0; and 0 0; and 1 2", refused(5, 0)),
        ("below the last, twice", "true; not 0; and 1 1", refused(5, 1)),
        ("below the last, never", "true; not 0; true", refused(5, 1)),
        ("used, and its user is not", "true; not 0; true; not 2", refused(5, 1)),
        ("0 never, 1 twice", "true; true; true; if 2 1 1", refused(5, 0)),
        ("0 twice, 1 never", "true; true; true; if 2 0 0", refused(5, 0)),
        ("1 never, 2 twice", "true; true; true; if 0 2 2", refused(5, 1)),
        ("1 twice, 2 never", "true; true; true; if 0 1 1", refused(5, 1)),
        ("0 three times, 1 never", "true; true; if 0 0 0", refused(5, 0)),
        ("1 never, 2 three times", "true; true; true; if 2 2 2; and 3 0", refused(5, 1)),
        ("1 three times, 2 never", "true; true; true; if 1 1 1; and 3 0", refused(5, 1)),
        ("0 and 1 twice, 1 first", "true; true; and 1 1; if 2 0 0", refused(5, 0)),
        ("0 and 1 never", "true; true; true; not 2", refused(5, 0)),
        ("1 and 2 never", "true; true; true; not 0", refused(5, 1)),
        ("a number is no use", "int 0; int 0; int 1; add 0 1; add 3 2", accepted("i")),
        ("nor is an entry's", "entry b; true; var 0; not 1", refused(5, 0)),
        ("nor its own", "int 0; true", refused(5, 0)),
    ]);
    trial.end("uses in short scripts");
}

#[test]
#[rustfmt::skip] // one case a line
fn uses_around_64_and_at_the_ends() {
    let mut trial = Trial::new();
    let mut try_it = |name: &str, nodes: usize, lines: &[Line], answer| {
        let name = format!("{name}, of {nodes} nodes: {lines:?}");
        trial.check(&name, &text(&nots_but(nodes, lines)), answer);
    };
    for node in [0, 1, 62, 63, 64, 65, 125, 126] {
        let answer = refused(5, node as u32);
        for nodes in BTreeSet::from([node + 2, 128.min(node + 3), 128]) {
            try_it("not used", nodes, &[unused(node)], answer);
            try_it("used twice", nodes, &[twice(node)], answer);
            try_it("used three times", nodes, &[three_times(node)], answer);
        }
    }
    for node in [0, 1, 62, 63, 64, 65, 125] {
        let answer = refused(5, node as u32);
        try_it("used by two", 128, &[also_at_the_end(node)], answer);
        try_it("used in three places of two", 128, &[twice(node), also_at_the_end(node)], answer);
        try_it("used by the last alone", 128, &[unused(node), also_at_the_end(node)], accepted("b"));
    }
    for nodes in [1, 2, 62, 63, 64, 65, 66, 67, 126, 127, 128] {
        try_it("each used once", nodes, &[], accepted("b"));
    }
    trial.end("uses around 64 and at the ends");
}

#[test]
#[rustfmt::skip] // one case a line
fn two_wrong_uses() {
    let mut trial = Trial::new();
    for (low, high) in [(0, 1), (0, 64), (0, 126), (5, 69), (62, 63), (62, 64), (63, 64), (63, 126), (64, 65), (64, 126), (125, 126)] {
        let answer = refused(5, low as u32);
        let rows = [
            ("unused, unused", [unused(low), unused(high)]),
            ("unused, used again", [unused(low), twice(high)]),
            ("used again, unused", [twice(low), unused(high)]),
            ("used again, used again", [twice(low), twice(high)]),
            ("three times, used again", [three_times(low), twice(high)]),
            ("used again, three times", [twice(low), three_times(high)]),
        ];
        for (name, lines) in rows {
            trial.check(&format!("{low} and {high}: {name}"), &text(&nots_but(128, &lines)), answer);
        }
        if high < 126 {
            let lines = [twice(high), also_at_the_end(low)];
            trial.check(&format!("{high} is used again before {low} is"), &text(&nots_but(128, &lines)), answer);
        }
    }
    trial.end("two wrong uses");
}

#[test]
#[rustfmt::skip] // one case a line
fn uses_far_apart() {
    let mut trial = Trial::new();
    let leaves = vec!["true"; 64].join("; ");
    let pairs: Vec<String> = (0..63).map(|i| format!("; and {} {}", 2 * i, 2 * i + 1)).collect();
    let turned: Vec<String> = (0..63).map(|i| format!("; and {} {}", 2 * i + 1, 2 * i)).collect();
    let pairs = leaves.clone() + &pairs.concat();
    let five_sym = |line: Line| {
        let syms = (123..128).map(|node| (node, format!("sym {}", node - 1)));
        nots_but(128, &syms.chain([line]).collect::<Vec<_>>())
    };
    trial.rows(&[
        ("64 leaves, then pairs in their order", &pairs, accepted("b")),
        ("the same, the later first", &(leaves + &turned.concat()), accepted("b")),
        ("the same and one more", &(pairs.clone() + "; not 126"), accepted("b")),
        ("63 twice and 62 never", &pairs.replace("and 62 63", "and 63 63"), refused(5, 62)),
        ("62 twice and 63 never", &pairs.replace("and 62 63", "and 62 62"), refused(5, 62)),
        ("64 twice and 65 never", &pairs.replace("and 64 65", "and 64 64"), refused(5, 64)),
        ("65 twice and 64 never", &pairs.replace("and 64 65", "and 65 65"), refused(5, 64)),
        ("1 twice and 65 never", &pairs.replace("and 64 65", "and 64 1"), refused(5, 1)),
        ("65 twice and 1 never", &pairs.replace("and 0 1;", "not 0;").replace("and 66 67", "if 66 67 65"), refused(5, 1)),
        ("a second root of 128", &(pairs.clone() + "; true"), refused(5, 126)),
        ("five sym at the end", &five_sym((0, "true".into())), refused(13, 123)),
        ("5 at 64 before 13", &five_sym(unused(64)), refused(5, 64)),
        ("5 at 63 before 13", &five_sym(twice(63)), refused(5, 63)),
    ]);
    trial.end("uses far apart");
}
