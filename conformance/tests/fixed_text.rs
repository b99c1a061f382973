//! Fixed texts: what can be read, and the refusals 1 to 5, 13 and 31 with their places and order.
//! 32, 33 and 36 cannot come up: the calls take texts, so no table, type code or output is lent.

use conformance::fixed::{accepted, nots, refused, refused_whole, text, Checked, Trial};

/// So many entries, then `true`.
fn entries(count: usize) -> String {
    "entry i; ".repeat(count) + "true"
}

#[test]
#[rustfmt::skip] // one case a line
fn lines_and_fields() {
    let mut trial = Trial::new();
    let rows: [(&str, &[u8], Checked); 26] = [
        ("no byte", b"", refused_whole(3)),
        ("one line", b"true\n", accepted("b")),
        ("no LF", b"true", refused(1, 0)),
        ("no LF at the last line", b"true\nnot\t0", refused(1, 1)),
        ("bytes after the last LF", b"true\nx", refused(1, 1)),
        ("an empty line", b"\n", refused(1, 0)),
        ("an empty line at the end", b"true\n\n", refused(1, 1)),
        ("an empty line between", b"true\n\nnot\t0\n", refused(1, 1)),
        ("only LFs, 8,192", &[b'\n'; 8192], refused(1, 0)),
        ("CR LF", b"true\r\n", refused(1, 0)),
        ("CR", b"true\r", refused(1, 0)),
        ("a blank after", b"true \n", refused(1, 0)),
        ("a blank before", b" true\n", refused(1, 0)),
        ("a blank for a tab", b"int 5\n", refused(1, 0)),
        ("a tab before", b"\ttrue\n", refused(1, 0)),
        ("a tab after", b"true\t\n", refused(1, 0)),
        ("a doubled tab", b"int\t\t5\n", refused(1, 0)),
        ("a tab after a number", b"int\t5\t\n", refused(1, 0)),
        ("NUL", b"true\0\n", refused(1, 0)),
        ("NUL for LF", b"true\0", refused(1, 0)),
        ("NUL in a number", b"int\t5\0\n", refused(1, 0)),
        ("a byte above 127", b"tru\xe9\n", refused(1, 0)),
        ("a byte above 127 in a number", b"int\t\xb2\n", refused(1, 0)),
        ("a mark of byte order", b"\xef\xbb\xbftrue\n", refused(1, 0)),
        ("a vertical tab", b"int\x0b5\n", refused(1, 0)),
        ("a form feed", b"true\x0c\n", refused(1, 0)),
    ];
    for (name, text, answer) in rows {
        trial.check(name, text, answer);
    }
    trial.end("lines and fields");
}

#[test]
#[rustfmt::skip] // one case a line
fn words_numbers_and_types() {
    let mut trial = Trial::new();
    let wrong_lines = [
        "True",
        "TRUE",
        "tru",
        "truex",
        "x",
        "int",
        "true 0",
        "false 0",
        "int 1 2",
        "var",
        "var 0 0",
        "int 00",
        "int 01",
        "int 007",
        "int -1",
        "int +1",
        "int 1a",
        "int a",
        "int 0x1",
        "int 1.0",
        "int 4294967296",
        "int 4294967297",
        "int 8589934592",
        "int 9999999999",
        "int 42949672950",
        "int 18446744073709551616",
        "int 340282366920938463463374607431768211456",
        "var 144",
        "var 256",
        "var 4294967296",
        "var 00",
        "not",
        "not 0 0",
        "not 128",
        "not 00",
        "not x",
        "not 4294967296",
        "add 0",
        "add 0 0 0",
        "if 0 0",
        "if 0 0 0 0",
        "let 0",
        "set 0",
        "ref",
        "get",
        "typed",
        "sym",
        "sym 0 0",
        "entry",
        "entry x",
        "entry r",
        "entry ir",
        "entry bi",
        "entry I",
        "entry Ri",
        "entry i i",
        "entry rrrrrrrrrrrrrrrri",
        "entry rrrrrrrrrrrrrrrrb",
        "entry 0",
        "Entry i",
        "int ",
        "entry ",
    ];
    for line in wrong_lines {
        trial.check(line, &text(line), refused(1, 0));
        trial.check(line, &text(&format!("entry i; true; {line}")), refused(1, 2));
    }
    trial.rows(&[
        ("the largest word", "int 4294967295", accepted("i")),
        ("zero", "int 0", accepted("i")),
        ("false", "false", accepted("b")),
        ("the largest variable is read", "var 143", refused(7, 0)),
        ("an entry of 15 r", "entry rrrrrrrrrrrrrrri; var 0", accepted("rrrrrrrrrrrrrrri")),
        ("an entry of 15 r and b", "entry rrrrrrrrrrrrrrrb; var 0", accepted("rrrrrrrrrrrrrrrb")),
        ("an entry b", "entry b; entry i; var 0", accepted("b")),
    ]);
    trial.end("words, numbers and types");
}

#[test]
#[rustfmt::skip] // one case a line
fn turns_limits_and_operands() {
    let mut trial = Trial::new();
    let operand = |nodes: usize, line: &str| nots(nodes) + "; " + line;
    trial.rows(&[
        ("an entry after a node", "true; entry i; not 0", refused(1, 1)),
        ("an entry at the end", "entry i; true; entry i", refused(1, 2)),
        ("128 nodes", &nots(128), accepted("b")),
        ("129 nodes", &nots(129), refused(2, 128)),
        ("129 nodes after two entries", &format!("entry i; entry b; {}", nots(129)), refused(2, 130)),
        ("130 nodes", &nots(130), refused(2, 128)),
        ("16 entries", &entries(16), accepted("b")),
        ("17 entries", &entries(17), refused(2, 16)),
        ("17 entries and no node", &["entry i"; 17].join("; "), refused(2, 16)),
        ("a wrong 17th entry", &("entry i; ".repeat(16) + "entry x"), refused(1, 16)),
        ("a 17th entry out of turn", &(entries(16) + "; entry i"), refused(1, 17)),
        ("a wrong 129th node", &operand(128, "not x"), refused(1, 128)),
        ("a 129th node with operand 128", &operand(128, "not 128"), refused(1, 128)),
        ("an entry in the place of a 129th node", &operand(128, "entry i"), refused(1, 128)),
        ("a 128th node with operand 127", &operand(127, "not 127"), refused(4, 127)),
        ("a line after 16 entries and 128 nodes", &("entry i; ".repeat(16) + &operand(128, "x")), refused(1, 144)),
        ("only entries", "entry i; entry b", refused_whole(3)),
        ("itself as operand", "not 0", refused(4, 0)),
        ("itself as operand, after entries", "entry i; entry i; not 0", refused(4, 2)),
        ("a later operand", "true; not 2; not 1", refused(4, 1)),
        ("the largest operand", "not 127", refused(4, 0)),
        ("the second operand", "true; and 0 1", refused(4, 1)),
        ("the third operand", "true; true; true; if 0 1 3", refused(4, 3)),
        ("all of a let", "let 0 0", refused(4, 0)),
    ]);
    trial.end("turns, limits and operands");
}

#[test]
#[rustfmt::skip] // one case a line
fn trees_and_nesting() {
    let mut trial = Trial::new();
    trial.rows(&[
        ("a node is not used", "true; true", refused(5, 0)),
        ("places are nodes", "entry i; entry i; true; true", refused(5, 0)),
        ("a later node is not used", "true; int 1; not 0", refused(5, 1)),
        ("two are not used", "true; int 1; true", refused(5, 0)),
        ("one is used twice", "true; not 0; not 0; and 1 2", refused(5, 0)),
        ("one is used twice by one node", "int 1; add 0 0", refused(5, 0)),
        ("a let does not share", "int 1; let 0 0", refused(5, 0)),
        ("unused and used twice", "true; true; and 1 1", refused(5, 0)),
        ("the last is used by none", "true; not 0; not 1", accepted("b")),
        ("any order of operands", "int 1; int 2; true; if 2 1 0", accepted("i")),
        ("4 sym", "true; sym 0; sym 1; sym 2; sym 3", accepted("b")),
        ("5 sym", "true; sym 0; sym 1; sym 2; sym 3; sym 4", refused(13, 1)),
        ("6 sym", "true; sym 0; sym 1; sym 2; sym 3; sym 4; sym 5", refused(13, 1)),
        ("4 sym with typed between", "true; sym 0; typed 1; sym 2; typed 3; sym 4; typed 5; sym 6", accepted("b")),
        ("5 sym with typed between", "true; sym 0; typed 1; sym 2; typed 3; sym 4; typed 5; sym 6; typed 7; sym 8", refused(13, 1)),
        ("5 sym on one way, 4 on another", "true; sym 0; true; sym 2; sym 3; and 1 4; sym 5; sym 6; sym 7", refused(13, 3)),
        ("two ways with 5", "true; true; sym 1; sym 2; sym 0; sym 4; and 5 3; sym 6; sym 7; sym 8", refused(13, 2)),
    ]);
    trial.end("trees and nesting");
}

#[test]
#[rustfmt::skip] // one case a line
fn long_texts() {
    let mut trial = Trial::new();
    let padded = |start: &str, length: usize| {
        let mut bytes = text(start);
        bytes.resize(length, b'\n');
        bytes
    };
    trial.check("8,192 bytes, an empty line", &padded("true", 8192), refused(1, 1));
    trial.check("8,193 bytes", &padded("true", 8193), refused_whole(31));
    trial.check("8,192 bytes, a 129th node", &padded(&nots(129), 8192), refused(2, 128));
    trial.check("8,193 bytes, a 129th node", &padded(&nots(129), 8193), refused_whole(31));
    trial.check("100,000 bytes", &padded("true", 100_000), refused_whole(31));
    trial.check("8,193 bytes of zero", &[0; 8193], refused_whole(31));
    trial.check("8,192 bytes of zero", &[0; 8192], refused(1, 0));
    let digits = |length: usize| format!("int {}\n", "1".repeat(length - 5)).replace(' ', "\t");
    trial.check("a number of 8,187 digits", digits(8192).as_bytes(), refused(1, 0));
    trial.check("a number of 8,188 digits", digits(8193).as_bytes(), refused_whole(31));
    trial.end("long texts");
}

#[test]
#[rustfmt::skip] // one case a line
fn order_of_refusals_in_text() {
    let mut trial = Trial::new();
    let five_sym = "true; sym 0; sym 1; sym 2; sym 3; sym 4";
    trial.rows(&[
        ("4, then 1 on a later line", "not 0; x", refused(4, 0)),
        ("1, then 4 on a later line", "x; not 0", refused(1, 0)),
        ("1 and 4 on one line", "not 0 x", refused(1, 0)),
        ("range before 4", "add 5 128", refused(1, 0)),
        ("2, then 1", &("entry i; ".repeat(17) + "x"), refused(2, 16)),
        ("2, then 4", &("entry i; ".repeat(17) + "not 5"), refused(2, 16)),
        ("1, then 2", &("x; ".to_string() + &entries(17)), refused(1, 0)),
        ("4, then 2", &("not 0; ".to_string() + &nots(129)), refused(4, 0)),
        ("2 before 5", &nots(130).replace("not 3;", "true;"), refused(2, 128)),
        ("1 before 3", "entry i; x", refused(1, 1)),
        ("1 at the end before 5", "true; true; x", refused(1, 2)),
        ("4 before 5", "true; true; not 2", refused(4, 2)),
        ("5 before 13", "int 1; true; sym 1; sym 2; sym 3; sym 4; sym 5", refused(5, 0)),
        ("13 before 6", "int 1; not 0; sym 1; sym 2; sym 3; sym 4; sym 5", refused(13, 2)),
        ("13 before 7", &five_sym.replace("true", "var 3"), refused(13, 1)),
        ("5 before 6", "int 1; not 0; true; not 2", refused(5, 1)),
    ]);
    trial.end("order of refusals in text");
}
