//! Fixed scripts: P1 to P9 and what stands beside them, and the typed rules with 6, 7 and 8.

use conformance::fixed::{accepted, gives, refused, refused_whole, station, text, word, Trial};

#[test]
#[rustfmt::skip] // one case a line
fn cases_of_document_01() {
    let mut trial = Trial::new();
    let p5 = "entry ri; var 0; true; set 0 1; var 0; int 7; set 3 4; let 2 5; sym 6";
    let p6 = "entry ri; entry ri; var 0; true; set 0 1; var 1; int 7; set 3 4; let 2 5; sym 6";
    let p7 = "entry rrrrrrrrrrrrrrri; var 0; ref 0";
    trial.rows(&[
        ("printed whole", "entry ri; var 0; true; set 0 1; sym 2", refused(9, 3)),
        ("P1", "true; int 5; true; int 3; add 2 3; if 0 1 4; sym 5", accepted("i")),
        ("P2", "true; int 5; true; int 3; add 2 3; if 0 1 4", refused(6, 4)),
        ("P3", "entry b; var 0; int 1; true; if 0 1 2; sym 3", refused(10, 4)),
        ("P4", "entry b; var 0; var 0; int 1; true; int 1; add 3 4; if 1 2 5; int 2; if 0 6 7; sym 8", accepted("i")),
        ("P5", p5, accepted("i")),
        ("P6", p6, refused(9, 7)),
        ("P7", p7, refused(8, 1)),
        ("P8", "", refused_whole(3)),
        ("P9 is accepted", "int 4294967295; int 1; add 0 1", accepted("i")),
        ("a word too large", "int 4294967296", refused(1, 0)),
    ]);
    let p9 = text("int 4294967295; int 1; add 0 1");
    trial.run("P9", &p9, &station(&[], &[]), &gives(word(0), &[]));
    trial.end("cases P1 to P9");
}

#[test]
#[rustfmt::skip] // one case a line
fn typed_rules() {
    let mut trial = Trial::new();
    trial.expressions(&[
        ("add", "i i", "(add v0 v1)", "i"),
        ("add: first", "i b", "(!add v1 v0)", "6"),
        ("add: second", "i b", "(!add v0 v1)", "6"),
        ("add: reference", "ri", "(!add v0 1)", "6"),
        ("eq of words", "i i", "(eq v0 v1)", "b"),
        ("eq of truths", "b b", "(eq v0 v1)", "b"),
        ("eq of references", "rrb rrb", "(eq v0 v1)", "b"),
        ("eq of word and truth", "i b", "(!eq v0 v1)", "6"),
        ("eq of two references", "ri rb", "(!eq v0 v1)", "6"),
        ("eq of depths", "ri rri", "(!eq v0 v1)", "6"),
        ("not", "b", "(not v0)", "b"),
        ("not of a word", "i", "(!not v0)", "6"),
        ("not of a reference", "rb", "(!not v0)", "6"),
        ("and", "b b", "(and v0 v1)", "b"),
        ("and: first", "b i", "(!and v1 v0)", "6"),
        ("and: second", "b i", "(!and v0 v1)", "6"),
        ("if", "b ri ri", "(if v0 v1 v2)", "ri"),
        ("if: condition", "i", "(!if v0 1 2)", "6"),
        ("if: branches", "b", "(!if v0 1 true)", "6"),
        ("if: constant condition", "", "(!if true 1 true)", "6"),
        ("if: 6 after all three operands", "", "(if 1 !v0 2)", "7"),
        ("if: 6 after the third operand", "", "(if 1 2 (!not 3))", "6"),
        ("let", "i", "(let true (if v1 v0 2))", "i"),
        ("let binds in its second operand only", "", "(let !v0 1)", "7"),
        ("let ends", "", "(add (let 1 v0) !v0)", "7"),
        ("lets from outside in", "", "(let 1 (let true (if v1 v0 2)))", "i"),
        ("lets from outside in, turned", "", "(let 1 (let true (!if v0 v1 v1)))", "6"),
        ("let in a let's first operand", "i", "(let (let true v1) (not v1))", "b"),
        ("entries before lets", "b", "(let 1 (add v1 (if v0 1 2)))", "i"),
        ("ref", "b", "(ref v0)", "rb"),
        ("ref of 14 r", "rrrrrrrrrrrrrri", "(ref v0)", "rrrrrrrrrrrrrrri"),
        ("ref of 15 r", "rrrrrrrrrrrrrrrb", "(!ref v0)", "8"),
        ("ref of 15 r below another", "rrrrrrrrrrrrrrrb", "(not (!ref v0))", "8"),
        ("get", "rri", "(get v0)", "ri"),
        ("get of a word", "i", "(!get v0)", "6"),
        ("get of a truth", "b", "(!get v0)", "6"),
        ("set", "rb b", "(set v0 v1)", "b"),
        ("set gives the value's type", "rri ri", "(set v0 v1)", "ri"),
        ("set of a wrong type", "rb i", "(!set v0 v1)", "6"),
        ("set of a reference to a cell of words", "ri", "(!set v0 v0)", "6"),
        ("set through a word", "i", "(!set v0 v0)", "6"),
        ("typed", "rb", "(typed (get v0))", "b"),
        ("typed in typed", "", "(typed (typed 1))", "i"),
        ("typed with a wrong operand", "", "(typed (!not 1))", "6"),
        ("unknown variable", "", "!v0", "7"),
        ("one too far", "i i", "!v2", "7"),
        ("the largest unknown variable", "i", "(not !v143)", "7"),
        ("operands come before their node", "", "(not (!not 1))", "6"),
        ("the first operand comes first", "", "(add (!not 1) v9)", "6"),
        ("the second operand comes before the node", "", "(add true !v9)", "7"),
        ("sym", "i", "(sym v0)", "i"),
        ("sym in operands", "b", "(add (sym (if v0 1 2)) (sym 3))", "i"),
        ("sym: 6 of an add", "", "(sym (!add 1 true))", "6"),
        ("a block's refusal before a later operand's", "", "(add (sym (!not 1)) v9)", "6"),
    ]);
    trial.end("typed rules");
}

#[test]
#[rustfmt::skip] // one case a line
fn operands_by_place_and_not_by_number() {
    let mut trial = Trial::new();
    trial.rows(&[
        ("the left operand is the later node", "var 1; var 2; add 1 0", refused(7, 1)),
        ("an if whose condition is last", "not 1; true", refused(4, 0)),
        ("a branch before the condition", "var 8; true; int 1; if 1 2 0", refused(7, 0)),
        ("the condition first", "var 8; var 9; int 1; if 1 2 0", refused(7, 1)),
        ("a let's body before its value", "var 0; int 1; let 1 0", accepted("i")),
        ("a let's value first", "var 7; var 6; let 1 0", refused(7, 1)),
        ("in a block, the left operand first", "var 1; var 2; add 1 0; sym 2", refused(7, 1)),
        ("in a block, the value first", "var 7; var 6; let 1 0; sym 2", refused(7, 1)),
        ("in a block, the store by its place", "entry ri; int 7; var 0; get 1; var 0; set 3 0; int 7; eq 2 5; int 1; true; if 6 7 8; let 4 9; sym 10", accepted("i")),
    ]);
    trial.end("operands by place");
}
