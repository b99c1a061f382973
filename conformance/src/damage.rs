//! Scripts and texts that are wrong somewhere: changed trees, trees without regard to types, tables
//! of random nodes, damaged texts, and bytes that are no text at all.

use crate::maker::{self, Made};
use crate::random::Random;
use crate::tree::{choice, int, one, truth, two, type_name, var, Tree};
use crate::tree::{ADD, AND, EQ, GET, IF, INT, LET, NOT, REF, SET, SYM, TYPED, VAR, WORDS};

/// Changes a tree in one place: often a store or a branch, else any node.
pub fn change(random: &mut Random, tree: &mut Tree) {
    match random.below(5) {
        0 => drop_store(random, tree),
        1 => change_branch(random, tree),
        _ => change_node(random, tree),
    }
}

/// The numbers, for `nth`, of the nodes of a kind.
fn places(tree: &mut Tree, kind: u32) -> Vec<usize> {
    let all = 0..tree.size();
    all.filter(|&n| tree.nth(n).kind == kind).collect()
}

/// Leaves only the value of some `set`: a mending write is missing, or a wrong one.
fn drop_store(random: &mut Random, tree: &mut Tree) {
    let stores = places(tree, SET);
    if !stores.is_empty() {
        let store = tree.nth(random.pick(&stores));
        *store = store.operands.swap_remove(1);
    }
}

/// Puts a leaf of some type in the place of a branch.
fn change_branch(random: &mut Random, tree: &mut Tree) {
    let choices = places(tree, IF);
    if !choices.is_empty() {
        let branch = random.between(1, 2);
        tree.nth(random.pick(&choices)).operands[branch] = any_leaf(random, 4);
    }
}

fn change_node(random: &mut Random, tree: &mut Tree) {
    let other = Tree::clone(tree.nth(random.below(tree.size())));
    let place = tree.nth(random.below(tree.size()));
    match random.below(8) {
        0 => *place = any_leaf(random, 4),
        1 => place.number = place.number.wrapping_add(random.below(3) as u32) % 144,
        2 => place.kind = same_form(random, place.kind),
        3 => place.operands.reverse(),
        4 => {
            let kind = random.pick(&[NOT, REF, GET, TYPED, SYM]);
            *place = one(kind, place.clone());
        }
        5 if !place.operands.is_empty() => {
            let kept = random.below(place.operands.len());
            *place = place.operands.swap_remove(kept);
        }
        6 if other.size() < 20 => *place = other,
        _ => {
            let kind = random.pick(&[SET, EQ, LET, ADD, AND]);
            *place = two(kind, any_leaf(random, 4), place.clone());
        }
    }
}

/// Another kind with the same form of operands.
fn same_form(random: &mut Random, kind: u32) -> u32 {
    let form = |kind: u32| (WORDS[kind as usize].1, kind == INT || kind == VAR);
    let same: Vec<u32> = (0..15).filter(|&k| form(k) == form(kind)).collect();
    random.pick(&same)
}

fn any_leaf(random: &mut Random, variables: usize) -> Tree {
    match random.below(4) {
        0 => int(random.word()),
        1 => truth(random.chance(50)),
        _ => var(random.below(variables + 1)),
    }
}

/// A script of random nodes, without regard to types.
pub fn loose_script(random: &mut Random) -> Made {
    let entries: Vec<u32> = (0..random.below(5))
        .map(|_| random.below(6) as u32)
        .collect();
    let size = random.weighted(&[(50, 8), (40, 25), (10, 60)]);
    let mut tree = loose_tree(random, entries.len(), size);
    if random.chance(60) {
        tree = one(SYM, tree);
    }
    Made { entries, tree }
}

fn loose_tree(random: &mut Random, variables: usize, size: usize) -> Tree {
    if size <= 1 {
        return any_leaf(random, variables);
    }
    let kind = 4 + random.below(11) as u32;
    match WORDS[kind as usize].1 {
        1 => one(kind, loose_tree(random, variables, size - 1)),
        2 => {
            let part = random.between(1, size - 1);
            let first = loose_tree(random, variables, part);
            let more = usize::from(kind == LET);
            two(
                kind,
                first,
                loose_tree(random, variables + more, size - part),
            )
        }
        _ => {
            let mut part = || loose_tree(random, variables, size / 3);
            choice(part(), part(), part())
        }
    }
}

/// A table of random nodes, often no tree, with few and with too many entries and nodes.
pub fn table_text(random: &mut Random) -> Vec<u8> {
    let mut text = String::new();
    for _ in 0..random.weighted(&[(70, 2), (20, 5), (4, 16), (6, 17)]) {
        text += &format!("entry\t{}\n", type_name(random.below(32) as u32));
    }
    let nodes = random.weighted(&[(10, 1), (40, 6), (30, 20), (15, 128), (5, 129)]);
    let mut free: Vec<usize> = Vec::new();
    for node in 0..nodes {
        let needed = nodes - node <= free.len() + 1;
        let line = table_line(random, node, &mut free, needed);
        text += &line;
        free.push(node);
    }
    text.into_bytes()
}

/// A line with operands that are still free, if the dice say so. `joining` asks for operands.
fn table_line(random: &mut Random, node: usize, free: &mut Vec<usize>, joining: bool) -> String {
    let least = if joining && !free.is_empty() { 4 } else { 0 };
    let kind = random.between(least, 14);
    let (word, count) = WORDS[kind];
    let mut line = word.to_string();
    if kind == INT as usize || kind == VAR as usize {
        line += &format!("\t{}", random.below(4));
    }
    for _ in 0..count {
        let operand = if free.is_empty() || random.chance(2) {
            random.below(node + 1)
        } else {
            free.swap_remove(random.below(free.len()))
        };
        line += &format!("\t{operand}");
    }
    line + "\n"
}

/// References around a value that has nearly as many as a type may have.
fn deep_references(random: &mut Random) -> Made {
    let entries = vec![random.between(26, 31) as u32];
    let mut tree = var(0);
    for _ in 0..random.between(1, 5) {
        tree = match random.below(4) {
            0 => one(GET, tree),
            1 => two(LET, tree, var(1)),
            _ => one(REF, tree),
        };
    }
    if random.chance(60) {
        tree = one(SYM, tree);
    }
    Made { entries, tree }
}

/// A script around the limits of nodes, entries, references and nested `sym`.
pub fn script_at_limits(random: &mut Random) -> Made {
    let mut made = maker::script(random, 12);
    match random.below(4) {
        0 => return deep_references(random),
        1 => {
            let nodes = random.between(126, 130);
            while made.tree.size() < nodes {
                let kind = random.weighted(&[(4, TYPED), (1, NOT)]);
                made.tree = one(kind, made.tree);
            }
        }
        2 => {
            let count = random.between(15, 18);
            made.entries.resize(count, 1);
        }
        _ => {
            for _ in 0..random.between(3, 6) {
                if random.chance(40) {
                    made.tree = one(TYPED, made.tree);
                }
                made.tree = one(SYM, made.tree);
            }
        }
    }
    made
}

/// Damages a text in one to three places.
pub fn damaged(random: &mut Random, text: &mut Vec<u8>) {
    for _ in 0..random.weighted(&[(70, 1), (20, 2), (10, 3)]) {
        match random.below(4) {
            0 => damage_bytes(random, text),
            1 => damage_lines(random, text),
            _ => damage_field(random, text),
        }
    }
}

fn damage_bytes(random: &mut Random, text: &mut Vec<u8>) {
    let odd = [
        b'\t', b'\n', b'\r', b' ', 0, b'0', b'1', b'9', b'r', b'+', 0x80, 0xff,
    ];
    let place = random.below(text.len() + 1);
    match random.below(5) {
        0 => text.truncate(place),
        1 => text.insert(place, random.pick(&odd)),
        _ if place == text.len() => text.push(random.byte()),
        2 => text[place] = random.pick(&odd),
        3 => text[place] ^= 1 << random.below(8),
        _ => {
            text.remove(place);
        }
    }
}

fn damage_lines(random: &mut Random, text: &mut Vec<u8>) {
    let mut lines: Vec<Vec<u8>> = text
        .split_inclusive(|&b| b == b'\n')
        .map(Vec::from)
        .collect();
    if lines.is_empty() {
        return;
    }
    let (a, b) = (random.below(lines.len()), random.below(lines.len()));
    match random.below(4) {
        0 => lines.swap(a, b),
        1 => lines.insert(b, lines[a].clone()),
        2 => {
            lines.remove(a);
        }
        _ => lines.insert(a, b"entry\ti\n".to_vec()),
    }
    *text = lines.concat();
}

/// Puts something else in the place of one field.
fn damage_field(random: &mut Random, text: &mut Vec<u8>) {
    let ends = |&b: &u8| b == b'\t' || b == b'\n';
    let mut fields: Vec<Vec<u8>> = text.split_inclusive(ends).map(Vec::from).collect();
    if fields.is_empty() {
        return;
    }
    let place = random.below(fields.len());
    let end = fields[place].last().copied().unwrap_or(b'\n');
    let small = random.below(12).to_string();
    let odd = [
        "0",
        "00",
        "1",
        "01",
        "126",
        "127",
        "128",
        "129",
        "143",
        "144",
        "4294967295",
        "4294967296",
        "18446744073709551616",
        "",
        "-1",
        "x",
        "i",
        "b",
        "rri",
        "rrrrrrrrrrrrrrri",
        "rrrrrrrrrrrrrrrri",
        "entry",
        "int",
        "true",
        "add",
        "if",
        "sym",
        "symb",
        "SYM",
    ];
    let field = if random.chance(50) {
        &small
    } else {
        random.pick(&odd)
    };
    fields[place] = field.as_bytes().to_vec();
    fields[place].push(end);
    *text = fields.concat();
}

/// Bytes that are hardly a text: none, any, only line ends, or about as many as are allowed.
pub fn garbage(random: &mut Random) -> Vec<u8> {
    let length = random.weighted(&[(2, 0), (4, 5), (3, 100), (1, 8190)]) + random.below(6);
    let length = if random.chance(10) { 0 } else { length };
    match random.below(4) {
        0 => (0..length).map(|_| random.byte()).collect(),
        1 => vec![b'\n'; length],
        2 => b"true\n".iter().copied().cycle().take(length).collect(),
        _ => {
            let mut text = b"true\n".to_vec();
            text.extend(b"not\t0\n".iter().copied().cycle().take(length));
            text
        }
    }
}
