//! Small random changes of scripts. What comes out can be read; whether it is accepted is left to
//! the check, since a script that is refused early is a fast one.

use crate::candidates::Candidate;
use conformance::random::Random;
use conformance::tree::{choice, int, one, truth, two, var, Tree};
use conformance::tree::{ADD, AND, EQ, GET, LET, NOT, REF, SET, SYM, TYPED, VAR};

/// A changed copy that is a script; `other` lends parts.
pub fn mutated(candidate: &Candidate, other: &Candidate, random: &mut Random) -> Candidate {
    loop {
        let mut copy = candidate.clone();
        for _ in 0..random.weighted(&[(6, 1), (3, 2), (1, 4)]) {
            change(&mut copy, other, random);
        }
        if copy.is_script() {
            return copy;
        }
    }
}

fn change(candidate: &mut Candidate, other: &Candidate, random: &mut Random) {
    if random.chance(4) && !candidate.entries.is_empty() {
        let entry = random.below(candidate.entries.len());
        candidate.entries[entry] = random.below(8) as u32;
        return;
    }
    let place = random.below(candidate.tree.size());
    let scope = scope_at(&candidate.tree, place, candidate.entries.len());
    let part = other
        .tree
        .clone()
        .nth(random.below(other.tree.size()))
        .clone();
    let node = candidate.tree.nth(place);
    let old = std::mem::replace(node, int(0));
    *node = match random.below(10) {
        0 | 1 => leaf(scope, random),
        2 => part,
        3 if !old.operands.is_empty() => old.operands[random.below(old.operands.len())].clone(),
        4 => one(random.pick(&[NOT, REF, GET, TYPED, SYM]), old),
        5 => beside(old, leaf(scope, random), random),
        6 => two(LET, leaf(scope, random), raised(old, scope)),
        7 | 8 => two(LET, fork(scope, random), raised(old, scope)),
        _ => turned(old, random),
    };
}

/// A leaf; a variable most often.
fn leaf(scope: usize, random: &mut Random) -> Tree {
    match random.below(8) {
        0 => int(random.word()),
        1 => truth(random.chance(50)),
        _ if scope == 0 => int(1),
        _ => var(random.below(scope)),
    }
}

/// An `if` on a leaf or an equality of leaves, between leaves.
fn fork(scope: usize, random: &mut Random) -> Tree {
    let first = leaf(scope, random);
    let condition = match random.below(3) {
        0 => two(EQ, first, leaf(scope, random)),
        _ => first,
    };
    let yes = leaf(scope, random);
    choice(condition, yes, leaf(scope, random))
}

/// A node with two operands around a tree and a leaf.
fn beside(tree: Tree, leaf: Tree, random: &mut Random) -> Tree {
    let kind = random.pick(&[ADD, EQ, AND, SET]);
    if random.chance(50) {
        two(kind, tree, leaf)
    } else {
        two(kind, leaf, tree)
    }
}

/// The tree with its operands turned by one, or another number in a leaf.
fn turned(mut tree: Tree, random: &mut Random) -> Tree {
    match tree.operands.len() {
        0 if tree.kind == VAR => tree.number = tree.number.saturating_sub(1),
        0 => tree.number = random.word() * u32::from(tree.kind == 0),
        _ => tree.operands.rotate_left(1),
    }
    tree
}

/// The tree under one more `let`, after `scope` variables: those that it binds move up by one.
fn raised(mut tree: Tree, scope: usize) -> Tree {
    if tree.kind == VAR && tree.number as usize >= scope {
        tree.number = (tree.number + 1).min(143);
    }
    let operands = tree.operands.into_iter();
    tree.operands = operands.map(|operand| raised(operand, scope)).collect();
    tree
}

/// How many variables are bound at the n-th node in the order of `Tree::nth`.
fn scope_at(tree: &Tree, n: usize, outside: usize) -> usize {
    if n == 0 {
        return outside;
    }
    let mut left = n - 1;
    for (place, operand) in tree.operands.iter().enumerate() {
        let size = operand.size();
        if left < size {
            let bound = usize::from(tree.kind == LET && place == 1);
            return scope_at(operand, left, outside + bound);
        }
        left -= size;
    }
    unreachable!("n is below the size")
}

#[cfg(test)]
mod tests {
    use super::*;
    use crate::candidates::tests::candidate;

    #[test]
    fn a_let_binds_in_its_second_operand() {
        let tree = candidate("(let v0 (let v1 v2))").tree;
        let scopes: Vec<usize> = (0..5).map(|n| scope_at(&tree, n, 2)).collect();
        assert_eq!(scopes, [2, 2, 3, 3, 4]);
    }

    #[test]
    fn only_inner_variables_are_raised() {
        let raised = raised(candidate("(let v1 (add v1 v2))").tree, 2);
        let expected = candidate("(let v1 (add v1 v3))").tree;
        let text = |tree| conformance::tree::text(&[], &tree);
        assert_eq!(text(raised), text(expected));
    }

    #[test]
    fn every_mutant_can_be_read() {
        let mut random = Random::new(1, 1);
        let first = candidate("(sym (let (if v0 1 true) (typed (sym (if v0 v1 3)))))");
        let mut next = first.clone();
        for _ in 0..2000 {
            next = mutated(&next, &first, &mut random);
            assert!(reference::read(&next.text()).is_ok());
        }
    }
}
