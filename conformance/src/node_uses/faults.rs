//! Uses that are missing and uses too many.

use super::shapes::Shape;
use crate::random::Random;

/// A wrong use of a node, with other nodes from a first one on.
type Fault = fn(&mut Random, &mut Shape, usize, usize);

/// What goes wrong in a script: one sort alone, or all of them.
const SORTS: [(usize, &[Fault]); 3] = [
    (15, &[leave]),
    (35, &[use_again]),
    (50, &[leave, use_again, replace]),
];

/// Nodes about which mistakes are likely: the first, those around a word's end, the last that has to
/// be used in the longest script.
const BORDERS: [usize; 6] = [0, 62, 63, 64, 65, 126];

/// Puts some wrong uses in, often only of nodes from a border on. One node alone stays right.
pub fn go_wrong(random: &mut Random, shape: &mut Shape) {
    let last = shape.len() - 1;
    if last == 0 {
        return;
    }
    let first = match random.chance(50) {
        true => near(random, 0, last),
        false => 0,
    };
    let sorts = random.weighted(&SORTS);
    for _ in 0..random.weighted(&[(25, 1), (35, 2), (25, 3), (15, 6)]) {
        let node = match random.chance(50) {
            true => near(random, first, last),
            false => random.between(first, last - 1),
        };
        random.pick(sorts)(random, shape, node, first);
    }
}

/// A node from `first` to below the last: at a border, or just below the last.
fn near(random: &mut Random, first: usize, last: usize) -> usize {
    let mut nodes = BORDERS.to_vec();
    nodes.push(last - 1);
    nodes.retain(|node| (first..last).contains(node));
    random.pick(&nodes)
}

/// Takes the node out wherever it is used.
fn leave(_: &mut Random, shape: &mut Shape, node: usize, _: usize) {
    for operands in shape {
        operands.retain(|&operand| operand != node);
    }
}

/// Uses the node once more or several times, often where it is used already.
fn use_again(random: &mut Random, shape: &mut Shape, node: usize, _: usize) {
    for _ in 0..random.weighted(&[(55, 1), (35, 2), (10, 3)]) {
        let mut users: Vec<usize> = (node + 1..shape.len()).collect();
        users.retain(|&user| shape[user].len() < 3);
        let own = |user: &usize| shape[*user].contains(&node);
        if users.iter().any(own) && random.chance(50) {
            users.retain(own);
        }
        if !users.is_empty() {
            let user = random.pick(&users);
            let place = random.below(shape[user].len() + 1);
            shape[user].insert(place, node);
        }
    }
}

/// Uses another node, from `first` on, where this one is used.
fn replace(random: &mut Random, shape: &mut Shape, node: usize, first: usize) {
    for (user, operands) in shape.iter_mut().enumerate() {
        for operand in operands.iter_mut().filter(|operand| **operand == node) {
            *operand = random.between(first, user - 1);
        }
    }
}
