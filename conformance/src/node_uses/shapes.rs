//! Trees as tables: which nodes each node takes.

use crate::random::Random;

/// The operands of each node. Its kind is chosen afterwards, among those that take so many.
pub type Shape = Vec<Vec<usize>>;

/// How often a node takes no, one, two and three operands: from long chains to leaves first.
const GROWTHS: [[usize; 4]; 4] = [
    [10, 60, 20, 10],
    [30, 25, 35, 10],
    [60, 10, 20, 10],
    [97, 1, 1, 1],
];

/// Which of the nodes that wait for a use are taken.
#[derive(Clone, Copy)]
enum Order {
    Any,
    Newest,
    Oldest,
}

/// So many nodes, each but the last used once.
pub fn tree(random: &mut Random, nodes: usize) -> Shape {
    let growth = random.pick(&GROWTHS);
    let order = random.weighted(&[(5, Order::Any), (2, Order::Newest), (3, Order::Oldest)]);
    let mut waiting = Vec::new();
    let mut shape = Shape::new();
    for node in 0..nodes {
        let count = count(random, &growth, waiting.len(), nodes - 1 - node);
        let operands = (0..count).map(|_| take(random, order, &mut waiting));
        shape.push(operands.collect());
        waiting.push(node);
    }
    shape
}

/// How many operands a node takes, such that the nodes that are left can use all that wait then.
fn count(random: &mut Random, growth: &[usize; 4], waiting: usize, left: usize) -> usize {
    let fits = |count: &usize| *count <= waiting && waiting - count <= 2 * left;
    let fitting: Vec<(usize, usize)> = (0..4)
        .filter(fits)
        .map(|count| (growth[count], count))
        .collect();
    random.weighted(&fitting)
}

fn take(random: &mut Random, order: Order, waiting: &mut Vec<usize>) -> usize {
    let place = match order {
        Order::Any => random.below(waiting.len()),
        Order::Newest => waiting.len() - 1,
        Order::Oldest => 0,
    };
    waiting.remove(place)
}
