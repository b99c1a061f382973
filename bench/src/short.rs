//! Short scripts, made once: all different, and so many that a processor cannot learn their branches
//! by heart.

use conformance::maker;
use conformance::random::Random;
use conformance::request::spelled;
use std::collections::HashSet;

/// So many scripts are made. 1,000 are too few: they come again in the same order, and test 5 alone
/// takes hardly longer on them than on copies of one script. On 16,000 it takes three times as long
/// and more, on as many copies of one script no longer than before, so caches are not the reason.
const COUNT: usize = 16_000;

/// They are made from this seed.
const SEED: u64 = 1;

/// The fewest and the most nodes of a short script.
const NODES: (usize, usize) = (3, 12);

/// The texts of short scripts, each number of nodes about as often.
pub fn short_scripts() -> Vec<Vec<u8>> {
    let mut random = Random::new(SEED, 0);
    let mut made = HashSet::new();
    let mut texts = Vec::new();
    while texts.len() < COUNT {
        let nodes = random.between(NODES.0, NODES.1);
        let text = script(&mut random, nodes);
        if made.insert(text.clone()) {
            texts.push(text);
        }
    }
    texts
}

/// A script with so many nodes.
fn script(random: &mut Random, nodes: usize) -> Vec<u8> {
    loop {
        let made = maker::script(random, nodes);
        if made.tree.size() == nodes {
            return spelled(random, &made);
        }
    }
}

#[cfg(test)]
mod tests {
    use super::*;

    #[test]
    fn short_scripts_can_be_read() {
        let mut counts = [0; NODES.1 + 1];
        for text in short_scripts() {
            let script = reference::read(&text).expect("a text that can be read");
            counts[script.nodes.len()] += 1;
        }
        assert_eq!(counts.iter().sum::<usize>(), COUNT);
        assert!(counts[NODES.0..].iter().all(|&count| count > COUNT / 20));
    }

    #[test]
    fn short_scripts_are_the_same_every_time() {
        assert_eq!(short_scripts(), short_scripts());
    }
}
