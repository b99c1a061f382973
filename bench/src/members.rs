//! The members of the families that the search tries.

use crate::candidates::Candidate;
use crate::families::{script, Atoms, Binds, Guards, Inner, Outer};

/// The outer blocks of the families: none, or one to three with 16 to 64 paths each.
fn outers() -> Vec<Outer> {
    let binds = [
        Binds::Words,
        Binds::Differing,
        Binds::Many(0),
        Binds::Many(1),
        Binds::Many(3),
    ];
    let mut outers = vec![Outer {
        blocks: 0,
        cheap: 0,
        bound: 0,
        binds: Binds::Words,
    }];
    for blocks in 1..=3 {
        for binds in binds {
            let shapes = [(0, 6), (1, 5), (2, 4), (3, 3), (5, 1), (0, 5), (0, 4)];
            outers.extend(shapes.map(|(cheap, bound)| Outer {
                blocks,
                cheap,
                bound,
                binds,
            }));
        }
    }
    outers
}

fn inners() -> Vec<Inner> {
    let mut inners = Vec::new();
    for (cheap, bound) in [(0, 6), (2, 4), (5, 1), (3, 3), (0, 4)] {
        for pairs in 0..=4.min(bound) {
            let atoms = [Atoms::Truths, Atoms::Words, Atoms::References];
            inners.extend(atoms.map(|atoms| Inner::Forks {
                cheap,
                bound,
                pairs,
                atoms,
            }));
        }
    }
    for cheap in [2, 4, 5] {
        for writes in [2, 4, 8, 12, 16, 24, 32] {
            inners.extend([1, 4, 8, 16].map(|reads| Inner::Log {
                cheap,
                writes,
                reads,
            }));
        }
    }
    for forks in 3..=6 {
        inners.extend([2, 6, 12, 24, 48, 70].map(|nots| Inner::Shared { forks, nots }));
        inners.extend([1, 3, 6, 12, 24].map(|terms| Inner::Sums { forks, terms }));
    }
    for forks in [3, 4, 5, 6] {
        for blocks in [2, 5, 8, 9, 10, 12] {
            inners.extend([1, 2, 3, 4, 6].map(|inside| Inner::Beside {
                forks,
                blocks,
                inside,
            }));
        }
    }
    for (guards, anew) in [
        (Guards::Plain, false),
        (Guards::Pairs, false),
        (Guards::Pairs, true),
        (Guards::Equal, false),
        (Guards::Equal, true),
        (Guards::Linked, false),
        (Guards::Linked, true),
    ] {
        for forks in [4, 5, 6] {
            inners.extend([4, 8, 12, 16, 19].map(|again| Inner::Forced {
                guards,
                forks,
                again,
                anew,
            }));
        }
    }
    inners
}

/// All scripts of the families that have at most 128 nodes and four nested `sym`.
pub fn families() -> Vec<Candidate> {
    let inners = inners();
    let outers = outers().into_iter();
    outers
        .flat_map(|outer| inners.iter().filter_map(move |inner| script(&outer, inner)))
        .collect()
}

/// A nest, and its brother with the same inner block and one outer block, whose check is faster.
pub struct Nest {
    pub brother: Candidate,
    pub nest: Candidate,
}

/// The nests with so many outer blocks in which no path's answer helps the next: the types of four
/// to six variables differ by path, and all of them are mentioned.
pub fn nests(blocks: usize) -> Vec<Nest> {
    let shapes = [(0, 6), (1, 5), (2, 4)].into_iter();
    let outers = shapes.map(|(cheap, bound)| Outer {
        blocks,
        cheap,
        bound,
        binds: Binds::Differing,
    });
    let inners = inners();
    let nest = |outer: Outer, inner: &Inner| {
        let nest = script(&outer, inner).filter(|nest| nest.blocks() == blocks + 1)?;
        let brother = script(&Outer { blocks: 1, ..outer }, inner)?;
        Some(Nest { brother, nest })
    };
    outers
        .flat_map(|outer| inners.iter().filter_map(move |inner| nest(outer, inner)))
        .collect()
}

#[cfg(test)]
mod tests {
    use super::*;
    use crate::mutation::mutated;
    use conformance::library;
    use conformance::random::Random;

    #[test]
    fn small_ones_are_accepted_by_both_programs() {
        let small = families()
            .into_iter()
            .filter(|candidate| candidate.tree.typed_work() < 20_000);
        let mut tried = 0;
        for candidate in small {
            let text = candidate.text();
            let answer = library::check(&text);
            assert!(answer.is_ok(), "{}: {answer:?}", candidate.from);
            assert_eq!(answer, reference::check_text(&text), "{}", candidate.from);
            tried += 1;
        }
        assert!(tried > 300, "{tried}");
    }

    #[test]
    fn changed_ones_with_one_block_have_the_answer_of_the_reference() {
        let members: Vec<Candidate> = families()
            .into_iter()
            .filter(|candidate| candidate.blocks() == 1)
            .collect();
        let mut random = Random::new(1, 1);
        let mut accepted = 0;
        for (k, member) in members.iter().enumerate() {
            let other = &members[(7 * k + 1) % members.len()];
            for _ in 0..10 {
                let changed = mutated(member, other, &mut random);
                let text = changed.text();
                let answer = library::check(&text);
                let shown = String::from_utf8_lossy(&text);
                assert_eq!(answer, reference::check_text(&text), "{shown}");
                accepted += usize::from(answer.is_ok());
            }
        }
        assert!(accepted > 500, "{accepted}");
    }

    #[test]
    fn nests_have_one_block_more_than_outer_ones() {
        for Nest { brother, nest } in nests(3) {
            assert_eq!((brother.blocks(), nest.blocks()), (2, 4), "{}", nest.from);
        }
    }

    #[test]
    fn some_nest_four_blocks() {
        assert!(families().iter().any(|candidate| candidate.blocks() == 4));
    }
}
