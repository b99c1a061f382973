//! The slowest scripts that were found: `worst/README.md` says how.

use crate::programs::{Call, Input};
use crate::sets::{Set, Slow};

/// A script that was found: its name, its text, its paths, the refusal that it ends with, or 0, and
/// who takes 10 s or so for it.
type Found = (&'static str, &'static [u8], usize, u8, Slow);

#[rustfmt::skip] // one script a line
const FOUND: [Found; 4] = [
    ("1 block", include_bytes!("../worst/one-block.script"), 1 << 6, 11, Slow::Neither),
    ("2 blocks", include_bytes!("../worst/two-blocks.script"), 1 << 12, 0, Slow::Neither),
    ("3 blocks", include_bytes!("../worst/three-blocks.script"), 1 << 18, 0, Slow::Neither),
    ("4 blocks", include_bytes!("../worst/four-blocks.script"), 1 << 24, 0, Slow::Both),
];

/// A set for each script that was found.
pub fn worst() -> Vec<Set> {
    let found = FOUND.iter();
    found
        .map(|&(name, text, paths, refusal, slow)| Set {
            name: format!("worst found: {name}"),
            inputs: vec![Input {
                text: text.to_vec(),
                paths,
                call: Call::Check,
            }],
            refusal,
            slow,
        })
        .collect()
}

#[cfg(test)]
mod tests {
    use super::*;
    use crate::candidates::Candidate;

    #[test]
    fn the_worst_are_scripts_with_so_many_blocks() {
        for (place, (name, text, ..)) in FOUND.iter().enumerate() {
            let found = Candidate::read(name.to_string(), text).expect("a script");
            assert_eq!(found.blocks(), place + 1, "{name}");
        }
    }
}
