//! What scripts about uses of nodes have to come to.

use super::MARKS;
use crate::families::{Family, Least};
use crate::request::Source;

pub const FAMILY: Family = Family {
    source: Source::Uses,
    about: "uses of nodes",
    least: Least {
        requests: 20,
        accepted: 6,
        marks: 200,
    },
    hangs: |_, answer| answer == Err(5),
    otherwise: "if nodes may be used again or never",
    numbers: &[5, 6, 13],
    nines: &[],
    cells: false,
    marks: &MARKS,
};
