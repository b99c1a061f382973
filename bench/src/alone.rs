//! The parts of a call that `libtiming.a` exports, each by itself.

use crate::programs::{Call, Input};
use crate::sets::{largest, set, Set};
use crate::short::short_scripts;
use crate::texts::{Lent, Nodes, Room};
use std::cell::RefCell;
use std::rc::Rc;

/// A part of a call, with the scripts that it is called for.
pub struct Alone {
    pub name: &'static str,
    texts: fn() -> Vec<Vec<u8>>,
    inputs: fn(&[Vec<u8>]) -> Vec<Input>,
}

#[rustfmt::skip] // one set a line
pub const ALONE: [Alone; 5] = [
    Alone { name: "reading alone: short scripts", texts: short_scripts, inputs: reads },
    Alone { name: "reading alone: 128 nodes", texts: long_scripts, inputs: reads },
    Alone { name: "test 5 alone: short scripts", texts: short_scripts, inputs: uses },
    Alone { name: "test 5 alone: 128 nodes", texts: long_scripts, inputs: uses },
    Alone { name: "writing alone: 128 nodes", texts: long_scripts, inputs: writes },
];

impl Alone {
    pub fn set(&self) -> Set {
        set(self.name, (self.inputs)(&(self.texts)()))
    }
}

fn long_scripts() -> Vec<Vec<u8>> {
    largest(4).into_iter().map(|input| input.text).collect()
}

/// All texts are read into one table, as a host reads one script after the other.
fn reads(texts: &[Vec<u8>]) -> Vec<Input> {
    let room = Rc::new(RefCell::new(Room::default()));
    inputs(texts, |_| Call::Read(room.clone()))
}

fn uses(texts: &[Vec<u8>]) -> Vec<Input> {
    inputs(texts, |text| Call::Uses(Nodes::new(text)))
}

fn writes(texts: &[Vec<u8>]) -> Vec<Input> {
    inputs(texts, |text| Call::Write(Box::new(Lent::new(text))))
}

fn inputs(texts: &[Vec<u8>], call: impl Fn(&[u8]) -> Call) -> Vec<Input> {
    let texts = texts.iter();
    texts
        .map(|text| Input {
            text: text.clone(),
            paths: 0,
            call: call(text),
        })
        .collect()
}
