//! The two programs that are timed, each as a function from an input to its answer in the library's
//! layout.

use crate::texts::{read_by_reference, Lent, Nodes, Room};
use conformance::library;
use reference::Refusal;
use std::cell::RefCell;
use std::hint::black_box;
use std::rc::Rc;

/// One call with a text.
pub struct Input {
    pub text: Vec<u8>,
    pub paths: usize,
    pub call: Call,
}

/// What is called.
pub enum Call {
    Check,
    Run(Host),
    Read(Rc<RefCell<Room>>),
    Write(Box<Lent>),
    /// Test 5, for which the reference has no call.
    Uses(Nodes),
}

impl Call {
    /// The library's function.
    pub fn function(&self) -> &'static str {
        match self {
            Call::Check => "teqharis_check",
            Call::Run(_) => "teqharis_run",
            Call::Read(_) => "timing_read",
            Call::Write(_) => "timing_write",
            Call::Uses(_) => "timing_uses",
        }
    }
}

/// What a host lends for a run: `cells` is handed over, `saved` is what it is restored from.
pub struct Host {
    pub values: Vec<u8>,
    pub saved: Vec<u8>,
    pub cells: Vec<u8>,
    pub used: u32,
}

pub type Program = fn(&mut Input) -> u64;

pub fn call_library(input: &mut Input) -> u64 {
    let text = black_box(&input.text);
    match &mut input.call {
        Call::Check => library::check_number(text),
        Call::Run(host) => {
            host.cells.copy_from_slice(&host.saved);
            library::run_number(text, &host.values, &mut host.cells, host.used)
        }
        Call::Read(room) => number_of(room.borrow_mut().read_by_library(text)),
        Call::Write(lent) => number_of(lent.write_by_library()),
        Call::Uses(nodes) => number_of_uses(nodes.uses_by_library()),
    }
}

pub fn call_reference(input: &mut Input) -> u64 {
    let text = black_box(&input.text);
    match &mut input.call {
        Call::Check => library::number_of_check(&reference::check_text(text)),
        Call::Run(host) => {
            host.cells.copy_from_slice(&host.saved);
            let answer = reference::run_text(text, &host.values, &mut host.cells, host.used);
            library::number_of_run(&answer)
        }
        Call::Read(_) => number_of(read_by_reference(text)),
        Call::Write(lent) => number_of(lent.write_by_reference()),
        Call::Uses(_) => unreachable!("the reference has no such call"),
    }
}

/// A count where the layout has a value.
fn number_of(count: u64) -> u64 {
    count << 32
}

/// A refusal with 5 at the node before this one; none at 0.
fn number_of_uses(node: u64) -> u64 {
    match node.checked_sub(1) {
        None => 0,
        Some(node) => library::number_of_check(&Err(Refusal {
            number: 5,
            place: Some(node as u32),
        })),
    }
}

/// The refusal's number in an answer; 0 if the call was not refused.
pub fn refusal_in(answer: u64) -> u8 {
    (answer >> 8) as u8 * u8::from(answer as u8 == 1)
}

/// How many node lines a text has.
pub fn nodes(text: &[u8]) -> usize {
    let lines = text.split_inclusive(|&byte| byte == b'\n');
    lines.filter(|line| !line.starts_with(b"entry")).count()
}

#[cfg(test)]
mod tests {
    use super::*;

    #[test]
    fn only_a_refusal_has_a_number() {
        assert_eq!(refusal_in(0x0000_0000_0080_0d01), 13);
        assert_eq!(refusal_in(0x0000_0007_0041_0200), 0);
        assert_eq!(refusal_in(number_of_uses(3)), 5);
        assert_eq!(refusal_in(number_of_uses(0)), 0);
    }

    #[test]
    fn entries_are_no_nodes() {
        assert_eq!(nodes(b"entry\tb\nvar\t0\nnot\t0\n"), 2);
    }
}
