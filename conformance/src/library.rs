//! The verified library: its two C functions, and their 64-bit answers taken apart.

use reference::{Outcome, Refusal};

extern "C" {
    fn teqharis_check(text: *const u8, text_len: usize) -> u64;
    fn teqharis_run(
        text: *const u8,
        text_len: usize,
        values: *const u8,
        values_len: usize,
        cells: *mut u8,
        cells_len: usize,
        used: u32,
    ) -> u64;
}

/// The answer of checking a text, as the library gives it.
pub fn check_number(text: &[u8]) -> u64 {
    // SAFETY: pointer and length of a live slice; the pointer of an empty slice is not null.
    unsafe { teqharis_check(text.as_ptr(), text.len()) }
}

/// The answer of running a text, as the library gives it.
pub fn run_number(text: &[u8], values: &[u8], cells: &mut [u8], used: u32) -> u64 {
    // SAFETY: pointers and lengths of live slices; `cells` is lent alone.
    unsafe {
        teqharis_run(
            text.as_ptr(),
            text.len(),
            values.as_ptr(),
            values.len(),
            cells.as_mut_ptr(),
            cells.len(),
            used,
        )
    }
}

/// Checks a text: the type's code, or a refusal.
pub fn check(text: &[u8]) -> Result<u32, Refusal> {
    let number = check_number(text);
    check_answer(number).unwrap_or_else(|| panic!("no answer of a check: {number:#018x}"))
}

/// Runs a text on entry values and cells.
pub fn run(text: &[u8], values: &[u8], cells: &mut [u8], used: u32) -> Result<Outcome, Refusal> {
    let number = run_number(text, values, cells, used);
    run_answer(number).unwrap_or_else(|| panic!("no answer of a run: {number:#018x}"))
}

/// The four parts of an answer: status, number, place, value.
fn parts(answer: u64) -> (u8, u8, u16, u32) {
    (
        answer as u8,
        (answer >> 8) as u8,
        (answer >> 16) as u16,
        (answer >> 32) as u32,
    )
}

/// What a check's answer says; none if a check has no such answer.
pub fn check_answer(answer: u64) -> Option<Result<u32, Refusal>> {
    match parts(answer) {
        (0, 0, 0, code) => Some(Ok(code)),
        (1, number, place, 0) => Some(Err(refusal(number, place))),
        _ => None,
    }
}

/// What a run's answer says; none if a run has no such answer.
pub fn run_answer(answer: u64) -> Option<Result<Outcome, Refusal>> {
    match parts(answer) {
        (0, kind, used, bits) => Some(Ok(Outcome::Value {
            kind,
            bits,
            used: used.into(),
        })),
        (2, 0, used, node) => Some(Ok(Outcome::Error {
            node,
            used: used.into(),
        })),
        (1, number, place, 0) => Some(Err(refusal(number, place))),
        _ => None,
    }
}

fn refusal(number: u8, place: u16) -> Refusal {
    let place = u32::from(place).checked_sub(1);
    Refusal { number, place }
}

/// The answer that the library's layout has for a check.
pub fn number_of_check(answer: &Result<u32, Refusal>) -> u64 {
    match answer {
        Ok(code) => u64::from(*code) << 32,
        Err(refusal) => number_of_refusal(refusal),
    }
}

/// The answer that the library's layout has for a run.
pub fn number_of_run(answer: &Result<Outcome, Refusal>) -> u64 {
    match answer {
        Ok(Outcome::Value { kind, bits, used }) => {
            u64::from(*kind) << 8 | u64::from(*used) << 16 | u64::from(*bits) << 32
        }
        Ok(Outcome::Error { node, used }) => 2 | u64::from(*used) << 16 | u64::from(*node) << 32,
        Err(refusal) => number_of_refusal(refusal),
    }
}

fn number_of_refusal(refusal: &Refusal) -> u64 {
    let place = refusal.place.map_or(0, |place| u64::from(place) + 1);
    1 | u64::from(refusal.number) << 8 | place << 16
}

/// An answer's number in words.
pub fn show_check(answer: u64) -> String {
    match check_answer(answer) {
        Some(Ok(code)) => format!("accepted, type code {code}"),
        Some(Err(refusal)) => show_refusal(&refusal),
        None => format!("no answer of a check: {answer:#018x}"),
    }
}

/// An answer's number in words.
pub fn show_run(answer: u64) -> String {
    match run_answer(answer) {
        Some(Ok(Outcome::Value { kind, bits, used })) => {
            format!("value of kind {kind}, bits {bits}, {used} cells used")
        }
        Some(Ok(Outcome::Error { node, used })) => {
            format!("error state at node {node}, {used} cells used")
        }
        Some(Err(refusal)) => show_refusal(&refusal),
        None => format!("no answer of a run: {answer:#018x}"),
    }
}

fn show_refusal(refusal: &Refusal) -> String {
    match refusal.place {
        Some(place) => format!("refused with {} at {place}", refusal.number),
        None => format!("refused with {}, no place", refusal.number),
    }
}
