//! A checker and a runner for check-station scripts, written from the customer's papers ('document
//! 01', see the README, and requests U1 and U2 of 'document 02') alone.
//!
//! One module a concern: `script` holds the records and the table's own rules, `text` reads and
//! writes script text, `typed` and `symbolic` hold the two sets of rules of the checker, `sum` and
//! `truth` the symbolic words and truths (with satisfiability), `run` the evaluation.

#![forbid(unsafe_code)]
#![warn(missing_docs)]

mod run;
mod script;
mod sum;
mod symbolic;
mod text;
mod truth;
mod typed;
mod types;

pub use run::{run, Outcome};
pub use script::{Node, Refusal, Script};
pub use text::{read, write};
pub use types::type_name;

/// Gives the type's code of a script, or the refusal that its rules meet first (6 to 12).
///
/// A script that did not come from [`read`] gets the table's own refusals before:
/// 2 (without a place), 3, 33, 4, 5, 13.
pub fn check(script: &Script) -> Result<u32, Refusal> {
    script.test()?;
    check_tested(script)
}

/// The same of a script that passes the table's tests, as every script from [`read`] does.
fn check_tested(script: &Script) -> Result<u32, Refusal> {
    let mut types = script.entries.clone();
    typed::type_of(script, script.root(), &mut types)
}

/// Reads a script text and checks the script.
pub fn check_text(text: &[u8]) -> Result<u32, Refusal> {
    check_tested(&read(text)?)
}

/// Reads a script text and runs the script. A run does not need acceptance by the checker.
pub fn run_text(
    text: &[u8],
    values: &[u8],
    cells: &mut [u8],
    used: u32,
) -> Result<Outcome, Refusal> {
    run::run_tested(&read(text)?, values, cells, used)
}

/// Gives the line that the checking program prints, its LF included.
///
/// "the word, the number, the place or `-`", parted by tabs; or `accepted` and the type.
pub fn check_line(text: &[u8]) -> String {
    match check_text(text) {
        Ok(code) => format!("accepted\t{}\n", type_name(code)),
        Err(Refusal {
            number,
            place: Some(place),
        }) => format!("refused\t{number}\t{place}\n"),
        Err(Refusal {
            number,
            place: None,
        }) => format!("refused\t{number}\t-\n"),
    }
}
