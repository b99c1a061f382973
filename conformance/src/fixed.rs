//! Fixed cases: short spellings of scripts, values and answers, each case held against both programs.

use crate::compare::{compare_check, compare_run, show_station, show_text};
use crate::library;
use crate::spelling::{spelled, type_code};
use crate::stations::{bytes_of, lend, Station, LENT, LOCATION, TRUTH, WORD};
use reference::{Outcome, Refusal};

/// A text from a short spelling: `; ` stands for the end of a line, a blank for a tab.
pub fn text(short: &str) -> Vec<u8> {
    let mut text = short.replace("; ", "\n").replace(' ', "\t");
    if !text.is_empty() {
        text.push('\n');
    }
    text.into_bytes()
}

/// So many nodes, in short spelling: `not` over `true`.
pub fn nots(nodes: usize) -> String {
    let mut script = "true".to_string();
    for node in 1..nodes {
        script += &format!("; not {}", node - 1);
    }
    script
}

/// The answer to a check.
pub type Checked = Result<u32, Refusal>;

/// Accepted with this type.
pub fn accepted(name: &str) -> Checked {
    Ok(type_code(name))
}

/// Refused at a place.
pub fn refused(number: u8, place: u32) -> Checked {
    let place = Some(place);
    Err(Refusal { number, place })
}

/// Refused without a place.
pub fn refused_whole(number: u8) -> Checked {
    let place = None;
    Err(Refusal { number, place })
}

/// A name, entry types, an expression, and the answer to a check of it.
pub type Row<'a> = (&'a str, &'a str, &'a str, &'a str);

/// Entry values or cells.
pub type Cells<'a> = &'a [[u8; 5]];

/// Collects what went wrong, so that a test shows all of it.
#[derive(Default)]
pub struct Trial {
    tried: usize,
    wrong: Vec<String>,
}

impl Trial {
    pub fn new() -> Trial {
        Trial::default()
    }

    /// A row of a table: a name, a script in short spelling, the answer to a check of it.
    pub fn rows(&mut self, rows: &[(&str, &str, Checked)]) {
        for (name, short, expected) in rows {
            self.check(name, &text(short), *expected);
        }
    }

    /// A row of a table: a name, entry types, an expression, and the type that is reported or the
    /// number of the refusal at the marked node.
    pub fn expressions(&mut self, rows: &[Row]) {
        for (name, entries, expression, answer) in rows {
            let script = spelled(entries, expression);
            let expected = match answer.parse() {
                Ok(number) => refused(number, script.place),
                Err(_) => accepted(answer),
            };
            self.check(name, &script.text, expected);
        }
    }

    /// Rows of this kind, each with entry values and used cells, and what a run of the script gives.
    pub fn runs(&mut self, rows: &[(Row, Cells, Cells, Ran)]) {
        for (row, values, cells, expected) in rows {
            self.expressions(&[*row]);
            let script = spelled(row.1, row.2);
            self.run(row.0, &script.text, &station(values, cells), expected);
        }
    }

    /// Holds a check against both programs.
    pub fn check(&mut self, name: &str, text: &[u8], expected: Checked) {
        self.tried += 1;
        let expected = library::number_of_check(&expected);
        let given = library::check_number(text);
        let other = library::number_of_check(&reference::check_text(text));
        if given != expected || other != expected {
            self.wrong.push(format!(
                "{name}\n  expected:  {}\n  library:   {}\n  reference: {}\n{}",
                library::show_check(expected),
                library::show_check(given),
                library::show_check(other),
                show_text(text)
            ));
        } else if let Err(report) = compare_check(text) {
            self.wrong.push(format!("{name}\n{report}"));
        }
    }

    /// Holds a run against both programs: the answer, and every lent byte after it.
    pub fn run(&mut self, name: &str, text: &[u8], station: &Station, expected: &Ran) {
        self.tried += 1;
        let number = library::number_of_run(&expected.answer);
        let mut given = station.cells.clone();
        let answer = library::run_number(text, &station.values, &mut given, station.used);
        let mut other = station.cells.clone();
        let answers = reference::run_text(text, &station.values, &mut other, station.used);
        let answers = library::number_of_run(&answers);
        let after = lend_after(station, &expected.cells);
        if answer != number || answers != number || given != after || other != after {
            self.wrong.push(format!(
                "{name}\n  expected:  {}\n  library:   {}, cells {}\n  reference: {}, cells {}\n{}{}",
                library::show_run(number),
                library::show_run(answer),
                if given == after { "right" } else { "wrong" },
                library::show_run(answers),
                if other == after { "right" } else { "wrong" },
                show_text(text),
                show_station(station)
            ));
        } else if let Err(report) = compare_run(text, station) {
            self.wrong.push(format!("{name}\n{report}"));
        }
    }

    /// Prints how many cases were tried, and fails if one was wrong.
    pub fn end(self, what: &str) {
        println!("{what}: {} cases", self.tried);
        for report in &self.wrong {
            println!("WRONG: {report}");
        }
        assert!(self.wrong.is_empty(), "{what}: {} wrong", self.wrong.len());
    }
}

/// What a run is to give: its answer, and the first cells after it. All bytes behind these stay.
pub struct Ran {
    answer: Result<Outcome, Refusal>,
    cells: Vec<u8>,
}

fn lend_after(station: &Station, cells: &[u8]) -> Vec<u8> {
    let mut after = station.cells.clone();
    let shared = cells.len().min(after.len());
    after[..shared].copy_from_slice(&cells[..shared]);
    after
}

pub fn word(bits: u32) -> [u8; 5] {
    bytes_of(WORD, bits)
}

pub fn truth(bits: u32) -> [u8; 5] {
    bytes_of(TRUTH, bits)
}

pub fn location(cell: u32) -> [u8; 5] {
    bytes_of(LOCATION, cell)
}

/// Values and used cells, in 960 lent bytes.
pub fn station(values: &[[u8; 5]], used: &[[u8; 5]]) -> Station {
    Station {
        values: values.concat(),
        cells: lend(&used.concat(), LENT),
        used: used.len() as u32,
    }
}

/// A run ends with a value, and these are the used cells.
pub fn gives(value: [u8; 5], cells: &[[u8; 5]]) -> Ran {
    let (kind, bits) = crate::stations::value_of(&value);
    let used = cells.len() as u32;
    Ran {
        answer: Ok(Outcome::Value { kind, bits, used }),
        cells: cells.concat(),
    }
}

/// A run ends in the error state at a node, and these are the used cells.
pub fn fails(node: u32, cells: &[[u8; 5]]) -> Ran {
    let used = cells.len() as u32;
    Ran {
        answer: Ok(Outcome::Error { node, used }),
        cells: cells.concat(),
    }
}

/// A run is refused, and no byte changes.
pub fn turned_down(answer: Checked) -> Ran {
    let answer = Err(answer.expect_err("a refusal"));
    let cells = Vec::new();
    Ran { answer, cells }
}
