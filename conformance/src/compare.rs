//! Puts one request to both programs and compares every number and every byte.

use crate::library;
use crate::request::Request;
use crate::stations::{pattern, value_of, Station};
use crate::tree::type_name;
use reference::{Outcome, Refusal};

/// What both programs answered.
pub struct Answered {
    pub check: Result<u32, Refusal>,
    pub run: Option<Result<Outcome, Refusal>>,
}

/// The common answer to a request, or a report of the disagreement. The text is checked in any case.
pub fn compare(request: &Request) -> Result<Answered, String> {
    let text = &request.text;
    let check = compare_check(text)?;
    compare_writing(text)?;
    let run = match &request.run {
        Some(station) => Some(compare_run(text, station)?),
        None => None,
    };
    Ok(Answered { check, run })
}

/// Compares a check: the library, the reference, and the line that the program prints.
pub fn compare_check(text: &[u8]) -> Result<Result<u32, Refusal>, String> {
    let answer = reference::check_text(text);
    let expected = library::number_of_check(&answer);
    let given = library::check_number(text);
    if given != expected {
        return Err(format!(
            "a check differs\n  library:   {}\n  reference: {}\n{}",
            library::show_check(given),
            library::show_check(expected),
            show_text(text)
        ));
    }
    let line = reference::check_line(text);
    if line != line_of(&answer) {
        return Err(format!(
            "the reference's line differs from its check\n  line:  {line:?}\n  check: {:?}\n{}",
            line_of(&answer),
            show_text(text)
        ));
    }
    Ok(answer)
}

/// The line that the checking program prints for an answer.
pub fn line_of(answer: &Result<u32, Refusal>) -> String {
    match answer {
        Ok(code) => format!("accepted\t{}\n", type_name(*code)),
        Err(Refusal { number, place }) => {
            let place = place.map_or("-".to_string(), |place| place.to_string());
            format!("refused\t{number}\t{place}\n")
        }
    }
}

/// A text that can be read is written again byte for byte.
fn compare_writing(text: &[u8]) -> Result<(), String> {
    let Ok(script) = reference::read(text) else {
        return Ok(());
    };
    let written = reference::write(&script);
    if written == text {
        return Ok(());
    }
    let (read, written) = (show_text(text), show_text(&written));
    Err(format!(
        "read and written again, a text differs\nread:\n{read}written:\n{written}"
    ))
}

/// Bytes before and after the lent cells that nobody may change.
const GUARD: usize = 64;

/// Compares a run: the answer, the used count, every lent byte, and the bytes around them.
pub fn compare_run(text: &[u8], station: &Station) -> Result<Result<Outcome, Refusal>, String> {
    let Station {
        values,
        cells,
        used,
    } = station;
    let mut expected_cells = cells.clone();
    let answer = reference::run_text(text, values, &mut expected_cells, *used);
    let expected = library::number_of_run(&answer);

    let mut memory: Vec<u8> = (0..cells.len() + 2 * GUARD).map(pattern).collect();
    let end = GUARD + cells.len();
    memory[GUARD..end].copy_from_slice(cells);
    let given = library::run_number(text, values, &mut memory[GUARD..end], *used);

    let guards = (0..GUARD).chain(end..memory.len());
    let guarded = guards.into_iter().all(|i| memory[i] == pattern(i));
    if given == expected && memory[GUARD..end] == expected_cells && guarded {
        return Ok(answer);
    }
    let mut report = format!(
        "a run differs\n  library:   {}\n  reference: {}\n",
        library::show_run(given),
        library::show_run(expected)
    );
    report += &show_differences(&memory[GUARD..end], &expected_cells);
    if !guarded {
        report += "  the library changed bytes outside the lent cells\n";
    }
    Err(report + &show_text(text) + &show_station(station))
}

fn show_differences(given: &[u8], expected: &[u8]) -> String {
    let places = (0..given.len()).filter(|&i| given[i] != expected[i]);
    let first: Vec<String> = places
        .take(10)
        .map(|i| format!("byte {i}: {} and {}", given[i], expected[i]))
        .collect();
    if first.is_empty() {
        return String::new();
    }
    format!("  cells, library and reference: {}\n", first.join("; "))
}

/// So many bytes of a text are shown; no text that can be read has more.
const SHOWN: usize = 2500;

/// A text for reading, with line numbers and visible tabs, and as a literal for a test.
pub fn show_text(text: &[u8]) -> String {
    let mut shown = format!("script, {} bytes:\n", text.len());
    let text = &text[..text.len().min(SHOWN)];
    let entries = text.split(|&b| b == b'\n');
    let entries = entries
        .take_while(|line| line.starts_with(b"entry\t"))
        .count();
    for (line, bytes) in text.split_inclusive(|&b| b == b'\n').take(200).enumerate() {
        let node = line.checked_sub(entries);
        let node = node.map_or(String::new(), |node| node.to_string());
        let (bytes, end) = match bytes.strip_suffix(b"\n") {
            Some(bytes) => (bytes, ""),
            None => (bytes, "   (no LF)"),
        };
        let bytes = bytes.escape_ascii().to_string().replace("\\t", "⇥");
        shown += &format!("  line {line:3}  node {node:>3}  {bytes}{end}\n");
    }
    shown + &format!("  b\"{}\"\n", text.escape_ascii())
}

/// Entry values and cells for reading.
pub fn show_station(station: &Station) -> String {
    let used = station.used as usize;
    let shown = station.cells.len().min(used.saturating_mul(5));
    format!(
        "values, {} bytes: {}\ncells, {} bytes lent, {used} used: {}\n",
        station.values.len(),
        show_values(&station.values),
        station.cells.len(),
        show_values(&station.cells[..shown])
    )
}

fn show_values(bytes: &[u8]) -> String {
    let whole = bytes.len() / 5 * 5;
    let values = bytes[..whole].chunks(5).map(|bytes| match value_of(bytes) {
        (0, bits) => format!("word {bits}"),
        (1, bits) => format!("truth {bits}"),
        (2, bits) => format!("location {bits}"),
        (kind, bits) => format!("kind {kind} bits {bits}"),
    });
    let mut shown: Vec<String> = values.collect();
    if whole < bytes.len() {
        shown.push(format!("bytes {:?}", &bytes[whole..]));
    }
    shown.join(", ")
}
