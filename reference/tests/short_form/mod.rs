//! Scripts in a short form, and what the checking program says of them.

use reference::{check_text, type_name};

/// Script text from a short form: lines parted by `; `, fields by one space.
pub fn text(short: &str) -> Vec<u8> {
    if short.is_empty() {
        return Vec::new();
    }
    let lines: Vec<String> = short
        .split("; ")
        .map(|line| line.replace(' ', "\t") + "\n")
        .collect();
    lines.concat().into_bytes()
}

/// What the checking program says of the short form: `i`, or `9 at 3`, or `3` without a place.
pub fn says(short: &str) -> String {
    says_bytes(&text(short))
}

/// The same of a whole text.
pub fn says_bytes(text: &[u8]) -> String {
    match check_text(text) {
        Ok(code) => type_name(code),
        Err(refusal) => match refusal.place {
            Some(place) => format!("{} at {place}", refusal.number),
            None => refusal.number.to_string(),
        },
    }
}

/// Which branch alone is taken if `condition`'s nodes are put before an `if` with branches of two
/// types; none if both are.
pub fn decided(entries: &str, condition: &str) -> Option<bool> {
    let last = condition.split("; ").count() - 1;
    let short = format!(
        "{entries}{condition}; int 1; true; if {last} {} {}; sym {}",
        last + 1,
        last + 2,
        last + 3
    );
    match says(&short).as_str() {
        "i" => Some(true),
        "b" => Some(false),
        answer => {
            assert_eq!(answer, format!("10 at {}", last + 4), "{short}");
            None
        }
    }
}

/// 192 lent cells full of 0xEE, the first ones as given.
pub fn cells(used: &[[u8; 5]]) -> Vec<u8> {
    let mut bytes = used.concat();
    bytes.resize(960, 0xEE);
    bytes
}
