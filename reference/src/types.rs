//! Type codes: "2 × the count of `r`, plus 1 for `b`: 0 to 31".

/// The code of `i`, a word.
pub(crate) const WORD: u32 = 0;
/// The code of `b`, a truth.
pub(crate) const TRUTH: u32 = 1;
/// The largest code: 15 references to a truth.
pub(crate) const LARGEST: u32 = 31;

/// The type with one `r` more, unless that would have 16 references.
pub(crate) fn reference_to(code: u32) -> Option<u32> {
    let longer = code.checked_add(2)?;
    (longer <= LARGEST).then_some(longer)
}

/// The type with one `r` less, if the type is a reference.
pub(crate) fn content_of(code: u32) -> Option<u32> {
    code.checked_sub(2)
}

/// The type's spelling, such as `rri`. A code above 31 names no type and gives the empty string.
pub fn type_name(code: u32) -> String {
    if code > LARGEST {
        return String::new();
    }
    let mut name = "r".repeat(code as usize / 2);
    name.push(if code % 2 == TRUTH { 'b' } else { 'i' });
    name
}

/// The code that a spelling names: 0 to 15 letters `r`, then `i` or `b`.
pub(crate) fn code_of_name(name: &[u8]) -> Option<u32> {
    let (last, references) = name.split_last()?;
    if references.len() > 15 || references.iter().any(|letter| *letter != b'r') {
        return None;
    }
    let base = match last {
        b'i' => WORD,
        b'b' => TRUTH,
        _ => return None,
    };
    Some(2 * references.len() as u32 + base)
}
