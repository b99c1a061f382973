//! Typings of cells, as docs/RUNS.md has them, and the search for an extension after a run.

use crate::stations::{value_of, LOCATION, TRUTH, WORD};

/// The type of a value under a typing, if it has one.
pub fn type_of(value: (u8, u32), types: &[u32]) -> Option<u32> {
    match value {
        (WORD, _) => Some(0),
        (TRUTH, 0 | 1) => Some(1),
        (LOCATION, cell) => {
            let code = types.get(cell as usize)? + 2;
            (code < 32).then_some(code)
        }
        _ => None,
    }
}

/// Whether a typing fits used cells.
pub fn fits(types: &[u32], used: &[u8]) -> bool {
    used.len() == 5 * types.len()
        && types
            .iter()
            .zip(used.chunks(5))
            .all(|(&code, cell)| type_of(value_of(cell), types) == Some(code))
}

/// The extension of a typing to the cells used after a run. There is at most one, since a new
/// cell's content says its type; none is given if a cell has no type or another than before.
pub fn extension(before: &[u32], used: &[u8]) -> Result<Vec<u32>, String> {
    let count = used.len() / 5;
    let mut found: Vec<Option<u32>> = before.iter().map(|&code| Some(code)).collect();
    found.resize(count, None);
    for cell in before.len()..count {
        let mut way = Vec::new();
        found[cell] = Some(follow(cell, &mut way, &found, used)?);
    }
    let types: Vec<u32> = found.into_iter().flatten().collect();
    if fits(&types, used) {
        Ok(types)
    } else {
        Err(format!("the cells do not fit the typing {types:?}"))
    }
}

/// The type that a new cell's content has, through the new cells that it leads to.
fn follow(
    cell: usize,
    way: &mut Vec<usize>,
    found: &[Option<u32>],
    used: &[u8],
) -> Result<u32, String> {
    if let Some(code) = found[cell] {
        return Ok(code);
    }
    if way.contains(&cell) {
        return Err(format!("cell {cell} leads to itself"));
    }
    way.push(cell);
    let code = match value_of(&used[5 * cell..]) {
        (WORD, _) => 0,
        (TRUTH, 0 | 1) => 1,
        (LOCATION, next) if (next as usize) < found.len() => {
            follow(next as usize, way, found, used)? + 2
        }
        other => return Err(format!("cell {cell} holds {other:?}")),
    };
    if code < 32 {
        Ok(code)
    } else {
        Err(format!("cell {cell} would have 16 references"))
    }
}
