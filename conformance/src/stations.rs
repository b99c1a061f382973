//! Entry values and cells for runs: such that a typing fits, such that none needs to, and such that
//! the run is refused.

use crate::random::Random;

pub const WORD: u8 = 0;
pub const TRUTH: u8 = 1;
pub const LOCATION: u8 = 2;

/// The bytes of a lent cell that nothing has used.
pub const LENT: usize = 960;

/// What a run is given beside the script.
#[derive(Clone)]
pub struct Station {
    pub values: Vec<u8>,
    pub cells: Vec<u8>,
    pub used: u32,
}

/// A value as 5 bytes: its kind, then 32 bits, low byte first.
pub fn bytes_of(kind: u8, bits: u32) -> [u8; 5] {
    let [a, b, c, d] = bits.to_le_bytes();
    [kind, a, b, c, d]
}

/// The value in 5 bytes.
pub fn value_of(bytes: &[u8]) -> (u8, u32) {
    let bits = [bytes[1], bytes[2], bytes[3], bytes[4]];
    (bytes[0], u32::from_le_bytes(bits))
}

/// Used cells in lent bytes of this length, the rest filled with a pattern.
pub fn lend(used: &[u8], length: usize) -> Vec<u8> {
    let mut cells: Vec<u8> = (0..length).map(pattern).collect();
    let shared = used.len().min(length);
    cells[..shared].copy_from_slice(&used[..shared]);
    cells
}

/// What stands in lent memory that nobody has used.
pub fn pattern(place: usize) -> u8 {
    (place as u8).wrapping_mul(37).wrapping_add(11)
}

/// A random typing of at most 64 cells, with a cell for every reference that is needed.
pub fn typing(random: &mut Random, entries: &[u32]) -> Vec<u32> {
    let shared = random.chance(50);
    let most = random.weighted(&[(30, 4), (40, 12), (20, 32), (10, 64)]);
    let wanted = random.between(0, most);
    typing_of(random, entries, shared, wanted)
}

/// A random typing with so many cells, or those that are needed. If they are shared, the entries need
/// one of each type.
fn typing_of(random: &mut Random, entries: &[u32], shared: bool, wanted: usize) -> Vec<u32> {
    let mut types = Vec::new();
    for &code in entries {
        if code >= 2 && !(shared && types.contains(&(code - 2))) {
            types.push(code - 2);
        }
    }
    while types.len() < wanted.min(32) {
        types.push(random.weighted(&[(30, 0), (25, 1), (20, 2), (15, 3), (10, 4)]));
    }
    let mut next = 0;
    while next < types.len() {
        let code = types[next];
        if code >= 2 && !types.contains(&(code - 2)) {
            types.push(code - 2);
        }
        next += 1;
    }
    while types.len() < wanted {
        types.push(random.below(2) as u32);
    }
    shuffle(random, &mut types);
    types
}

pub fn shuffle(random: &mut Random, types: &mut [u32]) {
    for last in (1..types.len()).rev() {
        types.swap(last, random.below(last + 1));
    }
}

/// A value of a type under a typing that has a cell for it.
fn value(random: &mut Random, code: u32, types: &[u32]) -> [u8; 5] {
    if code == 0 {
        return bytes_of(WORD, random.word());
    }
    if code == 1 {
        return bytes_of(TRUTH, random.below(2) as u32);
    }
    let all = 0..types.len();
    let found: Vec<usize> = all.filter(|&cell| types[cell] == code - 2).collect();
    bytes_of(LOCATION, random.pick(&found) as u32)
}

/// Cells and entry values that this typing fits.
pub fn fitting(random: &mut Random, entries: &[u32], types: &[u32]) -> Station {
    let values = entries.iter().flat_map(|&code| value(random, code, types));
    let values = values.collect();
    let used: Vec<u8> = types
        .iter()
        .flat_map(|&code| value(random, code, types))
        .collect();
    Station {
        values,
        cells: lend(&used, LENT),
        used: types.len() as u32,
    }
}

/// A random typing with so few cells that entries of one type share one.
pub fn narrow_typing(random: &mut Random, entries: &[u32]) -> Vec<u32> {
    typing_of(random, entries, true, 0)
}

/// Cells and entry values that such a typing fits.
pub fn sharing(random: &mut Random, entries: &[u32]) -> Station {
    let types = narrow_typing(random, entries);
    fitting(random, entries, &types)
}

/// Cells and entry values that are taken, but of any kinds.
fn loose(random: &mut Random, entries: usize) -> Station {
    let used = random.weighted(&[(30, 3), (30, 10), (20, 40), (20, 64)]);
    let used = random.between(0, used);
    let mut bytes = |count: usize| -> Vec<u8> {
        let all = 0..count;
        all.flat_map(|_| any_value(random, used)).collect()
    };
    let values = bytes(entries);
    let cells = lend(&bytes(used), LENT);
    Station {
        values,
        cells,
        used: used as u32,
    }
}

fn any_value(random: &mut Random, used: usize) -> [u8; 5] {
    match random.below(3) {
        0 => bytes_of(WORD, random.word()),
        2 if used > 0 => bytes_of(LOCATION, random.below(used) as u32),
        _ => bytes_of(TRUTH, random.below(2) as u32),
    }
}

/// What a request hands to a run: mostly something that is taken.
pub fn station(random: &mut Random, entries: &[u32]) -> Station {
    let mut station = if random.chance(55) {
        let types = typing(random, entries);
        fitting(random, entries, &types)
    } else {
        loose(random, entries.len())
    };
    if random.chance(20) {
        for _ in 0..random.between(1, 2) {
            damage(random, &mut station);
        }
    }
    station
}

fn damage(random: &mut Random, station: &mut Station) {
    match random.below(6) {
        0 => damage_value(random, station.used, &mut station.values),
        1 => {
            let end = (station.used as usize)
                .saturating_mul(5)
                .min(station.cells.len());
            damage_value(random, station.used, &mut station.cells[..end]);
        }
        2 => damage_length(random, &mut station.values),
        3 => {
            let near = [station.used.wrapping_add(1), station.used.wrapping_sub(1)];
            let far = [64, 65, 66, 191, 192, 193, 1000, 1 << 31, u32::MAX];
            station.used = random.pick(&[&near[..], &far[..]].concat());
        }
        _ => {
            let lengths = [0, 5, 320, 955, 959, 960, 961, 964, 965, 1000, 1285];
            let length = random.pick(&lengths);
            let kept = station.cells.len().min(length);
            station.cells = lend(&station.cells[..kept], length);
        }
    }
}

/// Changes the kind or the bits of one of the values.
fn damage_value(random: &mut Random, used: u32, bytes: &mut [u8]) {
    if bytes.len() < 5 {
        return;
    }
    let start = 5 * random.below(bytes.len() / 5);
    if random.chance(50) {
        bytes[start] = random.pick(&[0, 1, 2, 3, 4, 255]);
        return;
    }
    let near = [used, used.wrapping_sub(1), used.wrapping_add(1)];
    let bits = random.pick(&[near[0], near[1], near[2], 0, 1, 2, 255, 256, u32::MAX]);
    let kind = bytes[start];
    bytes[start..start + 5].copy_from_slice(&bytes_of(kind, bits));
}

fn damage_length(random: &mut Random, values: &mut Vec<u8>) {
    match random.below(5) {
        0 => values.truncate(values.len().saturating_sub(1)),
        1 => values.truncate(values.len().saturating_sub(5)),
        2 => values.push(0),
        3 => values.extend([0; 5]),
        _ => values.extend([0; 4]),
    }
}
