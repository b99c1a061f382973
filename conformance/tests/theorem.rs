//! What acceptance promises: on cells and entry values that a typing fits, an accepted script ends
//! with a value of the reported type, under an extension of that typing.

use conformance::compare::{show_station, show_text};
use conformance::library;
use conformance::random::Random;
use conformance::request::{entries_of, request, Request, Source};
use conformance::settings;
use conformance::stations::{fitting, narrow_typing, typing, Station};
use conformance::tree::type_name;
use conformance::typings::{extension, fits, type_of};
use reference::Outcome;

/// Tells the stream of the cells from that of the script.
const CELLS: u64 = 0x6365_6c6c_7300;

/// From so many runs on, those about scratch cells have to be frequent.
const ENOUGH: u64 = 10_000;

/// Runs in which something happened to the cells.
#[derive(Default)]
struct Seen {
    runs: u64,
    with_cells: u64,
    stored: u64,
    added: u64,
    locations: u64,
    /// Scripts about scratch cells.
    scratch: u64,
}

#[test]
fn accepted_scripts_end_with_a_value_of_their_type() {
    let seed = settings::seed();
    let wanted = settings::requests() / 2;
    println!("accepted scripts: {wanted} runs on cells that a typing fits, seed {seed}");
    let mut seen = Seen::default();
    let mut number = settings::only().unwrap_or(0);
    while seen.runs < wanted {
        if let Err(report) = try_script(seed, number, &mut seen) {
            panic!("{}\n{report}", settings::again(seed, number));
        }
        if settings::only().is_some() {
            break;
        }
        number += 1;
    }
    println!(
        "  {} runs of {number} scripts: {} with used cells, {} changed one, {} added one, {} gave a location",
        seen.runs, seen.with_cells, seen.stored, seen.added, seen.locations
    );
    println!("  {} of them about scratch cells", seen.scratch);
    let enough = seen.runs < ENOUGH || seen.scratch * 20 >= seen.runs;
    assert!(enough, "less than a twentieth about scratch cells");
}

/// Runs the script of a request once, if it is accepted.
fn try_script(seed: u64, number: u64, seen: &mut Seen) -> Result<(), String> {
    let Request { text, source, .. } = request(seed, number);
    let Ok(code) = library::check(&text) else {
        return Ok(());
    };
    let mut random = Random::new(seed ^ CELLS, number);
    let entries = entries_of(&text);
    let scratch = source == Source::Scratch;
    let types = if scratch && random.chance(50) {
        narrow_typing(&mut random, &entries)
    } else {
        typing(&mut random, &entries)
    };
    let station = fitting(&mut random, &entries, &types);
    let used = 5 * types.len();
    assert!(types.len() <= 64 && fits(&types, &station.cells[..used]));
    let mut cells = station.cells.clone();
    let outcome = library::run(&text, &station.values, &mut cells, station.used);
    seen.runs += 1;
    seen.scratch += u64::from(scratch);
    seen.with_cells += u64::from(!types.is_empty());
    seen.stored += u64::from(cells[..used] != station.cells[..used]);
    let report = |what: String| {
        let (script, cells) = (show_text(&text), show_station(&station));
        Err(format!(
            "{what}\n  accepted with {}, typing {types:?}\n{script}{cells}",
            type_name(code)
        ))
    };
    match outcome {
        Ok(Outcome::Value { kind, bits, used }) => {
            seen.added += u64::from(used > station.used);
            seen.locations += u64::from(kind == 2);
            let ended = ends_well(&types, &station, &cells, used, (kind, bits), code);
            ended.or_else(report)
        }
        Ok(Outcome::Error { node, .. }) => report(format!("error state at node {node}")),
        Err(refusal) => report(format!("the run is refused: {refusal:?}")),
    }
}

/// Whether there is an extension under which the value has the type.
fn ends_well(
    types: &[u32],
    station: &Station,
    cells: &[u8],
    used: u32,
    value: (u8, u32),
    code: u32,
) -> Result<(), String> {
    let end = 5 * used as usize;
    if used < station.used || end > cells.len() {
        return Err(format!("{used} cells used after {}", station.used));
    }
    if cells[end..] != station.cells[end..] {
        return Err("bytes behind the used cells changed".into());
    }
    let extended = extension(types, &cells[..end])?;
    if type_of(value, &extended) == Some(code) {
        return Ok(());
    }
    Err(format!(
        "the value {value:?} has another type under {extended:?}"
    ))
}
