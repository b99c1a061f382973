//! Times the verified library against the reference program on the same inputs, in one run.

use bench::machine;
use bench::programs::nodes;
use bench::sets::{sets, Set};
use bench::table::{head, range, row, NONE};
use bench::texts;
use bench::timing::{measure, Time, Times, ONCE, ROUNDS};
use std::env;
use std::process::exit;

const COLUMNS: [&str; 7] = [
    "set",
    "inputs",
    "nodes",
    "paths",
    "library",
    "reference",
    "reference / library",
];

fn main() {
    let all = match env::args().skip(1).collect::<Vec<_>>().as_slice() {
        [] => false,
        [word] if word == "--all" => true,
        _ => {
            eprintln!("usage: bench [--all]");
            exit(2);
        }
    };
    println!("{}", machine::describe());
    println!("{}", how());
    println!("{}", head(&COLUMNS));
    for mut set in sets() {
        let times = measure(&mut set, all);
        println!("{}", row(&columns(&set, times)));
    }
    if !texts::LINKED {
        println!();
        println!(
            "Reading, writing and test 5 alone were not timed: `./build timing` comes first."
        );
    }
}

fn how() -> String {
    let once = ONCE.as_millis();
    format!(
        "
Timed: one call, text in, answer out; reading the text is part of it. Both programs are
built for release. Texts, values and cells are made once and reused; before each run the
lent 960 bytes are restored by a copy, which is timed too. Each set is warmed up, then
{ROUNDS} rounds alternate between the programs; a round goes over all inputs of the set.
Times are medians over the rounds, for one call; the ratio is the median of the rounds' ratios.
Once: the program's first call took over {once} ms and is its time. Left out: a call takes
10 s or so; `--all` makes it, once.
Paths: of all blocks of one check, if every path is followed anew. Reading: the script has
128 nodes and five nested `sym`, which is refused after all of reading, so nothing is checked.
Alone: the reader, the writer or test 5 (each node but the last is used exactly once) by itself.
Short scripts are all different; all are read into one table. The reference has no call for test 5.
"
    )
}

fn columns(set: &Set, times: Times) -> [String; 7] {
    let nodes = set.inputs.iter().map(|input| nodes(&input.text));
    let paths = set.inputs.iter().map(|input| input.paths);
    let reference = match set.has_reference() {
        true => shown(times.reference),
        false => NONE.to_string(),
    };
    let ratio = times.ratio.map(|ratio| format!("{ratio:.2}"));
    [
        set.name.clone(),
        set.inputs.len().to_string(),
        range(nodes),
        range(paths),
        shown(times.verified),
        reference,
        ratio.unwrap_or(NONE.to_string()),
    ]
}

fn shown(time: Option<Time>) -> String {
    match time {
        None => "left out".to_string(),
        Some(time) if time.once => duration(time.nanoseconds) + ", once",
        Some(time) => duration(time.nanoseconds),
    }
}

fn duration(nanoseconds: f64) -> String {
    if nanoseconds < 1e4 {
        format!("{nanoseconds:.0} ns")
    } else if nanoseconds < 1e7 {
        format!("{:.1} µs", nanoseconds / 1e3)
    } else if nanoseconds < 1e10 {
        format!("{:.1} ms", nanoseconds / 1e6)
    } else {
        format!("{:.1} s", nanoseconds / 1e9)
    }
}
