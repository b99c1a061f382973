//! Counts the instructions of the reader, test 5 and the writer by themselves: runs itself under
//! callgrind, once for each set. Counts differ less than times do from machine to machine, and from
//! run to run hardly at all.

use bench::alone::{Alone, ALONE};
use bench::machine;
use bench::programs::{call_library, nodes};
use bench::sets::Set;
use bench::table::{head, range, row};
use bench::texts;
use bench::worker::WORKER;
use std::env;
use std::hint::black_box;
use std::io;
use std::process::{exit, Command};

/// So many calls of each set are counted, or a few more: a pass goes over all inputs.
const CALLS: usize = 2000;

const COLUMNS: [&str; 5] = ["set", "inputs", "nodes", "calls", "instructions"];

const HOW: &str = "
Counted by callgrind: the instructions of one call of the library, text or table in, answer
out. The calls go over all inputs of the set, again and again; the count is their mean.
";

fn main() -> io::Result<()> {
    if !texts::LINKED {
        eprintln!("Nothing can be counted: `./build timing` comes first.");
        exit(1);
    }
    match env::args().skip(1).collect::<Vec<_>>().as_slice() {
        [] => print_counts(),
        [word, name] if word == WORKER => {
            make_calls(name);
            Ok(())
        }
        _ => {
            eprintln!("usage: instructions");
            exit(2);
        }
    }
}

fn print_counts() -> io::Result<()> {
    let Some(version) = valgrind_version() else {
        eprintln!("Nothing can be counted: valgrind is not there.");
        exit(1);
    };
    println!("{}, {version}", machine::describe());
    println!("{HOW}");
    println!("{}", head(&COLUMNS));
    for set in ALONE.iter().map(Alone::set) {
        let instructions = count(&set)? as f64 / calls(&set) as f64;
        println!("{}", row(&columns(&set, instructions)));
    }
    Ok(())
}

fn columns(set: &Set, instructions: f64) -> [String; 5] {
    let nodes = set.inputs.iter().map(|input| nodes(&input.text));
    [
        set.name.clone(),
        set.inputs.len().to_string(),
        range(nodes),
        calls(set).to_string(),
        format!("{instructions:.0}"),
    ]
}

fn passes(set: &Set) -> usize {
    CALLS.div_ceil(set.inputs.len())
}

fn calls(set: &Set) -> usize {
    passes(set) * set.inputs.len()
}

/// What the program does as a child: makes the calls of the set with this name.
fn make_calls(name: &str) {
    let alone = ALONE.iter().find(|alone| alone.name == name);
    let mut set = alone.expect("a set of this name").set();
    for _ in 0..passes(&set) {
        for input in &mut set.inputs {
            black_box(call_library(input));
        }
    }
}

/// The version of valgrind; none if it is not there.
fn valgrind_version() -> Option<String> {
    let output = Command::new("valgrind").arg("--version").output().ok()?;
    Some(String::from_utf8_lossy(&output.stdout).trim().to_string())
}

/// The instructions of all calls of a set.
fn count(set: &Set) -> io::Result<u64> {
    let function = set.inputs[0].call.function();
    let output = Command::new("valgrind")
        .arg("--tool=callgrind")
        .arg("--callgrind-out-file=/dev/null")
        .arg(format!("--toggle-collect={function}"))
        .arg(env::current_exe()?)
        .args([WORKER, &set.name])
        .output()?;
    let report = String::from_utf8_lossy(&output.stderr);
    let counted = output.status.success().then(|| collected(&report));
    Ok(counted
        .flatten()
        .unwrap_or_else(|| panic!("callgrind did not count {function}:\n{report}")))
}

/// The count in callgrind's report; none if nothing was counted.
fn collected(report: &str) -> Option<u64> {
    let number = report.split("Collected : ").nth(1)?.split_whitespace();
    let number = number.map(str::parse).next()?;
    number.ok().filter(|&number| number > 0)
}

#[cfg(test)]
mod tests {
    use super::*;

    #[test]
    fn the_count_is_in_the_report() {
        let report = "==7== Events    : Ir\n==7== Collected : 1234\n==7== \n";
        assert_eq!(collected(report), Some(1234));
        assert_eq!(collected("==7== Collected : 0\n"), None);
        assert_eq!(collected("==7== Events    : Ir\n"), None);
    }
}
