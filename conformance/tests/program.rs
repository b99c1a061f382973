//! The checking program `mixcheck`: standard input to one line.

use conformance::compare::show_text;
use conformance::fixed::text;
use conformance::request::request;
use conformance::settings;
use std::env;
use std::io::Write;
use std::path::PathBuf;
use std::process::{Command, Output, Stdio};

/// How many random texts the program is given.
const RANDOM: u64 = 300;

/// `target/bin/mixcheck` below the workspace root, or what `TEQHARIS_MIXCHECK` names.
fn program() -> PathBuf {
    let here = PathBuf::from(env!("CARGO_MANIFEST_DIR")).join("../target/bin/mixcheck");
    let path = env::var_os("TEQHARIS_MIXCHECK").map_or(here, PathBuf::from);
    assert!(
        path.is_file(),
        "{} is not there; make it with: ./build mixcheck",
        path.display()
    );
    path
}

fn start(command: &mut Command) -> std::process::Child {
    let command = command.stdin(Stdio::piped()).stdout(Stdio::piped());
    let child = command.stderr(Stdio::piped()).spawn();
    child.unwrap_or_else(|error| panic!("{} cannot be started: {error}", program().display()))
}

/// What the program prints for an input that is written in pieces of so many bytes.
fn answer(input: &[u8], piece: usize) -> Output {
    let mut child = start(&mut Command::new(program()));
    let mut stdin = child.stdin.take().expect("standard input is a pipe");
    for bytes in input.chunks(piece.max(1)) {
        // A program that has read enough may close its input; what it prints is looked at anyway.
        if stdin.write_all(bytes).and_then(|()| stdin.flush()).is_err() {
            break;
        }
    }
    drop(stdin);
    child.wait_with_output().expect("the program ends")
}

fn expect_line(name: &str, input: &[u8], output: &Output) {
    let expected = reference::check_line(input);
    let printed = String::from_utf8_lossy(&output.stdout);
    assert!(
        printed == expected,
        "{name}\n  program:   {printed:?}\n  reference: {expected:?}\n  status: {}, errors: {:?}\n{}",
        output.status,
        String::from_utf8_lossy(&output.stderr),
        show_text(input)
    );
}

#[test]
fn printed_cases() {
    let printed = text("entry ri; var 0; true; set 0 1; sym 2");
    let p1 = text("true; int 5; true; int 3; add 2 3; if 0 1 4; sym 5");
    let line = |input: &[u8]| String::from_utf8(answer(input, 4096).stdout);
    assert_eq!(line(&printed).as_deref(), Ok("refused\t9\t3\n"));
    assert_eq!(line(&p1).as_deref(), Ok("accepted\ti\n"));
    assert_eq!(line(b"").as_deref(), Ok("refused\t3\t-\n"));
    assert_eq!(line(&[b'\n'; 8193]).as_deref(), Ok("refused\t31\t-\n"));
    println!("the checking program: 4 printed lines");
}

#[test]
fn fixed_inputs() {
    let deep = text("entry rrrrrrrrrrrrrrrb; var 0");
    let p1 = text("true; int 5; true; int 3; add 2 3; if 0 1 4; sym 5");
    let long = |length: usize| [p1.clone(), vec![b'\n'; length - p1.len()]].concat();
    let inputs = [
        ("a type of 15 r", deep),
        ("P2", text("true; int 5; true; int 3; add 2 3; if 0 1 4")),
        ("binary", (0..=255).collect()),
        ("zeros", vec![0; 8192]),
        ("8,191 bytes", long(8191)),
        ("8,192 bytes", long(8192)),
        ("8,193 bytes", long(8193)),
        ("8,192 bytes of one line", vec![b'1'; 8192]),
        ("100,000 bytes", long(100_000)),
        ("1,000,000 bytes", long(1_000_000)),
        ("no LF at the end", b"true".to_vec()),
        ("P1", p1.clone()),
    ];
    for (name, input) in &inputs {
        for piece in [1_000_000, 4096, 1000] {
            expect_line(name, input, &answer(input, piece));
        }
    }
    expect_line("P1, byte by byte", &p1, &answer(&p1, 1));
    println!(
        "the checking program: {} fixed inputs, each in pieces of several lengths",
        inputs.len()
    );
}

#[test]
fn no_input() {
    let null = Command::new(program()).stdin(Stdio::null()).output();
    expect_line("the null device", b"", &null.expect("the program ends"));
    expect_line("a pipe that is closed at once", b"", &answer(b"", 1));
    let mut closed = Command::new("sh");
    let closed = closed
        .args(["-c", "exec \"$0\" <&-"])
        .arg(program())
        .output();
    expect_line(
        "closed standard input",
        b"",
        &closed.expect("the program ends"),
    );
    println!("the checking program: empty and closed standard input");
}

#[test]
fn random_inputs() {
    let seed = settings::seed();
    println!("the checking program: {RANDOM} random inputs, seed {seed}");
    for number in 0..RANDOM {
        let input = request(seed, number).text;
        let name = settings::again(seed, number);
        expect_line(&name, &input, &answer(&input, 4096));
    }
}
