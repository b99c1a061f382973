//! Checks in a child process, which can be ended when a call takes too long. The child gets
//! a length as 4 bytes and a text, and answers a line with the nanoseconds of a check.

use conformance::library;
use std::hint::black_box;
use std::io::{self, BufRead, BufReader, Read, Write};
use std::process::{Child, ChildStdin, Command, Stdio};
use std::sync::mpsc::{channel, Receiver};
use std::thread;
use std::time::{Duration, Instant};

/// The argument that makes the program a child.
pub const WORKER: &str = "--worker";

/// The least of several times counts; no further one is taken after so long.
const ENOUGH: Duration = Duration::from_millis(50);

/// What the child does: answers until its input ends.
pub fn work() -> io::Result<()> {
    let (mut input, mut output) = (io::stdin().lock(), io::stdout().lock());
    let mut length = [0; 4];
    while input.read_exact(&mut length).is_ok() {
        let mut text = vec![0; u32::from_le_bytes(length) as usize];
        input.read_exact(&mut text)?;
        writeln!(output, "{}", least_time(&text).as_nanos())?;
        output.flush()?;
    }
    Ok(())
}

fn least_time(text: &[u8]) -> Duration {
    let mut least = Duration::MAX;
    let first = Instant::now();
    for _ in 0..5 {
        let start = Instant::now();
        black_box(library::check_number(black_box(text)));
        least = least.min(start.elapsed());
        if first.elapsed() > ENOUGH {
            break;
        }
    }
    least
}

/// A child process, and the lines that it writes.
struct Running {
    child: Child,
    input: ChildStdin,
    lines: Receiver<String>,
}

/// Times checks in a child, and starts a new one after a call that took too long.
#[derive(Default)]
pub struct Worker {
    running: Option<Running>,
}

impl Worker {
    /// The time of a check; none if it takes longer than `limit`.
    pub fn time(&mut self, text: &[u8], limit: Duration) -> io::Result<Option<Duration>> {
        if self.running.is_none() {
            self.running = Some(start()?);
        }
        let running = self.running.as_mut().expect("a child was started");
        running
            .input
            .write_all(&(text.len() as u32).to_le_bytes())?;
        running.input.write_all(text)?;
        running.input.flush()?;
        match running.lines.recv_timeout(limit) {
            Ok(line) => Ok(line.parse().ok().map(Duration::from_nanos)),
            Err(_) => {
                self.end();
                Ok(None)
            }
        }
    }

    fn end(&mut self) {
        if let Some(mut running) = self.running.take() {
            let _ = running.child.kill();
            let _ = running.child.wait();
        }
    }
}

impl Drop for Worker {
    fn drop(&mut self) {
        self.end();
    }
}

fn start() -> io::Result<Running> {
    let mut child = Command::new(std::env::current_exe()?)
        .arg(WORKER)
        .stdin(Stdio::piped())
        .stdout(Stdio::piped())
        .spawn()?;
    let input = child.stdin.take().expect("its input is a pipe");
    let output = BufReader::new(child.stdout.take().expect("its output is a pipe"));
    let (sender, lines) = channel();
    thread::spawn(move || {
        for line in output.lines().map_while(Result::ok) {
            if sender.send(line).is_err() {
                break;
            }
        }
    });
    Ok(Running {
        child,
        input,
        lines,
    })
}
