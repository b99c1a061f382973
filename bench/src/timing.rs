//! How a set is timed: in rounds that alternate between the programs, or once where a call is slow.

use crate::programs::{call_library, call_reference, refusal_in, Input, Program};
use crate::sets::{Set, Slow};
use std::hint::black_box;
use std::time::{Duration, Instant};

/// Rounds that count, each with both programs.
pub const ROUNDS: usize = 41;

/// One round of one program takes about so long.
const ROUND: Duration = Duration::from_millis(4);

/// A program whose first call took longer is not called again: that call is its time.
pub const ONCE: Duration = Duration::from_millis(100);

/// The time of one call in nanoseconds.
#[derive(Clone, Copy)]
pub struct Time {
    pub nanoseconds: f64,
    pub once: bool,
}

/// The times of library and reference for one call, none for what is left out or not there, and the
/// reference's by the library's, if there are both.
pub struct Times {
    pub verified: Option<Time>,
    pub reference: Option<Time>,
    pub ratio: Option<f64>,
}

/// Times a set. Without `all` the calls that take 10 s or so are left out.
pub fn measure(set: &mut Set, all: bool) -> Times {
    let programs: [Program; 2] = [call_library, call_reference];
    let wanted = [
        set.slow != Slow::Both || all,
        set.has_reference() && (set.slow == Slow::Neither || all),
    ];
    let first = first_calls(set, programs, wanted);
    let quick = first.map(|time| time.is_some_and(|time| time < ONCE));
    let rounds = rounds(set, programs, quick);
    let [library, reference] = [0, 1].map(|which| match first[which] {
        Some(_) if quick[which] => Some(Time {
            nanoseconds: median(rounds[which].clone()),
            once: false,
        }),
        first => first.map(|first| Time {
            nanoseconds: first.as_nanos() as f64,
            once: true,
        }),
    });
    let ratio = match (library, reference) {
        _ if quick == [true; 2] => Some(median_ratio(&rounds)),
        (Some(library), Some(reference)) => Some(reference.nanoseconds / library.nanoseconds),
        _ => None,
    };
    Times {
        verified: library,
        reference,
        ratio,
    }
}

/// The median of the rounds' ratios. A round's two times were taken one after the other, so it
/// matters less that the machine is faster in some rounds than in others.
fn median_ratio([library, reference]: &[Vec<f64>; 2]) -> f64 {
    let rounds = library.iter().zip(reference);
    median(
        rounds
            .map(|(library, reference)| reference / library)
            .collect(),
    )
}

/// The mean time of the first call on each input. The programs give the same answers, and those
/// that the set is for: else a time would say nothing.
fn first_calls(set: &mut Set, programs: [Program; 2], wanted: [bool; 2]) -> [Option<Duration>; 2] {
    let count = set.inputs.len() as u32;
    let mut first = wanted.map(|wanted| wanted.then_some(Duration::ZERO));
    for input in &mut set.inputs {
        let mut answers = Vec::new();
        for (time, program) in first.iter_mut().zip(programs) {
            let Some(time) = time else { continue };
            let start = Instant::now();
            answers.push(program(input));
            *time += start.elapsed();
        }
        for &answer in &answers {
            assert_eq!(answer, answers[0], "{}: the programs disagree", set.name);
            assert_eq!(refusal_in(answer), set.refusal, "{}: refused", set.name);
        }
    }
    first.map(|time| time.map(|time| time / count))
}

/// The times of each round of each program that is wanted.
fn rounds(set: &mut Set, programs: [Program; 2], wanted: [bool; 2]) -> [Vec<f64>; 2] {
    let passes = [0, 1].map(|which| match wanted[which] {
        true => passes(&mut set.inputs, programs[which]),
        false => 0,
    });
    let mut times = [Vec::new(), Vec::new()];
    for round in 0..ROUNDS {
        for turn in 0..2 {
            let which = (round + turn) % 2;
            if wanted[which] {
                times[which].push(time(&mut set.inputs, programs[which], passes[which]));
            }
        }
    }
    times
}

/// How many passes over the inputs make a round, found while warming up.
fn passes(inputs: &mut [Input], program: Program) -> usize {
    let mut passes = 1;
    loop {
        let one = time(inputs, program, passes);
        let round = one * (passes * inputs.len()) as f64;
        if round >= ROUND.as_nanos() as f64 || passes > 1_000_000 {
            return passes;
        }
        passes *= 2;
    }
}

/// The time of one call in nanoseconds, over so many passes.
fn time(inputs: &mut [Input], program: Program, passes: usize) -> f64 {
    let start = Instant::now();
    for _ in 0..passes {
        for input in inputs.iter_mut() {
            black_box(program(input));
        }
    }
    start.elapsed().as_nanos() as f64 / (passes * inputs.len()) as f64
}

/// The middle one of the times, of which there is at least one.
fn median(mut times: Vec<f64>) -> f64 {
    times.sort_by(f64::total_cmp);
    times[times.len() / 2]
}

#[cfg(test)]
mod tests {
    use super::*;

    #[test]
    fn the_median_is_in_the_middle() {
        assert_eq!(median(vec![3.0, 9.0, 1.0]), 3.0);
        assert_eq!(median(vec![2.0]), 2.0);
    }

    #[test]
    fn a_slow_round_does_not_change_the_ratio() {
        let rounds = [vec![1.0, 2.0, 2.0], vec![3.0, 6.0, 3.0]];
        assert_eq!(median_ratio(&rounds), 3.0);
    }
}
