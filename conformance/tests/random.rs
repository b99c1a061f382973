//! Random requests to both programs: the same answers, the same bytes.

use conformance::compare::{compare, show_station, show_text};
use conformance::counts::Counts;
use conformance::request::{request, Request};
use conformance::settings;
use std::time::Instant;

/// So many disagreements are shown before the test stops.
const SHOWN: usize = 3;

/// From so many requests on, every kind of answer has to come up.
const ENOUGH: u64 = 20_000;

#[test]
fn random_requests() {
    let seed = settings::seed();
    if let Some(number) = settings::only() {
        return one_request(seed, number);
    }
    let requests = settings::requests();
    println!("random requests: {requests}, seed {seed}");
    let start = Instant::now();
    let (counts, wrong) = put_all(seed, requests);
    counts.print();
    println!("random requests: {:.1} s", start.elapsed().as_secs_f64());
    assert_eq!(wrong, 0, "disagreements; seed {seed}");
    let missing = counts.missing();
    if requests < ENOUGH {
        println!("too few requests to ask for every answer; missing: {missing:?}");
    } else {
        assert!(missing.is_empty(), "seed {seed}: {}", missing.join("; "));
    }
}

/// Puts the requests until some disagreements were seen.
fn put_all(seed: u64, requests: u64) -> (Counts, usize) {
    let mut counts = Counts::default();
    let mut wrong = 0;
    for number in 0..requests {
        let request = request(seed, number);
        match compare(&request) {
            Ok(answered) => counts.count(&request, &answered),
            Err(report) => {
                wrong += 1;
                println!(
                    "\nDISAGREEMENT: {}\n{report}",
                    settings::again(seed, number)
                );
            }
        }
        if wrong == SHOWN {
            println!("stopped after {wrong} disagreements");
            break;
        }
    }
    (counts, wrong)
}

/// Shows one request and puts it.
fn one_request(seed: u64, number: u64) {
    let request = request(seed, number);
    println!("seed {seed}, request {number}");
    let Request {
        source, text, run, ..
    } = &request;
    println!("made as: {source:?}\n{}", show_text(text));
    if let Some(station) = run {
        println!("{}", show_station(station));
    }
    match compare(&request) {
        Ok(answered) => println!("both programs agree: {:?}", answered.check),
        Err(report) => panic!("{report}"),
    }
}
