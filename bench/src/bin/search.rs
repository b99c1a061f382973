//! Looks for the script whose check by the library is slowest: tries the hand-made families, then
//! changes the slowest scripts at random, then gives those that took too long more time.
//!
//! `search [SECONDS [SEED]]`: the families get a third of the seconds, the changes the rest, the
//! slow ones as much again. Scripts are ranked by how many blocks are nested in them, and each rank
//! gets as much time: else the few slow checks of deep nests would take all of it.

use bench::candidates::Candidate;
use bench::machine;
use bench::members::{families, nests, Nest};
use bench::mutation::mutated;
use bench::worker::{work, Worker, WORKER};
use conformance::random::Random;
use conformance::settings;
use std::cmp::Reverse;
use std::env;
use std::fs;
use std::io;
use std::path::Path;
use std::process::exit;
use std::time::{Duration, Instant};

/// A call that takes longer is ended, in the first two stages.
const LIMIT: Duration = Duration::from_secs(1);

/// So many of the slowest scripts are kept of each rank, and printed in all.
const KEPT: usize = 10;

/// Scripts with 0 to 4 nested blocks.
const RANKS: usize = 5;

/// Where the slowest scripts are written.
const FOLDER: &str = "target/search";

fn main() -> io::Result<()> {
    let words: Vec<String> = env::args().skip(1).collect();
    if words == [WORKER] {
        return work();
    }
    let numbers: Option<Vec<u64>> = words.iter().map(|word| word.parse().ok()).collect();
    let (seconds, seed) = match numbers.as_deref() {
        Some([]) => (60, settings::seed()),
        Some(&[seconds]) => (seconds, settings::seed()),
        Some(&[seconds, seed]) => (seconds, seed),
        _ => {
            eprintln!("usage: search [SECONDS [SEED]]");
            exit(2);
        }
    };
    println!("{}", machine::describe());
    println!("{seconds} s, seed {seed}");
    let mut search = Search::new(seed);
    search.try_families(Duration::from_secs(seconds) / 3)?;
    search.change_the_slowest(Duration::from_secs(seconds) * 2 / 3)?;
    search.try_the_slow_ones(Duration::from_secs(seconds))?;
    search.time_again()?;
    search.report()
}

/// A script and the time of its check.
struct Timed {
    time: Duration,
    candidate: Candidate,
}

struct Search {
    random: Random,
    worker: Worker,
    /// The slowest scripts of each rank, the slowest first.
    slowest: [Vec<Timed>; RANKS],
    /// The time that the calls for each rank have taken.
    spent: [Duration; RANKS],
    /// Scripts whose check took longer than the limit.
    over: Vec<Candidate>,
    tried: usize,
    start: Instant,
    said: Instant,
}

impl Search {
    fn new(seed: u64) -> Search {
        Search {
            random: Random::new(seed, 0),
            worker: Worker::default(),
            slowest: Default::default(),
            spent: Default::default(),
            over: Vec::new(),
            tried: 0,
            start: Instant::now(),
            said: Instant::now(),
        }
    }

    /// Times a script and keeps it if it is among the slowest.
    fn try_one(&mut self, candidate: Candidate, rank: usize, limit: Duration) -> io::Result<()> {
        self.tried += 1;
        let start = Instant::now();
        match self.worker.time(&candidate.text(), limit)? {
            None => self.over.push(candidate),
            Some(time) => self.keep(Timed { time, candidate }),
        }
        self.spent[rank] += start.elapsed();
        self.say();
        Ok(())
    }

    fn keep(&mut self, timed: Timed) {
        let kept = &mut self.slowest[timed.candidate.blocks()];
        let text = timed.candidate.text();
        if kept.iter().any(|other| other.candidate.text() == text) {
            return;
        }
        let place = kept.partition_point(|other| other.time > timed.time);
        kept.insert(place, timed);
        kept.truncate(KEPT);
    }

    /// A line a second: how far it is, and the slowest check for each number of nested blocks.
    fn say(&mut self) {
        if self.said.elapsed() < Duration::from_secs(1) {
            return;
        }
        self.said = Instant::now();
        let slowest = self.slowest.iter().enumerate();
        let slowest = slowest.filter_map(|(blocks, kept)| {
            let time = kept.first()?.time;
            Some(format!("; {blocks} blocks: {time:.1?}"))
        });
        println!(
            "{} s: {} tried, {} over {LIMIT:?}{}",
            self.start.elapsed().as_secs(),
            self.tried,
            self.over.len(),
            slowest.collect::<String>()
        );
    }

    /// The rank among these that has had the least time.
    fn next_rank(&self, ranks: impl Iterator<Item = usize>) -> Option<usize> {
        ranks.min_by_key(|&rank| self.spent[rank])
    }

    /// The hand-made families, in a random order.
    fn try_families(&mut self, share: Duration) -> io::Result<()> {
        let mut left: [Vec<Candidate>; RANKS] = Default::default();
        for candidate in families() {
            left[candidate.blocks()].push(candidate);
        }
        let count = |left: &[Vec<Candidate>]| left.iter().map(Vec::len).sum::<usize>();
        println!("families: {} scripts, at most {share:?}", count(&left));
        let start = Instant::now();
        while start.elapsed() < share {
            let filled = (0..RANKS).filter(|&rank| !left[rank].is_empty());
            let Some(rank) = self.next_rank(filled) else {
                break;
            };
            let place = self.random.below(left[rank].len());
            let next = left[rank].swap_remove(place);
            self.try_one(next, rank, LIMIT)?;
        }
        println!("families: {} were not tried", count(&left));
        Ok(())
    }

    /// Changes one of the slowest scripts at random, again and again.
    fn change_the_slowest(&mut self, share: Duration) -> io::Result<()> {
        println!("random changes of the slowest, {share:?}");
        let start = Instant::now();
        self.spent = Default::default();
        while start.elapsed() < share {
            let filled = (0..RANKS).filter(|&rank| !self.slowest[rank].is_empty());
            let filled: Vec<usize> = filled.collect();
            let Some(rank) = self.next_rank(filled.iter().copied()) else {
                break;
            };
            let first = self.any_of(rank);
            let lender = self.random.pick(&filled);
            let other = self.any_of(lender);
            let mut next = mutated(&first, &other, &mut self.random);
            if !next.from.ends_with(", changed") {
                next.from += ", changed";
            }
            self.try_one(next, rank, LIMIT)?;
        }
        Ok(())
    }

    /// One of the slowest scripts of a rank that has some.
    fn any_of(&mut self, rank: usize) -> Candidate {
        let kept = &self.slowest[rank];
        kept[self.random.below(kept.len())].candidate.clone()
    }

    /// Of the nests with so many outer blocks the one whose brother is slowest.
    fn slowest_nest(&mut self, blocks: usize) -> io::Result<Option<Candidate>> {
        let mut slowest = (Duration::ZERO, None);
        for Nest { brother, nest } in nests(blocks) {
            let time = self.worker.time(&brother.text(), LIMIT)?;
            if time.unwrap_or(LIMIT) > slowest.0 {
                slowest = (time.unwrap_or(LIMIT), Some(nest));
            }
        }
        Ok(slowest.1)
    }

    /// Those that took too long, one call each: first the nests whose brothers are slowest, then the
    /// ones with most work by the plain rules.
    fn try_the_slow_ones(&mut self, share: Duration) -> io::Result<()> {
        println!("choosing nests by brothers with two blocks");
        let mut over = std::mem::take(&mut self.over);
        over.sort_by_key(|candidate| candidate.tree.typed_work());
        over.extend(self.slowest_nest(3)?);
        over.extend(self.slowest_nest(2)?);
        println!("{} slow ones, one after the other, {share:?}", over.len());
        let start = Instant::now();
        while let Some(next) = over.pop() {
            let left = share.saturating_sub(start.elapsed());
            if left.is_zero() {
                break;
            }
            self.try_one(next, 0, left)?;
        }
        println!("{} of them were not tried", over.len());
        Ok(())
    }

    /// Times the slowest once more, if that takes no longer than the limit: a script may be among
    /// them only because the machine was slow just then.
    fn time_again(&mut self) -> io::Result<()> {
        println!("timing the slowest again");
        for timed in self.slowest.iter_mut().flatten() {
            if timed.time < LIMIT {
                let again = self.worker.time(&timed.candidate.text(), LIMIT)?;
                timed.time = again.map_or(timed.time, |again| again.min(timed.time));
            }
        }
        for kept in &mut self.slowest {
            kept.sort_by_key(|timed| Reverse(timed.time));
        }
        Ok(())
    }

    /// Prints the slowest of all, and the slowest for each number of nested blocks; writes both.
    fn report(mut self) -> io::Result<()> {
        println!("{} scripts were tried", self.tried);
        fs::create_dir_all(FOLDER)?;
        for candidate in &self.over {
            let name = "longer than there was time";
            write(name, candidate, "over-time.script")?;
        }
        println!("the slowest for each number of nested blocks:");
        for (blocks, kept) in self.slowest.iter().enumerate() {
            if let Some(Timed { time, candidate }) = kept.first() {
                write(
                    &format!("{time:.1?}"),
                    candidate,
                    &format!("blocks-{blocks}.script"),
                )?;
            }
        }
        let mut all: Vec<Timed> = self.slowest.iter_mut().flat_map(std::mem::take).collect();
        all.sort_by_key(|timed| Reverse(timed.time));
        println!("the {KEPT} slowest of all:");
        for (place, Timed { time, candidate }) in all.iter().take(KEPT).enumerate() {
            write(
                &format!("{time:.1?}"),
                candidate,
                &format!("worst-{place}.script"),
            )?;
        }
        Ok(())
    }
}

/// Writes a script below [`FOLDER`], and prints its line.
fn write(time: &str, candidate: &Candidate, name: &str) -> io::Result<()> {
    let path = Path::new(FOLDER).join(name);
    fs::write(&path, candidate.text())?;
    let (nodes, blocks) = (candidate.tree.size(), candidate.blocks());
    println!(
        "{time}: {nodes} nodes, {blocks} nested blocks, {}: {}",
        path.display(),
        candidate.from
    );
    Ok(())
}
