//! A row of the table: what both subjects do, and how it is measured.

use std::hint::black_box;
use std::time::Duration;
use std::time::Instant;

/// Who is measured.
#[derive(Debug, Clone, Copy, PartialEq, Eq)]
pub enum Kind {
    Port,
    Original,
}

pub const KINDS: [Kind; 2] = [Kind::Port, Kind::Original];

/// Does the part of that number and says whether all went well.
pub type Work = Box<dyn FnMut(usize) -> bool>;

/// Rounds of parts, done by the port and by the original in turn.
pub struct Row {
    /// What is measured, part by part; what has no name is done between and not measured.
    pub parts: Vec<Option<String>>,
    /// How many calls are in a part.
    pub calls: u32,
    pub rounds: u32,
    pub make: Box<dyn Fn(Kind) -> Work>,
}

impl Row {
    /// The names of what is measured, with their places.
    pub fn named(&self) -> impl Iterator<Item = (usize, &str)> {
        let parts = self.parts.iter().enumerate();
        parts.filter_map(|(place, name)| name.as_deref().map(|name| (place, name)))
    }

    /// Does a part and says how long it took.
    pub fn time(&self, work: &mut Work, part: usize) -> Duration {
        let began = Instant::now();
        let well = bench_measured(work, part);
        let time = began.elapsed();
        assert!(well, "{:?}, part {part}", self.parts);
        time
    }
}

/// Nanoseconds of a call, by part: of the port and of the original.
pub fn times(row: &Row, clock: Duration) -> Vec<[f64; 2]> {
    let mut works = KINDS.map(|kind| (row.make)(kind));
    let mut times = vec![[const { Vec::new() }; 2]; row.parts.len()];
    for _ in 0..row.rounds {
        for (part, times) in times.iter_mut().enumerate() {
            for (work, times) in works.iter_mut().zip(times) {
                times.push(row.time(work, part).saturating_sub(clock));
            }
        }
    }
    let each = f64::from(row.calls);
    let part =
        |times: [Vec<Duration>; 2]| times.map(|times| median(times).as_nanos() as f64 / each);
    times.into_iter().map(part).collect()
}

/// What the clock itself takes.
pub fn clock() -> Duration {
    let nothing = Row {
        parts: vec![None],
        calls: 1,
        rounds: 1,
        make: Box::new(|_| Box::new(|_| true)),
    };
    let mut work = (nothing.make)(Kind::Port);
    median((0..10_001).map(|_| nothing.time(&mut work, 0)).collect())
}

fn median(mut times: Vec<Duration>) -> Duration {
    times.sort();
    times[times.len() / 2]
}

/// All that is measured happens in here: callgrind goes by the name.
#[inline(never)]
pub fn bench_measured(work: &mut Work, part: usize) -> bool {
    // No jump in the place of a call: callgrind is to see the return.
    black_box(work(part))
}
