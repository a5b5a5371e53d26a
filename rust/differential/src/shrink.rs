//! Shortens a case that shows a difference.

use crate::case::Act;
use crate::case::Build;
use crate::case::Lend;
use crate::case::Request;
use crate::case::What;
use std::time::Duration;
use std::time::Instant;

/// The most cases that are tried, and the longest time.
const MOST_TRIES: usize = 20_000;
const MOST_TIME: Duration = Duration::from_secs(20);

/// What a case is made of.
pub trait Simpler: Clone {
    /// The same in simpler forms; each is simpler than the one before by some measure, so that
    /// shrinking ends.
    fn simpler(&self) -> Vec<Self>;
}

/// The shortest case found that still differs; what lies behind the difference is cut off by
/// `differs`, which gives its place.
pub fn shrink<A: Simpler>(case: &[A], differs: impl Fn(&[A]) -> Option<usize>) -> Vec<A> {
    let mut case = case.to_vec();
    if let Some(place) = differs(&case) {
        case.truncate(place + 1);
    }
    let began = Instant::now();
    let mut tries = (0..MOST_TRIES).take_while(|_| began.elapsed() < MOST_TIME);
    let simpler = |case: &[A], tries: &mut dyn Iterator<Item = usize>| {
        let mut tried = candidates(case).zip(tries);
        tried.find_map(|(candidate, _)| {
            let place = differs(&candidate)?;
            Some(candidate[..=place].to_vec())
        })
    };
    while let Some(better) = simpler(&case, &mut tries) {
        case = better;
    }
    case
}

/// Simpler cases, the simplest first.
fn candidates<A: Simpler>(case: &[A]) -> impl Iterator<Item = Vec<A>> {
    let count = case.len();
    let sizes = [8, 4, 2, 1].into_iter().filter(move |&size| size < count);
    let fewer = sizes.flat_map(move |size| {
        (0..=count - size).map(move |from| [&case[..from], &case[from + size..]].concat())
    });
    let simpler = (0..count).flat_map(move |place| {
        case[place].simpler().into_iter().map(move |act| {
            let mut case = case.to_vec();
            case[place] = act;
            case
        })
    });
    fewer.chain(simpler)
}

impl Simpler for Act {
    fn simpler(&self) -> Vec<Self> {
        simpler_acts(self)
    }
}

fn simpler_acts(act: &Act) -> Vec<Act> {
    let lend = act.lend;
    let simpler = simpler_whats(&act.what).into_iter();
    let mut acts: Vec<_> = simpler.map(|what| Act { what, lend }).collect();
    if lend != Lend::default() {
        acts.push(Act {
            what: act.what.clone(),
            lend: Lend::default(),
        });
    }
    acts
}

fn simpler_whats(what: &What) -> Vec<What> {
    match *what {
        What::Build(ref build) => {
            let builds = simpler_builds(build).into_iter();
            builds.map(What::Build).collect()
        }
        What::Call { request, fail } => simpler_calls(request, fail),
        What::Start(request) => {
            let call = What::Call {
                request,
                fail: None,
            };
            let simpler = simpler_requests(&request).into_iter().map(What::Start);
            [call].into_iter().chain(simpler).collect()
        }
        What::Answer { done: false } => vec![What::Answer { done: true }],
        What::Answer { done: true } => Vec::new(),
    }
}

fn simpler_calls(request: Request, fail: Option<u64>) -> Vec<What> {
    let places = fail.map_or(Vec::new(), lower);
    let earlier = places.into_iter().filter(|&place| place > 0).map(Some);
    let none = fail.map(|_| None);
    let fails = none.into_iter().chain(earlier);
    let fails = fails.map(|fail| What::Call { request, fail });
    let requests = simpler_requests(&request).into_iter();
    fails
        .chain(requests.map(|request| What::Call { request, fail }))
        .collect()
}

fn simpler_builds(build: &Build) -> Vec<Build> {
    let mut builds = Vec::new();
    for place in 0..build.ram.len() {
        let mut fewer = build.clone();
        fewer.ram.remove(place);
        builds.push(fewer);
    }
    builds.extend(lower_builds(build));
    for place in 0..build.ram.len() {
        let entry = build.ram[place];
        let mut smaller = build.clone();
        smaller.ram[place].end = entry.start.wrapping_add(32_768);
        builds.push(smaller);
        let mut plain = build.clone();
        plain.ram[place].node = place as u64;
        builds.push(plain);
    }
    let offsets = lower(build.offset).into_iter();
    builds.extend(offsets.map(|offset| Build {
        offset,
        ..build.clone()
    }));
    for granularity in [4096, build.granularity / 2] {
        builds.push(Build {
            granularity,
            ..build.clone()
        });
    }
    // A finer granularity has more chunks.
    builds.retain(|simpler| weight(simpler) < weight(build) && simpler.is_small());
    builds
}

/// The same with all of its RAM lower, by whole pieces of many sizes, so that what is aligned stays
/// so; or at half the addresses.
fn lower_builds(build: &Build) -> Vec<Build> {
    let with_ram = |shrunk: &dyn Fn(u64) -> u64| {
        let mut smaller = build.clone();
        for entry in &mut smaller.ram {
            entry.start = shrunk(entry.start);
            entry.end = shrunk(entry.end);
        }
        smaller
    };
    let lowest = build.ram.iter().map(|e| e.start.min(e.end)).min();
    let shifts = (15..52).rev().map(|shift| {
        let by = lowest.unwrap_or(0) >> shift << shift;
        with_ram(&|address| address - by)
    });
    let half = with_ram(&|address| address / 65_536 * 32_768);
    shifts.chain([half]).collect()
}

/// Falls with each simpler build, so that shrinking ends.
fn weight(build: &Build) -> (usize, u128) {
    let numbers = build
        .ram
        .iter()
        .flat_map(|e| [e.start, e.end, e.node])
        .chain([build.offset, build.granularity]);
    (build.ram.len(), numbers.map(u128::from).sum())
}

fn simpler_requests(request: &Request) -> Vec<Request> {
    match *request {
        Request::Register { address, len } => {
            let addresses = lower(address).into_iter();
            let lens = lower(len).into_iter();
            addresses
                .map(|address| Request::Register { address, len })
                .chain(lens.map(|len| Request::Register { address, len }))
                .collect()
        }
        Request::All { alignment, ignore } => {
            let alignments = lower(alignment).into_iter();
            let ignores = lower(ignore).into_iter();
            alignments
                .map(|alignment| Request::All { alignment, ignore })
                .chain(ignores.map(|ignore| Request::All { alignment, ignore }))
                .collect()
        }
    }
}

/// Lower numbers, round ones first, then by ever smaller steps.
fn lower(number: u64) -> Vec<u64> {
    let round = [0, 1, 4096, number & !32_767, number & !4095];
    let steps = (1..64).map(|shift| number - (number >> shift));
    let mut numbers: Vec<_> = round.into_iter().chain(steps).collect();
    numbers.push(number.saturating_sub(1));
    numbers.retain(|&lower| lower < number);
    numbers.dedup();
    numbers
}

/// Fewer words, or one of them 0.
pub fn simpler_words(words: &[u64]) -> Vec<Vec<u64>> {
    let count = words.len();
    let mut simpler = Vec::new();
    if count > 1 {
        simpler.extend([words[..count / 2].to_vec(), words[..count - 1].to_vec()]);
    }
    for place in (0..count.min(64)).filter(|&place| words[place] != 0) {
        let mut words = words.to_vec();
        words[place] = 0;
        simpler.push(words);
    }
    simpler
}
