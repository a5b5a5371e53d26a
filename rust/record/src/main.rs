//! Records what the original answers, for `crates/replay`: `record [SEED]` writes the file to
//! standard output and what it reaches to standard error.
//!
//! `calls` makes the protector's calls and `registrar` the registrar's, `original` puts them to the
//! original and reads its lines, `file` writes them down, `digest` has the digest of the file.

mod calls;
mod coverage;
mod digest;
mod file;
mod original;
#[path = "../../differential/src/random.rs"]
mod random;
mod registrar;

use coverage::Coverage;
use file::Part;
use random::Random;

const LAYOUTS: [&[(u64, u64)]; 4] = [
    &[(0, 512)],
    &[(0, 128), (128, 384)],
    &[(0, 16), (32, 8), (64, 64), (200, 56), (480, 32)],
    &[(8, 40), (48, 16), (128, 200), (336, 8), (344, 8), (504, 8)],
];

/// Protector calls of one build, and registrar calls of one.
const CALLS: usize = 56;
const REGISTRATIONS: usize = 24;

fn main() {
    let seed = std::env::args().nth(1).map_or(1, |word| {
        word.parse().expect("the seed is a decimal number")
    });
    // A call on which the original panics is left out.
    std::panic::set_hook(Box::new(|_| ()));
    let mut coverage = Coverage::default();
    changes(seed, &mut coverage).print();
    registrations(seed, &mut coverage).print();
    coverage.print();
}

/// The protector's part.
fn changes(seed: u64, coverage: &mut Coverage) -> Part {
    let mut part = Part::default();
    let mut case = 0;
    for tracked in [1, 0] {
        for isolation in [2, 3, 4] {
            for (place, layout) in LAYOUTS.into_iter().enumerate() {
                for release in [0, 1] {
                    case += 1;
                    let mut random = Random::new(seed, case);
                    let build = calls::Build {
                        isolation,
                        tracked,
                        release,
                        layout,
                        enable: place % 2 == 0,
                    };
                    calls::record(&mut random, build, CALLS, &mut part, coverage);
                }
            }
        }
    }
    written_out(&mut part, coverage);
    part
}

/// The lists of the protector's calls that are written out.
fn written_out(part: &mut Part, coverage: &mut Coverage) {
    let build = |isolation: u64, tracked: u64| calls::Build {
        isolation,
        tracked,
        release: 0,
        layout: LAYOUTS[2],
        enable: true,
    };
    for isolation in [2, 3, 4] {
        calls::record_locked_overlay(build(isolation, 1), part, coverage);
        calls::record_count(build(isolation, 1), part, coverage);
    }
    for isolation in [2, 3, 4] {
        calls::record_past(build(isolation, 1), part, coverage);
        calls::record_past(build(isolation, 0), part, coverage);
    }
}

/// The registrar's part.
fn registrations(seed: u64, coverage: &mut Coverage) -> Part {
    let mut part = Part::default();
    for place in 0..12 {
        let mut random = Random::new(seed, 1000 + place);
        registrar::record(&mut random, REGISTRATIONS, &mut part, coverage);
    }
    for offset in [4096, 1 << 40] {
        for failing in 0..=3 {
            registrar::record_spans(offset, failing, &mut part, coverage);
        }
    }
    part
}
