//! The rows of protection and default changes, on SNP.

use crate::row::Row;
use crate::subjects::Subject;
use crate::subjects::subject;
use std::hint::black_box;
use underhill_mem_port::IsolationType::Snp;

const GIB: u64 = 1 << 30;
const CALLS: u32 = 5;

/// Flags that change from call to call.
struct Flags(u8);

impl Flags {
    fn next(&mut self) -> u8 {
        self.0 = self.0 % 15 + 1;
        self.0
    }
}

pub fn lists() -> Vec<Row> {
    let rows = [("one run", 1), ("512 runs", 2)].map(|(name, step)| Row {
        parts: vec![Some(format!("protect 512 pages, {name}"))],
        calls: CALLS,
        rounds: 201,
        make: Box::new(move |kind| {
            let mut subject = subject(kind, Snp, GIB);
            let pages: Vec<u64> = (0..512).map(|page| page * step).collect();
            let mut flags = Flags(0);
            Box::new(move |_| {
                (0..CALLS).all(|_| black_box(subject.protect(flags.next(), black_box(&pages))))
            })
        }),
    });
    rows.into()
}

pub fn defaults() -> Vec<Row> {
    let rows = [("1 GiB", GIB, 51), ("64 GiB", 64 * GIB, 3)];
    let rows = rows.iter().flat_map(|&(size, end, rounds)| {
        [("all private", false), ("every second page shared", true)].map(|(name, shares)| Row {
            parts: vec![Some(format!("default, {size}, {name}"))],
            calls: 1,
            rounds,
            make: Box::new(move |kind| {
                let mut subject = subject(kind, Snp, end);
                if shares {
                    share_every_second(&mut *subject, end);
                }
                let mut flags = Flags(0);
                Box::new(move |_| black_box(subject.set_default(flags.next())))
            }),
        })
    });
    rows.collect()
}

fn share_every_second(subject: &mut dyn Subject, end: u64) {
    for first in (0..end / 4096).step_by(1024) {
        let pages: Vec<u64> = (first..first + 1024).step_by(2).collect();
        assert!(subject.change(true, &pages));
    }
}
