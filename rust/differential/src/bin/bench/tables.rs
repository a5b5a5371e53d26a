//! The rows of overlays and locks, on SNP: each call on its own, and the two that undo each other
//! as a pair.
//!
//! A call changes what the next one finds. So several protectors of a kind stand in the same state,
//! and one batch makes the call once on each.

use crate::row::Row;
use crate::subjects::Held;
use crate::subjects::Subject;
use crate::subjects::hold;
use crate::subjects::subject;
use std::hint::black_box;
use underhill_mem_port::IsolationType::Snp;

const END: u64 = 1 << 30;
/// The protectors of a batch: few, so that what they touch stays near.
const BATCH: u32 = 8;
const PAIRS: u32 = 100;

/// A call that is made at that many held.
type Call = fn(&mut dyn Subject, u64) -> bool;

/// A call and the one that undoes it.
#[derive(Clone, Copy)]
struct Pair {
    /// Of each its name, of both together, and what is held.
    names: [&'static str; 3],
    held: &'static str,
    /// Makes that many be held.
    hold: Call,
    calls: [Call; 2],
}

const OVERLAYS: Pair = Pair {
    names: [
        "register an overlay",
        "unregister an overlay",
        "register and unregister an overlay, both",
    ],
    held: "overlays",
    hold: |subject, held| (0..held).all(|gpn| subject.register(gpn)),
    calls: [
        |subject, held| subject.register(black_box(held + 5)),
        |subject, held| subject.unregister(black_box(held + 5)),
    ],
};

const LOCKS: Pair = Pair {
    names: [
        "lock 2 pages",
        "unlock 2 pages",
        "lock and unlock 2 pages, both",
    ],
    held: "lists",
    hold: |subject, held| (0..held).all(|page| subject.lock(&[page])),
    calls: [
        |subject, held| subject.lock(black_box(&[held, held + 1])),
        |subject, held| subject.unlock(black_box(&[held, held + 1])),
    ],
};

/// With all the overlays that there may be, and longer lists.
const FULL_LOCKS: Pair = Pair {
    held: "lists of 16 pages, 128 overlays",
    hold: |subject, lists| {
        let held = Held {
            lists,
            ..Held::FULL
        };
        hold(subject, END, held)
    },
    ..LOCKS
};

pub fn overlays() -> Vec<Row> {
    [0, 127]
        .iter()
        .flat_map(|&held| rows(OVERLAYS, held))
        .collect()
}

pub fn locks() -> Vec<Row> {
    // Beside 64 lists the port refuses what the original takes.
    [(LOCKS, 0), (LOCKS, 63), (FULL_LOCKS, 63)]
        .iter()
        .flat_map(|&(pair, held)| rows(pair, held))
        .collect()
}

fn rows(pair: Pair, held: u64) -> [Row; 2] {
    let Pair { names, calls, .. } = pair;
    let name = |name: &str| Some(format!("{name}, {held} other {}", pair.held));
    let apart = Row {
        parts: vec![name(names[0]), name(names[1])],
        calls: BATCH,
        rounds: 1001,
        make: Box::new(move |kind| {
            let subjects = (0..BATCH).map(|_| holding(subject(kind, Snp, END), pair, held));
            let mut subjects: Vec<_> = subjects.collect();
            Box::new(move |part| {
                let mut subjects = subjects.iter_mut();
                subjects.all(|subject| black_box(calls[part](&mut **subject, held)))
            })
        }),
    };
    let both = Row {
        parts: vec![name(names[2])],
        calls: PAIRS,
        rounds: 201,
        make: Box::new(move |kind| {
            let mut subject = holding(subject(kind, Snp, END), pair, held);
            Box::new(move |_| {
                let mut pair = || {
                    calls
                        .iter()
                        .all(|call| black_box(call(&mut *subject, held)))
                };
                (0..PAIRS).all(|_| pair())
            })
        }),
    };
    [apart, both]
}

fn holding(mut subject: Box<dyn Subject>, pair: Pair, held: u64) -> Box<dyn Subject> {
    assert!((pair.hold)(&mut *subject, held));
    subject
}
