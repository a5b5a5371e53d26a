//! The rows of visibility changes: pages are shared and returned, list after list.

use crate::row::Row;
use crate::subjects::Held;
use crate::subjects::hold;
use crate::subjects::subject;
use std::hint::black_box;
use underhill_mem_port::IsolationType;

/// One entry of RAM, 4 GiB, permissions tracked.
const END: u64 = 1 << 32;

/// Lists of one shape.
struct Shape {
    name: &'static str,
    pages: u64,
    /// From one page to the next: 1 for one run, 2 for as many runs as pages.
    step: u64,
    /// From the end of a list to the start of the next: where 8, runs begin with a byte of the maps.
    apart: u64,
    /// From one page of the list to the next in the order of pages, modulo their number: 1 where
    /// they ascend.
    turn: u64,
    /// How many lists, one after the other, are shared and then returned in a round: so few that
    /// seldom another process comes between.
    lists: u32,
    rounds: u32,
}

const SHAPES: [Shape; 7] = [
    Shape {
        name: "1 page",
        pages: 1,
        step: 1,
        apart: 3,
        turn: 1,
        lists: 200,
        rounds: 401,
    },
    Shape {
        name: "16 pages, one run",
        pages: 16,
        step: 1,
        apart: 3,
        turn: 1,
        lists: 100,
        rounds: 301,
    },
    Shape {
        name: "16 pages, two bytes",
        pages: 16,
        step: 1,
        apart: 8,
        turn: 1,
        lists: 100,
        rounds: 301,
    },
    Shape {
        name: "16 pages, 16 runs",
        pages: 16,
        step: 2,
        apart: 3,
        turn: 1,
        lists: 40,
        rounds: 201,
    },
    Shape {
        name: "512 pages, one run",
        pages: 512,
        step: 1,
        apart: 3,
        turn: 1,
        lists: 10,
        rounds: 201,
    },
    Shape {
        name: "512 pages, 64 bytes",
        pages: 512,
        step: 1,
        apart: 8,
        turn: 1,
        lists: 10,
        rounds: 201,
    },
    Shape {
        name: "512 pages, 512 runs",
        pages: 512,
        step: 2,
        apart: 3,
        turn: 1,
        lists: 2,
        rounds: 101,
    },
];

/// Neither ascending nor descending, and no page twice: 201 is odd.
const NO_ORDER: Shape = Shape {
    name: "512 pages, in no order",
    pages: 512,
    step: 1,
    apart: 3,
    turn: 201,
    lists: 2,
    rounds: 101,
};

/// Nothing held, on each isolation; a list in no order on SNP.
pub fn plain() -> Vec<Row> {
    let isolations = [
        (IsolationType::Snp, "SNP"),
        (IsolationType::Tdx, "TDX"),
        (IsolationType::Cca, "CCA"),
    ];
    let plain = |shape, isolation, name| {
        row(shape, isolation, Held::NOTHING, |what| {
            format!("{name}, {what}")
        })
    };
    let rows = isolations.iter().flat_map(|&(isolation, name)| {
        let rows = SHAPES.iter();
        rows.map(move |shape| plain(shape, isolation, name))
    });
    let no_order = plain(&NO_ORDER, IsolationType::Snp, "SNP");
    rows.chain([no_order]).collect()
}

/// Overlays and locked pages, on SNP.
pub fn held() -> Vec<Row> {
    let held = [(10, 0), (127, 0), (0, 1000), (10, 1000), (127, 1000)];
    let rows = held.iter().flat_map(|&(overlays, locked)| {
        let rows = SHAPES.iter();
        let held = Held {
            overlays,
            lists: locked / 500,
            list: 500,
        };
        let name = move |what: String| format!("{what}; {overlays} overlays, {locked} locked");
        rows.map(move |shape| row(shape, IsolationType::Snp, held, name))
    });
    rows.collect()
}

fn row(
    shape: &'static Shape,
    isolation: IsolationType,
    held: Held,
    name: impl Fn(String) -> String,
) -> Row {
    let parts = ["share", "return"];
    Row {
        parts: parts
            .map(|to| Some(name(format!("{to} {}", shape.name))))
            .into(),
        calls: shape.lists,
        rounds: shape.rounds,
        make: Box::new(move |kind| {
            let mut subject = subject(kind, isolation, END);
            assert!(hold(&mut *subject, END, held));
            let lists = lists(shape);
            Box::new(move |part| {
                let mut lists = lists.iter();
                lists.all(|pages| black_box(subject.change(part == 0, black_box(pages))))
            })
        }),
    }
}

/// Lists of pages that lie apart.
fn lists(shape: &Shape) -> Vec<Vec<u64>> {
    let span = shape.pages * shape.step + shape.apart;
    let page = |p: u64| p * shape.turn % shape.pages * shape.step;
    let list = |i: u64| (0..shape.pages).map(move |p| i * span + page(p));
    (0..shape.lists.into()).map(|i| list(i).collect()).collect()
}
