//! The registrar's rows.

use crate::row::Kind;
use crate::row::Row;
use memory_range::MemoryRange;
use std::hint::black_box;
use underhill_mem_port::MemoryRegistrar;
use underhill_mem_source::Registrar;
use vm_topology::memory::MemoryLayout;
use vm_topology::memory::MemoryRangeWithNode;

const CHUNK: u64 = 2 << 20;
const TERABYTE: u64 = 1 << 40;

/// What is measured: a registrar of either kind.
trait Subject {
    /// Whether it went well.
    fn register(&mut self, address: u64, len: u64) -> bool;
    fn register_all_aligned(&mut self, alignment: u64) -> bool;
}

impl Subject for MemoryRegistrar {
    fn register(&mut self, address: u64, len: u64) -> bool {
        let mut backend = |_| Ok::<(), ()>(());
        self.register(address, len, &mut backend).is_ok()
    }

    fn register_all_aligned(&mut self, alignment: u64) -> bool {
        let mut backend = |_| Ok::<(), ()>(());
        self.register_all_aligned(alignment, true, &mut backend)
            .is_ok()
    }
}

impl Subject for Registrar {
    fn register(&mut self, address: u64, len: u64) -> bool {
        Registrar::register(self, address, len).is_ok()
    }

    fn register_all_aligned(&mut self, alignment: u64) -> bool {
        Registrar::register_all_aligned(self, alignment, true).is_ok()
    }
}

/// Does it to a registrar, the call of that number.
type Step = fn(&mut dyn Subject, u64) -> bool;

struct Shape {
    name: &'static str,
    /// Entries of so many bytes each,
    entry: u64,
    /// so many of them,
    count: u64,
    /// with holes of that length between them.
    hole: u64,
    /// Not measured.
    before: Step,
    /// Measured.
    call: Step,
    /// How often the call is made on one registrar; 1 if it changes what it does.
    times: u32,
    rounds: u32,
}

const SHAPES: [Shape; 10] = [
    Shape {
        name: "register, a registered page",
        entry: TERABYTE,
        count: 1,
        hole: 0,
        before: |s, _| s.register(TERABYTE / 2, 1),
        call: |s, _| s.register(TERABYTE / 2, 1),
        times: 1000,
        rounds: 200,
    },
    Shape {
        name: "register, a registered page, 32 entries",
        entry: 1 << 32,
        count: 32,
        hole: 1 << 32,
        before: |s, _| s.register(62 << 32, 1),
        call: |s, _| s.register(62 << 32, 1),
        times: 1000,
        rounds: 200,
    },
    Shape {
        name: "register, 512 registered chunks",
        entry: TERABYTE,
        count: 1,
        hole: 0,
        before: |s, _| s.register(0, 512 * CHUNK),
        call: |s, _| s.register(0, 512 * CHUNK),
        times: 20,
        rounds: 200,
    },
    Shape {
        name: "register, a fresh page",
        entry: TERABYTE,
        count: 1,
        hole: 0,
        before: |_, _| true,
        call: |s, i| s.register(TERABYTE / 2 + i * CHUNK, 1),
        times: 1000,
        rounds: 51,
    },
    Shape {
        name: "register, 512 fresh chunks",
        entry: TERABYTE,
        count: 1,
        hole: 0,
        before: |_, _| true,
        call: |s, _| s.register(0, 512 * CHUNK),
        times: 1,
        rounds: 200,
    },
    Shape {
        name: "register, 512 fresh chunks, 32 entries",
        entry: 8 * CHUNK,
        count: 32,
        hole: 8 * CHUNK,
        before: |_, _| true,
        call: |s, _| s.register(0, 504 * CHUNK),
        times: 1,
        rounds: 200,
    },
    Shape {
        name: "register, 1 TiB fresh",
        entry: TERABYTE,
        count: 1,
        hole: 0,
        before: |_, _| true,
        call: |s, _| s.register(0, TERABYTE),
        times: 1,
        rounds: 11,
    },
    Shape {
        name: "register_all_aligned, 1 TiB fresh",
        entry: TERABYTE,
        count: 1,
        hole: 0,
        before: |_, _| true,
        call: |s, _| s.register_all_aligned(CHUNK),
        times: 1,
        rounds: 51,
    },
    Shape {
        name: "register_all_aligned, 1 TiB registered",
        entry: TERABYTE,
        count: 1,
        hole: 0,
        before: |s, _| s.register_all_aligned(CHUNK),
        call: |s, _| s.register_all_aligned(CHUNK),
        times: 1,
        rounds: 51,
    },
    Shape {
        name: "register_all_aligned, 1 TiB, every 64th chunk registered",
        entry: TERABYTE,
        count: 1,
        hole: 0,
        before: |s, _| (0..TERABYTE / CHUNK / 64).all(|i| s.register(i * 64 * CHUNK, 1)),
        call: |s, _| s.register_all_aligned(CHUNK),
        times: 1,
        rounds: 11,
    },
];

pub fn rows() -> Vec<Row> {
    SHAPES.iter().map(row).collect()
}

/// Each round has a registrar of its own.
fn row(shape: &'static Shape) -> Row {
    Row {
        parts: vec![None, Some(shape.name.to_string())],
        calls: shape.times,
        rounds: shape.rounds,
        make: Box::new(move |kind| {
            let mut subject = subject(kind, shape);
            Box::new(move |part| match part {
                0 => {
                    subject = self::subject(kind, shape);
                    (shape.before)(&mut *subject, 0)
                }
                _ => {
                    let mut calls = 0..shape.times.into();
                    calls.all(|call| black_box((shape.call)(&mut *subject, black_box(call))))
                }
            })
        }),
    }
}

fn subject(kind: Kind, shape: &Shape) -> Box<dyn Subject> {
    match kind {
        Kind::Port => Box::new(port(shape)),
        Kind::Original => Box::new(original(shape)),
    }
}

fn entries(shape: &Shape) -> impl Iterator<Item = (u64, u64)> {
    let (entry, step) = (shape.entry, shape.entry + shape.hole);
    (0..shape.count).map(move |i| (i * step, i * step + entry))
}

fn port(shape: &Shape) -> MemoryRegistrar {
    let ram = entries(shape).map(|(start, end)| underhill_mem_port::MemoryRangeWithNode {
        range: underhill_mem_port::MemoryRange { start, end },
        vnode: 0,
    });
    let ram: Vec<_> = ram.collect();
    MemoryRegistrar::new(&ram, 0, CHUNK).expect("the layout is fit")
}

fn original(shape: &Shape) -> Registrar {
    let ram = entries(shape).map(|(start, end)| MemoryRangeWithNode {
        range: MemoryRange::new(start..end),
        vnode: 0,
    });
    let layout = MemoryLayout::new(ram.collect()).expect("the layout is fit");
    Registrar::new(&layout, 0, CHUNK)
}
