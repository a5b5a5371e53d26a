//! The registrar's calls.

use crate::calls::ram;
use crate::coverage::Coverage;
use crate::digest::Digest;
use crate::file;
use crate::file::Call;
use crate::file::Given;
use crate::file::Part;
use crate::original;
use crate::original::span;
use crate::original::value;
use crate::random::Random;

/// Chunks of every layout: eight words of a bitmap.
const CHUNKS: u64 = 512;

/// Calls that are drawn by chance.
pub fn record(random: &mut Random, calls: usize, part: &mut Part, coverage: &mut Coverage) {
    let granularity = random.pick(&[4096, 32_768, 65_536]);
    let pages = granularity / 4096;
    let build = Call {
        kind: file::REGISTRAR,
        arguments: [random.pick(&[0, 4096, 1 << 40]), granularity, 0, 0, 0],
        runs: layout(random, pages),
        ..Call::default()
    };
    let mut session = Session::begun(&build, part, coverage);
    for _ in 0..calls {
        let call = some_call(random, granularity);
        session.put(&call);
    }
}

/// Pages of a chunk that is wide enough for two spans and a hole before them.
const WIDE: u64 = 32;

/// First page and count of entries in chunks of 32 pages: a hole, then RAM; RAM, a hole, RAM; a
/// hole, RAM, a hole, RAM; RAM of two entries; RAM in the middle; then all up to the last chunk.
const SPANS: [(u64, u64); 9] = [
    (8, 24),
    (32, 8),
    (48, 16),
    (72, 8),
    (88, 8),
    (96, 16),
    (112, 16),
    (144, 8),
    (160, WIDE * CHUNKS - 160),
];

/// Chunks of two spans and chunks that begin with a hole, under an offset: each alone, then all
/// together, twice, and whole spans. Of each call the operation of that number fails, if it has it.
pub fn record_spans(offset: u64, failing: u64, part: &mut Part, coverage: &mut Coverage) {
    let granularity = WIDE * 4096;
    let build = Call {
        kind: file::REGISTRAR,
        arguments: [offset, granularity, 0, 0, 0],
        runs: SPANS.to_vec(),
        ..Call::default()
    };
    let mut session = Session::begun(&build, part, coverage);
    let one = |chunk: u64| (file::REGISTER, chunk * granularity + 1, granularity - 1);
    let some = (file::REGISTER, 0, 6 * granularity);
    let all = |ignore: u64| (file::REGISTER_ALL, granularity, ignore);
    let calls = [
        one(2),
        one(0),
        some,
        one(1),
        one(4),
        some,
        some,
        all(1),
        all(0),
    ];
    for (kind, a, b) in calls {
        session.put(&Call {
            kind,
            arguments: [a, b, 0, 0, 0],
            failure: [failing, 0, 0],
            ..Call::default()
        });
    }
}

/// Entries of multiples of 8 pages that end with the last chunk.
fn layout(random: &mut Random, pages: u64) -> Vec<(u64, u64)> {
    let end = CHUNKS * pages;
    let mut runs = Vec::new();
    let mut at = 8 * random.below(3);
    while at < end {
        let size = (8 * random.within(1, 24)).min(end - at);
        runs.push((at, size));
        at += size + 8 * random.pick(&[0, 0, 1, 3]) * pages.min(4);
        if runs.len() == 6 && at < end {
            runs.push((at, end - at));
            break;
        }
    }
    let last = runs.last_mut().expect("an entry");
    last.1 = end - last.0;
    runs
}

fn some_call(random: &mut Random, granularity: u64) -> Call {
    let end = CHUNKS * granularity;
    let mut call = Call::default();
    if random.chance(15) {
        call.kind = file::REGISTER_ALL;
        let alignment = granularity * random.pick(&[1, 2, 4, 16]);
        call.arguments = [alignment, random.below(2), 0, 0, 0];
    } else {
        call.kind = file::REGISTER;
        let address = random.below(end);
        let most = random.pick(&[1, granularity, 20 * granularity, end]);
        let len = random.below(most.min(end - address) + 1);
        call.arguments = [address, len, 0, 0, 0];
    }
    if random.chance(25) {
        call.failure = [random.within(1, 3), 0, 0];
    }
    call
}

fn line(call: &Call) -> String {
    let [a, b, ..] = call.arguments;
    let text = match call.kind {
        file::REGISTRAR => {
            let ram = ram(&call.runs);
            format!("registrar offset={a} granularity={b} ram={ram}")
        }
        file::REGISTER => format!("register {a} {b}"),
        _ => format!("register_all_aligned {a} {b}"),
    };
    match call.failure[0] {
        0 => text,
        place => format!("{text} fail={place}:0:0"),
    }
}

struct Session<'a> {
    original: oracle::Session,
    offset: u64,
    granularity: u64,
    part: &'a mut Part,
    coverage: &'a mut Coverage,
}

impl<'a> Session<'a> {
    /// A registrar that is built.
    fn begun(build: &Call, part: &'a mut Part, coverage: &'a mut Coverage) -> Self {
        let [offset, granularity, ..] = build.arguments;
        let mut session = Self {
            original: oracle::Session::new(2),
            offset,
            granularity,
            part,
            coverage,
        };
        session.put(build);
        session
    }

    fn put(&mut self, call: &Call) {
        let mut ask = |line: &str| self.original.line(line).expect("a line is answered");
        let text = ask(&line(call));
        let answer = original::answer(&text);
        let mut call = call.clone();
        if answer.ops.len() < call.failure[0] as usize {
            call.failure = [0; 3];
        }
        let mut digest = Digest::new();
        for op in &answer.ops {
            digest.words(&op.bytes());
            self.coverage.operation("registrar", op.name);
        }
        let mut given = given(answer.result, &mut digest);
        given.count = answer.ops.len() as u64;
        given.asked = digest.0;
        given.left = left(&ask("rdump"));
        self.coverage.call("registrar", &call, &given);
        self.count_spans(&call, &given, &answer.ops);
        self.part.write(&call, &given);
    }

    /// Chunks that are registered under an offset: of two spans, or with a hole before their RAM.
    fn count_spans(&mut self, call: &Call, given: &Given, ops: &[original::Op<'_>]) {
        if call.kind != file::REGISTER || self.offset == 0 {
            return;
        }
        let starts = ops.iter().map(|op| op.bytes()[0] - self.offset);
        let starts: Vec<u64> = starts.collect();
        let chunk = |start: u64| start / self.granularity;
        let two = starts.windows(2).any(|w| chunk(w[0]) == chunk(w[1]));
        let hole = starts.chunk_by(|a, b| chunk(*a) == chunk(*b));
        let hole = hole
            .map(|chunk| chunk[0])
            .any(|s| s % self.granularity != 0);
        for (met, at) in [(two, "of two spans"), (hole, "with a hole first")] {
            if met {
                let at = format!("under an offset, a chunk {at}");
                self.coverage.call_at(&at, call, given);
            }
        }
    }
}

/// The result; the fields of UnalignedMemory, or zeros, go into the digest.
fn given(result: &str, digest: &mut Digest) -> Given {
    let mut given = Given::default();
    let mut fields = [0; 8];
    if result.starts_with("err failed") {
        given.result = 23;
        given.index = value(result, "address").parse().expect("an address");
    } else if result.starts_with("err UnalignedMemory") {
        given.result = 22;
        let number = |name: &str| value(result, name).parse().expect("a number");
        let [span, edge, node] =
            ["span", "edge", "node_range"].map(|name| span(value(result, name)));
        let (vnode, alignment) = (number("vnode"), number("alignment"));
        fields = [
            span[0], span[1], edge[0], edge[1], vnode, node[0], node[1], alignment,
        ];
    } else {
        assert_eq!(result, "ok");
    }
    digest.words(&fields);
    given
}

fn left(dump: &str) -> u64 {
    let mut digest = Digest::new();
    for name in ["registered", "failed"] {
        for word in value(dump, name).split(',') {
            digest.word(u64::from_str_radix(word, 16).expect("a word"));
        }
    }
    digest.0
}
