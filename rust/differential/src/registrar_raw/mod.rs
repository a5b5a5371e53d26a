//! Any words in any lengths: the registrar's entries against the predictor, every buffer compared.

pub mod generate;
pub mod predict;

use crate::coverage::Coverage;
use crate::guard::GUARD_WORD;
use crate::guard::first_unlike;
use crate::guard::guarded;
use crate::guard::inner;
use crate::guard::unguarded;
use crate::run::Difference;
use crate::shrink::Simpler;
use crate::shrink::simpler_words;
use predict::Call;
use predict::Given;
use predict::STATE;
use predict::World;
use underhill_mem_port::raw::registrar as entries;
use underhill_mem_port::raw::registrar::Lent;
use underhill_mem_port::raw::registrar::Reply;

/// The buffers by number.
const BUFFERS: [&str; 3] = ["state", "registered", "failed"];

#[derive(Debug, Clone, PartialEq, Eq)]
pub enum Act {
    /// A buffer of that length is lent from now on, cut or filled up with zeros.
    Resize {
        buffer: usize,
        len: usize,
    },
    /// Words that no call left there. What lies past the end is dropped.
    Put {
        buffer: usize,
        at: usize,
        words: Vec<u64>,
    },
    Call(Call),
}

fn buffer_of(world: &mut World, buffer: usize) -> &mut Vec<u64> {
    match buffer {
        0 => &mut world.state,
        1 => &mut world.registered,
        _ => &mut world.failed,
    }
}

impl Act {
    pub fn line(&self) -> String {
        match self {
            Act::Resize { buffer, len } => format!("{} has {len}", BUFFERS[*buffer]),
            Act::Put { buffer, at, words } => {
                format!("{} from {at} on holds {words:?}", BUFFERS[*buffer])
            }
            Act::Call(call) => format!("{call:?}"),
        }
    }

    fn apply(&self, world: &mut World) {
        match self {
            Act::Call(_) => (),
            Act::Resize { buffer, len } => buffer_of(world, *buffer).resize(*len, 0),
            Act::Put { buffer, at, words } => {
                let places = buffer_of(world, *buffer).iter_mut().skip(*at);
                places.zip(words).for_each(|(place, word)| *place = *word);
            }
        }
    }
}

/// Runs a case and gives the first difference.
pub fn run(acts: &[Act], coverage: &mut Coverage) -> Option<Difference> {
    let mut world = World::default();
    for (place, act) in acts.iter().enumerate() {
        act.apply(&mut world);
        let Act::Call(call) = act else { continue };
        let mut predicted = world.clone();
        let awaited = predicted.call(call);
        count(call, &world, &predicted, &awaited, coverage);
        let differ = |port: String, predicted: String| Difference {
            place,
            line: act.line(),
            port,
            original: None,
            predicted,
        };
        let Some((after, reply)) = library(&world, call) else {
            return Some(differ("a write beside a buffer".into(), "none".into()));
        };
        if reply != awaited || after != predicted {
            return Some(differ(
                format!("{reply:?}{}", unlike(&after, &predicted)),
                format!("{awaited:?}{}", unlike(&predicted, &after)),
            ));
        }
        world = after;
    }
    None
}

/// Makes the call by the library's entry; none if it wrote beside a buffer.
fn library(world: &World, call: &Call) -> Option<(World, Given)> {
    let mut state = guarded(&world.state, GUARD_WORD);
    let mut registered = guarded(&world.registered, GUARD_WORD);
    let mut failed = guarded(&world.failed, GUARD_WORD);
    let lent = Lent {
        state: inner(&mut state),
        registered: inner(&mut registered),
        failed: inner(&mut failed),
    };
    let reply = match *call {
        Call::Build {
            ref ram,
            offset,
            granularity,
        } => entries::build(ram, offset, granularity, lent),
        Call::Register { address, len } => entries::register(lent, address, len),
        Call::All { alignment, ignore } => entries::register_all_aligned(lent, alignment, ignore),
        Call::Done => entries::answer_done(lent),
        Call::Failed => entries::answer_failed(lent),
    };
    let after = World {
        state: unguarded(&state, GUARD_WORD)?,
        registered: unguarded(&registered, GUARD_WORD)?,
        failed: unguarded(&failed, GUARD_WORD)?,
    };
    Some((after, given(&reply)))
}

fn given(reply: &Reply) -> Given {
    Given {
        number: reply.number,
        asked: reply.asked,
        count: reply.count,
        start: reply.start,
        end: reply.end,
        address: reply.address,
        span: [reply.span_start, reply.span_end],
        edge: [reply.edge_start, reply.edge_end],
        vnode: reply.vnode,
        node: [reply.node_start, reply.node_end],
        alignment: reply.alignment,
    }
}

/// What of two worlds differs, as the first has it.
fn unlike(one: &World, other: &World) -> String {
    let words = [
        (&one.state, &other.state),
        (&one.registered, &other.registered),
        (&one.failed, &other.failed),
    ];
    let differ = BUFFERS.iter().zip(words).filter(|(_, (a, b))| a != b);
    differ
        .map(|(name, (a, b))| format!(" {name}{}", first_unlike(a, b)))
        .collect()
}

fn name(call: &Call) -> &'static str {
    match call {
        Call::Build { .. } => "registrar",
        Call::Register { .. } => "register",
        Call::All { .. } => "register_all_aligned",
        Call::Done => "ranswer done",
        Call::Failed => "ranswer failed",
    }
}

fn count(call: &Call, world: &World, after: &World, awaited: &Given, coverage: &mut Coverage) {
    let name = name(call);
    let kind = match world.state.first() {
        Some(0) | None => "",
        Some(1) => " of register",
        Some(2) => " of register_all_aligned",
        Some(_) => " of no kind",
    };
    let given = match (awaited.number, awaited.asked) {
        (0, 0) => "ok".to_string(),
        (0, _) if after.asks_past() => "asks past the bitmaps".to_string(),
        (0, _) => "asks".to_string(),
        (number, _) => format!("number {number}"),
    };
    coverage.number(name, awaited.number);
    if awaited.asked != 0 {
        coverage.operation("Register");
    }
    coverage.meet(format!("raw {name}{kind}: {given}"));
    coverage.predicted_alone += 1;
    if awaited.number == 4 {
        count_length(call, world, coverage);
    }
}

/// Counts a call refused by 4 that isn't where one buffer has its right length.
fn count_length(call: &Call, world: &World, coverage: &mut Coverage) {
    let words = match call {
        Call::Build {
            ram, granularity, ..
        } => Some(predict::words_for(ram, *granularity)),
        _ => world.map_words(),
    };
    let words = words.and_then(|words| usize::try_from(words).ok());
    for (buffer, len) in [Some(STATE), words, words].into_iter().enumerate() {
        let Some(len) = len.filter(|&len| len <= generate::MOST_WORDS) else {
            continue;
        };
        let mut mended = world.clone();
        Act::Resize { buffer, len }.apply(&mut mended);
        if mended.call(call).number != 4 {
            coverage.length(name(call), BUFFERS[buffer]);
        }
    }
}

impl Simpler for Act {
    fn simpler(&self) -> Vec<Self> {
        match self {
            Act::Resize { .. } => Vec::new(),
            Act::Put { buffer, at, words } => {
                let put = |words: Vec<u64>| Act::Put {
                    buffer: *buffer,
                    at: *at,
                    words,
                };
                simpler_words(words).into_iter().map(put).collect()
            }
            Act::Call(call) => simpler_calls(call).into_iter().map(Act::Call).collect(),
        }
    }
}

/// The same with a number that is 0.
fn simpler_calls(call: &Call) -> Vec<Call> {
    match *call {
        Call::Register { address, len } => {
            let calls = [(0, len), (address, 0), (address, len / 2)];
            let fewer = calls.into_iter().filter(|&(a, l)| a < address || l < len);
            fewer
                .map(|(address, len)| Call::Register { address, len })
                .collect()
        }
        Call::All { alignment, ignore } if ignore != 0 => vec![Call::All {
            alignment,
            ignore: 0,
        }],
        _ => Vec::new(),
    }
}
