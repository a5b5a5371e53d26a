//! Any words in any lengths: the library's entries against the predictor, every buffer compared.

mod count;
mod generate;
mod library;

pub use generate::case;

use super::predict::Answer;
use super::predict::Call;
use super::predict::Query;
use super::predict::World;
use crate::coverage::Coverage;
use crate::guard::first_unlike;
use crate::run::Difference;
use crate::shrink::Simpler;
use crate::shrink::simpler_words;
use count::Odd;
use count::call_name;
use count::query_name;

/// The buffers by number: six maps, then state, pages and tables.
const BUFFERS: [&str; 9] = [
    "private", "shared", "read", "write", "kx", "ux", "state", "pages", "tables",
];

#[derive(Debug, Clone, PartialEq, Eq)]
pub enum Act {
    /// A buffer of that length is lent from now on, cut or filled up with zeros.
    Resize {
        buffer: usize,
        len: usize,
    },
    /// Words (bytes, of a map) that no call left there. What lies past the end is dropped.
    Put {
        buffer: usize,
        at: usize,
        words: Vec<u64>,
    },
    Call(Call),
    Query(Query),
}

impl Act {
    pub fn line(&self) -> String {
        match self {
            Act::Resize { buffer, len } => format!("{} has {len}", BUFFERS[*buffer]),
            Act::Put { buffer, at, words } => {
                format!("{} from {at} on holds {words:?}", BUFFERS[*buffer])
            }
            Act::Call(call) => format!("{call:?}"),
            Act::Query(query) => format!("{query:?}"),
        }
    }

    fn apply(&self, world: &mut World) {
        match self {
            Act::Call(_) | Act::Query(_) => (),
            Act::Resize { buffer, len } => match buffer {
                0..6 => world.maps[*buffer].resize(*len, 0),
                6 => world.state.resize(*len, 0),
                7 => world.pages.resize(*len, 0),
                _ => world.tables.resize(*len, 0),
            },
            Act::Put { buffer, at, words } => match buffer {
                0..6 => {
                    let bytes = words.iter().map(|&word| word as u8);
                    let places = world.maps[*buffer].iter_mut().skip(*at);
                    places.zip(bytes).for_each(|(place, byte)| *place = byte);
                }
                _ => {
                    let buffer = match buffer {
                        6 => &mut world.state,
                        7 => &mut world.pages,
                        _ => &mut world.tables,
                    };
                    let places = buffer.iter_mut().skip(*at);
                    places.zip(words).for_each(|(place, word)| *place = *word);
                }
            },
        }
    }
}

/// What of two worlds differs, as the first has it.
fn unlike(one: &World, other: &World) -> String {
    let maps = one.maps.iter().zip(&other.maps);
    let maps = maps.map(|(a, b)| (a != b).then(|| first_unlike(a, b)));
    let words = [
        (&one.state, &other.state),
        (&one.pages, &other.pages),
        (&one.tables, &other.tables),
    ];
    let words = words.map(|(a, b)| (a != b).then(|| first_unlike(a, b)));
    let all = BUFFERS.iter().zip(maps.chain(words));
    let shown = all.filter_map(|(name, unlike)| unlike.map(|text| format!(" {name}{text}")));
    shown.collect()
}

/// What the library gives, and what is awaited, where they differ.
type Unlike = Option<(String, String)>;

/// Runs a case and gives the first difference.
pub fn run(acts: &[Act], coverage: &mut Coverage) -> Option<Difference> {
    let mut world = World::default();
    let mut odd = Odd::default();
    let mut acts = acts.iter().enumerate();
    acts.find_map(|(place, act)| {
        act.apply(&mut world);
        odd.note(act);
        let (port, predicted) = match act {
            Act::Call(call) => run_call(&mut world, call, &odd, coverage)?,
            Act::Query(query) => run_query(&world, query, &odd, coverage)?,
            _ => return None,
        };
        Some(Difference {
            place,
            line: act.line(),
            port,
            original: None,
            predicted,
        })
    })
}

fn run_call(world: &mut World, call: &Call, odd: &Odd, coverage: &mut Coverage) -> Unlike {
    let mut predicted = world.clone();
    let awaited = predicted.call(call);
    count::count(call, world, &awaited, coverage);
    if awaited.number == 4 {
        odd.count(call_name(call), coverage, world, |world| {
            world.call(call).number
        });
    }
    let Some((after, given)) = library::call(world, call) else {
        return Some(("a write beside a buffer".to_string(), "none".to_string()));
    };
    if given != awaited || after != predicted {
        return Some((
            format!("{given:?}{}", unlike(&after, &predicted)),
            format!("{awaited:?}{}", unlike(&predicted, &after)),
        ));
    }
    *world = after;
    None
}

fn run_query(world: &World, query: &Query, odd: &Odd, coverage: &mut Coverage) -> Unlike {
    let awaited: Answer = world.query(query);
    count::count_query(query, world, &awaited, coverage);
    if awaited.number == 4 {
        odd.count(query_name(query), coverage, world, |world| {
            world.query(query).number
        });
    }
    let given = library::query(world, query);
    (given != awaited).then(|| (format!("{given:?}"), format!("{awaited:?}")))
}

impl Simpler for Act {
    fn simpler(&self) -> Vec<Self> {
        match self {
            Act::Resize { .. } => Vec::new(),
            Act::Put { buffer, at, words } => {
                let put = |words: Vec<u64>| Act::Put {
                    buffer: *buffer,
                    at: *at,
                    words,
                };
                simpler_words(words).into_iter().map(put).collect()
            }
            Act::Call(call) => shorter_calls(call).into_iter().map(Act::Call).collect(),
            Act::Query(Query::Visibility { list, out }) => shorter(list)
                .into_iter()
                .map(|list| Act::Query(Query::Visibility { list, out: *out }))
                .collect(),
            Act::Query(_) => Vec::new(),
        }
    }
}

/// A call with a shorter list.
fn shorter_calls(call: &Call) -> Vec<Call> {
    let (Call::Change { list, .. }
    | Call::Protections { list, .. }
    | Call::Lock { list, .. }
    | Call::Unlock { list, .. }) = call
    else {
        return Vec::new();
    };
    let lists = shorter(list).into_iter();
    let with = |other: Vec<u8>| {
        let mut call = call.clone();
        match &mut call {
            Call::Change { list, .. }
            | Call::Protections { list, .. }
            | Call::Lock { list, .. }
            | Call::Unlock { list, .. } => *list = other,
            _ => (),
        }
        call
    };
    lists.map(with).collect()
}

/// A list without some of its pages.
fn shorter(list: &[u8]) -> Vec<Vec<u8>> {
    let pages = list.len() / 8;
    let mut lists = Vec::new();
    for size in [256, 64, 16, 4, 1] {
        let mut from = 0;
        while from + size <= pages {
            lists.push([&list[..from * 8], &list[(from + size) * 8..]].concat());
            from += size;
        }
    }
    lists
}
