//! The protector's commands.

use crate::lend::Lends;
use crate::lend::MAPS;
use crate::session::Run;
use crate::session::entry;
use crate::session::plain;
use protocol::Op;
use protocol::Parsed;
use protocol::bad;
use protocol::op::Pages;
use protocol::parse;
use protocol::parse::Failure;
use protocol::parse::Options;
use protocol::parse::exactly;
use protocol::show;
use underhill_mem_port::raw::protector as raw;
use underhill_mem_port::raw::protector::Lent;
use underhill_mem_port::raw::protector::Maps;
use underhill_mem_port::raw::protector::PAGES_WORDS;
use underhill_mem_port::raw::protector::Reply;
use underhill_mem_port::raw::protector::STATE_WORDS;
use underhill_mem_port::raw::protector::TABLES_WORDS;
use underhill_mem_port::raw::protector::Value;
use underhill_mem_port::raw::protector::operation;
use underhill_mem_port::raw::protector::place;
use underhill_mem_port::raw::protector::table;

mod changes;

pub use changes::permissions;

/// The most bytes that a map may have here.
const MOST_BYTES: u64 = 1 << 26;

/// A map longer than this is shown by its nonzero bytes alone.
const LONGEST_WHOLE: usize = 65_536;

/// A protector, or none.
#[derive(Default)]
pub struct Protector(Option<Built>);

struct Built {
    maps: [Vec<u8>; 6],
    state: Vec<u64>,
    pages: Vec<u64>,
    tables: Vec<u64>,
    /// Of the call under way.
    kind: Kind,
}

/// Whether a call's errors have a place in a list.
#[derive(Clone, Copy, PartialEq, Eq)]
enum Kind {
    Indexed,
    Plain,
    /// An answer: as the call under way.
    Answer,
}

/// A call run to its end, or to its first operation.
struct Driven {
    reply: Reply,
    ops: Vec<String>,
    /// The operations whose failure 21 refused.
    refused: Vec<u64>,
}

impl Built {
    fn new(bytes: [usize; 6]) -> Self {
        Self {
            maps: bytes.map(|bytes| vec![0; bytes]),
            state: vec![0; STATE_WORDS],
            pages: vec![0; PAGES_WORDS],
            tables: vec![0; TABLES_WORDS],
            kind: Kind::Indexed,
        }
    }

    /// Answers a call to its end; one that is stepped as far as its first operation.
    fn drive(&mut self, mut reply: Reply, run: &mut Run) -> Driven {
        let mut ops = Vec::new();
        let mut refused = Vec::new();
        while reply.operation != 0 {
            let op = self.op(&reply);
            ops.push(match run.trace {
                true => format!("{op} {{{}}}", self.show()),
                false => op.to_string(),
            });
            if run.step {
                break;
            }
            let place = ops.len() as u64;
            let (answer, taken) = self.answer(run.failures.get(&place), &mut run.lends);
            if !taken {
                refused.push(place);
            }
            reply = answer;
        }
        Driven {
            reply,
            ops,
            refused,
        }
    }

    /// An answer as it is scripted, and whether it is taken: a failure that 21 refuses is answered
    /// done instead.
    fn answer(&mut self, failed: Option<&Failure>, lends: &mut Lends) -> (Reply, bool) {
        if let Some(failure) = failed {
            let reply = raw::answer_failed(self.lent(lends), failure.code, failure.processed);
            if reply.number != 21 {
                return (reply, true);
            }
        }
        (raw::answer_done(self.lent(lends)), failed.is_none())
    }

    /// Its own buffers, but for those of a line.
    fn lent<'a>(&'a mut self, lends: &'a mut Lends) -> Lent<'a> {
        let mut maps = lends.maps.iter_mut().zip(&mut self.maps);
        let mut map = || -> &'a mut [u8] {
            let (lent, own) = maps.next().expect("there are six");
            lent.as_mut().unwrap_or(own)
        };
        Lent {
            maps: Maps {
                private: map(),
                shared: map(),
                read: map(),
                write: map(),
                kernel: map(),
                user: map(),
            },
            state: lends.state.as_mut().unwrap_or(&mut self.state),
            pages: lends.pages.as_mut().unwrap_or(&mut self.pages),
            tables: lends.tables.as_mut().unwrap_or(&mut self.tables),
        }
    }

    fn is_tracked(&self) -> bool {
        self.state[place::TRACKED] == 1
    }

    /// `private=.. shared=.. read=.. write=.. kx=.. ux=..`
    fn show(&self) -> String {
        let kept = if self.is_tracked() { 6 } else { 2 };
        let maps = MAPS.iter().zip(&self.maps).enumerate();
        let shown = maps.map(|(i, (name, map))| match i < kept {
            true => format!("{name}={}", bytes(map)),
            false => format!("{name}=-"),
        });
        show::joined(shown, " ")
    }

    /// The operation that a reply asks for.
    fn op(&self, reply: &Reply) -> Op {
        let pages = Pages {
            first: reply.first,
            count: reply.pages,
        };
        match reply.operation {
            operation::WAIT => Op::Wait,
            operation::FLUSH_ALL => Op::FlushAll,
            operation::FLUSH => Op::Flush {
                vtl: reply.vtl as u8,
            },
            operation::TLB_WAIT => Op::TlbWait {
                vtl: reply.vtl as u8,
            },
            operation::PROTECT => Op::Protect {
                vtl: reply.vtl as u8,
                flags: Some(reply.flags as u8),
                operand: (reply.operand != 0).then_some(reply.operand),
                attributes: None,
                pages,
            },
            operation::INVALIDATE => Op::Invalidate(pages),
            operation::RELEASE => Op::Release(pages),
            operation::MODIFY => Op::Modify {
                shared: reply.shared != 0,
                pages: self.pages[..reply.pages as usize].to_vec(),
            },
            operation::ACCEPT => Op::Accept {
                pages,
                attributes: None,
            },
            _ => Op::Zero(pages),
        }
    }
}

impl Protector {
    fn built(&mut self) -> Parsed<&mut Built> {
        match &mut self.0 {
            Some(built) => Ok(built),
            None => bad("nothing is built"),
        }
    }

    /// That none of the buffers fits the protector there is.
    pub fn check_lends(&self, lends: &Lends) -> Parsed<()> {
        lends.check_protector(STATE_WORDS, PAGES_WORDS, TABLES_WORDS)?;
        let maps = self.0.as_ref().map(|built| &built.maps);
        lends.check_maps(match maps {
            Some(maps) => maps.each_ref().map(|map| Some(map.len())),
            None => [None; 6],
        })
    }

    pub fn build(&mut self, args: &[&str], run: Run) -> Parsed<String> {
        let options = Options::new(args, &["iso", "tracked", "release", "ram"])?;
        let known = [("snp", 2), ("tdx", 3), ("cca", 4)];
        let isolation = named(options.get("iso", "snp"), &known)?;
        let tracked = parse::number(options.get("tracked", "0"))?;
        let release = parse::number(options.get("release", "0"))?;
        let ram = parse::entries(options.required("ram")?, entry)?.concat();
        let mut lends = run.lends;
        let marks = map_bytes(&ram)?;
        let permissions = match tracked {
            0 => Some(0),
            1 => marks,
            // Of an unfit one no length is right.
            _ => None,
        };
        let lens = [
            marks,
            marks,
            permissions,
            permissions,
            permissions,
            permissions,
        ];
        lends.check_maps(match marks {
            Some(_) => lens,
            None => [None; 6],
        })?;
        let mut built = Built::new(lens.map(|len| len.unwrap_or(0)));
        let reply = raw::build(&ram, isolation, tracked, release, built.lent(&mut lends));
        self.0 = (reply.number == 0).then_some(built);
        let result = match reply.number {
            0 => "ok".to_string(),
            2 => "err BadAlignment #2".to_string(),
            number => format!("refused {number}"),
        };
        Ok(show::answer(&result, &[], &Vec::from_iter(lends.written())))
    }

    pub fn change_host_visibility(&mut self, args: &[&str], run: Run) -> Parsed<String> {
        let [vtl, to, pages] = exactly(args)?;
        let vtl = parse::number(vtl)?;
        let to = named(to, &[("private", 0), ("shared", 1)])?;
        let list = list(pages)?;
        self.call(run, Kind::Indexed, |lent| {
            raw::change_host_visibility(lent, vtl, to, &list)
        })
    }

    /// One answer, whether calls are stepped or not.
    pub fn answer(&mut self, args: &[&str], mut run: Run) -> Parsed<String> {
        run.step = true;
        match args {
            ["done"] => self.call(run, Kind::Answer, raw::answer_done),
            ["failed", code, processed] => {
                let failure = parse::failure(code, processed)?;
                self.call(run, Kind::Answer, |lent| {
                    raw::answer_failed(lent, failure.code, failure.processed)
                })
            }
            _ => bad("an answer is done, or failed CODE PROCESSED"),
        }
    }

    pub fn dump(&mut self, args: &[&str]) -> Parsed<String> {
        let [] = exactly(args)?;
        plain(&format!("ok {}", self.built()?.show()))
    }

    /// Makes a call and, unless stepped, answers it to its end.
    fn call(
        &mut self,
        mut run: Run,
        kind: Kind,
        entry: impl FnOnce(Lent<'_>) -> Reply,
    ) -> Parsed<String> {
        let built = self.built()?;
        let first = entry(built.lent(&mut run.lends));
        let kind = match kind {
            Kind::Answer => built.kind,
            kind => kind,
        };
        if first.operation != 0 {
            built.kind = kind;
        }
        let Driven {
            reply,
            ops,
            refused,
        } = built.drive(first, &mut run);
        let count =
            (reply.operation == 0 && reply.count != 0).then(|| format!("count={}", reply.count));
        let refused =
            (!refused.is_empty()).then(|| format!("refused21={}", show::joined(refused, ",")));
        let more = count.into_iter().chain(refused).chain(run.lends.written());
        Ok(show::answer(
            &result(&reply, kind),
            &ops,
            &Vec::from_iter(more),
        ))
    }
}

mod queries {
    use super::*;
    use underhill_mem_port::raw::protector::Seen;

    /// What an output is filled with before a query writes to it.
    const UNTOUCHED: u8 = 0xA5;

    impl Built {
        fn seen<'a>(&'a mut self, lends: &'a mut Lends) -> Seen<'a> {
            let Lent { maps, state, .. } = self.lent(lends);
            Seen {
                private: maps.private,
                shared: maps.shared,
                read: maps.read,
                write: maps.write,
                kernel: maps.kernel,
                user: maps.user,
                state,
            }
        }
    }

    impl Protector {
        pub fn query_host_visibility(&mut self, args: &[&str], run: Run) -> Parsed<String> {
            let [pages, len] = exactly(args)?;
            let list = list(pages)?;
            let mut out = vec![UNTOUCHED; parse::places(len)?];
            let mut lends = run.lends;
            let Seen { state, shared, .. } = self.built()?.seen(&mut lends);
            let reply = raw::query_host_visibility(state, shared, &list, &mut out);
            let digit = |byte: &u8| match *byte {
                0 => '0',
                1 => '1',
                _ => '_',
            };
            let digits: String = out.iter().map(digit).collect();
            let result = match (reply.number, result(&reply, Kind::Indexed)) {
                (0 | 7, result) => format!("{result} out=[{digits}]"),
                (_, result) => result,
            };
            plain(&result)
        }

        pub fn page_fault(&mut self, args: &[&str], run: Run) -> Parsed<String> {
            let [mapping, view, address, writes, failure] = exactly(args)?;
            let mapping = named(mapping, &[("encrypted", 0), ("shared", 1)])?;
            let view = named(view, &[("read", 0), ("kx", 1), ("ux", 2)])?;
            let address = parse::number(address)?;
            let (writes, failure) = (parse::number(writes)?, parse::number(failure)?);
            let mut lends = run.lends;
            let seen = self.built()?.seen(&mut lends);
            let given = raw::page_fault(seen, mapping, view, address, writes, failure);
            let names = [
                "Retry",
                "NotMapped",
                "NotShared",
                "NotPrivate",
                "VtlProtected",
            ];
            valued(given, |value| names[value as usize].to_string())
        }

        pub fn query_lower_vtl_permissions(&mut self, args: &[&str], run: Run) -> Parsed<String> {
            let [vtl, page] = exactly(args)?;
            let (vtl, page) = (parse::number(vtl)?, parse::number(page)?);
            let mut lends = run.lends;
            let seen = self.built()?.seen(&mut lends);
            let given = raw::query_lower_vtl_permissions(seen, vtl, page);
            valued(given, |flags| flags.to_string())
        }

        pub fn query_access_permission(&mut self, args: &[&str], run: Run) -> Parsed<String> {
            let [page] = exactly(args)?;
            let page = parse::number(page)?;
            let mut lends = run.lends;
            let seen = self.built()?.seen(&mut lends);
            let given = raw::query_access_permission(seen, page);
            valued(given, |flags| flags.to_string())
        }
    }
}

fn valued(given: Value, shown: impl FnOnce(u64) -> String) -> Parsed<String> {
    plain(&match given.number {
        0 => format!("ok {}", shown(given.value)),
        7 => format!("err {} #7", given.value),
        24 => "err NoPermissionsTracked #24".to_string(),
        number => format!("refused {number}"),
    })
}

/// One of a few words, or a number that is handed on.
fn named(word: &str, choices: &[(&str, u64)]) -> Parsed<u64> {
    parse::choice(word, choices).or_else(|_| parse::number(word))
}

/// A list's bytes.
fn list(word: &str) -> Parsed<Vec<u8>> {
    let Some(digits) = word.strip_prefix("hex:") else {
        let pages = parse::pages(word)?;
        return Ok(pages.iter().flat_map(|page| page.to_le_bytes()).collect());
    };
    let digits: Option<Vec<u8>> = digits
        .chars()
        .map(|c| c.to_digit(16).map(|digit| digit as u8))
        .collect();
    match digits {
        Some(digits) if digits.len().is_multiple_of(2) => Ok(digits
            .chunks(2)
            .map(|pair| pair[0] * 16 + pair[1])
            .collect()),
        _ => bad("raw bytes are an even number of hex digits"),
    }
}

/// How many bytes the marks of such a layout have; none if it is refused.
fn map_bytes(ram: &[u64]) -> Parsed<Option<usize>> {
    // With no bitmaps a build is refused by 4 if by nothing before it.
    let reply = raw::build(ram, 2, 0, 0, Built::new([0; 6]).lent(&mut Lends::default()));
    if reply.number != 4 {
        return Ok(None);
    }
    let last_end = ram.last_chunk().map_or(0, |&[_, end, _]| end);
    match raw::map_bytes(last_end) {
        bytes if bytes <= MOST_BYTES => Ok(Some(bytes as usize)),
        _ => bad("more pages than the port keeps bits of"),
    }
}

fn bytes(map: &[u8]) -> String {
    if map.len() <= LONGEST_WHOLE {
        return show::hex(map);
    }
    let mut place = 0;
    let runs = map.chunk_by(|a, b| (*a == 0) == (*b == 0)).map(|run| {
        place += run.len();
        (place - run.len(), run.to_vec())
    });
    show::sparse(map.len(), runs.filter(|(_, run)| run[0] != 0))
}

/// RESULT, with 01's number.
fn result(reply: &Reply, kind: Kind) -> String {
    let &Reply { code, index, .. } = reply;
    match reply.number {
        0 if reply.operation == 0 => "ok".to_string(),
        0 => "asked".to_string(),
        number @ (7 | 10..=16) if kind == Kind::Plain => format!("err {code} #{number}"),
        number @ (7 | 10..=16) => format!("err {code} {index} #{number}"),
        // A refusal by 20 has no count.
        20 if reply.count != 0 => "halted".to_string(),
        number => format!("refused {number}"),
    }
}
