//! Scripts of the protector's calls, put to the port, the original and the predictor.

use super::change::Change;
use super::change::Failures;
use super::change::List;
use super::change::hex;
use super::change::runs;
use super::change::spans;
use super::place;
use super::place::FAULTS;
use super::predict::Answer;
use super::predict::Call;
use super::predict::Given;
use super::predict::PAGES;
use super::predict::Query;
use super::predict::STATE;
use super::predict::TABLES;
use super::predict::World;
use super::predict::layout_refusal;
use super::predict::numbers;
use crate::case::Entry;
use crate::coverage::Coverage;
use crate::coverage::WRITERS;
use crate::coverage::lies;
use crate::layouts::is_across;
use crate::layouts::on_both_sides;
use crate::run::Difference;
use crate::shrink::Simpler;
use std::collections::BTreeMap;

/// The registrar's state block, which `lend state=` may not fit either.
const REGISTRAR_STATE: u64 = 108;

/// What may be lent, by name: six maps, then words.
const NAMES: [&str; 9] = [
    "private", "shared", "read", "write", "kx", "ux", "state", "pages", "tables",
];

#[derive(Debug, Clone, PartialEq, Eq)]
pub struct Build {
    pub isolation: u64,
    pub tracked: u64,
    pub release: u64,
    pub ram: Vec<Entry>,
}

#[derive(Debug, Clone, PartialEq, Eq)]
pub enum What {
    /// Whether maps are shown at each operation.
    Trace(bool),
    Build(Build),
    /// Run to its end; of those operations, counted from 1, the answer is failed.
    Call {
        change: Change,
        failures: Failures,
    },
    /// Run to its first operation.
    Start(Change),
    Done,
    Failed {
        code: u16,
        processed: u64,
    },
    Query(Query),
}

/// Lengths of buffers lent in the place of the protector's own, by `NAMES`.
pub type Lend = [Option<u64>; 9];

/// One call, and what is lent to it.
#[derive(Debug, Clone, PartialEq, Eq)]
pub struct Act {
    pub what: What,
    pub lend: Lend,
}

impl Build {
    pub(super) fn line(&self) -> String {
        let entry = |e: &Entry| format!("{}-{}:{}", e.start, e.end, e.node);
        let ram: Vec<_> = self.ram.iter().map(entry).collect();
        let ram = if ram.is_empty() {
            ".".to_string()
        } else {
            ram.join(",")
        };
        let isolation = match self.isolation {
            2 => "snp".to_string(),
            3 => "tdx".to_string(),
            4 => "cca".to_string(),
            unfit => unfit.to_string(),
        };
        let (tracked, release) = (self.tracked, self.release);
        format!("build iso={isolation} tracked={tracked} release={release} ram={ram}")
    }

    pub(super) fn words(&self) -> Vec<u64> {
        let entries = self.ram.iter();
        entries.flat_map(|e| [e.start, e.end, e.node]).collect()
    }

    /// Whether it has numbers that the original can't be handed.
    fn is_strange(&self) -> bool {
        let whole = |e: &Entry| e.start.is_multiple_of(4096) && e.end.is_multiple_of(4096);
        !(2..=4).contains(&self.isolation)
            || self.tracked > 1
            || self.release > 1
            || !self.ram.iter().all(whole)
    }
}

impl Act {
    pub fn line(&self) -> String {
        match &self.what {
            What::Trace(on) => format!("trace {}", u8::from(*on)),
            What::Build(build) => build.line(),
            What::Call { change, failures } => change.line_failing(failures),
            What::Start(change) => change.line(),
            What::Done => "answer done".to_string(),
            What::Failed { code, processed } => format!("answer failed {code} {processed}"),
            What::Query(query) => query_line(query, false),
        }
    }

    fn lend_line(&self) -> Option<String> {
        let given = NAMES.iter().zip(self.lend);
        let words: String = given
            .filter_map(|(name, len)| len.map(|len| format!(" {name}={len}")))
            .collect();
        (!words.is_empty()).then(|| format!("lend{words}"))
    }

    /// What of a lend line its call is lent: a lock call has state and tables, the setter the state.
    pub(super) fn taken(&self, lend: Lend) -> Lend {
        let (What::Call { change, .. } | What::Start(change)) = &self.what else {
            return lend;
        };
        let mut taken = [None; 9];
        match change {
            Change::Enable => taken[6] = lend[6],
            Change::Lock { .. } | Change::Unlock { .. } => {
                (taken[6], taken[8]) = (lend[6], lend[8]);
            }
            _ => taken = lend,
        }
        taken
    }

    /// All its lines: a call that is stopped at its first operation is stepped.
    pub fn lines(&self) -> Vec<String> {
        let stepped = matches!(self.what, What::Start(_));
        let mut lines = Vec::new();
        if stepped {
            lines.push("step 1".to_string());
        }
        lines.extend(self.lend_line());
        lines.push(self.line());
        if stepped {
            lines.push("step 0".to_string());
        }
        lines
    }
}

/// A call that was stepped and hasn't ended.
struct Open {
    change: Change,
    /// What it asked for so far, as the port wrote it.
    asked: Vec<String>,
    failures: Failures,
}

struct Run<'a> {
    port: port::Session,
    original: oracle::Session,
    /// What is lent, as predicted; none where nothing is built.
    world: Option<World>,
    trace: bool,
    open: Option<Open>,
    /// Whether the original still answers: it is gone once it panicked.
    lives: bool,
    /// Whether the port went where the original can't go.
    apart: bool,
    coverage: &'a mut Coverage,
}

/// A call that has ended.
struct Ended {
    change: Option<Change>,
    failures: Failures,
    /// What the port gave for all of it, as the original writes it.
    from_port: String,
}

/// Boxed: it is seldom.
type Same = Result<(), Box<Difference>>;

/// Runs a case and gives the first difference.
pub fn run(acts: &[Act], coverage: &mut Coverage) -> Option<Difference> {
    let mut run = Run {
        port: port::Session::new(),
        original: oracle::Session::new(2),
        world: None,
        trace: false,
        open: None,
        lives: false,
        apart: false,
        coverage,
    };
    let mut acts = acts.iter().enumerate();
    acts.find_map(|(place, act)| run.act(place, act).err().map(|difference| *difference))
}

/// A call that is predicted operation by operation.
struct Driven {
    last: Given,
    ops: Vec<String>,
    /// The operations whose failure 21 refused.
    refused: Vec<String>,
}

impl Driven {
    fn new(last: Given) -> Self {
        Self {
            last,
            ops: Vec::new(),
            refused: Vec::new(),
        }
    }

    fn note(&mut self, world: &World, trace: bool) {
        let op = operation(world, &self.last);
        self.ops.push(match trace {
            true => format!("{op} {{{}}}", maps(world)),
            false => op,
        });
    }

    fn answer(&mut self, world: &mut World, failures: &Failures) {
        let place = self.ops.len() as u64;
        let failed = failures
            .get(&place)
            .map(|&(code, processed)| world.call(&Call::Failed { code, processed }));
        self.last = match failed {
            Some(given) if given.number != 21 => given,
            other => {
                self.refused.extend(other.map(|_| place.to_string()));
                world.call(&Call::Done)
            }
        };
    }

    fn awaited(self, indexed: bool) -> Awaited {
        let Self { last, ops, refused } = self;
        let (result, kind) = result(&last, indexed);
        let mut line = format!("{result} | ops={}", ops.len());
        if !ops.is_empty() {
            line += &format!(" | {}", ops.join("; "));
        }
        if kind == Kind::Ended && last.count != 0 {
            line += &format!(" | count={}", last.count);
        }
        if !refused.is_empty() {
            line += &format!(" | refused21={}", refused.join(","));
        }
        Awaited { line, last, kind }
    }
}

/// What a line leads to.
struct Awaited {
    /// The line, or `bad`.
    line: String,
    last: Given,
    kind: Kind,
}

#[derive(Debug, Clone, Copy, PartialEq, Eq)]
pub(super) enum Kind {
    Bad,
    Refused,
    Asks,
    /// It ended, by any number that the original has too, or by a halt.
    Ended,
}

impl Run<'_> {
    fn send(&mut self, line: &str) -> String {
        self.port.line(line).unwrap_or("no answer".to_string())
    }

    fn ask_original(&mut self, line: &str) -> String {
        self.original.line(line).unwrap_or("no answer".to_string())
    }

    fn act(&mut self, place: usize, act: &Act) -> Same {
        let stepped = matches!(act.what, What::Start(_));
        if stepped {
            self.expect(place, "step 1", "ok | ops=0")?;
        }
        let lent = act.taken(self.lend(place, act)?);
        let line = act.line();
        let given = self.send(&line);
        if let What::Trace(on) = act.what {
            self.trace = on;
            let original = self.ask_original(&line);
            if given != "ok | ops=0" || original != given {
                return differ(place, line, given, Some(original), "ok".to_string());
            }
            return Ok(());
        }
        if let What::Query(query) = &act.what {
            return self.query(place, query, &lent, given);
        }
        let awaited = self.await_line(act, &lent);
        self.count(act, &awaited, &lent);
        let same = match awaited.kind {
            Kind::Bad => given.starts_with("bad "),
            _ => given == awaited.line,
        };
        let original = self.original_of(act, &awaited, &given);
        let same_as_original = original.as_ref().is_none_or(|(port, other)| port == other);
        if !same || !same_as_original {
            let original = original.map(|(_, answer)| answer);
            return differ(place, line, given, original, awaited.line);
        }
        if stepped {
            self.expect(place, "step 0", "ok | ops=0")?;
        }
        self.compare_maps(place)
    }

    fn expect(&mut self, place: usize, line: &str, awaited: &str) -> Same {
        let given = self.send(line);
        if given != awaited {
            return differ(place, line.to_string(), given, None, awaited.to_string());
        }
        Ok(())
    }

    /// What is lent to the next line: nothing, if the lend line is wrong.
    fn lend(&mut self, place: usize, act: &Act) -> Result<Lend, Box<Difference>> {
        let nothing = [None; 9];
        let Some(line) = act.lend_line() else {
            return Ok(nothing);
        };
        let mut right = [None; 9];
        if let Some(world) = &self.world {
            for (right, map) in right.iter_mut().zip(&world.maps) {
                *right = Some(map.len() as u64);
            }
        }
        right[6..].copy_from_slice(&[STATE, PAGES, TABLES].map(|len| Some(len as u64)));
        let fits = act
            .lend
            .iter()
            .zip(right)
            .any(|(l, r)| l.is_some() && *l == r)
            || act.lend[6] == Some(REGISTRAR_STATE);
        if !fits {
            self.expect(place, &line, "ok | ops=0")?;
            return Ok(act.lend);
        }
        let given = self.send(&line);
        match given.starts_with("bad ") {
            true => Ok(nothing),
            false => differ(place, line, given, None, "bad".to_string()).map(|()| nothing),
        }
    }

    fn await_line(&mut self, act: &Act, lent: &Lend) -> Awaited {
        if let What::Build(build) = &act.what {
            return self.await_build(build, lent);
        }
        let Some(world) = &mut self.world else {
            return awaited_bad();
        };
        let mut spare;
        let world = match lent.iter().any(|len| len.is_some()) {
            false => world,
            true => {
                spare = lent_world(world, lent);
                &mut spare
            }
        };
        let under_way = self.open.as_ref().map(|open| &open.change);
        let (first, failures, call) = match &act.what {
            What::Call { change, failures } => (change.call(), Some(failures), Some(change)),
            What::Start(change) => (change.call(), None, Some(change)),
            What::Done => (Call::Done, None, under_way),
            What::Failed { code, processed } => {
                let (code, processed) = (*code, *processed);
                (Call::Failed { code, processed }, None, under_way)
            }
            What::Build(_) | What::Trace(_) | What::Query(_) => unreachable!("they are seen to"),
        };
        let mut driven = Driven::new(world.call(&first));
        while driven.last.operation != 0 {
            let name = OPERATIONS[driven.last.operation as usize];
            self.coverage.operation(name);
            driven.note(world, self.trace);
            // What isn't run to its end is stepped.
            let Some(failures) = failures else {
                break;
            };
            driven.answer(world, failures);
        }
        driven.awaited(call.is_none_or(Change::is_indexed))
    }

    /// A query or a fault, answered by the port.
    fn query(&mut self, place: usize, query: &Query, lent: &Lend, given: String) -> Same {
        let line = query_line(query, false);
        let (name, _) = line.split_once(' ').unwrap_or((&line, ""));
        let Some(world) = &self.world else {
            self.coverage.meet(format!("{name}: bad"));
            self.coverage.predicted_alone += 1;
            return match given.starts_with("bad ") {
                true => Ok(()),
                false => differ(place, line, given, None, "bad".to_string()),
            };
        };
        let awaited = lent_world(world, lent).query(query);
        let result = query_result(query, &awaited);
        let predicted = format!("{result} | ops=0");
        self.coverage.meet_query(name, query, &awaited, lent);
        self.coverage.meet_any(place::met(world, query, &awaited));
        let asked = self.asks_original(world, query, &awaited);
        match asked {
            true => {
                self.coverage.with_original += 1;
                let past = place::met_with_original(world, query, name, &awaited);
                self.coverage.meet_any(past);
            }
            false => self.coverage.predicted_alone += 1,
        }
        let original = asked.then(|| self.ask_original(&query_line(query, true)));
        let plain = without_number(&predicted);
        if given != predicted || original.as_ref().is_some_and(|answer| *answer != plain) {
            return differ(place, line, given, original, predicted);
        }
        self.compare_maps(place)
    }

    /// Whether a query goes to the original: nothing is half way, the port refuses it by no number
    /// of its own, and the original gives what documents 01 and 02 say.
    fn asks_original(&self, world: &World, query: &Query, awaited: &Answer) -> bool {
        let is_alike = match query {
            Query::Visibility { list, .. } => numbers(list).iter().all(|page| page >> 52 == 0),
            _ => place::is_alike(world, query),
        };
        let idle = self.open.is_none() && world.state[0] == 0;
        self.lives && idle && is_alike && [0, 7, 24].contains(&awaited.number)
    }

    fn await_build(&mut self, build: &Build, lent: &Lend) -> Awaited {
        let Some(mut world) = buffers_for(build, lent) else {
            return awaited_bad();
        };
        if lent.iter().any(|len| len.is_some()) {
            world = lent_world(&world, lent);
        }
        let last = world.call(&Call::Build {
            ram: build.words(),
            isolation: build.isolation,
            tracked: build.tracked,
            release: build.release,
        });
        self.world = (last.number == 0).then_some(world);
        let (result, kind) = match last.number {
            0 => ("ok".to_string(), Kind::Ended),
            2 => ("err BadAlignment #2".to_string(), Kind::Ended),
            number => (format!("refused {number}"), Kind::Refused),
        };
        Awaited {
            line: format!("{result} | ops=0"),
            last,
            kind,
        }
    }

    /// Where the call is in document 01's domain and has ended: what the port gave for all of it,
    /// as the original writes it, and what the original gives.
    fn original_of(
        &mut self,
        act: &Act,
        awaited: &Awaited,
        given: &str,
    ) -> Option<(String, String)> {
        let is_build = matches!(act.what, What::Build(_));
        if is_build && awaited.kind != Kind::Bad {
            self.open = None;
            self.lives = awaited.kind == Kind::Ended;
            self.apart = false;
        }
        match awaited.kind {
            Kind::Bad | Kind::Refused => None,
            Kind::Asks => {
                let op = given.rsplit(" | ").next().unwrap_or(given).to_string();
                match (&act.what, &mut self.open) {
                    (What::Start(change), open) => {
                        *open = Some(Open {
                            change: change.clone(),
                            asked: vec![op],
                            failures: Failures::new(),
                        });
                    }
                    (what, Some(open)) => {
                        open.note(what);
                        open.asked.push(op);
                    }
                    (_, None) => (),
                }
                None
            }
            Kind::Ended => self.original_end(act, awaited, given),
        }
    }

    /// The same, of a call that has ended.
    fn original_end(
        &mut self,
        act: &Act,
        awaited: &Awaited,
        given: &str,
    ) -> Option<(String, String)> {
        let ended = self.ended(act, given);
        let change = ended.change.as_ref();
        let is_default = matches!(change, Some(Change::Default { .. }));
        if let Some(change) = change {
            self.part_at(change, awaited.last.number);
        }
        let strange = match &act.what {
            What::Build(build) => build.is_strange(),
            _ => change.is_some_and(Change::is_high),
        };
        if !self.lives || strange {
            return None;
        }
        let line = match change {
            Some(change) if is_default => change.line(),
            Some(change) => change.by_numbers().line_failing(&ended.failures),
            None => act.line(),
        };
        let answer = without_more(&self.ask_original(&line));
        self.lives &= !answer.starts_with("panic");
        self.coverage.with_original += 1;
        self.coverage.predicted_alone -= 1;
        self.coverage.operations += awaited.last.count;
        let from_port = match answer.contains("flags=?") {
            true => without_flags(&ended.from_port),
            false => ended.from_port,
        };
        match is_default {
            true => Some((by_pages(&from_port), by_pages(&answer))),
            false => Some((from_port, answer)),
        }
    }

    /// The call that an act ended, and what the port gave for all of it.
    fn ended(&mut self, act: &Act, given: &str) -> Ended {
        let answer = matches!(act.what, What::Done | What::Failed { .. });
        let open = self.open.take().filter(|_| answer);
        if let Some(open) = open {
            let (count, asked) = (open.asked.len(), open.asked.join("; "));
            return Ended {
                failures: open.with(&act.what),
                change: Some(open.change),
                from_port: format!("{} | ops={count} | {asked}", plain_result(given)),
            };
        }
        let (change, failures) = match &act.what {
            What::Call { change, failures } => (Some(change.clone()), failures.clone()),
            What::Start(change) => (Some(change.clone()), Failures::new()),
            _ => (None, Failures::new()),
        };
        Ended {
            change,
            failures,
            from_port: plain(given),
        }
    }

    /// Where the port goes and the original can't: a failed default change, whose cuts differ, so
    /// that no failure of it is scripted, and pages that the original takes for others.
    fn part_at(&mut self, change: &Change, number: u64) {
        let halts = matches!(change, Change::Default { .. }) && number == 20;
        if halts || change.is_high() && matches!(number, 0 | 16) {
            self.apart = true;
            self.lives = false;
            let name = change.name();
            let what = format!("parted from the original by {name}");
            self.coverage.meet(what);
        }
    }

    /// The maps and tables; the original's too, unless a call is half way.
    fn compare_maps(&mut self, place: usize) -> Same {
        for line in ["dump", "tables"] {
            let given = self.send(line);
            let Some(world) = &self.world else {
                if given.starts_with("bad ") {
                    continue;
                }
                return differ(place, line.to_string(), given, None, "bad".to_string());
            };
            let predicted = match line {
                "dump" => format!("ok {} | ops=0", maps(world)),
                _ => format!("ok {} | ops=0", tables(world)),
            };
            // What a panic left behind is shown too.
            let asked = self.open.is_none() && world.state[0] < 2 && !self.apart;
            let original = asked.then(|| self.ask_original(line));
            if given != predicted || original.as_ref().is_some_and(|answer| *answer != given) {
                return differ(place, line.to_string(), given, original, predicted);
            }
        }
        Ok(())
    }

    fn count(&mut self, act: &Act, awaited: &Awaited, lent: &Lend) {
        let name = match &act.what {
            What::Trace(_) | What::Query(_) => "line",
            What::Build(_) => "build",
            What::Call { change, .. } | What::Start(change) => change.name(),
            What::Done => "answer done",
            What::Failed { .. } => "answer failed",
        };
        let (label, stepped) = match &act.what {
            What::Call { change, .. } => (label(change), ""),
            What::Start(change) => (label(change), ", stepped"),
            _ => (name, ""),
        };
        let isolation = match self.world.as_ref().map(|world| world.state[16]) {
            Some(2) => " (snp)",
            Some(3) => " (tdx)",
            Some(4) => " (cca)",
            _ => "",
        };
        let number = awaited.last.number;
        let halts = (awaited.kind, number) == (Kind::Ended, 20);
        if halts {
            self.count_halt(act, awaited, isolation);
        } else if awaited.kind != Kind::Bad {
            self.coverage.number(name, number);
        }
        if number == 4 {
            self.coverage.meet_length(name, lent);
        }
        let given = counted(awaited, isolation);
        self.coverage.meet(format!("{label}{stepped}: {given}"));
        self.coverage.predicted_alone += 1;
        self.count_pages(act, awaited);
    }

    fn count_pages(&mut self, act: &Act, awaited: &Awaited) {
        match &act.what {
            What::Call { change, .. } | What::Start(change) => {
                self.coverage.meet_sizes(change);
                let number = awaited.last.number;
                let world = self.world.as_ref();
                let past = world.and_then(|world| place::met_overlay(world, change, number));
                self.coverage.meet_any(past);
            }
            What::Build(build) if awaited.kind == Kind::Ended && is_across(&build.ram) => {
                self.coverage.meet("build: RAM across 128 MiB".to_string());
            }
            _ => (),
        }
    }

    fn count_halt(&mut self, act: &Act, awaited: &Awaited, isolation: &str) {
        let open = self.open.as_ref();
        let call = match &act.what {
            What::Call { change, .. } => Some(change),
            _ => open.map(|open| &open.change),
        };
        let op = match (&act.what, open) {
            (What::Failed { .. }, Some(open)) => open.asked.last().map(|op| kind_of(op)),
            _ => last_op(&awaited.line),
        };
        let (op, call) = (op.unwrap_or("nothing"), call.map_or("no call", label));
        let what = format!("{op} of {call}{isolation}");
        self.coverage.halt(what);
    }
}

/// What a line led to, in words.
fn counted(awaited: &Awaited, isolation: &str) -> String {
    let last = &awaited.last;
    match (awaited.kind, last.number) {
        (Kind::Bad, _) => "bad".to_string(),
        (Kind::Refused, number) => format!("refused {number}"),
        (Kind::Asks, _) => format!("asks {}{isolation}", OPERATIONS[last.operation as usize]),
        (Kind::Ended, 0) => format!("ok{isolation}{}", many(last.count)),
        (Kind::Ended, 20) => {
            let at = last_op(&awaited.line).map(|op| format!(" at {op}"));
            format!("halts{isolation}{}", at.unwrap_or_default())
        }
        (Kind::Ended, number) => format!("#{number}{isolation}{}", many(last.count)),
    }
}

impl Coverage {
    /// A buffer that alone has a wrong length.
    fn meet_length(&mut self, call: &str, lent: &Lend) {
        let mut lent = NAMES.iter().zip(lent).filter(|(_, len)| len.is_some());
        if let (Some((buffer, _)), None) = (lent.next(), lent.next()) {
            self.length(call, buffer);
        }
    }

    fn meet_query(&mut self, name: &str, query: &Query, awaited: &Answer, lent: &Lend) {
        self.number(name, awaited.number);
        if awaited.number == 4 {
            self.meet_length(name, lent);
        }
        let kind = match (awaited.number, query) {
            (0, Query::Fault { .. }) => FAULTS[awaited.value as usize].to_string(),
            (0, Query::Overlay { .. } | Query::Enabled) => format!("ok {}", awaited.value),
            (0, _) => "ok".to_string(),
            (number, _) => format!("number {number}"),
        };
        self.meet(format!("{name}: {kind}"));
        match query {
            Query::Overlay { gpn, .. } => self.meet_page(name, *gpn),
            Query::Visibility { list, .. } => self.meet_edge(name, &numbers(list)),
            _ => (),
        }
    }

    /// The boundaries that a call is at.
    fn meet_sizes(&mut self, change: &Change) {
        if let Some(list) = change.list() {
            let size = match list.bytes().len() / 8 {
                pages @ (0 | 1 | 511 | 512) => pages.to_string(),
                513.. => "over 512".to_string(),
                _ => "2 to 510".to_string(),
            };
            let name = label(change);
            self.meet(format!("{name}: a list of {size} pages"));
            let pages = numbers(&list.bytes());
            if let Some(&highest) = pages.iter().max() {
                self.meet_page(name, highest);
            }
            self.meet_edge(name, &pages);
            let spans = match WRITERS.contains(&name) {
                true => spans(&pages),
                false => Vec::new(),
            };
            for (first, last) in spans {
                self.meet(format!("{name}: a run of {}", lies(first, last)));
            }
        }
        if let Change::Register { gpn, .. } | Change::Unregister { gpn, .. } = change {
            self.meet_page(change.name(), *gpn);
        }
    }

    fn meet_edge(&mut self, call: &str, pages: &[u64]) {
        if on_both_sides(pages) {
            self.meet(format!("{call}: pages on both sides of 128 MiB"));
        }
    }

    /// A page, or a list's highest, by where it is: no RAM is from 2^40 on.
    fn meet_page(&mut self, call: &str, gpn: u64) {
        let place = match gpn >> 40 {
            0 => "below 2^40",
            1..4096 => "from 2^40 on",
            _ => "from 2^52 on",
        };
        self.meet(format!("{call}: a page {place}"));
    }
}

/// The kind of the last operation on a line.
fn last_op(line: &str) -> Option<&str> {
    let ops = line.split(" | ").nth(2)?;
    let op = kind_of(ops.rsplit("; ").next()?);
    op.starts_with(char::is_uppercase).then_some(op)
}

fn kind_of(op: &str) -> &str {
    op.split(' ').next().unwrap_or(op)
}

/// A query's line; for the original whole pages by their numbers.
fn query_line(query: &Query, for_original: bool) -> String {
    let word = |number: u64, words: &[&str]| match words.get(number as usize) {
        Some(word) => word.to_string(),
        None => number.to_string(),
    };
    match query {
        Query::Visibility { list, out } => {
            let ragged = !list.len().is_multiple_of(8);
            let list = match ragged && !for_original {
                true => List::Bytes(list.clone()),
                false => List::Pages(numbers(list)),
            };
            format!("query_host_visibility {} {out}", list.text())
        }
        Query::Fault {
            mapping,
            view,
            address,
            writes,
            failure,
        } => format!(
            "page_fault {} {} {address} {writes} {failure}",
            word(*mapping, &["encrypted", "shared"]),
            word(*view, &["read", "kx", "ux"])
        ),
        Query::Lower { vtl, gpn } => format!("query_lower_vtl_permissions {vtl} {gpn}"),
        Query::Access { gpn } => format!("query_access_permission {gpn}"),
        Query::Overlay { vtl, gpn } => format!("is_overlay_page {vtl} {gpn}"),
        Query::Enabled => "vtl1_protections_enabled".to_string(),
        Query::Default0 => "default_vtl0_protections".to_string(),
    }
}

fn query_result(query: &Query, given: &Answer) -> String {
    let digits: String = given
        .out
        .iter()
        .map(|byte| match byte {
            0 => '0',
            1 => '1',
            _ => '_',
        })
        .collect();
    match (query, given.number) {
        (Query::Visibility { .. }, 0) => format!("ok out=[{digits}]"),
        (Query::Visibility { .. }, 7) => format!("err 8 {} #7 out=[{digits}]", given.index),
        (Query::Fault { .. }, 0) => format!("ok {}", FAULTS[given.value as usize]),
        (_, 0) => format!("ok {}", given.value),
        (_, 7) => "err 8 #7".to_string(),
        (_, 24) => "err NoPermissionsTracked #24".to_string(),
        (_, number) => format!("refused {number}"),
    }
}

/// Without 01's number.
fn without_number(line: &str) -> String {
    let words = line.split(' ').filter(|word| !word.starts_with('#'));
    words.collect::<Vec<_>>().join(" ")
}

fn many(count: u64) -> &'static str {
    match count {
        0 => "",
        1..=9 => ", up to 9 operations",
        10..=99 => ", 10 operations or more",
        _ => ", 100 operations or more",
    }
}

fn label(change: &Change) -> &'static str {
    match change {
        Change::Visibility { visibility: 0, .. } => "to private",
        Change::Visibility { visibility: 1, .. } => "to shared",
        Change::Visibility { .. } => "to no visibility",
        other => other.name(),
    }
}

impl Open {
    /// A failed answer that was taken.
    fn note(&mut self, what: &What) {
        self.failures = self.with(what);
    }

    /// The failures so far, and this one.
    fn with(&self, what: &What) -> Failures {
        let mut failures = self.failures.clone();
        if let What::Failed { code, processed } = what {
            let place = self.asked.len() as u64;
            failures.insert(place, (*code, *processed));
        }
        failures
    }
}

/// What a build has of its own; none if a buffer lent in its place has just the right length.
fn buffers_for(build: &Build, lent: &Lend) -> Option<World> {
    let ram = build.words();
    let mut world = World {
        state: vec![0; STATE],
        pages: vec![0; PAGES],
        tables: vec![0; TABLES],
        ..World::default()
    };
    if layout_refusal(&ram).is_some() {
        return Some(world);
    }
    let marks = (ram[ram.len() - 2] / 32_768) as usize;
    let permissions = if build.tracked == 1 { marks } else { 0 };
    for (i, map) in world.maps.iter_mut().enumerate() {
        let len = if i < 2 { marks } else { permissions };
        map.resize(len, 0);
        // Where tracked is unfit no length of a permission map is right.
        let right = i < 2 || build.tracked < 2;
        if right && lent[i] == Some(len as u64) {
            return None;
        }
    }
    Some(world)
}

fn awaited_bad() -> Awaited {
    Awaited {
        line: "bad".to_string(),
        last: Given::default(),
        kind: Kind::Bad,
    }
}

/// With buffers of other lengths, filled as `lend` fills them.
fn lent_world(world: &World, lent: &Lend) -> World {
    let mut world = world.clone();
    for (map, len) in world.maps.iter_mut().zip(lent) {
        if let Some(len) = len {
            *map = vec![0xA5; *len as usize];
        }
    }
    let words = [&mut world.state, &mut world.pages, &mut world.tables];
    for (buffer, len) in words.into_iter().zip(&lent[6..]) {
        if let Some(len) = len {
            *buffer = vec![0xA5A5_A5A5_A5A5_A5A5; *len as usize];
        }
    }
    world
}

pub(super) const OPERATIONS: [&str; 11] = [
    "nothing",
    "Wait",
    "FlushAll",
    "Protect",
    "Invalidate",
    "Release",
    "Modify",
    "Accept",
    "Zero",
    "Flush",
    "TlbWait",
];

pub(super) fn operation(world: &World, given: &Given) -> String {
    let name = OPERATIONS[given.operation as usize];
    let pages = match given.pages {
        0 => "none".to_string(),
        1 => given.first.to_string(),
        count => format!("{}-{}", given.first, given.first + (count - 1)),
    };
    match given.operation {
        1 | 2 => name.to_string(),
        9 | 10 => format!("{name} vtl={}", given.vtl),
        3 => {
            let (vtl, flags) = (given.vtl, given.flags);
            let operand = match given.operand {
                0 => String::new(),
                operand => format!(" operand={operand}"),
            };
            format!("{name} vtl={vtl} flags={flags}{operand} pages={pages}")
        }
        6 => {
            let to = if given.shared == 1 {
                "shared"
            } else {
                "private"
            };
            let pages = match &world.pages[..given.pages as usize] {
                [] => "none".to_string(),
                pages => runs(pages),
            };
            format!("{name} to={to} pages={pages}")
        }
        _ => format!("{name} pages={pages}"),
    }
}

/// The maps as a dump has them: short ones byte by byte, long ones by their runs.
pub(super) fn maps(world: &World) -> String {
    let tracked = world.state[17] == 1;
    let shown = NAMES.iter().zip(&world.maps).enumerate();
    let shown = shown.map(|(i, (name, map))| match i < 2 || tracked {
        false => format!("{name}=-"),
        true if map.len() > 65_536 => format!("{name}={}", sparse(map)),
        true => format!("{name}={}", hex(map)),
    });
    shown.collect::<Vec<_>>().join(" ")
}

/// The settings, overlays and locks as a line shows them.
fn tables(world: &World) -> String {
    let default1 = match world.state[21] {
        flags @ 0..16 => flags.to_string(),
        _ => "-".to_string(),
    };
    let overlays = [0, 641].map(|at| {
        let entries = world.tables[at + 1..].chunks(5);
        let entries = entries.take(world.tables[at] as usize).map(|e| {
            let source = ["guest", "dma"][e[4] as usize];
            format!("{}:{}:{}:{}:{source}", e[0], e[1], e[2], e[3])
        });
        entries.collect::<Vec<_>>().join(",")
    });
    let locks = [0, 1].map(|vtl| {
        let lists = world.locks(vtl).into_iter().map(|pages| {
            let pages: Vec<_> = pages.iter().map(u64::to_string).collect();
            format!("({})", pages.join(","))
        });
        lists.collect::<String>()
    });
    format!(
        "enabled={} default0={} default1={default1} overlays0=[{}] overlays1=[{}] locks0=[{}] \
         locks1=[{}]",
        world.state[19], world.state[20], overlays[0], overlays[1], locks[0], locks[1]
    )
}

/// Nonzero runs, in which four or more equal bytes are counted.
fn sparse(map: &[u8]) -> String {
    let mut shown = Vec::new();
    let mut i = 0;
    let mut mixed: Option<(usize, String)> = None;
    while i < map.len() {
        let equal = map[i..].iter().take_while(|byte| **byte == map[i]).count();
        if map[i] == 0 || equal >= 4 {
            shown.extend(mixed.take().map(|(at, digits)| format!("{at}:{digits}")));
            if map[i] != 0 {
                shown.push(format!("{i}:{:02X}x{equal}", map[i]));
            }
        } else {
            let (_, digits) = mixed.get_or_insert((i, String::new()));
            *digits += &hex(&map[i..i + equal]);
        }
        i += equal;
    }
    shown.extend(mixed.map(|(at, digits)| format!("{at}:{digits}")));
    format!("sparse({})[{}]", map.len(), shown.join(";"))
}

fn result(last: &Given, indexed: bool) -> (String, Kind) {
    let &Given { code, index, .. } = last;
    match last.number {
        0 if last.operation == 0 => ("ok".to_string(), Kind::Ended),
        0 => ("asked".to_string(), Kind::Asks),
        number @ (7 | 10..=16) if !indexed => (format!("err {code} #{number}"), Kind::Ended),
        number @ (7 | 10..=16) => (format!("err {code} {index} #{number}"), Kind::Ended),
        20 if last.count != 0 => ("halted".to_string(), Kind::Ended),
        number => (format!("refused {number}"), Kind::Refused),
    }
}

fn differ(
    place: usize,
    line: String,
    port: String,
    original: Option<String>,
    predicted: String,
) -> Same {
    Err(Box::new(Difference {
        place,
        line,
        port,
        original,
        predicted,
    }))
}

/// The port's RESULT as the original writes it: without 01's number, a halt as a panic.
pub(super) fn plain_result(given: &str) -> String {
    let result = given.split(" | ").next().unwrap_or(given);
    let result = result.split(" #").next().unwrap_or(result);
    match result {
        "halted" => "panic".to_string(),
        other => other.to_string(),
    }
}

/// A default change's line by its pages: they are protected in any order and any cuts, and maps
/// meanwhile aren't looked at. What follows stays as it is.
fn by_pages(line: &str) -> String {
    let mut parts = line.split(" | ");
    let result = parts.next().unwrap_or("");
    let ops = parts.find(|part| part.starts_with(char::is_uppercase));
    let ops: Vec<&str> = ops.map_or(Vec::new(), |ops| ops.split("; ").collect());
    let protects = ops.iter().take_while(|op| op.starts_with("Protect "));
    let count = protects.clone().count();
    let mut runs: BTreeMap<String, Vec<(u64, u64)>> = BTreeMap::new();
    for op in protects {
        let op = op.split(" {").next().unwrap_or(op);
        let (kind, pages) = op.split_once(" pages=").unwrap_or((op, ""));
        let (first, last) = pages.split_once('-').unwrap_or((pages, pages));
        let number = |text: &str| text.parse().unwrap_or(u64::MAX);
        let run = (number(first), number(last));
        runs.entry(kind.to_string()).or_default().push(run);
    }
    let mut texts = vec![result.to_string()];
    for (kind, mut runs) in runs {
        runs.sort();
        let mut joined: Vec<(u64, u64)> = Vec::new();
        for (first, last) in runs {
            match joined.last_mut() {
                Some(run) if run.1.checked_add(1) == Some(first) => run.1 = last,
                _ => joined.push((first, last)),
            }
        }
        texts.push(format!("{kind} pages={joined:?}"));
    }
    texts.extend(ops[count..].iter().map(|op| op.to_string()));
    texts.join("; ")
}

/// The port's line as the original writes it: without its count, and what can't fail by its name.
fn plain(given: &str) -> String {
    let mut parts = vec![plain_result(given)];
    for part in given.split(" | ").skip(1) {
        match part.strip_prefix("refused21=") {
            Some(places) => parts.push(format!("cannot-fail={places}")),
            None if part.starts_with("count=") => (),
            None => parts.push(part.to_string()),
        }
    }
    parts.join(" | ")
}

/// The original's line without a panic's text and without what it hands over besides.
pub(super) fn without_more(answer: &str) -> String {
    let answer = match answer.split_once(" | ") {
        Some((result, rest)) if result.starts_with("panic") => format!("panic | {rest}"),
        _ => answer.to_string(),
    };
    let mut kept = String::new();
    let mut rest = answer.as_str();
    // ` attr=N mask=N`, up to a blank, a semicolon or the end.
    while let Some((before, more)) = rest.split_once(" attr=") {
        kept += before;
        let (_, mask) = more.split_once(" mask=").unwrap_or((more, ""));
        let end = mask.find([' ', ';']).unwrap_or(mask.len());
        rest = &mask[end..];
    }
    kept + rest
}

/// Flags that the original doesn't hand over.
pub(super) fn without_flags(line: &str) -> String {
    let words = line
        .split(' ')
        .map(|word| match word.starts_with("flags=") {
            true => "flags=?",
            false => word,
        });
    words.collect::<Vec<_>>().join(" ")
}

impl Simpler for Act {
    fn simpler(&self) -> Vec<Self> {
        let lend = self.lend;
        let simpler = self.what.simpler().into_iter();
        let mut acts: Vec<_> = simpler.map(|what| Act { what, lend }).collect();
        if lend != [None; 9] {
            acts.push(Act {
                what: self.what.clone(),
                lend: [None; 9],
            });
        }
        acts
    }
}

impl What {
    fn simpler(&self) -> Vec<Self> {
        match self {
            What::Build(build) => build.simpler().into_iter().map(What::Build).collect(),
            What::Call { change, failures } => simpler_calls(change, failures),
            What::Start(change) => {
                let call = What::Call {
                    change: change.clone(),
                    failures: Failures::new(),
                };
                let simpler = change.simpler().into_iter().map(What::Start);
                [call].into_iter().chain(simpler).collect()
            }
            What::Failed { processed, .. } if *processed > 0 => vec![What::Failed {
                code: 5,
                processed: processed / 2,
            }],
            What::Failed { .. } => vec![What::Done],
            What::Query(Query::Visibility { list, out }) => {
                let lists = List::Pages(numbers(list)).shorter().into_iter();
                let with = |list: List| Query::Visibility {
                    list: list.bytes(),
                    out: *out,
                };
                lists.map(|list| What::Query(with(list))).collect()
            }
            What::Trace(_) | What::Done | What::Query(_) => Vec::new(),
        }
    }
}

fn simpler_calls(change: &Change, failures: &Failures) -> Vec<What> {
    let fewer = failures.keys().map(|place| {
        let mut fewer = failures.clone();
        fewer.remove(place);
        What::Call {
            change: change.clone(),
            failures: fewer,
        }
    });
    let simpler = change.simpler().into_iter().map(|change| What::Call {
        change,
        failures: failures.clone(),
    });
    fewer.chain(simpler).collect()
}

impl Build {
    fn simpler(&self) -> Vec<Self> {
        let mut builds = Vec::new();
        for place in 0..self.ram.len() {
            let mut fewer = self.clone();
            fewer.ram.remove(place);
            builds.push(fewer);
        }
        for (place, entry) in self.ram.iter().enumerate() {
            let end = entry.start.saturating_add(32_768);
            if end < entry.end {
                let mut smaller = self.clone();
                smaller.ram[place].end = end;
                builds.push(smaller);
            }
        }
        for (tracked, release) in [(0, self.release), (self.tracked, 0)] {
            if (tracked, release) < (self.tracked, self.release) {
                builds.push(Build {
                    tracked,
                    release,
                    ..self.clone()
                });
            }
        }
        builds
    }
}
