//! Puts a case to the port, the original and the predictor.

use crate::case::Act;
use crate::case::Build;
use crate::case::Lend;
use crate::case::Request;
use crate::case::What;
use crate::coverage::Coverage;
use crate::layouts::EDGE;
use crate::layouts::is_across;
use crate::predict::Asked;
use crate::predict::Awaited;
use crate::predict::End;
use crate::predict::Predictor;

/// The first line of a case where not all agree.
#[derive(Debug, Clone, PartialEq, Eq)]
pub struct Difference {
    /// The act's place in the case.
    pub place: usize,
    pub line: String,
    pub port: String,
    /// None where the original wasn't asked.
    pub original: Option<String>,
    pub predicted: String,
}

/// A call that was stepped and hasn't ended: what it asked for so far, as the port wrote it.
struct Open {
    request: Request,
    asked: Vec<String>,
}

struct Run<'a> {
    port: port::Session,
    original: oracle::Session,
    predictor: Predictor,
    open: Option<Open>,
    /// 128 MiB with the offset added, where what is built has RAM on both sides of it.
    edge: Option<u128>,
    coverage: &'a mut Coverage,
}

/// Runs a case and gives the first difference.
pub fn run(acts: &[Act], coverage: &mut Coverage) -> Option<Difference> {
    let mut run = Run {
        port: port::Session::new(),
        original: oracle::Session::new(2),
        predictor: Predictor::default(),
        open: None,
        edge: None,
        coverage,
    };
    let mut acts = acts.iter().enumerate();
    acts.find_map(|(place, act)| run.act(place, act).err().map(|difference| *difference))
}

/// Boxed: it is seldom.
type Same = Result<(), Box<Difference>>;

impl Run<'_> {
    fn send(&mut self, line: &str) -> String {
        self.port.line(line).unwrap_or("no answer".to_string())
    }

    fn ask_original(&mut self, line: &str) -> String {
        self.original.line(line).unwrap_or("no answer".to_string())
    }

    fn act(&mut self, place: usize, act: &Act) -> Same {
        let stepped = matches!(act.what, What::Start(_));
        if stepped {
            self.expect(place, "step 1", "ok | ops=0")?;
        }
        let lend = self.lend(place, &act.lend)?;
        self.call(place, act, &lend)?;
        if stepped {
            self.expect(place, "step 0", "ok | ops=0")?;
        }
        self.compare_words(place)
    }

    fn call(&mut self, place: usize, act: &Act, lend: &Lend) -> Same {
        let line = act.line();
        let given = self.send(&line);
        let awaited = match &act.what {
            What::Build(build) => self.predictor.build(build, lend),
            What::Call { request, fail } => self.predictor.call(*request, *fail, lend),
            What::Start(request) => self.predictor.start(*request, lend),
            What::Answer { done } => self.predictor.answer(*done, lend),
        };
        let is_answer = matches!(act.what, What::Answer { .. });
        let predicted = shown(&awaited, is_answer);
        let original = self.original_of(act, &awaited, &given);
        self.count(act, &awaited, original.is_some());
        self.count_length(act, &awaited, lend);
        let same_as_predicted = match awaited {
            Awaited::Bad => given.starts_with("bad "),
            _ => given == predicted,
        };
        let same_as_original = original.as_ref().is_none_or(|(port, other)| port == other);
        if !same_as_predicted || !same_as_original {
            let original = original.map(|(_, answer)| answer);
            return differ(place, line, given, original, predicted);
        }
        Ok(())
    }

    fn expect(&mut self, place: usize, line: &str, awaited: &str) -> Same {
        let given = self.send(line);
        if given != awaited {
            return differ(place, line.to_string(), given, None, awaited.to_string());
        }
        Ok(())
    }

    /// What is lent to the next line.
    fn lend(&mut self, place: usize, lend: &Lend) -> Result<Lend, Box<Difference>> {
        let Some(line) = lend.line() else {
            return Ok(Lend::default());
        };
        if !self.predictor.refuses_lend(lend) {
            self.expect(place, &line, "ok | ops=0")?;
            return Ok(*lend);
        }
        let given = self.send(&line);
        match given.starts_with("bad ") {
            true => Ok(Lend::default()),
            false => differ(place, line, given, None, "bad".to_string()).map(|()| Lend::default()),
        }
    }

    /// Where the call is in document 01's domain and has ended: what the port gave for all of it,
    /// as the original writes it, and what the original gives.
    fn original_of(
        &mut self,
        act: &Act,
        awaited: &Awaited,
        given: &str,
    ) -> Option<(String, String)> {
        match awaited {
            Awaited::Bad => None,
            Awaited::Refused(_) => {
                if matches!(act.what, What::Build(_)) {
                    self.open = None;
                }
                None
            }
            Awaited::Asks(_) => {
                self.note_asked(act, given);
                None
            }
            Awaited::Ended(..) => {
                let (line, from_port) = self.ended(act, given)?;
                Some((from_port, self.ask_original(&line)))
            }
        }
    }

    /// What a stepped call asked for.
    fn note_asked(&mut self, act: &Act, given: &str) {
        let operation = given.rsplit(" | ").next().unwrap_or(given).to_string();
        match (&act.what, &mut self.open) {
            (What::Start(request), open) => {
                *open = Some(Open {
                    request: *request,
                    asked: vec![operation],
                });
            }
            (_, Some(open)) => open.asked.push(operation),
            (_, None) => (),
        }
    }

    /// The line of a call that has ended, and what the port gave for all of it.
    fn ended(&mut self, act: &Act, given: &str) -> Option<(String, String)> {
        let open = self.open.take();
        let What::Answer { done } = act.what else {
            return Some((act.line(), without_numbers(given)));
        };
        let open = open?;
        let count = open.asked.len();
        let line = open.request.line_failing((!done).then_some(count as u64));
        let result = plain_result(given);
        let asked = open.asked.join("; ");
        Some((line, format!("{result} | ops={count} | {asked}")))
    }

    /// The words of both bitmaps; the original's too, unless a call is half way.
    fn compare_words(&mut self, place: usize) -> Same {
        let line = "rdump";
        let given = self.send(line);
        let Some((registered, failed)) = self.predictor.words() else {
            return match given.starts_with("bad ") {
                true => Ok(()),
                false => differ(place, line.to_string(), given, None, "bad".to_string()),
            };
        };
        let words = |words: &[u64]| {
            let words: Vec<_> = words.iter().map(|word| format!("{word:016X}")).collect();
            words.join(",")
        };
        let (registered, failed) = (words(registered), words(failed));
        let predicted = format!("ok registered={registered} failed={failed} | ops=0");
        let original = (!self.predictor.is_open()).then(|| self.ask_original(line));
        if given != predicted || original.as_ref().is_some_and(|answer| *answer != given) {
            return differ(place, line.to_string(), given, original, predicted);
        }
        Ok(())
    }

    fn count(&mut self, act: &Act, awaited: &Awaited, with_original: bool) {
        let name = name(&act.what);
        let stepped = match &act.what {
            What::Start(_) => ", stepped",
            _ => "",
        };
        if let Some(number) = number(awaited) {
            self.coverage.number(name, number);
        }
        if let (Awaited::Ended(_, asked), What::Call { .. }) = (awaited, &act.what) {
            asked
                .iter()
                .for_each(|_| self.coverage.operation("Register"));
        }
        let given = counted(&act.what, awaited);
        self.coverage.meet(format!("{name}{stepped}: {given}"));
        if let (What::Build(build), Awaited::Ended(..)) = (&act.what, awaited) {
            self.count_layout(build);
        }
        if let Awaited::Ended(_, asked) = awaited {
            self.count_edge(name, asked);
        }
        match with_original {
            true => self.coverage.with_original += 1,
            false => self.coverage.predicted_alone += 1,
        }
        if let (Awaited::Ended(_, asked), true) = (awaited, with_original) {
            self.coverage.operations += asked.len() as u64;
        }
    }

    /// Where a layout ends, and whether it reaches over 128 MiB.
    fn count_layout(&mut self, build: &Build) {
        let end = build.ram.last().map_or(0, |entry| entry.end);
        let place = match end.checked_sub(1).map_or(0, u64::ilog2) {
            ..40 => "below 2^40",
            40..51 => "from 2^40 to 2^51",
            _ if end < 1 << 52 => "from 2^51 to before 2^52",
            _ => "2^52",
        };
        self.coverage.meet(format!("registrar: an end {place}"));
        let edge = u128::from(build.offset) + u128::from(EDGE);
        self.edge = is_across(&build.ram).then_some(edge);
        if self.edge.is_some() {
            self.coverage
                .meet("registrar: RAM across 128 MiB".to_string());
        }
    }

    /// Whether operations of a call reach, together, over 128 MiB.
    fn count_edge(&mut self, call: &str, asked: &[Asked]) {
        let Some(edge) = self.edge else { return };
        let before = asked.iter().any(|range| range.0 < edge);
        let behind = asked.iter().any(|range| range.1 > edge);
        if before && behind {
            let what = format!("{call}: chunks on both sides of 128 MiB");
            self.coverage.meet(what);
        }
    }

    /// A buffer that alone has a wrong length.
    fn count_length(&mut self, act: &Act, awaited: &Awaited, lend: &Lend) {
        let lent = [
            ("state", lend.state),
            ("registered", lend.registered),
            ("failed", lend.failed),
        ];
        let mut lent = lent.iter().filter(|(_, len)| len.is_some());
        if let (Awaited::Refused(4), Some((buffer, _)), None) = (awaited, lent.next(), lent.next())
        {
            self.coverage.length(name(&act.what), buffer);
        }
    }
}

/// What an act led to, in words.
fn counted(what: &What, awaited: &Awaited) -> String {
    match awaited {
        Awaited::Bad => "bad".to_string(),
        Awaited::Refused(number) => format!("refused {number}"),
        Awaited::Asks(_) => "asked".to_string(),
        Awaited::Ended(End::Done, asked) => match asked.len() {
            0 => "ok, nothing asked".to_string(),
            1 => "ok, 1 operation".to_string(),
            2..=9 => "ok, 2 to 9 operations".to_string(),
            _ => "ok, 10 operations or more".to_string(),
        },
        Awaited::Ended(End::Failed { .. }, asked) => {
            let now = match what {
                What::Call { fail, .. } => *fail == Some(asked.len() as u64),
                What::Answer { done } => !done,
                _ => false,
            };
            match (now, asked.len()) {
                (true, place @ 1..=3) => format!("#23, operation {place} fails"),
                (true, _) => "#23, a later operation fails".to_string(),
                (false, 0) => "#23, failed before, nothing asked".to_string(),
                (false, _) => "#23, failed before, after some".to_string(),
            }
        }
        Awaited::Ended(End::Unaligned { span, edge, .. }, asked) => {
            let kind = match (u128::from(span.0) == edge.0, u128::from(span.1) == edge.1) {
                (true, true) => "whole",
                (true, false) => "front",
                _ => "back",
            };
            let after = if asked.is_empty() {
                "at once"
            } else {
                "after some"
            };
            format!("#22, {kind} edge, {after}")
        }
    }
}

/// Document 01's number.
fn number(awaited: &Awaited) -> Option<u64> {
    match awaited {
        Awaited::Bad => None,
        Awaited::Refused(number) => Some(*number),
        Awaited::Ended(End::Unaligned { .. }, _) => Some(22),
        Awaited::Ended(End::Failed { .. }, _) => Some(23),
        Awaited::Asks(_) | Awaited::Ended(End::Done, _) => Some(0),
    }
}

fn name(what: &What) -> &'static str {
    match what {
        What::Build(_) => "registrar",
        What::Answer { done: true } => "ranswer done",
        What::Answer { done: false } => "ranswer failed",
        What::Call { request, .. } | What::Start(request) => match request {
            Request::Register { .. } => "register",
            Request::All { .. } => "register_all_aligned",
        },
    }
}

fn differ(
    place: usize,
    line: String,
    port: String,
    original: Option<String>,
    predicted: String,
) -> Same {
    Err(Box::new(Difference {
        place,
        line,
        port,
        original,
        predicted,
    }))
}

/// The port's RESULT without 01's number.
fn plain_result(given: &str) -> String {
    let result = given.split(" | ").next().unwrap_or(given);
    match result.rsplit_once(" #") {
        Some((result, _)) => result.to_string(),
        None => result.to_string(),
    }
}

/// The port's line without 01's number and its count.
fn without_numbers(given: &str) -> String {
    let parts = given.split(" | ").skip(1);
    let kept = parts.filter(|part| !part.starts_with("count="));
    let rest: Vec<_> = kept.collect();
    [&[plain_result(given).as_str()], &rest[..]]
        .concat()
        .join(" | ")
}

/// The line awaited of the port.
fn shown(awaited: &Awaited, is_answer: bool) -> String {
    let operation = |&(start, end): &Asked| format!("Register bytes={start}-{end}");
    match awaited {
        Awaited::Bad => "bad".to_string(),
        Awaited::Refused(number) => format!("refused {number} | ops=0"),
        Awaited::Asks(asked) => {
            let last = asked.last().map_or(String::new(), operation);
            format!("asked | ops=1 | {last}")
        }
        Awaited::Ended(end, asked) => {
            let result = match end {
                End::Done => "ok".to_string(),
                End::Failed { address } => format!("err failed address={address} #23"),
                End::Unaligned {
                    span,
                    edge,
                    entry,
                    alignment,
                } => format!(
                    "err UnalignedMemory span={}-{} edge={}-{} vnode={} node_range={}-{} \
                     alignment={alignment} #22",
                    span.0, span.1, edge.0, edge.1, entry.node, entry.start, entry.end
                ),
            };
            let count = asked.len();
            match (count, is_answer) {
                (0, _) => format!("{result} | ops=0"),
                (_, true) => format!("{result} | ops=0 | count={count}"),
                (_, false) => {
                    let all: Vec<_> = asked.iter().map(operation).collect();
                    format!(
                        "{result} | ops={count} | {} | count={count}",
                        all.join("; ")
                    )
                }
            }
        }
    }
}
