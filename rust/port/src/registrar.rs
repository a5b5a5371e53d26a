//! The registrar's commands.

use crate::lend::Lends;
use crate::session::Run;
use crate::session::entry;
use crate::session::plain;
use protocol::Op;
use protocol::Parsed;
use protocol::bad;
use protocol::parse;
use protocol::parse::Options;
use protocol::parse::exactly;
use protocol::show;
use underhill_mem_port::raw::registrar as raw;
use underhill_mem_port::raw::registrar::Lent;
use underhill_mem_port::raw::registrar::Reply;
use underhill_mem_port::raw::registrar::STATE_WORDS;

/// The most chunks that a registrar may have here: two bits are kept for each.
const MOST_CHUNKS: u64 = 1 << 28;

/// A registrar, or none.
#[derive(Default)]
pub struct Registrar(Option<Built>);

struct Built {
    state: Vec<u64>,
    registered: Vec<u64>,
    failed: Vec<u64>,
}

impl Built {
    fn new(words: usize) -> Self {
        Self {
            state: vec![0; STATE_WORDS],
            registered: vec![0; words],
            failed: vec![0; words],
        }
    }

    /// Its own buffers, but for those of a line.
    fn lent<'a>(&'a mut self, lends: &'a mut Lends) -> Lent<'a> {
        Lent {
            state: lends.state.as_mut().unwrap_or(&mut self.state),
            registered: lends.registered.as_mut().unwrap_or(&mut self.registered),
            failed: lends.failed.as_mut().unwrap_or(&mut self.failed),
        }
    }
}

impl Registrar {
    fn built(&mut self) -> Parsed<&mut Built> {
        match &mut self.0 {
            Some(built) => Ok(built),
            None => bad("nothing is built"),
        }
    }

    /// That none of the buffers fits the registrar there is.
    pub fn check_lends(&self, lends: &Lends) -> Parsed<()> {
        let maps = self.0.as_ref().map(|built| built.registered.len());
        lends.check_registrar(STATE_WORDS, maps.unwrap_or(usize::MAX))
    }

    pub fn build(&mut self, args: &[&str], run: Run) -> Parsed<String> {
        let options = Options::new(args, &["offset", "granularity", "ram"])?;
        let offset = parse::number(options.get("offset", "0"))?;
        let granularity = parse::number(options.get("granularity", "4096"))?;
        let ram = parse::entries(options.required("ram")?, entry)?.concat();
        let mut lends = run.lends;
        let mut built = Built::new(map_words(&ram, offset, granularity)?);
        lends.check_registrar(
            STATE_WORDS,
            match built.registered.len() {
                // Of an unfit layout no length is right.
                0 => usize::MAX,
                words => words,
            },
        )?;
        let reply = raw::build(&ram, offset, granularity, built.lent(&mut lends));
        self.0 = (reply.number == 0).then_some(built);
        let more = Vec::from_iter(lends.written());
        Ok(show::answer(&result(&reply), &[], &more))
    }

    pub fn register(&mut self, args: &[&str], run: Run) -> Parsed<String> {
        let [address, len] = exactly(args)?;
        let (address, len) = (parse::number(address)?, parse::number(len)?);
        self.call(run, |lent| raw::register(lent, address, len))
    }

    pub fn register_all_aligned(&mut self, args: &[&str], run: Run) -> Parsed<String> {
        let [alignment, ignore] = exactly(args)?;
        let (alignment, ignore) = (parse::number(alignment)?, parse::number(ignore)?);
        self.call(run, |lent| {
            raw::register_all_aligned(lent, alignment, ignore)
        })
    }

    /// One answer, whether calls are stepped or not. The registrar reads no code.
    pub fn answer(&mut self, args: &[&str], mut run: Run) -> Parsed<String> {
        run.step = true;
        match args {
            ["done"] => self.call(run, raw::answer_done),
            ["failed", code, processed] => {
                parse::failure(code, processed)?;
                self.call(run, raw::answer_failed)
            }
            _ => bad("an answer is done, or failed CODE PROCESSED"),
        }
    }

    pub fn dump(&mut self, args: &[&str]) -> Parsed<String> {
        let [] = exactly(args)?;
        let built = self.built()?;
        let (registered, failed) = (show::words(&built.registered), show::words(&built.failed));
        plain(&format!("ok registered={registered} failed={failed}"))
    }

    /// Makes a call and, unless stepped, answers it to its end.
    fn call(&mut self, run: Run, entry: impl FnOnce(Lent<'_>) -> Reply) -> Parsed<String> {
        let built = self.built()?;
        let mut lends = run.lends;
        lends.check_registrar(STATE_WORDS, built.registered.len())?;
        let was_idle = built.state[0] == 0;
        let mut reply = entry(built.lent(&mut lends));
        let mut ops = Vec::new();
        while reply.asked != 0 {
            let (start, end) = (reply.start, reply.end);
            ops.push(Op::Register { start, end }.to_string());
            if run.step {
                break;
            }
            let lent = built.lent(&mut lends);
            reply = match run.failures.contains_key(&(ops.len() as u64)) {
                true => raw::answer_failed(lent),
                false => raw::answer_done(lent),
            };
        }
        let asked_before = !was_idle || !ops.is_empty();
        let ended = reply.asked == 0 && matches!(reply.number, 0 | 22 | 23);
        let count =
            (ended && (asked_before || reply.count != 0)).then(|| format!("count={}", reply.count));
        let more: Vec<_> = count.into_iter().chain(lends.written()).collect();
        Ok(show::answer(&result(&reply), &ops, &more))
    }
}

/// How many words the bitmaps of such a registrar have; 0 if it is refused otherwise.
fn map_words(ram: &[u64], offset: u64, granularity: u64) -> Parsed<usize> {
    // With no bitmaps a build is refused by 4 if by nothing before it.
    let reply = raw::build(
        ram,
        offset,
        granularity,
        Built::new(0).lent(&mut Lends::default()),
    );
    if reply.number != 4 {
        return Ok(0);
    }
    let last_end = ram.last_chunk().map_or(0, |&[_, end, _]| end);
    match raw::map_words(last_end, granularity) {
        words if words <= MOST_CHUNKS / 64 => Ok(words as usize),
        _ => bad("more chunks than the port keeps bits of"),
    }
}

/// RESULT, with 01's number.
fn result(reply: &Reply) -> String {
    match (reply.number, reply.asked) {
        (0, 0) => "ok".to_string(),
        (0, _) => "asked".to_string(),
        (22, _) => {
            let text = show::unaligned(
                &show::bytes(reply.span_start, reply.span_end),
                &show::bytes(reply.edge_start, reply.edge_end),
                reply.vnode,
                &show::bytes(reply.node_start, reply.node_end),
                reply.alignment,
            );
            format!("{text} #22")
        }
        (23, _) => format!("{} #23", show::failed(reply.address)),
        (number, _) => format!("refused {number}"),
    }
}
