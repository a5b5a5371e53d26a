//! A conversation: which command a line is, and what earlier lines set.

use crate::lend::Lends;
use crate::protector;
use crate::protector::Protector;
use crate::registrar::Registrar;
use protocol::Parsed;
use protocol::bad;
use protocol::parse;
use protocol::parse::Failures;
use protocol::parse::exactly;
use protocol::serve;
use protocol::show;

/// The requests of document 02 that have landed, ascending.
const REQUESTS: [&str; 2] = ["iv", "vi"];

/// A conversation: at most one protector and one registrar.
#[derive(Default)]
pub struct Session {
    step: bool,
    trace: bool,
    /// For the next line alone.
    lends: Lends,
    protector: Protector,
    registrar: Registrar,
}

/// How a line's call is run.
pub struct Run {
    /// It stops at the first operation.
    pub step: bool,
    /// The maps are shown at each operation.
    pub trace: bool,
    pub failures: Failures,
    pub lends: Lends,
}

impl Session {
    pub fn new() -> Self {
        Self::default()
    }

    /// The answer to a line; none to a blank one or a comment.
    pub fn line(&mut self, line: &str) -> Option<String> {
        serve::line(line, |line| self.command(line))
    }

    fn command(&mut self, line: &str) -> Parsed<String> {
        let lends = std::mem::take(&mut self.lends);
        let (words, failures) = parse::split_failures(line)?;
        let Some((&name, args)) = words.split_first() else {
            return bad("no command");
        };
        if self.step && !failures.is_empty() {
            return bad("fail= while calls are stepped");
        }
        let run = Run {
            step: self.step,
            trace: self.trace,
            failures,
            lends,
        };
        match name {
            "registrar" => self.registrar.build(args, run),
            "register" => self.registrar.register(args, run),
            "register_all_aligned" => self.registrar.register_all_aligned(args, run),
            "ranswer" => self.registrar.answer(args, run),
            "rdump" => self.registrar.dump(args),
            "lend" => self.lend(args),
            "step" => self.set_step(args),
            "trace" => self.set_trace(args),
            "requests" => requests(args),
            _ => self.of_protector(name, args, run),
        }
    }

    fn of_protector(&mut self, name: &str, args: &[&str], run: Run) -> Parsed<String> {
        let protector = &mut self.protector;
        match name {
            "build" => protector.build(args, run),
            "change_host_visibility" => protector.change_host_visibility(args, run),
            "change_vtl_protections" => protector.change_vtl_protections(args, run),
            "change_default_vtl_protections" => protector.change_default_vtl_protections(args, run),
            "register_overlay_page" => protector.register_overlay_page(args, run),
            "unregister_overlay_page" => protector.unregister_overlay_page(args, run),
            "is_overlay_page" => protector.is_overlay_page(args, run),
            "lock_gpns" => protector.lock_gpns(args, run),
            "unlock_gpns" => protector.unlock_gpns(args, run),
            "set_vtl1_protections_enabled" => protector.set_vtl1_protections_enabled(args, run),
            "vtl1_protections_enabled" => protector.vtl1_protections_enabled(args, run),
            "default_vtl0_protections" => protector.default_vtl0_protections(args, run),
            "permissions" => protector::permissions(args),
            "query_host_visibility" => protector.query_host_visibility(args, run),
            "query_lower_vtl_permissions" => protector.query_lower_vtl_permissions(args, run),
            "query_access_permission" => protector.query_access_permission(args, run),
            "page_fault" => protector.page_fault(args, run),
            "answer" => protector.answer(args, run),
            "dump" => protector.dump(args),
            "tables" => protector.tables(args),
            _ => bad("unknown command"),
        }
    }

    fn lend(&mut self, args: &[&str]) -> Parsed<String> {
        let lends = Lends::new(args)?;
        self.registrar.check_lends(&lends)?;
        self.protector.check_lends(&lends)?;
        self.lends = lends;
        plain("ok")
    }

    fn set_step(&mut self, args: &[&str]) -> Parsed<String> {
        let [on] = exactly(args)?;
        self.step = parse::bit(on)?;
        plain("ok")
    }

    fn set_trace(&mut self, args: &[&str]) -> Parsed<String> {
        let [on] = exactly(args)?;
        self.trace = parse::bit(on)?;
        plain("ok")
    }
}

fn requests(args: &[&str]) -> Parsed<String> {
    let [] = exactly(args)?;
    plain(&format!("ok {}", REQUESTS.join(",")))
}

/// A line that asked for nothing.
pub fn plain(result: &str) -> Parsed<String> {
    Ok(show::answer(result, &[], &[]))
}

/// `START-END:NODE` as it crosses.
pub fn entry(text: &str) -> Parsed<[u64; 3]> {
    let (start, end, node) = parse::entry(text)?;
    Ok([start, end, parse::number(node)?])
}
