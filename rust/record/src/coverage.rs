//! What the recorded calls reach.

use crate::file::Call;
use crate::file::Given;
use std::collections::BTreeMap;

const KINDS: [&str; 19] = [
    "build",
    "change_host_visibility",
    "change_vtl_protections",
    "change_default_vtl_protections",
    "register_overlay_page",
    "unregister_overlay_page",
    "lock_gpns",
    "unlock_gpns",
    "set_vtl1_protections_enabled",
    "vtl1_protections_enabled",
    "default_vtl0_protections",
    "is_overlay_page",
    "query_host_visibility",
    "page_fault",
    "query_lower_vtl_permissions",
    "query_access_permission",
    "registrar",
    "register",
    "register_all_aligned",
];

#[derive(Default)]
pub struct Coverage {
    calls: u64,
    pub panics: u64,
    /// The highest count of an overlay.
    most: u64,
    met: BTreeMap<String, u64>,
}

impl Coverage {
    /// A call that was written down; `on` is the isolation, or the registrar.
    pub fn call(&mut self, on: &str, call: &Call, given: &Given) {
        self.calls += 1;
        let kind = KINDS[call.kind as usize];
        self.meet(format!("{kind}, {on}"));
        self.meet(result_of(call, given));
    }

    /// A call at what chance seldom makes.
    pub fn call_at(&mut self, at: &str, call: &Call, given: &Given) {
        let result = result_of(call, given);
        self.meet(format!("{at}: {result}"));
    }

    /// The highest count of an overlay that a call left.
    pub fn counted(&mut self, count: Option<u64>) {
        self.most = self.most.max(count.unwrap_or(0));
    }

    pub fn operation(&mut self, on: &str, name: &str) {
        self.meet(format!("{name} asked, {on}"));
    }

    fn meet(&mut self, what: String) {
        *self.met.entry(what).or_default() += 1;
    }

    pub fn print(&self) {
        for (what, count) in &self.met {
            eprintln!("{count:6} {what}");
        }
        eprintln!("An overlay is counted {} times at most", self.most);
        eprintln!(
            "{} calls, {} left out on which the original panics",
            self.calls, self.panics
        );
    }
}

/// The kind of a call and what it gave.
fn result_of(call: &Call, given: &Given) -> String {
    let kind = KINDS[call.kind as usize];
    let failed = match call.failure[0] {
        0 => "",
        _ => ", an operation fails",
    };
    let result = match (given.result, given.code) {
        (0, _) => "ok".to_string(),
        (1, 0) => format!("err {}", given.index),
        (1, code @ (6 | 8)) => format!("err {code}"),
        (1, _) => "err of Modify".to_string(),
        (number, _) => format!("number {number}"),
    };
    format!("{kind}: {result}{failed}")
}
