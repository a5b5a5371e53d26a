//! What was met, and how often.

use crate::protector::place;
use std::collections::BTreeMap;
use std::fmt;

/// The numbers that each call can give; 20 here is a refusal after a halt, a halt is in `HALTS`.
pub const NUMBERS: [(&str, &[u64]); 23] = [
    ("build", &[1, 2, 3, 4, 8]),
    (
        "change_host_visibility",
        &[4, 5, 6, 7, 8, 10, 11, 15, 16, 19, 20],
    ),
    ("change_vtl_protections", &[4, 5, 7, 8, 10, 11, 12, 19, 20]),
    ("change_default_vtl_protections", &[4, 8, 10, 19, 20]),
    (
        "register_overlay_page",
        &[4, 7, 8, 10, 12, 13, 16, 17, 19, 20],
    ),
    ("unregister_overlay_page", &[4, 8, 14, 16, 19, 20]),
    ("is_overlay_page", &[4, 8, 19, 20]),
    ("lock_gpns", &[4, 5, 8, 17, 19, 20]),
    ("unlock_gpns", &[4, 5, 8, 18, 19, 20]),
    ("set_vtl1_protections_enabled", &[4, 19, 20, 24]),
    ("vtl1_protections_enabled", &[4, 19, 20]),
    ("default_vtl0_protections", &[4, 19, 20]),
    ("query_host_visibility", &[4, 5, 7, 8, 19, 20]),
    ("query_lower_vtl_permissions", &[4, 7, 8]),
    ("query_access_permission", &[4, 24]),
    ("page_fault", &[4, 8]),
    ("answer done", &[4, 15, 16, 20, 21]),
    ("answer failed", &[4, 16, 20, 21]),
    ("registrar", &[1, 2, 4, 9]),
    ("register", &[4, 9, 19, 23]),
    ("register_all_aligned", &[4, 8, 9, 19, 22, 23]),
    ("ranswer done", &[4, 21, 22, 23]),
    ("ranswer failed", &[4, 21, 23]),
];

pub const OPERATIONS: [&str; 11] = [
    "Wait",
    "FlushAll",
    "Flush",
    "TlbWait",
    "Protect",
    "Invalidate",
    "Release",
    "Modify",
    "Accept",
    "Zero",
    "Register",
];

const ALL: &[&str] = &["snp", "tdx", "cca"];

/// The operations whose failure halts a call, and where they are asked for.
pub const HALTS: [(&str, &[&str]); 10] = [
    ("Protect of to shared", &["snp"]),
    ("Invalidate of to shared", &["snp"]),
    ("Release of to shared", &["tdx"]),
    ("Modify of to shared", ALL),
    ("Modify of to private", ALL),
    ("Accept of to private", &["snp", "tdx"]),
    ("Zero of to private", &["snp"]),
    ("Protect of to private", ALL),
    ("Protect of change_vtl_protections", ALL),
    ("Protect of change_default_vtl_protections", ALL),
];

const EVERY: &[&str] = &[
    "private", "shared", "read", "write", "kx", "ux", "state", "pages", "tables",
];
const SEEN: &[&str] = &["private", "shared", "read", "write", "kx", "ux", "state"];
const TABLES: &[&str] = &["state", "tables"];
const REGISTRAR: &[&str] = &["state", "registered", "failed"];

/// The buffers that each call is lent: each of another length than it has gives 4.
pub const LENT: [(&str, &[&str]); 23] = [
    ("build", EVERY),
    ("change_host_visibility", EVERY),
    ("change_vtl_protections", EVERY),
    ("change_default_vtl_protections", EVERY),
    ("register_overlay_page", EVERY),
    ("unregister_overlay_page", EVERY),
    ("answer done", EVERY),
    ("answer failed", EVERY),
    ("is_overlay_page", TABLES),
    ("lock_gpns", TABLES),
    ("unlock_gpns", TABLES),
    ("set_vtl1_protections_enabled", &["state"]),
    ("vtl1_protections_enabled", &["state"]),
    ("default_vtl0_protections", &["state"]),
    ("query_host_visibility", &["shared", "state"]),
    ("query_lower_vtl_permissions", SEEN),
    ("query_access_permission", SEEN),
    ("page_fault", SEEN),
    ("registrar", REGISTRAR),
    ("register", REGISTRAR),
    ("register_all_aligned", REGISTRAR),
    ("ranswer done", REGISTRAR),
    ("ranswer failed", REGISTRAR),
];

/// What the run must have met besides, by its name in the list of what was met.
pub const PLACES: [&str; 8] = [
    "build: RAM across 128 MiB",
    "to shared: pages on both sides of 128 MiB",
    "to private: pages on both sides of 128 MiB",
    "change_vtl_protections: pages on both sides of 128 MiB",
    "lock_gpns: pages on both sides of 128 MiB",
    "query_host_visibility: pages on both sides of 128 MiB",
    "registrar: RAM across 128 MiB",
    "register: chunks on both sides of 128 MiB",
];

/// The calls that write runs of pages into maps, and how a run may lie over the bytes of a map.
pub const WRITERS: [&str; 3] = ["to shared", "to private", "change_vtl_protections"];
const RUNS: [&str; 6] = [
    "one page",
    "pages that fill no byte",
    "bytes alone",
    "bytes with pages before them",
    "bytes with pages behind them",
    "bytes with pages at both ends",
];

/// How the run from a page to a last one lies over bytes of eight pages.
pub fn lies(first: u64, last: u64) -> &'static str {
    let fills = last / 8 + u64::from(last % 8 == 7) > first.div_ceil(8);
    let kind = match (first % 8 == 0, last % 8 == 7) {
        _ if first == last => 0,
        _ if !fills => 1,
        (true, true) => 2,
        (false, true) => 3,
        (true, false) => 4,
        (false, false) => 5,
    };
    RUNS[kind]
}

/// A run of so many calls of all parts fails if something that can arise wasn't met.
pub const ENOUGH: u64 = 1_000_000;

#[derive(Debug, Default)]
pub struct Coverage {
    met: BTreeMap<String, u64>,
    /// Document 01's numbers by call, 0 where it gave none.
    numbers: BTreeMap<String, BTreeMap<u64, u64>>,
    /// What the port asked for.
    asked: BTreeMap<&'static str, u64>,
    /// Operations of calls that halted at them, and where.
    halts: BTreeMap<String, u64>,
    /// Buffers whose length alone was wrong, by call.
    lengths: BTreeMap<String, BTreeMap<&'static str, u64>>,
    /// Calls whose answer was compared with the original's.
    pub with_original: u64,
    /// Calls that the original can't be asked or answers otherwise, or that stopped half way:
    /// compared with the predictor alone.
    pub predicted_alone: u64,
    /// Operations compared.
    pub operations: u64,
}

impl Coverage {
    pub fn meet(&mut self, what: String) {
        *self.met.entry(what).or_default() += 1;
    }

    pub fn meet_any(&mut self, what: Option<String>) {
        what.into_iter().for_each(|what| self.meet(what));
    }

    pub fn number(&mut self, call: &str, number: u64) {
        let numbers = self.numbers.entry(call.to_string()).or_default();
        *numbers.entry(number).or_default() += 1;
    }

    pub fn operation(&mut self, name: &'static str) {
        *self.asked.entry(name).or_default() += 1;
    }

    pub fn halt(&mut self, what: String) {
        *self.halts.entry(what).or_default() += 1;
    }

    /// A call refused by 4 where that buffer alone had another length.
    pub fn length(&mut self, call: &str, buffer: &'static str) {
        let lengths = self.lengths.entry(call.to_string()).or_default();
        *lengths.entry(buffer).or_default() += 1;
    }

    /// What was never met: numbers, operations, halts, wrong lengths and places.
    pub fn missing(&self) -> Vec<String> {
        let mut missing = Vec::new();
        for (call, numbers) in NUMBERS {
            let met = self.numbers.get(call);
            let numbers = numbers.iter();
            let numbers = numbers.filter(|n| met.is_none_or(|met| !met.contains_key(n)));
            missing.extend(numbers.map(|n| format!("{n} at {call}")));
        }
        let asked = OPERATIONS.iter();
        let asked = asked.filter(|name| !self.asked.contains_key(*name));
        missing.extend(asked.map(|name| name.to_string()));
        for (what, isolations) in HALTS {
            let halts = isolations.iter().map(|name| format!("{what} ({name})"));
            let halts = halts.filter(|what| !self.halts.contains_key(what));
            missing.extend(halts.map(|what| format!("a halt at {what}")));
        }
        for (call, buffers) in LENT {
            let met = self.lengths.get(call);
            let buffers = buffers.iter();
            let buffers = buffers.filter(|name| met.is_none_or(|met| !met.contains_key(*name)));
            missing.extend(buffers.map(|name| format!("a wrong length of {name} at {call}")));
        }
        let places = PLACES.iter().map(|what| what.to_string());
        let runs = WRITERS.iter().flat_map(|call| {
            let runs = RUNS.iter();
            runs.map(move |run| format!("{call}: a run of {run}"))
        });
        let met = places.chain(runs).chain(place::must_be_met());
        missing.extend(met.filter(|what| !self.met.contains_key(what)));
        missing
    }

    /// Whether a run of so many calls should have met more.
    pub fn falls_short(&self, calls: u64) -> bool {
        calls >= ENOUGH && !self.missing().is_empty()
    }

    pub fn calls(&self) -> u64 {
        self.with_original + self.predicted_alone
    }

    /// How often that was met.
    pub fn times(&self, what: &str) -> u64 {
        self.met.get(what).copied().unwrap_or(0)
    }
}

impl fmt::Display for Coverage {
    fn fmt(&self, f: &mut fmt::Formatter<'_>) -> fmt::Result {
        let width = self.met.keys().map(|what| what.len()).max().unwrap_or(0);
        for (what, times) in &self.met {
            writeln!(f, "  {what:width$} {times:>10}")?;
        }
        writeln!(f, "numbers of document 01, by call (0 where none):")?;
        for (call, numbers) in &self.numbers {
            let given: Vec<_> = numbers.iter().map(|(n, t)| format!("{n}: {t}")).collect();
            writeln!(f, "  {call:31} {}", given.join(", "))?;
        }
        writeln!(f, "buffers that alone had a wrong length, by call:")?;
        for (call, lengths) in &self.lengths {
            writeln!(f, "  {call:31} {}", pairs(lengths).join(", "))?;
        }
        for (what, met) in [
            ("operations", pairs(&self.asked)),
            ("halts at", pairs(&self.halts)),
        ] {
            writeln!(f, "{what}: {}", met.join(", "))?;
        }
        match self.missing() {
            missing if missing.is_empty() => writeln!(f, "all that can arise was met")?,
            missing => writeln!(f, "not met: {}", missing.join(", "))?,
        }
        write!(
            f,
            "{} calls: {} compared with the original and predicted, {} predicted alone; {} operations",
            self.calls(),
            self.with_original,
            self.predicted_alone,
            self.operations
        )
    }
}

fn pairs<K: fmt::Display>(met: &BTreeMap<K, u64>) -> Vec<String> {
    met.iter()
        .map(|(what, times)| format!("{what} {times}"))
        .collect()
}
