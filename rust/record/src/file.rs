//! A line of the file for each call: numbers in hex.

/// Kinds of call, as the first number of a line.
pub const BUILD: u64 = 0;
pub const VISIBILITY: u64 = 1;
pub const PROTECTIONS: u64 = 2;
pub const DEFAULT: u64 = 3;
pub const REGISTER_OVERLAY: u64 = 4;
pub const UNREGISTER_OVERLAY: u64 = 5;
pub const LOCK: u64 = 6;
pub const UNLOCK: u64 = 7;
pub const ENABLE: u64 = 8;
pub const ENABLED: u64 = 9;
pub const DEFAULT0: u64 = 10;
pub const IS_OVERLAY: u64 = 11;
pub const QUERY: u64 = 12;
pub const FAULT: u64 = 13;
pub const LOWER: u64 = 14;
pub const ACCESS: u64 = 15;
pub const REGISTRAR: u64 = 16;
pub const REGISTER: u64 = 17;
pub const REGISTER_ALL: u64 = 18;
/// In the place of an overlay's new flags: none are given.
pub const NO_FLAGS: u64 = 16;

/// A call as it is written down.
#[derive(Debug, Clone, Default)]
pub struct Call {
    pub kind: u64,
    pub arguments: [u64; 5],
    /// The operation that fails, its code, the pages processed. Where none fails: 0, how often the
    /// call is put before the one that is written down, 0.
    pub failure: [u64; 3],
    /// Pages, or the layout's entries, as a first page and a count.
    pub runs: Vec<(u64, u64)>,
}

/// What the original gave.
#[derive(Debug, Clone, Default)]
pub struct Given {
    /// 0 Ok, 1 refused with a code, else 01's number.
    pub result: u64,
    pub code: u64,
    /// The index, or the value of a query, or the address of a failed registration.
    pub index: u64,
    pub count: u64,
    pub asked: u64,
    pub left: u64,
}

/// A part of the file: the protector's calls, or the registrar's.
#[derive(Default)]
pub struct Part(Vec<String>);

impl Part {
    pub fn write(&mut self, call: &Call, given: &Given) {
        let mut numbers = vec![call.kind];
        numbers.extend(call.arguments);
        numbers.extend(call.failure);
        numbers.extend([given.result, given.code, given.index, given.count]);
        numbers.extend([given.asked, given.left, call.runs.len() as u64]);
        numbers.extend(call.runs.iter().flat_map(|&(first, count)| [first, count]));
        let words: Vec<_> = numbers.iter().map(|n| format!("{n:x}")).collect();
        self.0.push(words.join(" "));
    }

    /// The number of lines, and the lines.
    pub fn print(&self) {
        println!("{:x}", self.0.len());
        self.0.iter().for_each(|line| println!("{line}"));
    }
}

/// Runs of neighbours, the order kept.
pub fn runs(pages: &[u64]) -> Vec<(u64, u64)> {
    let runs = pages.chunk_by(|a, b| a + 1 == *b);
    runs.map(|run| (run[0], run.len() as u64)).collect()
}
