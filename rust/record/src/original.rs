//! The original's answers, read from its lines.

use crate::digest::Digest;
use crate::file;
use crate::file::Call;
use crate::file::Given;
use std::collections::BTreeMap;

/// An operation with its words: `vtl`, `flags`, `operand`, `to`, `pages`, `bytes`.
pub struct Op<'a> {
    pub name: &'a str,
    words: BTreeMap<&'a str, &'a str>,
}

/// The answer to a line, cut up.
pub struct Answer<'a> {
    pub result: &'a str,
    pub ops: Vec<Op<'a>>,
    pub cannot_fail: bool,
}

pub fn answer(line: &str) -> Answer<'_> {
    let mut parts = line.split(" | ");
    let result = parts.next().unwrap_or("");
    let count = parts.next().unwrap_or("");
    let ops = match count {
        "ops=0" => Vec::new(),
        _ => parts.next().unwrap_or("").split("; ").map(op).collect(),
    };
    let cannot_fail = parts.any(|part| part.starts_with("cannot-fail="));
    Answer {
        result,
        ops,
        cannot_fail,
    }
}

fn op(text: &str) -> Op<'_> {
    let mut words = text.split(' ');
    Op {
        name: words.next().unwrap_or(""),
        words: words.filter_map(|word| word.split_once('=')).collect(),
    }
}

const OPERATIONS: [&str; 11] = [
    "",
    "Wait",
    "FlushAll",
    "Protect",
    "Invalidate",
    "Release",
    "Modify",
    "Accept",
    "Zero",
    "Flush",
    "TlbWait",
];

impl Op<'_> {
    /// A number, 0 where there is none or where the original hands over no flags.
    fn number(&self, word: &str) -> u64 {
        let text = self.words.get(word).copied().unwrap_or("0");
        text.parse().unwrap_or(0)
    }

    pub fn pages(&self) -> Vec<u64> {
        let text = self.words.get("pages").copied().unwrap_or("none");
        if text == "none" {
            return Vec::new();
        }
        text.split(',').flat_map(run).collect()
    }

    /// START and END of a Register.
    pub fn bytes(&self) -> [u64; 2] {
        span(self.words.get("bytes").copied().unwrap_or(""))
    }

    /// Into a digest, with other pages than its own where a default change is put in order.
    pub fn digest(&self, digest: &mut Digest, pages: &[u64]) {
        let kind = OPERATIONS.iter().position(|name| *name == self.name);
        let is_modify = self.name == "Modify";
        let shared = self.words.get("to") == Some(&"shared");
        let first = match is_modify {
            true => 0,
            false => pages.first().copied().unwrap_or(0),
        };
        digest.word(kind.expect("an operation of the protector") as u64);
        digest.word(self.number("vtl"));
        digest.word(self.number("flags"));
        digest.word(self.number("operand"));
        digest.word(first);
        digest.word(pages.len() as u64);
        digest.word(u64::from(shared));
        if is_modify {
            digest.words(pages);
        }
    }
}

fn run(text: &str) -> std::ops::RangeInclusive<u64> {
    let (first, last) = text.split_once('-').unwrap_or((text, text));
    let number = |text: &str| text.parse().expect("a page");
    number(first)..=number(last)
}

/// `A-B`
pub fn span(text: &str) -> [u64; 2] {
    let (start, end) = text.split_once('-').expect("a range");
    [start, end].map(|text| text.parse().expect("a number"))
}

/// The value of `NAME=VALUE` among a line's words.
pub fn value<'a>(line: &'a str, name: &str) -> &'a str {
    let mut words = line.split(' ').filter_map(|word| word.split_once('='));
    words
        .find(|(word, _)| *word == name)
        .map_or("", |(_, value)| value)
}

/// The result of a protector's call.
pub fn given(call: &Call, result: &str) -> Given {
    let words: Vec<_> = result.split(' ').collect();
    let number = |place: usize| words.get(place).map_or(0, |word| word.parse().unwrap_or(0));
    let is_value = (file::ENABLED..=file::ACCESS).contains(&call.kind) && call.kind != file::QUERY;
    let (result, code, index) = match (words[0], call.kind) {
        ("ok", file::FAULT) => (0, 0, fault(words[1])),
        ("ok", _) if is_value => (0, 0, number(1)),
        ("ok", _) => (0, 0, 0),
        ("err", file::ACCESS) => (24, 0, 0),
        ("err", _) if is_value => (1, 0, number(1)),
        ("err", _) => (1, number(1), number(2)),
        _ => panic!("no result of the original: {result}"),
    };
    Given {
        result,
        code,
        index,
        ..Given::default()
    }
}

fn fault(name: &str) -> u64 {
    let names = [
        "Retry",
        "NotMapped",
        "NotShared",
        "NotPrivate",
        "VtlProtected",
    ];
    let place = names.iter().position(|known| *known == name);
    place.expect("a fault's answer") as u64
}
