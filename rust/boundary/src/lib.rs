//! Reads the entries of the proved library wherever they are named, so that a test can hold the
//! places against each other: the header, the Rust declarations, the entries themselves, and the
//! theorem over every list of calls. It is text that is read: no library is needed.

#![warn(missing_docs)]

use std::collections::BTreeMap;
use std::fmt;

pub mod header;
pub mod rattle;
pub mod rust;
pub mod theorem;

/// What crosses as one argument.
#[derive(Debug, Clone, Copy, PartialEq, Eq)]
pub enum Kind {
    /// A number of so many bits.
    Word(u32),
    /// A run of numbers, as its address and its length.
    Run {
        /// How many bits a number has.
        bits: u32,
        /// Whether the entry may write to it.
        written: bool,
    },
}

/// The arguments of an entry in their order, and the record that it gives (`protector_reply`).
#[derive(Debug, Clone, PartialEq, Eq)]
pub struct Signature {
    /// Name and kind of each.
    pub arguments: Vec<(String, Kind)>,
    /// The record's name.
    pub gives: String,
}

impl fmt::Display for Signature {
    fn fmt(&self, f: &mut fmt::Formatter<'_>) -> fmt::Result {
        for (name, kind) in &self.arguments {
            match kind {
                Kind::Word(bits) => write!(f, "{name}: u{bits}, ")?,
                Kind::Run { bits, written } => {
                    let lent = if *written { "mut " } else { "" };
                    write!(f, "{name}: &{lent}[u{bits}], ")?;
                }
            }
        }
        write!(f, "gives {}", self.gives)
    }
}

/// Entries by name.
pub type Signatures = BTreeMap<String, Signature>;

/// The fields of a record in their order: name and bits.
pub type Fields = Vec<(String, u32)>;

/// Records by name.
pub type Records = BTreeMap<String, Fields>;

/// What lies between a mark and the next of another.
fn between<'a>(text: &'a str, from: &str, to: &str) -> Option<&'a str> {
    let (_, behind) = text.split_once(from)?;
    Some(behind.split_once(to)?.0)
}

/// What stands between commas, but for the nothing behind the last.
fn listed(text: &str) -> impl Iterator<Item = &str> {
    text.split(',')
        .map(str::trim)
        .filter(|part| !part.is_empty())
}

/// Without `//` comments.
fn uncommented(text: &str) -> String {
    let lines = text.lines();
    let code = lines.map(|line| line.split("//").next().unwrap_or(""));
    code.collect::<Vec<_>>().join("\n")
}

/// Bits of `u8`, `u16`, `u64`.
fn bits(name: &str) -> Result<u32, String> {
    match name {
        "u8" => Ok(8),
        "u16" => Ok(16),
        "u64" => Ok(64),
        _ => Err(format!("{name} is no number that crosses")),
    }
}

/// The fields of `pub struct NAME {..}`, which Rust and Rattle write alike.
fn fields(text: &str, name: &str) -> Result<Fields, String> {
    let code = uncommented(text);
    let inner = between(&code, &format!("pub struct {name} {{"), "}");
    let inner = inner.ok_or(format!("there is no struct {name}"))?;
    let field = |field| {
        let (name, number) = named(field)?;
        let name = name.strip_prefix("pub ").unwrap_or(name);
        Ok((name.to_string(), bits(number)?))
    };
    listed(inner).map(field).collect()
}

/// `NAME: TYPE`
fn named(text: &str) -> Result<(&str, &str), String> {
    let (name, kind) = text.split_once(':').ok_or(format!("{text} has no type"))?;
    Ok((name.trim(), kind.trim()))
}

/// The record that a type of an entry is: `Reply` of `protector_build` is `protector_reply`.
fn record(entry: &str, kind: &str) -> String {
    let family = entry.split('_').next().unwrap_or(entry);
    format!("{family}_{}", kind.to_lowercase())
}

/// Where two readings differ, a line each.
pub fn differences<T: PartialEq>(
    one: (&str, &BTreeMap<String, T>),
    other: (&str, &BTreeMap<String, T>),
    shown: impl Fn(&T) -> String,
) -> Vec<String> {
    let names = one.1.keys().chain(other.1.keys());
    let mut names: Vec<_> = names.collect();
    names.sort();
    names.dedup();
    let unlike = names.into_iter().filter_map(|name| {
        let (a, b) = (one.1.get(name), other.1.get(name));
        let say = |side: Option<&T>| side.map_or("nothing".to_string(), &shown);
        let line = || {
            let (in_one, in_other) = (say(a), say(b));
            format!("{name}: {} has {in_one}; {} has {in_other}", one.0, other.0)
        };
        (a != b).then(line)
    });
    unlike.collect()
}
