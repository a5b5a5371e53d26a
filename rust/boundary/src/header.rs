//! The C header.

use crate::Fields;
use crate::Kind;
use crate::Records;
use crate::Signature;
use crate::Signatures;
use crate::listed;
use std::collections::BTreeMap;

/// An argument as C has it: a run is two of them.
struct Flat {
    name: String,
    bits: u32,
    /// Whether it is an address, and whether what is there may be written.
    address: Option<bool>,
    is_length: bool,
}

/// Puts each address together with the length behind it, which is named after the run.
fn joined(flat: Vec<Flat>) -> Result<Vec<(String, Kind)>, String> {
    let mut arguments = Vec::new();
    let mut flat = flat.into_iter();
    while let Some(Flat {
        name,
        bits,
        address,
        is_length,
    }) = flat.next()
    {
        let kind = match address {
            None if is_length => return Err(format!("{name} is the length of nothing")),
            None => Kind::Word(bits),
            Some(written) => {
                let wanted = length(&name, bits);
                let behind = flat.next().filter(|next| next.is_length);
                if behind.is_none_or(|next| next.name != wanted) {
                    return Err(format!("{name} is not followed by its length {wanted}"));
                }
                Kind::Run { bits, written }
            }
        };
        arguments.push((name, kind));
    }
    Ok(arguments)
}

/// Without comments and `#` lines.
fn code(text: &str) -> String {
    let mut parts = text.split("/*");
    let before = parts.next().unwrap_or("").to_string();
    let code = parts.fold(before, |code, part| {
        code + part.split_once("*/").map_or("", |(_, behind)| behind)
    });
    let lines = code.lines().filter(|line| !line.starts_with('#'));
    lines.collect::<Vec<_>>().join("\n")
}

/// What is declared, each without its `;`: `struct NAME {..}` and `struct NAME entry(..)`.
fn declared(code: &str) -> Vec<(&str, &str)> {
    let mut found = Vec::new();
    let mut rest = code;
    while let Some((head, behind)) = rest.split_once(['(', '{']) {
        let is_record = rest[head.len()..].starts_with('{');
        let close = if is_record { "};" } else { ");" };
        let (inner, behind) = behind.split_once(close).unwrap_or((behind, ""));
        found.push((head.trim(), inner));
        rest = behind;
    }
    found
}

/// The entries.
pub fn signatures(text: &str) -> Result<Signatures, String> {
    let code = code(text);
    let mut signatures = Signatures::new();
    for (head, inner) in declared(&code) {
        let [_, gives, name] = head.split_whitespace().collect::<Vec<_>>()[..] else {
            continue;
        };
        let flat: Result<_, _> = listed(inner).map(flat).collect();
        let arguments = joined(flat?).map_err(|error| format!("{name}: {error}"))?;
        let gives = gives.to_string();
        let signature = Signature { arguments, gives };
        if signatures.insert(name.to_string(), signature).is_some() {
            return Err(format!("{name} is declared twice"));
        }
    }
    Ok(signatures)
}

/// The records that the entries give.
pub fn records(text: &str) -> Result<Records, String> {
    let code = code(text);
    let mut records = Records::new();
    for (head, inner) in declared(&code) {
        let [_, name] = head.split_whitespace().collect::<Vec<_>>()[..] else {
            continue;
        };
        let fields = inner.split(';').filter(|field| !field.trim().is_empty());
        let fields = fields.map(|field| flat(field).map(|field| (field.name, field.bits)));
        records.insert(name.to_string(), fields.collect::<Result<Fields, _>>()?);
    }
    Ok(records)
}

/// The numbers that have names: `#define NAME NUMBER`.
pub fn constants(text: &str) -> BTreeMap<String, u64> {
    let defines = text
        .lines()
        .filter_map(|line| line.strip_prefix("#define "));
    let constant = |line: &str| {
        let mut words = line.split_whitespace();
        let name = words.next()?.to_string();
        Some((name, words.next()?.parse().ok()?))
    };
    defines.filter_map(constant).collect()
}

/// `const uint8_t *list`; a name that C or C++ keeps for itself ends with `_`.
fn flat(text: &str) -> Result<Flat, String> {
    let words: Vec<_> = text.split_whitespace().collect();
    let (is_const, words) = match words[..] {
        ["const", ref rest @ ..] => (true, rest),
        ref all => (false, all),
    };
    let [kind, name] = words else {
        return Err(format!("{text} is no argument"));
    };
    let bits = match *kind {
        "uint8_t" => 8,
        "uint16_t" => 16,
        "uint64_t" | "size_t" => 64,
        _ => return Err(format!("{kind} is no number that crosses")),
    };
    let address = name.starts_with('*').then_some(!is_const);
    Ok(Flat {
        name: name
            .trim_start_matches('*')
            .trim_end_matches('_')
            .to_string(),
        bits,
        address,
        is_length: *kind == "size_t",
    })
}

fn length(run: &str, bits: u32) -> String {
    match bits {
        8 => format!("{run}_bytes"),
        _ => format!("{run}_words"),
    }
}
