//! The entries themselves: what the static library exports, and the functions that it calls.

use crate::Kind;
use crate::Records;
use crate::Signature;
use crate::Signatures;
use crate::between;
use crate::bits;
use crate::fields;
use crate::listed;
use crate::named;
use crate::record;
use crate::uncommented;
use std::collections::BTreeMap;

/// The code of each crate, its files one behind the other.
pub type Sources = BTreeMap<String, String>;

/// A function as its text has it.
struct Function {
    name: String,
    signature: Signature,
    /// What it asks and promises, a space between words.
    clauses: String,
    body: String,
}

/// An entry for C, in the static library.
pub struct Export {
    /// What crosses.
    pub signature: Signature,
    /// The crate that exports it.
    pub exported_by: String,
    /// The crate whose function of that name it calls, and nothing else: see [`wrong_calls`].
    pub library: String,
}

/// Exports by name.
pub type Exports = BTreeMap<String, Export>;

/// The functions for C, wherever a crate exports them.
pub fn exports(sources: &Sources) -> Result<Exports, String> {
    let mut exports = Exports::new();
    for (place, text) in sources {
        for function in exported(text)? {
            let library = function.body.split("::").next().unwrap_or("").to_string();
            let export = Export {
                signature: function.signature,
                exported_by: place.clone(),
                library,
            };
            if exports.insert(function.name.clone(), export).is_some() {
                return Err(format!("{} is an entry twice", function.name));
            }
        }
    }
    Ok(exports)
}

/// The entries, and the crate whose contract each has.
pub fn entries(sources: &Sources) -> Result<(Signatures, BTreeMap<String, String>), String> {
    let mut signatures = Signatures::new();
    let mut crates = BTreeMap::new();
    for (name, export) in exports(sources)? {
        signatures.insert(name.clone(), export.signature);
        crates.insert(name, export.library);
    }
    Ok((signatures, crates))
}

/// Where an export is not the library's function of its name: the same arguments, the same clauses,
/// and a body that hands the arguments on in their order.
pub fn wrong_calls(sources: &Sources) -> Result<Vec<String>, String> {
    let mut wrong = Vec::new();
    for (place, text) in sources {
        for export in exported(text)? {
            let name = &export.name;
            let mut says = |what: &str| wrong.push(format!("{place}: {name}: {what}"));
            let Some((library, called)) = export.body.split_once("::") else {
                says("no call of a library");
                continue;
            };
            let names = export.signature.arguments.iter().map(|(name, _)| name);
            let names: Vec<_> = names.map(String::as_str).collect();
            let handed = between(called, &format!("{name}("), ")").unwrap_or("");
            let ends = called.starts_with(&format!("{name}(")) && called.ends_with(')');
            if !ends || called.matches('(').count() != 1 || !listed(handed).eq(names) {
                says("not the library's function with its own arguments");
            }
            let own = sources.get(library).map_or("", String::as_str);
            let code = uncommented(own);
            let Some((_, text)) = code.split_once(&format!("\npub fn {name}(")) else {
                says("the library has no function of that name");
                continue;
            };
            let own = function(&format!("{name}({text}"))?;
            if own.signature != export.signature {
                says("the library's has other arguments");
            }
            if own.clauses != export.clauses {
                says("the library's has other clauses");
            }
        }
    }
    Ok(wrong)
}

fn exported(text: &str) -> Result<Vec<Function>, String> {
    let code = uncommented(text);
    let exported = code.split("#[unsafe(no_mangle)]").skip(1);
    if exported.clone().count() != code.matches("extern \"C\" fn ").count() {
        return Err("an entry is not exported, or not for C".to_string());
    }
    let of = |part: &str| {
        let head = part.trim_start().strip_prefix("pub extern \"C\" fn ");
        function(head.ok_or("#[unsafe(no_mangle)] on no entry")?)
    };
    exported.map(of).collect()
}

/// `NAME(ARGUMENTS) -> RECORD`, clauses, and a body, each of whose braces has its own line.
fn function(text: &str) -> Result<Function, String> {
    let name = text.split('(').next().unwrap_or("").to_string();
    let wrong = |error: &str| format!("{name}: {error}");
    let (head, behind) = text.split_once("\n{\n").ok_or(wrong("no body"))?;
    let (body, _) = behind.split_once("\n}").ok_or(wrong("no end"))?;
    let inner = between(head, "(", ")").ok_or(wrong("no arguments"))?;
    let (_, behind) = head.split_once("->").ok_or(wrong("gives nothing"))?;
    let mut words = behind.split_whitespace();
    let gives = words.next().unwrap_or("nothing");
    let arguments: Result<_, _> = listed(inner).map(argument).collect();
    let signature = Signature {
        arguments: arguments.map_err(|error: String| wrong(&error))?,
        gives: record(&name, gives),
    };
    Ok(Function {
        signature,
        clauses: words.collect::<Vec<_>>().join(" "),
        body: body.split_whitespace().collect::<Vec<_>>().join(" "),
        name,
    })
}

/// `list: &[u8]`; Rust has the same words for it.
pub(crate) fn argument(text: &str) -> Result<(String, Kind), String> {
    let (name, kind) = named(text)?;
    let run = |inner: &str, written: bool| {
        let bits = bits(inner.trim_end_matches(']'))?;
        Ok::<_, String>(Kind::Run { bits, written })
    };
    let kind = match (kind.strip_prefix("&mut ["), kind.strip_prefix("&[")) {
        (Some(inner), _) => run(inner, true)?,
        (_, Some(inner)) => run(inner, false)?,
        _ => Kind::Word(bits(kind)?),
    };
    Ok((name.to_string(), kind))
}

/// The records that the entries give, each where its crate has it from.
pub fn records(sources: &Sources) -> Result<Records, String> {
    let (signatures, crates) = entries(sources)?;
    let mut records = Records::new();
    for (name, signature) in signatures {
        let (_, kind) = signature.gives.split_once('_').unwrap_or_default();
        let kind = kind[..1].to_uppercase() + &kind[1..];
        let own = sources.get(&crates[&name]);
        let own = own.ok_or(format!("{name}: there is no such crate"))?;
        let mut used = own.lines().filter_map(|line| brought_from(line, &kind));
        let text = used.next().map_or(Some(own), |place| sources.get(place));
        let text = text.ok_or(format!("{name}: no crate has its {kind}"))?;
        let given = fields(text, &kind)?;
        let known = records.insert(signature.gives.clone(), given.clone());
        if known.is_some_and(|known| known != given) {
            return Err(format!("{} is two records", signature.gives));
        }
    }
    Ok(records)
}

/// The crate of `use CRATE::NAME;` or `use CRATE::{NAME, ..};`.
fn brought_from<'a>(line: &'a str, name: &str) -> Option<&'a str> {
    let (place, names) = line
        .strip_prefix("use ")?
        .strip_suffix(';')?
        .split_once("::")?;
    let names = names.trim_start_matches('{').trim_end_matches('}');
    listed(names).any(|used| used == name).then_some(place)
}
