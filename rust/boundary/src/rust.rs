//! The Rust declarations of the entries.

use crate::Records;
use crate::Signature;
use crate::Signatures;
use crate::between;
use crate::fields;
use crate::listed;
use crate::rattle::argument;
use crate::record;
use crate::uncommented;

/// What `entries! {..}` lists: `NAME(ARGUMENTS) -> FAMILY::RECORD;` each.
pub fn signatures(text: &str) -> Result<Signatures, String> {
    let code = uncommented(text);
    let list = between(&code, "\nentries! {", "\n}").ok_or("no entries are declared")?;
    let mut signatures = Signatures::new();
    for part in list.split(';').map(str::trim).filter(|p| !p.is_empty()) {
        let name = part.split('(').next().unwrap_or("").to_string();
        let wrong = |error: String| format!("{name}: {error}");
        let inner = between(part, "(", ")").ok_or(wrong("no arguments".to_string()))?;
        let gives = part.split_once("-> ").map(|(_, gives)| gives);
        let arguments: Result<_, _> = listed(inner).map(argument).collect();
        let signature = Signature {
            arguments: arguments.map_err(wrong)?,
            gives: given(gives.ok_or(wrong("gives nothing".to_string()))?),
        };
        if signatures.insert(name.clone(), signature).is_some() {
            return Err(wrong("declared twice".to_string()));
        }
    }
    Ok(signatures)
}

/// `protector::Reply` is `protector_reply`.
fn given(path: &str) -> String {
    let (family, kind) = path.trim().split_once("::").unwrap_or(("", path));
    record(family, kind)
}

/// The records of a family (`protector`) by their names there.
pub fn records(text: &str, family: &str, names: &[&str]) -> Result<Records, String> {
    let of = |name: &&str| Ok((record(family, name), fields(text, name)?));
    names.iter().map(of).collect()
}
