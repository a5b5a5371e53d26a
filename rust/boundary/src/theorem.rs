//! The theorem over every list of calls: which entries' contracts it is about.

use std::collections::BTreeMap;

/// The entries whose part of that name (`Learnt`: what a call made has, `Asked`: what it asks for)
/// a file of definitions reads, with their crates. A contract is read by `use
/// Rattle.CRATE.proofs.ENTRY.Reads as NAME`, and a part of it is `NAME.Learnt`.
pub fn entries(text: &str, part: &str) -> BTreeMap<String, String> {
    let lines = text.lines();
    let code: Vec<_> = lines
        .map(|line| line.split("--").next().unwrap_or(""))
        .collect();
    let used = |name: &str| {
        let wanted = format!("{name}.{part}");
        let mut words = code.iter().flat_map(|line| line.split([' ', '(', ')']));
        words.any(|word| word == wanted)
    };
    let read = code.iter().filter_map(|line| {
        let (path, name) = line.strip_prefix("use Rattle.")?.split_once(" as ")?;
        let (place, entry) = path.strip_suffix(".Reads")?.split_once(".proofs.")?;
        used(name.trim()).then(|| (entry.to_string(), place.to_string()))
    });
    read.collect()
}
