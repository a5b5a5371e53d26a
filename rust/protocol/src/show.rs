//! The answer line and what stands in it.

use std::fmt::Display;

/// In a sparse map, so many equal bytes in a row are shown by their number.
const SHORTEST_REPEAT: usize = 4;

/// `RESULT | ops=N | OP; OP; .. | MORE | ..`
pub fn answer(result: &str, ops: &[String], more: &[String]) -> String {
    let mut parts = vec![result.to_string(), format!("ops={}", ops.len())];
    if !ops.is_empty() {
        parts.push(ops.join("; "));
    }
    parts.extend_from_slice(more);
    parts.join(" | ")
}

pub fn joined<T: Display>(items: impl IntoIterator<Item = T>, between: &str) -> String {
    let texts: Vec<_> = items.into_iter().map(|item| item.to_string()).collect();
    texts.join(between)
}

/// A registration that failed.
pub fn failed(address: u64) -> String {
    format!("err failed address={address}")
}

/// `START-END`, the end exclusive.
pub fn bytes(start: u64, end: u64) -> String {
    format!("{start}-{end}")
}

/// A span that isn't aligned; span, edge and node_range as `bytes` shows them.
pub fn unaligned(span: &str, edge: &str, vnode: u64, node_range: &str, alignment: u64) -> String {
    format!(
        "err UnalignedMemory span={span} edge={edge} vnode={vnode} node_range={node_range} \
         alignment={alignment}"
    )
}

/// Words of 16 hex digits.
pub fn words(words: &[u64]) -> String {
    joined(words.iter().map(|word| format!("{word:016X}")), ",")
}

/// Bytes of two hex digits, upper case.
pub fn hex(bytes: &[u8]) -> String {
    let digits = bytes.iter().flat_map(|byte| [byte >> 4, byte & 15]);
    digits
        .map(|digit| char::from(b"0123456789ABCDEF"[usize::from(digit)]))
        .collect()
}

/// A long map by its runs of nonzero bytes: `sparse(LEN)[PLACE:HEX;PLACE:BBxN;..]`
pub fn sparse(len: usize, runs: impl IntoIterator<Item = (usize, Vec<u8>)>) -> String {
    let shown = runs
        .into_iter()
        .flat_map(|(place, run)| stretches(place, &run));
    format!("sparse({len})[{}]", joined(shown, ";"))
}

/// A run of nonzero bytes, cut where enough equal bytes follow each other.
fn stretches(mut place: usize, run: &[u8]) -> Vec<String> {
    let mut shown = Vec::new();
    let mut mixed: Vec<u8> = Vec::new();
    for equal in run.chunk_by(|a, b| a == b) {
        if equal.len() < SHORTEST_REPEAT {
            mixed.extend(equal);
            continue;
        }
        place = show_mixed(&mut shown, place, &mut mixed);
        shown.push(format!("{place}:{:02X}x{}", equal[0], equal.len()));
        place += equal.len();
    }
    show_mixed(&mut shown, place, &mut mixed);
    shown
}

fn show_mixed(shown: &mut Vec<String>, place: usize, mixed: &mut Vec<u8>) -> usize {
    if !mixed.is_empty() {
        shown.push(format!("{place}:{}", hex(mixed)));
    }
    let next = place + mixed.len();
    mixed.clear();
    next
}

#[cfg(test)]
mod tests {
    use super::*;

    #[test]
    fn repeats_are_counted() {
        assert_eq!(stretches(5, &[1, 1, 1]), ["5:010101"]);
        assert_eq!(stretches(5, &[255; 9]), ["5:FFx9"]);
        let mixed = [&[7; 2][..], &[255; 4], &[9]].concat();
        assert_eq!(stretches(5, &mixed), ["5:0707", "7:FFx4", "11:09"]);
    }

    #[test]
    fn bytes_are_two_digits() {
        assert_eq!(hex(&[0, 9, 0xAF, 0xFF]), "0009AFFF");
    }

    #[test]
    fn an_answer_leaves_out_what_is_empty() {
        assert_eq!(answer("ok", &[], &[]), "ok | ops=0");
        let ops = ["Wait".to_string(), "FlushAll".to_string()];
        let more = ["count=2".to_string()];
        assert_eq!(
            answer("ok", &ops, &more),
            "ok | ops=2 | Wait; FlushAll | count=2"
        );
    }
}
