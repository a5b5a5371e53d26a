//! Layouts that reach over 128 MiB, where a map of pages passes 4,096 bytes.

use crate::case::Entry;
use crate::random::Random;

/// What a layout's starts and ends are multiples of: eight pages, a byte of a map.
pub const UNIT: u64 = 32_768;

/// 128 MiB, and its page.
pub const EDGE: u64 = 4096 * UNIT;
pub const EDGE_PAGE: u64 = EDGE / 4096;

/// How far from it a page is near: a word of a map and a byte more.
const NEAR: u64 = 72;

/// RAM on both sides of 128 MiB: in one entry, in two that meet there, or with a hole.
pub fn across_edge(random: &mut Random) -> Vec<Entry> {
    let (before, behind) = (random.within(1, 9), random.within(1, 9));
    let low = UNIT * random.below(3);
    let (from, to) = (EDGE - UNIT * before, EDGE + UNIT * behind);
    let bounds = match random.below(6) {
        0 => vec![(low, to)],
        1 => vec![(low, low + UNIT), (from, to)],
        2 => vec![(from, EDGE), (EDGE, to)],
        3 => vec![
            (low, low + UNIT * 2),
            (from, EDGE),
            (EDGE, to),
            (to, to + UNIT),
        ],
        4 => vec![(from, EDGE), (EDGE + UNIT, to + UNIT)],
        _ => vec![(low, EDGE), (EDGE, to)],
    };
    let nodes = bounds.into_iter().zip(0..);
    nodes
        .map(|((start, end), node)| Entry { start, end, node })
        .collect()
}

/// The pages of an entry that are near 128 MiB.
pub fn near_edge(entry: &Entry) -> std::ops::Range<u64> {
    let first = (entry.start / 4096).max(EDGE_PAGE - NEAR);
    first..(entry.end / 4096).min(EDGE_PAGE + NEAR).max(first)
}

/// The pages of a layout that are worth listing: the first of each entry, and those near 128 MiB.
pub fn pages_of(ram: &[Entry]) -> Vec<u64> {
    let pages = ram.iter().flat_map(|entry| {
        let first = (entry.start / 4096..entry.end / 4096).take(1024);
        let last = first.clone().last();
        first.chain(near_edge(entry).filter(move |page| Some(*page) > last))
    });
    pages.collect()
}

/// Whether the pages on both sides of 128 MiB are RAM.
pub fn is_across(ram: &[Entry]) -> bool {
    let holds = |page: u64| {
        let mut entries = ram.iter();
        entries.any(|e| (e.start / 4096..e.end / 4096).contains(&page))
    };
    holds(EDGE_PAGE - 1) && holds(EDGE_PAGE)
}

/// Whether there are pages near 128 MiB on both sides of it.
pub fn on_both_sides(pages: &[u64]) -> bool {
    let has = |side: std::ops::Range<u64>| pages.iter().any(|page| side.contains(page));
    has(EDGE_PAGE - NEAR..EDGE_PAGE) && has(EDGE_PAGE..EDGE_PAGE + NEAR)
}
