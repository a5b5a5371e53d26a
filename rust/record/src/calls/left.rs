//! What a call leaves: maps, settings and tables, read from `dump` and `tables`.

use crate::digest::Digest;
use crate::original::value;

const OVERLAYS: usize = 641;
const LOCKS: usize = 1089;
/// Of the words of locked lists, those before the pages.
const FIRST_PAGE: usize = 65;

#[derive(Default)]
pub struct Left {
    /// Private, shared and, where tracked, the permission maps.
    maps: Vec<Vec<u8>>,
    /// Enabled, default of VTL0, of VTL1 (16: none).
    settings: [u64; 3],
    /// Page, previous and own flags, count, source (1: Dma), by VTL.
    pub overlays: [Vec<[u64; 5]>; 2],
    pub locks: [Vec<Vec<u64>>; 2],
}

impl Left {
    pub fn read(dump: &str, tables: &str) -> Self {
        let names = ["private", "shared", "read", "write", "kx", "ux"];
        let maps = names.map(|name| value(dump, name));
        let maps = maps
            .iter()
            .filter(|text| **text != "-")
            .map(|text| hex(text));
        let number = |name: &str| value(tables, name).parse().unwrap_or(16);
        Self {
            maps: maps.collect(),
            settings: ["enabled", "default0", "default1"].map(number),
            overlays: ["overlays0", "overlays1"].map(|name| overlays(value(tables, name))),
            locks: ["locks0", "locks1"].map(|name| locks(value(tables, name))),
        }
    }

    pub fn is_shared(&self, page: u64) -> bool {
        let byte = self.maps[1][page as usize / 8];
        byte >> (page % 8) & 1 == 1
    }

    /// Whether a page of a VTL is both locked and overlay.
    pub fn has_locked_overlay(&self, vtl: usize) -> bool {
        let mut locked = self.locks[vtl].iter().flatten();
        locked.any(|page| self.overlays[vtl].iter().any(|entry| entry[0] == *page))
    }

    /// Of the maps' bytes, the settings, and the tables in the words of `docs/ABI.md`.
    pub fn digest(&self) -> u64 {
        let mut digest = Digest::new();
        self.maps.iter().for_each(|map| digest.bytes(map));
        digest.words(&self.settings);
        for entries in &self.overlays {
            let mut words = vec![entries.len() as u64];
            words.extend(entries.iter().flatten());
            words.resize(OVERLAYS, 0);
            digest.words(&words);
        }
        for lists in &self.locks {
            let mut words = vec![lists.len() as u64];
            let mut end = 0;
            for list in lists {
                end += list.len() as u64;
                words.push(end);
            }
            words.resize(FIRST_PAGE, 0);
            words.extend(lists.iter().flatten());
            words.resize(LOCKS, 0);
            digest.words(&words);
        }
        digest.0
    }
}

fn hex(text: &str) -> Vec<u8> {
    let digits = text.as_bytes().chunks(2);
    let byte = |pair: &[u8]| {
        let pair = std::str::from_utf8(pair).expect("digits");
        u8::from_str_radix(pair, 16).expect("a byte")
    };
    digits.map(byte).collect()
}

/// `[PAGE:PREV:OWN:COUNT:guest|dma,..]`
fn overlays(text: &str) -> Vec<[u64; 5]> {
    let inner = text.trim_matches(['[', ']']);
    let entries = inner.split(',').filter(|entry| !entry.is_empty());
    let entry = |entry: &str| {
        let mut words = entry.split(':').map(|word| match word {
            "guest" => 0,
            "dma" => 1,
            number => number.parse().expect("a number"),
        });
        [(); 5].map(|()| words.next().expect("five parts"))
    };
    entries.map(entry).collect()
}

/// `[(P,P)(P)..]`
fn locks(text: &str) -> Vec<Vec<u64>> {
    let inner = text.trim_matches(['[', ']']);
    let lists = inner.split('(').skip(1);
    let list = |list: &str| {
        let pages = list.trim_end_matches(')').split(',');
        let pages = pages.filter(|page| !page.is_empty());
        pages.map(|page| page.parse().expect("a page")).collect()
    };
    lists.map(list).collect()
}
