//! Buffers of wrong length, lent for one line.

use protocol::Parsed;
use protocol::bad;
use protocol::parse;
use protocol::parse::Options;

/// What a lent buffer is filled with.
const FILL: u8 = 0xA5;
const FILL_WORD: u64 = u64::from_ne_bytes([FILL; 8]);

/// The most words or bytes that a buffer is lent with.
const MOST: u64 = 1 << 24;

/// The protector's maps, in the order that they are lent.
pub const MAPS: [&str; 6] = ["private", "shared", "read", "write", "kx", "ux"];

const WORDS: [&str; 5] = ["state", "registered", "failed", "pages", "tables"];

/// The buffers lent in the place of the registrar's and the protector's own.
#[derive(Default)]
pub struct Lends {
    /// Words; of either.
    pub state: Option<Vec<u64>>,
    /// The registrar's, words.
    pub registered: Option<Vec<u64>>,
    pub failed: Option<Vec<u64>>,
    /// The protector's, words.
    pub pages: Option<Vec<u64>>,
    pub tables: Option<Vec<u64>>,
    /// The protector's, bytes.
    pub maps: [Option<Vec<u8>>; 6],
}

impl Lends {
    /// `NAME=LEN ..`, in words, or in bytes for a map of the protector.
    pub fn new(args: &[&str]) -> Parsed<Self> {
        let options = Options::new(args, &[&WORDS[..], &MAPS].concat())?;
        let mut lends = Self::default();
        let mut any = false;
        for (name, len) in options.given() {
            let len = length(len)?;
            any = true;
            if let Some(place) = MAPS.iter().position(|map| *map == name) {
                lends.maps[place] = Some(vec![FILL; len]);
                continue;
            }
            let buffer = Some(vec![FILL_WORD; len]);
            match name {
                "state" => lends.state = buffer,
                "registered" => lends.registered = buffer,
                "failed" => lends.failed = buffer,
                "pages" => lends.pages = buffer,
                _ => lends.tables = buffer,
            }
        }
        if any {
            Ok(lends)
        } else {
            bad("nothing is lent")
        }
    }

    /// No buffer may have the registrar's right length.
    pub fn check_registrar(&self, state: usize, maps: usize) -> Parsed<()> {
        let given = [
            (&self.state, state),
            (&self.registered, maps),
            (&self.failed, maps),
        ];
        right_is_bad(given.iter().any(|(buffer, len)| is_of(buffer, *len)))
    }

    /// No buffer of words may have the protector's right length.
    pub fn check_protector(&self, state: usize, pages: usize, tables: usize) -> Parsed<()> {
        let given = [
            (&self.state, state),
            (&self.pages, pages),
            (&self.tables, tables),
        ];
        right_is_bad(given.iter().any(|(buffer, len)| is_of(buffer, *len)))
    }

    /// Nor may a map; none where no length is right.
    pub fn check_maps(&self, lens: [Option<usize>; 6]) -> Parsed<()> {
        let mut given = self.maps.iter().zip(lens);
        right_is_bad(given.any(|(map, len)| len.is_some_and(|len| is_of(map, len))))
    }

    /// `written=NAME,..`, if any was.
    pub fn written(&self) -> Option<String> {
        let words = [
            &self.state,
            &self.registered,
            &self.failed,
            &self.pages,
            &self.tables,
        ];
        let words = WORDS.iter().zip(words.map(|buffer| {
            let buffer = buffer.as_deref().unwrap_or(&[]);
            buffer.iter().any(|&word| word != FILL_WORD)
        }));
        let maps = MAPS.iter().zip(self.maps.each_ref().map(|map| {
            let map = map.as_deref().unwrap_or(&[]);
            map.iter().any(|&byte| byte != FILL)
        }));
        let written = words.chain(maps).filter(|(_, written)| *written);
        let names: Vec<_> = written.map(|(name, _)| *name).collect();
        (!names.is_empty()).then(|| format!("written={}", names.join(",")))
    }
}

fn is_of<T>(buffer: &Option<Vec<T>>, len: usize) -> bool {
    buffer.as_ref().is_some_and(|buffer| buffer.len() == len)
}

fn right_is_bad(right: bool) -> Parsed<()> {
    if right {
        return bad("a lent length is the right one");
    }
    Ok(())
}

fn length(len: &str) -> Parsed<usize> {
    match parse::number(len)? {
        len if len <= MOST => Ok(len as usize),
        _ => bad("too many words"),
    }
}
