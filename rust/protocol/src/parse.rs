//! The words of a line. An error is the text behind `bad`.

use std::collections::BTreeMap;

pub type Parsed<T> = Result<T, String>;

/// The most places that a list may have: far above any call's own limit.
const MOST_PLACES: u64 = 1 << 20;

pub fn bad<T>(text: &str) -> Parsed<T> {
    Err(text.to_string())
}

/// A scripted failure of an operation.
#[derive(Debug, Clone, Copy, PartialEq, Eq)]
pub struct Failure {
    pub code: u16,
    pub processed: u64,
}

/// The scripted failures of a call; the keys count its operations from 1.
pub type Failures = BTreeMap<u64, Failure>;

/// Splits the `fail=` words from the others.
pub fn split_failures(line: &str) -> Parsed<(Vec<&str>, Failures)> {
    let mut words = Vec::new();
    let mut failures = BTreeMap::new();
    for word in line.split_ascii_whitespace() {
        let Some(script) = word.strip_prefix("fail=") else {
            words.push(word);
            continue;
        };
        let (number, failure) = scripted(script)?;
        if failures.insert(number, failure).is_some() {
            return bad("fail= twice for one operation");
        }
    }
    Ok((words, failures))
}

fn scripted(script: &str) -> Parsed<(u64, Failure)> {
    let parts: Vec<_> = script.split(':').collect();
    let [place, code, processed] = parts[..] else {
        return bad("fail= is K:CODE:PROCESSED");
    };
    let place = number(place)?;
    if place == 0 {
        return bad("operations count from 1");
    }
    Ok((place, failure(code, processed)?))
}

/// CODE and PROCESSED.
pub fn failure(code: &str, processed: &str) -> Parsed<Failure> {
    let Ok(code) = u16::try_from(number(code)?) else {
        return bad("a code has 16 bits");
    };
    let processed = number(processed)?;
    Ok(Failure { code, processed })
}

/// Decimal, or hex after 0x.
pub fn number(word: &str) -> Parsed<u64> {
    let (digits, radix) = match word.strip_prefix("0x") {
        Some(digits) => (digits, 16),
        None => (word, 10),
    };
    if digits.is_empty() || !digits.chars().all(|c| c.is_digit(radix)) {
        return bad("not a number");
    }
    u64::from_str_radix(digits, radix).or_else(|_| bad("number past 2^64 - 1"))
}

/// 0 or 1.
pub fn bit(word: &str) -> Parsed<bool> {
    match number(word)? {
        0 => Ok(false),
        1 => Ok(true),
        _ => bad("neither 0 nor 1"),
    }
}

/// One of a few words.
pub fn choice<T: Copy>(word: &str, choices: &[(&str, T)]) -> Parsed<T> {
    match choices.iter().find(|(name, _)| *name == word) {
        Some(&(_, value)) => Ok(value),
        None => bad("not one of the words that may stand here"),
    }
}

/// How many places a list or an output has.
pub fn places(word: &str) -> Parsed<usize> {
    match number(word)? {
        count if count <= MOST_PLACES => Ok(count as usize),
        _ => bad("too many places"),
    }
}

/// `.`, or a list of N and A-B.
pub fn pages(word: &str) -> Parsed<Vec<u64>> {
    if word == "." {
        return Ok(Vec::new());
    }
    let mut list = Vec::new();
    for item in word.split(',') {
        let (first, last) = match item.split_once('-') {
            Some((first, last)) => (number(first)?, number(last)?),
            None => (number(item)?, number(item)?),
        };
        if last < first {
            return bad("a run ends before it begins");
        }
        if last - first >= MOST_PLACES - list.len() as u64 {
            return bad("too many pages");
        }
        list.extend(first..=last);
    }
    Ok(list)
}

/// `ENTRY,..`, each read by `entry`, or `.` for no entry.
pub fn entries<T>(word: &str, entry: impl Fn(&str) -> Parsed<T>) -> Parsed<Vec<T>> {
    match word {
        "." => Ok(Vec::new()),
        _ => word.split(',').map(entry).collect(),
    }
}

/// `START-END:NODE`: the numbers, and the node's word.
pub fn entry(text: &str) -> Parsed<(u64, u64, &str)> {
    let form = "an entry is START-END:NODE";
    let (range, node) = text.split_once(':').ok_or(form)?;
    let (start, end) = range.split_once('-').ok_or(form)?;
    Ok((number(start)?, number(end)?, node))
}

/// The words `NAME=VALUE`, each name one of those known and at most once.
pub struct Options<'a>(BTreeMap<&'a str, &'a str>);

impl<'a> Options<'a> {
    pub fn new(words: &[&'a str], known: &[&str]) -> Parsed<Self> {
        let mut options = BTreeMap::new();
        for word in words {
            let (name, value) = word.split_once('=').ok_or("options are NAME=VALUE")?;
            if !known.contains(&name) {
                return bad("unknown option");
            }
            if options.insert(name, value).is_some() {
                return bad("an option twice");
            }
        }
        Ok(Self(options))
    }

    /// The option's value, or what stands for a missing one.
    pub fn get(&self, name: &str, missing: &'a str) -> &'a str {
        self.0.get(name).copied().unwrap_or(missing)
    }

    pub fn required(&self, name: &str) -> Parsed<&'a str> {
        match self.0.get(name) {
            Some(value) => Ok(value),
            None => bad("an option is missing"),
        }
    }

    /// The options given, by name.
    pub fn given(&self) -> impl Iterator<Item = (&'a str, &'a str)> {
        self.0.iter().map(|(&name, &value)| (name, value))
    }
}

/// The words of a command that has just so many.
pub fn exactly<'a, const N: usize>(words: &[&'a str]) -> Parsed<[&'a str; N]> {
    <[&str; N]>::try_from(words).or_else(|_| bad("wrong number of words"))
}

#[cfg(test)]
mod tests {
    use super::*;

    #[test]
    fn numbers() {
        assert_eq!(number("4096"), Ok(4096));
        assert_eq!(number("0x1F"), Ok(31));
        assert_eq!(number("18446744073709551615"), Ok(u64::MAX));
        for wrong in ["", "0x", "+1", "-1", "1_0", "18446744073709551616"] {
            assert!(number(wrong).is_err(), "{wrong}");
        }
    }

    #[test]
    fn page_lists_keep_order_and_repeats() {
        assert_eq!(pages("."), Ok(vec![]));
        assert_eq!(pages("9,3-5,3"), Ok(vec![9, 3, 4, 5, 3]));
        let last = u64::MAX.to_string();
        assert_eq!(pages(&last), Ok(vec![u64::MAX]));
        for wrong in ["", "3,", "5-3", "hex:", "0-99999999999", "3-4-5"] {
            assert!(pages(wrong).is_err(), "{wrong}");
        }
    }

    #[test]
    fn failures_stand_anywhere() {
        let (words, failures) = split_failures("a fail=2:5:1 b").unwrap();
        assert_eq!(words, ["a", "b"]);
        let failure = Failure {
            code: 5,
            processed: 1,
        };
        assert_eq!(failures, BTreeMap::from([(2, failure)]));
        for wrong in [
            "fail=0:1:1",
            "fail=1:65536:1",
            "fail=1:1",
            "fail=1:1:1 fail=1:2:2",
        ] {
            assert!(split_failures(wrong).is_err(), "{wrong}");
        }
    }
}
