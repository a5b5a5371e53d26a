//! The protector's calls but the build, the answers and the queries, as they are written.

use super::predict::Call;
use super::predict::numbers;
use std::collections::BTreeMap;

/// A list as it is written.
#[derive(Debug, Clone, PartialEq, Eq)]
pub enum List {
    Pages(Vec<u64>),
    Bytes(Vec<u8>),
}

/// Answers that are failed, by the operation's number from 1: code and pages processed.
pub type Failures = BTreeMap<u64, (u16, u64)>;

/// A call; its numbers may be unfit.
#[derive(Debug, Clone, PartialEq, Eq)]
pub enum Change {
    /// 0 private, 1 shared.
    Visibility {
        vtl: u64,
        visibility: u64,
        list: List,
    },
    Protections {
        vtl: u64,
        flags: u64,
        list: List,
    },
    Default {
        vtl: u64,
        flags: u64,
    },
    /// 0 guest memory, 1 Dma; `new` is 16 where none are given.
    Register {
        vtl: u64,
        gpn: u64,
        source: u64,
        checked: u64,
        new: u64,
    },
    Unregister {
        vtl: u64,
        gpn: u64,
    },
    Lock {
        vtl: u64,
        list: List,
    },
    Unlock {
        vtl: u64,
        list: List,
    },
    Enable,
}

impl List {
    pub fn bytes(&self) -> Vec<u8> {
        match self {
            List::Pages(pages) => pages.iter().flat_map(|page| page.to_le_bytes()).collect(),
            List::Bytes(bytes) => bytes.clone(),
        }
    }

    pub(super) fn text(&self) -> String {
        match self {
            List::Pages(pages) if pages.is_empty() => ".".to_string(),
            List::Pages(pages) => runs(pages),
            List::Bytes(bytes) => format!("hex:{}", hex(bytes)),
        }
    }

    /// The same without some of its pages; of raw bytes, by their numbers.
    pub(super) fn shorter(&self) -> Vec<Self> {
        let List::Pages(pages) = self else {
            return vec![List::Pages(numbers(&self.bytes()))];
        };
        let mut lists = Vec::new();
        for size in [256, 64, 16, 4, 1] {
            let mut from = 0;
            while from + size <= pages.len() {
                let list = [&pages[..from], &pages[from + size..]].concat();
                lists.push(List::Pages(list));
                from += size;
            }
        }
        lists
    }
}

/// The runs of ascending neighbours in list order, each by its first and last page.
pub(super) fn spans(pages: &[u64]) -> Vec<(u64, u64)> {
    let mut spans: Vec<(u64, u64)> = Vec::new();
    for &page in pages {
        match spans.last_mut() {
            Some((_, last)) if last.checked_add(1) == Some(page) => *last = page,
            _ => spans.push((page, page)),
        }
    }
    spans
}

/// Pages in list order, ascending neighbours shortened.
pub(super) fn runs(pages: &[u64]) -> String {
    let texts = spans(pages)
        .into_iter()
        .map(|(first, last)| match first == last {
            true => first.to_string(),
            false => format!("{first}-{last}"),
        });
    texts.collect::<Vec<_>>().join(",")
}

fn word(number: u64, words: [&str; 2]) -> String {
    match words.get(number as usize) {
        Some(word) => word.to_string(),
        None => number.to_string(),
    }
}

impl Change {
    pub fn name(&self) -> &'static str {
        match self {
            Change::Visibility { .. } => "change_host_visibility",
            Change::Protections { .. } => "change_vtl_protections",
            Change::Default { .. } => "change_default_vtl_protections",
            Change::Register { .. } => "register_overlay_page",
            Change::Unregister { .. } => "unregister_overlay_page",
            Change::Lock { .. } => "lock_gpns",
            Change::Unlock { .. } => "unlock_gpns",
            Change::Enable => "set_vtl1_protections_enabled",
        }
    }

    pub fn list(&self) -> Option<&List> {
        match self {
            Change::Visibility { list, .. }
            | Change::Protections { list, .. }
            | Change::Lock { list, .. }
            | Change::Unlock { list, .. } => Some(list),
            _ => None,
        }
    }

    /// The same with another list, where it has one.
    pub(super) fn with_list(&self, other: List) -> Self {
        let mut change = self.clone();
        match &mut change {
            Change::Visibility { list, .. }
            | Change::Protections { list, .. }
            | Change::Lock { list, .. }
            | Change::Unlock { list, .. } => *list = other,
            _ => (),
        }
        change
    }

    /// Whether its errors have a place in a list.
    pub(super) fn is_indexed(&self) -> bool {
        matches!(self, Change::Visibility { .. } | Change::Protections { .. })
    }

    /// Whether the original takes a page of it for another one, or can't hold it: from 2^52 on, and
    /// where a range of the last page below is made.
    pub(super) fn is_high(&self) -> bool {
        const END: u64 = 1 << 52;
        match self {
            Change::Visibility { list, .. } | Change::Protections { list, .. } => {
                let pages = numbers(&list.bytes());
                pages.iter().any(|&page| page >= END)
            }
            Change::Register { gpn, new, .. } => *gpn >= END || *gpn == END - 1 && *new < 16,
            Change::Unregister { gpn, .. } => *gpn >= END - 1,
            _ => false,
        }
    }

    pub(super) fn line(&self) -> String {
        let name = self.name();
        match self {
            Change::Visibility {
                vtl,
                visibility,
                list,
            } => {
                let to = word(*visibility, ["private", "shared"]);
                format!("{name} {vtl} {to} {}", list.text())
            }
            Change::Protections { vtl, flags, list } => {
                format!("{name} {vtl} {flags} {}", list.text())
            }
            Change::Default { vtl, flags } => format!("{name} {vtl} {flags}"),
            Change::Register {
                vtl,
                gpn,
                source,
                checked,
                new,
            } => {
                let source = word(*source, ["guest", "dma"]);
                let new = match new {
                    16 => ".".to_string(),
                    flags => flags.to_string(),
                };
                format!("{name} {vtl} {gpn} {source} {checked} {new}")
            }
            Change::Unregister { vtl, gpn } => format!("{name} {vtl} {gpn}"),
            Change::Lock { vtl, list } | Change::Unlock { vtl, list } => {
                format!("{name} {vtl} {}", list.text())
            }
            Change::Enable => name.to_string(),
        }
    }

    pub(super) fn line_failing(&self, failures: &Failures) -> String {
        let mut line = self.line();
        for (place, (code, processed)) in failures {
            line += &format!(" fail={place}:{code}:{processed}");
        }
        line
    }

    /// With its whole pages by their numbers: the original reads no raw bytes.
    pub(super) fn by_numbers(&self) -> Self {
        match self.list() {
            Some(list) => self.with_list(List::Pages(numbers(&list.bytes()))),
            None => self.clone(),
        }
    }

    pub(super) fn call(&self) -> Call {
        let list = self.list().map_or(Vec::new(), List::bytes);
        match *self {
            Change::Visibility {
                vtl, visibility, ..
            } => Call::Change {
                vtl,
                visibility,
                list,
            },
            Change::Protections { vtl, flags, .. } => Call::Protections { vtl, flags, list },
            Change::Default { vtl, flags } => Call::Default { vtl, flags },
            Change::Register {
                vtl,
                gpn,
                source,
                checked,
                new,
            } => Call::Register {
                vtl,
                gpn,
                source,
                checked,
                new,
            },
            Change::Unregister { vtl, gpn } => Call::Unregister { vtl, gpn },
            Change::Lock { vtl, .. } => Call::Lock { vtl, list },
            Change::Unlock { vtl, .. } => Call::Unlock { vtl, list },
            Change::Enable => Call::Enable,
        }
    }

    /// Simpler forms.
    pub(super) fn simpler(&self) -> Vec<Self> {
        if let Some(list) = self.list() {
            let lists = list.shorter().into_iter();
            return lists.map(|list| self.with_list(list)).collect();
        }
        let &Change::Register {
            vtl,
            gpn,
            source,
            checked,
            new,
        } = self
        else {
            return Vec::new();
        };
        let with = |checked: u64, new: u64| Change::Register {
            vtl,
            gpn,
            source,
            checked,
            new,
        };
        let mut changes = Vec::new();
        if new < 16 {
            changes.push(with(checked, 16));
        }
        if checked > 0 {
            changes.push(with(0, new));
        }
        changes
    }
}

/// Bytes of two hex digits, upper case.
pub(super) fn hex(bytes: &[u8]) -> String {
    let digits = bytes.iter().flat_map(|byte| [byte / 16, byte % 16]);
    digits
        .filter_map(|digit| char::from_digit(digit.into(), 16))
        .map(|digit| digit.to_ascii_uppercase())
        .collect()
}
