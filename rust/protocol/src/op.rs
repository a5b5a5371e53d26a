//! The operations asked of the backend, written as the protocol has them.

use std::fmt;
use std::fmt::Display;

/// A run of pages: the first one and how many.
#[derive(Debug, Clone, Copy, PartialEq, Eq)]
pub struct Pages {
    pub first: u64,
    pub count: u64,
}

/// What TDX operations carry besides their pages; a comparison drops it.
#[derive(Debug, Clone, Copy, PartialEq, Eq)]
pub struct Attributes {
    pub attr: u64,
    pub mask: u64,
}

/// One operation asked of the backend.
#[derive(Debug, Clone, PartialEq, Eq)]
pub enum Op {
    Wait,
    FlushAll,
    Flush {
        vtl: u8,
    },
    TlbWait {
        vtl: u8,
    },
    Protect {
        vtl: u8,
        /// None where the source hands over no flags.
        flags: Option<u8>,
        /// The RMPADJUST operand, on SNP.
        operand: Option<u64>,
        attributes: Option<Attributes>,
        pages: Pages,
    },
    Invalidate(Pages),
    Accept {
        pages: Pages,
        attributes: Option<Attributes>,
    },
    Release(Pages),
    Zero(Pages),
    Modify {
        shared: bool,
        pages: Vec<u64>,
    },
    /// Bytes, the end exclusive.
    Register {
        start: u64,
        end: u64,
    },
}

impl Display for Op {
    fn fmt(&self, f: &mut fmt::Formatter<'_>) -> fmt::Result {
        match self {
            Op::Wait => write!(f, "Wait"),
            Op::FlushAll => write!(f, "FlushAll"),
            Op::Flush { vtl } => write!(f, "Flush vtl={vtl}"),
            Op::TlbWait { vtl } => write!(f, "TlbWait vtl={vtl}"),
            Op::Protect {
                vtl,
                flags,
                operand,
                attributes,
                pages,
            } => {
                let flags = flags.map_or("?".to_string(), |flags| flags.to_string());
                let operand = operand.map_or(String::new(), |n| format!(" operand={n}"));
                let more = more(attributes);
                write!(
                    f,
                    "Protect vtl={vtl} flags={flags}{operand} pages={pages}{more}"
                )
            }
            Op::Invalidate(pages) => write!(f, "Invalidate pages={pages}"),
            Op::Accept { pages, attributes } => {
                write!(f, "Accept pages={pages}{}", more(attributes))
            }
            Op::Release(pages) => write!(f, "Release pages={pages}"),
            Op::Zero(pages) => write!(f, "Zero pages={pages}"),
            Op::Modify { shared, pages } => {
                let to = if *shared { "shared" } else { "private" };
                write!(f, "Modify to={to} pages={}", list(pages))
            }
            Op::Register { start, end } => write!(f, "Register bytes={start}-{end}"),
        }
    }
}

fn more(attributes: &Option<Attributes>) -> String {
    match attributes {
        Some(Attributes { attr, mask }) => format!(" attr={attr:#x} mask={mask:#x}"),
        None => String::new(),
    }
}

impl Display for Pages {
    fn fmt(&self, f: &mut fmt::Formatter<'_>) -> fmt::Result {
        match self.count {
            0 => write!(f, "none"),
            1 => write!(f, "{}", self.first),
            count => write!(f, "{}-{}", self.first, self.first + (count - 1)),
        }
    }
}

/// A list of pages, runs of ascending neighbours shortened.
fn list(pages: &[u64]) -> String {
    if pages.is_empty() {
        return "none".to_string();
    }
    let runs = pages.chunk_by(|a, b| a.checked_add(1) == Some(*b));
    let runs = runs.map(|pages| Pages {
        first: pages[0],
        count: pages.len() as u64,
    });
    crate::show::joined(runs, ",")
}

#[cfg(test)]
mod tests {
    use super::*;

    #[test]
    fn lists_are_shortened() {
        assert_eq!(list(&[]), "none");
        assert_eq!(list(&[3, 9, 10, 8, 7, 7]), "3,9-10,8,7,7");
    }
}
