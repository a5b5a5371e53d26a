//! A list of calls, and the lines that make it up.

/// An entry of a layout, fit or not.
#[derive(Debug, Clone, Copy, PartialEq, Eq)]
pub struct Entry {
    pub start: u64,
    pub end: u64,
    pub node: u64,
}

/// What a registrar is built from.
#[derive(Debug, Clone, PartialEq, Eq)]
pub struct Build {
    pub ram: Vec<Entry>,
    pub offset: u64,
    pub granularity: u64,
}

/// The most chunks that a build of a case has: two bits of each are kept by the port, the original
/// and the predictor, and copied with every call.
pub const MOST_CHUNKS: u64 = 1 << 20;

impl Build {
    /// Whether it has so few chunks that it may be put to the programs.
    pub fn is_small(&self) -> bool {
        let end = self.ram.last().map_or(0, |entry| entry.end);
        let chunks = end.checked_div(self.granularity).unwrap_or(0);
        chunks <= MOST_CHUNKS
    }
}

#[derive(Debug, Clone, Copy, PartialEq, Eq)]
pub enum Request {
    Register {
        address: u64,
        len: u64,
    },
    /// `ignore` is 0 or 1, or unfit.
    All {
        alignment: u64,
        ignore: u64,
    },
}

#[derive(Debug, Clone, PartialEq, Eq)]
pub enum What {
    Build(Build),
    /// Run to its end; the operation of that number, from 1, fails.
    Call {
        request: Request,
        fail: Option<u64>,
    },
    /// Run to its first operation.
    Start(Request),
    /// One answer: done, or failed.
    Answer {
        done: bool,
    },
}

/// Lengths of the buffers lent in the place of the registrar's own, in words.
#[derive(Debug, Clone, Copy, PartialEq, Eq, Default)]
pub struct Lend {
    pub state: Option<u64>,
    pub registered: Option<u64>,
    pub failed: Option<u64>,
}

impl Lend {
    /// The line, if anything is lent.
    pub fn line(&self) -> Option<String> {
        let names = [
            ("state", self.state),
            ("registered", self.registered),
            ("failed", self.failed),
        ];
        let given = names
            .iter()
            .filter_map(|(name, len)| len.map(|len| format!(" {name}={len}")));
        let words: String = given.collect();
        (!words.is_empty()).then(|| format!("lend{words}"))
    }
}

/// One call, and what is lent to it.
#[derive(Debug, Clone, PartialEq, Eq)]
pub struct Act {
    pub what: What,
    pub lend: Lend,
}

impl Request {
    pub fn line(&self) -> String {
        match self {
            Request::Register { address, len } => format!("register {address} {len}"),
            Request::All { alignment, ignore } => {
                format!("register_all_aligned {alignment} {ignore}")
            }
        }
    }

    /// The call whose operation of that number fails.
    pub fn line_failing(&self, fail: Option<u64>) -> String {
        match fail {
            Some(place) => format!("{} fail={place}:5:0", self.line()),
            None => self.line(),
        }
    }
}

impl Act {
    /// The line of the call itself.
    pub fn line(&self) -> String {
        match &self.what {
            What::Build(build) => {
                let entry = |e: &Entry| format!("{}-{}:{}", e.start, e.end, e.node);
                let ram: Vec<_> = build.ram.iter().map(entry).collect();
                let ram = if ram.is_empty() {
                    ".".to_string()
                } else {
                    ram.join(",")
                };
                let (offset, granularity) = (build.offset, build.granularity);
                format!("registrar offset={offset} granularity={granularity} ram={ram}")
            }
            What::Call { request, fail } => request.line_failing(*fail),
            What::Start(request) => request.line(),
            What::Answer { done: true } => "ranswer done".to_string(),
            What::Answer { done: false } => "ranswer failed 5 0".to_string(),
        }
    }

    /// All its lines: a call that is stopped at its first operation is stepped.
    pub fn lines(&self) -> Vec<String> {
        let mut lines = Vec::new();
        let stepped = matches!(self.what, What::Start(_));
        if stepped {
            lines.push("step 1".to_string());
        }
        lines.extend(self.lend.line());
        lines.push(self.line());
        if stepped {
            lines.push("step 0".to_string());
        }
        lines
    }
}
