//! The registrar: which chunks of guest memory the kernel has been told of.

use crate::Refusal;
use crate::raw::registrar as raw;
use crate::raw::registrar::Lent;
use crate::raw::registrar::Reply;
use crate::raw::registrar::STATE_WORDS;
use crate::raw::registrar::place;
use std::error::Error;
use std::fmt;

/// A range of bytes, the end exclusive.
#[derive(Debug, Clone, Copy, PartialEq, Eq, Hash, Default)]
pub struct MemoryRange {
    /// Its first byte.
    pub start: u64,
    /// The byte after its last.
    pub end: u64,
}

impl fmt::Display for MemoryRange {
    fn fmt(&self, f: &mut fmt::Formatter<'_>) -> fmt::Result {
        write!(f, "{:#x}-{:#x}", self.start, self.end)
    }
}

/// A stretch of RAM and its virtual NUMA node.
#[derive(Debug, Clone, Copy, PartialEq, Eq, Hash)]
pub struct MemoryRangeWithNode {
    /// Where it is.
    pub range: MemoryRange,
    /// The node.
    pub vnode: u32,
}

/// The backend: tells the kernel of memory.
///
/// Any `FnMut(MemoryRange) -> Result<(), E>` is one.
pub trait RegisterMemory {
    /// Why a registration failed: the backend's own, the registrar does not read it.
    type Error;

    /// Registers a range, the registrar's offset added. A failure is remembered: its chunks are
    /// never asked for again. What the error says is the backend's to log; the registrar reports
    /// where it happened.
    fn register_range(&mut self, range: MemoryRange) -> Result<(), Self::Error>;
}

impl<F: FnMut(MemoryRange) -> Result<(), E>, E> RegisterMemory for F {
    type Error = E;

    fn register_range(&mut self, range: MemoryRange) -> Result<(), E> {
        self(range)
    }
}

/// Why no registrar or protector was made.
#[derive(Debug, Clone, Copy, PartialEq, Eq)]
pub enum BuildError {
    /// What it is to be built from is unfit.
    Refused(Refusal),
    /// The bitmaps, of so many words each, can't be allocated.
    OutOfMemory {
        /// How many.
        words: u64,
    },
}

impl fmt::Display for BuildError {
    fn fmt(&self, f: &mut fmt::Formatter<'_>) -> fmt::Result {
        match self {
            Self::Refused(refusal) => refusal.fmt(f),
            Self::OutOfMemory { words } => write!(f, "no memory for bitmaps of {words} words"),
        }
    }
}

impl Error for BuildError {}

impl From<Refusal> for BuildError {
    fn from(refusal: Refusal) -> Self {
        Self::Refused(refusal)
    }
}

/// Where a call stands.
#[derive(Debug, Clone, Copy, PartialEq, Eq)]
pub enum Step {
    /// It is finished, well, and asked for so many operations.
    Done {
        /// How many.
        count: u64,
    },
    /// It asks that a range be registered, and waits for an answer.
    Asked(MemoryRange),
}

/// A span whose start or end isn't aligned.
#[derive(Debug, Clone, Copy, PartialEq, Eq, Hash)]
pub struct UnalignedMemory {
    /// The span: entries that touch.
    pub span: MemoryRange,
    /// What can't be registered: the whole span if nothing aligned is left, else the front, else
    /// the back.
    pub edge: MemoryRange,
    /// The node of the first entry that has a byte of the edge,
    pub vnode: u32,
    /// and that entry's range.
    pub node_range: MemoryRange,
    /// What was asked for.
    pub alignment: u64,
}

/// How a call ended that didn't end well. Unless refused it is finished, and `count` is the number
/// of operations that it asked for.
#[derive(Debug, Clone, Copy, PartialEq, Eq)]
pub enum RegisterError {
    /// Nothing was changed and nothing asked for.
    Refused(Refusal),
    /// 23: a registration failed, now (then the address is the range's start without offset) or
    /// in an earlier call (then it is the chunk's start).
    Failed {
        /// That address.
        address: u64,
        /// The operations asked for.
        count: u64,
    },
    /// 22: a span isn't aligned; the spans before it are registered.
    Unaligned {
        /// Where.
        memory: UnalignedMemory,
        /// The operations asked for.
        count: u64,
    },
}

impl RegisterError {
    /// Document 01's number.
    pub fn number(&self) -> u64 {
        match self {
            Self::Refused(refusal) => refusal.number(),
            Self::Failed { .. } => 23,
            Self::Unaligned { .. } => 22,
        }
    }

    /// How many operations the call asked for.
    pub fn count(&self) -> u64 {
        match *self {
            Self::Refused(_) => 0,
            Self::Failed { count, .. } | Self::Unaligned { count, .. } => count,
        }
    }
}

impl fmt::Display for RegisterError {
    fn fmt(&self, f: &mut fmt::Formatter<'_>) -> fmt::Result {
        match self {
            Self::Refused(refusal) => refusal.fmt(f),
            Self::Failed { address, .. } => {
                write!(f, "failed to register memory starting at {address:#x}")
            }
            Self::Unaligned { memory, .. } => write!(
                f,
                "RAM span {} has unregistrable edge {} in virtual NUMA node {} range {}; \
                 registration requires {:#x}-aligned span boundaries",
                memory.span, memory.edge, memory.vnode, memory.node_range, memory.alignment
            ),
        }
    }
}

impl Error for RegisterError {}

impl From<Refusal> for RegisterError {
    fn from(refusal: Refusal) -> Self {
        Self::Refused(refusal)
    }
}

/// Tells a backend of guest memory, chunk by chunk as it is needed, and of each chunk once.
///
/// [`register`](Self::register) and [`register_all_aligned`](Self::register_all_aligned) run a call
/// to its end over a backend. The `start_` calls and the answers do the same one operation at a
/// time, for a caller whose backend answers later; until the call has ended any other is refused
/// by [`Refusal::Busy`]. If a backend panics, its operation stays asked for.
///
/// The original is shared between threads and locks itself; this one is borrowed exclusively, so
/// that the lock is the caller's. It can't be cloned: a clone would tell the kernel of everything
/// again.
///
/// ```compile_fail,E0277
/// fn cloned<T: Clone>() {}
/// cloned::<underhill_mem_port::MemoryRegistrar>();
/// ```
pub struct MemoryRegistrar {
    state: Box<[u64; STATE_WORDS]>,
    registered: Vec<u64>,
    failed: Vec<u64>,
}

/// The bitmaps are left out.
impl fmt::Debug for MemoryRegistrar {
    fn fmt(&self, f: &mut fmt::Formatter<'_>) -> fmt::Result {
        f.debug_struct("MemoryRegistrar")
            .field("offset", &self.state[place::OFFSET])
            .field("granularity", &self.granularity())
            .field("asked", &self.asked())
            .finish_non_exhaustive()
    }
}

impl MemoryRegistrar {
    /// A registrar that nothing is registered in.
    ///
    /// `ram` has 1 to 32 non-empty entries, ascending and disjoint, ends at multiples of 32,768 and
    /// at most 2^52. `offset`, a multiple of 4,096, is added to each address asked for.
    /// `granularity`, the size of a chunk, is a power of two from 4,096. Two bits are kept for each
    /// chunk up to the last end.
    pub fn new(
        ram: &[MemoryRangeWithNode],
        offset: u64,
        granularity: u64,
    ) -> Result<Self, BuildError> {
        let entries = ram.iter();
        let words: Vec<u64> = entries
            .flat_map(|e| [e.range.start, e.range.end, u64::from(e.vnode)])
            .collect();
        Self::from_words(&words, offset, granularity)
    }

    /// The same, with the layout as it crosses: three words an entry, its start, end and node.
    pub fn from_words(ram: &[u64], offset: u64, granularity: u64) -> Result<Self, BuildError> {
        let mut new = Self {
            state: Box::new([0; STATE_WORDS]),
            registered: Vec::new(),
            failed: Vec::new(),
        };
        // A build with no bitmaps is refused by 4 if by nothing before it: so no memory is taken
        // for what is unfit.
        match raw::build(ram, offset, granularity, new.lent()).number {
            4 => (),
            number => return Err(refused(number).into()),
        }
        let last_end = ram.last_chunk().map_or(0, |&[_, end, _]| end);
        let words = raw::map_words(last_end, granularity);
        new.registered = zeros(words)?;
        new.failed = zeros(words)?;
        match raw::build(ram, offset, granularity, new.lent()).number {
            0 => Ok(new),
            number => Err(refused(number).into()),
        }
    }

    #[inline]
    fn lent(&mut self) -> Lent<'_> {
        Lent {
            state: &mut self.state[..],
            registered: &mut self.registered,
            failed: &mut self.failed,
        }
    }

    /// Registers the chunks that a request touches, once widened to whole pages: those that aren't
    /// registered yet, one after the other, their RAM alone. Gives the number of operations asked.
    ///
    /// An empty request touches the chunk that it lies in, unless it lies where one begins.
    pub fn register(
        &mut self,
        address: u64,
        len: u64,
        backend: &mut impl RegisterMemory,
    ) -> Result<u64, RegisterError> {
        let step = self.start_register(address, len)?;
        self.drive(step, backend)
    }

    /// Registers the aligned part of each span of RAM: each stretch of it that isn't registered
    /// yet is one operation. Gives their number.
    ///
    /// A span with an unaligned edge ends the call, unless such edges are ignored. `alignment` is a
    /// power of two from the granularity.
    pub fn register_all_aligned(
        &mut self,
        alignment: u64,
        ignore_unaligned_ranges: bool,
        backend: &mut impl RegisterMemory,
    ) -> Result<u64, RegisterError> {
        let step = self.start_register_all_aligned(alignment, ignore_unaligned_ranges)?;
        self.drive(step, backend)
    }

    fn drive(
        &mut self,
        mut step: Step,
        backend: &mut impl RegisterMemory,
    ) -> Result<u64, RegisterError> {
        loop {
            step = match step {
                Step::Done { count } => return Ok(count),
                Step::Asked(range) => match backend.register_range(range) {
                    Ok(()) => self.answer_done()?,
                    Err(_) => self.answer_failed()?,
                },
            };
        }
    }

    /// Begins [`register`](Self::register).
    #[inline]
    pub fn start_register(&mut self, address: u64, len: u64) -> Result<Step, RegisterError> {
        step(raw::register(self.lent(), address, len))
    }

    /// Begins [`register_all_aligned`](Self::register_all_aligned).
    #[inline]
    pub fn start_register_all_aligned(
        &mut self,
        alignment: u64,
        ignore_unaligned_ranges: bool,
    ) -> Result<Step, RegisterError> {
        let ignore = u64::from(ignore_unaligned_ranges);
        step(raw::register_all_aligned(self.lent(), alignment, ignore))
    }

    /// The range that is asked for and not answered yet.
    pub fn asked(&self) -> Option<MemoryRange> {
        let offset = self.state[place::OFFSET];
        let address = |place: usize| offset.wrapping_add(self.state[place]);
        (self.state[place::KIND] != 0).then(|| MemoryRange {
            start: address(place::START),
            end: address(place::END),
        })
    }

    /// The range asked for is registered.
    #[inline]
    pub fn answer_done(&mut self) -> Result<Step, RegisterError> {
        step(raw::answer_done(self.lent()))
    }

    /// The range asked for could not be registered. This ends the call, by
    /// [`RegisterError::Failed`].
    #[inline]
    pub fn answer_failed(&mut self) -> Result<Step, RegisterError> {
        step(raw::answer_failed(self.lent()))
    }

    /// The size of a chunk.
    pub fn granularity(&self) -> u64 {
        self.state[place::GRANULARITY]
    }

    /// Chunk c is registered if bit c % 64 of word c / 64 is set.
    pub fn registered(&self) -> &[u64] {
        &self.registered
    }

    /// Chunk c has failed if bit c % 64 of word c / 64 is set.
    pub fn failed(&self) -> &[u64] {
        &self.failed
    }
}

fn zeros(words: u64) -> Result<Vec<u64>, BuildError> {
    let out_of_memory = BuildError::OutOfMemory { words };
    let len = usize::try_from(words).map_err(|_| out_of_memory)?;
    let mut zeros = Vec::new();
    zeros.try_reserve_exact(len).map_err(|_| out_of_memory)?;
    zeros.resize(len, 0);
    Ok(zeros)
}

fn refused(number: u64) -> Refusal {
    Refusal::from_number(number).expect("the registrar's contract has no other number")
}

/// A reply in Rust's types.
#[inline]
fn step(reply: Reply) -> Result<Step, RegisterError> {
    let range = |start, end| MemoryRange { start, end };
    match reply {
        Reply {
            number: 0,
            asked: 0,
            count,
            ..
        } => Ok(Step::Done { count }),
        Reply {
            number: 0,
            start,
            end,
            ..
        } => Ok(Step::Asked(range(start, end))),
        Reply {
            number: 23,
            address,
            count,
            ..
        } => Err(RegisterError::Failed { address, count }),
        Reply {
            number: 22, count, ..
        } => {
            let memory = UnalignedMemory {
                span: range(reply.span_start, reply.span_end),
                edge: range(reply.edge_start, reply.edge_end),
                vnode: u32::try_from(reply.vnode).expect("a fit layout's nodes have 32 bits"),
                node_range: range(reply.node_start, reply.node_end),
                alignment: reply.alignment,
            };
            Err(RegisterError::Unaligned { memory, count })
        }
        Reply { number, .. } => Err(refused(number).into()),
    }
}
