//! The registrar's entries; [`MemoryRegistrar`](crate::MemoryRegistrar) is what one wants instead.

use super::entries;

/// What a registrar's entry gives.
#[repr(C)]
#[derive(Debug, Clone, Copy, PartialEq, Eq, Default)]
pub struct Reply {
    /// Document 01's number; 0 where none.
    pub number: u64,
    /// 1 if a Register of `start` to before `end` is asked for.
    pub asked: u64,
    /// Of a finished call, how many operations it asked for.
    pub count: u64,
    /// Where the range that is asked for starts, the offset added,
    pub start: u64,
    /// and where it ends.
    pub end: u64,
    /// Of 23.
    pub address: u64,
    /// Of 22, with what follows: the span,
    pub span_start: u64,
    /// its end,
    pub span_end: u64,
    /// what of it isn't aligned,
    pub edge_start: u64,
    /// its end,
    pub edge_end: u64,
    /// the node of the first entry that has a byte of the edge,
    pub vnode: u64,
    /// that entry,
    pub node_start: u64,
    /// its end,
    pub node_end: u64,
    /// and the alignment asked for.
    pub alignment: u64,
}

/// The words of a registrar's state block.
pub const STATE_WORDS: usize = 108;

/// Places in the state block.
pub(crate) mod place {
    /// 0 while nothing is asked for.
    pub const KIND: usize = 0;
    /// The bytes asked for, without offset.
    pub const START: usize = 4;
    pub const END: usize = 5;
    pub const OFFSET: usize = 9;
    pub const GRANULARITY: usize = 10;
}

/// What a registrar's call is lent.
#[derive(Debug)]
pub struct Lent<'a> {
    /// [`STATE_WORDS`] words.
    pub state: &'a mut [u64],
    /// A bit a chunk: [`map_words`] words.
    pub registered: &'a mut [u64],
    /// The same.
    pub failed: &'a mut [u64],
}

/// How many words a bitmap of the chunks below `last_end` has; 0 where that is unfit.
pub fn map_words(last_end: u64, granularity: u64) -> u64 {
    match granularity {
        0 => 0,
        _ => last_end.div_ceil(granularity).div_ceil(64),
    }
}

/// Calls an entry with what is lent between the words before and those behind.
macro_rules! call {
    ($entry:ident, [$($before:expr),*], $lent:expr, [$($behind:expr),*]) => {{
        let Lent { state, registered, failed } = $lent;
        entries::$entry($($before,)* state, registered, failed, $($behind,)*)
    }};
}

/// `ram` is three words an entry: start, end, node.
pub fn build(ram: &[u64], offset: u64, granularity: u64, lent: Lent<'_>) -> Reply {
    call!(registrar_build, [ram, offset, granularity], lent, [])
}

/// Registers the chunks that a range of bytes touches.
#[inline]
pub fn register(lent: Lent<'_>, address: u64, len: u64) -> Reply {
    call!(registrar_register, [], lent, [address, len])
}

/// Registers the aligned part of every span; `ignore_unaligned_ranges` is 0 or 1.
#[inline]
pub fn register_all_aligned(lent: Lent<'_>, alignment: u64, ignore_unaligned_ranges: u64) -> Reply {
    call!(
        registrar_register_all_aligned,
        [],
        lent,
        [alignment, ignore_unaligned_ranges]
    )
}

/// The operation asked for is done.
#[inline]
pub fn answer_done(lent: Lent<'_>) -> Reply {
    call!(registrar_answer_done, [], lent, [])
}

/// The operation asked for failed.
#[inline]
pub fn answer_failed(lent: Lent<'_>) -> Reply {
    call!(registrar_answer_failed, [], lent, [])
}
