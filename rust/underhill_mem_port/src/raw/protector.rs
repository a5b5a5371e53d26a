//! The protector's entries; [`HardwareIsolatedMemoryProtector`](crate::HardwareIsolatedMemoryProtector)
//! is what one wants instead.

use super::entries;

/// What an entry of the protector gives.
#[repr(C)]
#[derive(Debug, Clone, Copy, PartialEq, Eq, Default)]
pub struct Reply {
    /// Document 01's number; 0 where none.
    pub number: u64,
    /// The hypervisor's code of 7 and 10 to 16.
    pub code: u64,
    /// The place in the list that `code` is about.
    pub index: u64,
    /// Of a finished call, how many operations it asked for.
    pub count: u64,
    /// The operation asked for, see [`operation`]; 0 if the call is finished or refused.
    pub operation: u64,
    /// Of Flush and TlbWait, and of Protect, with `flags` and, on SNP, the RMPADJUST `operand`.
    pub vtl: u64,
    /// Of Protect: its flags.
    pub flags: u64,
    /// Of Protect on SNP; 0 elsewhere.
    pub operand: u64,
    /// The first page of the operation's run,
    pub first: u64,
    /// and how many. Of Modify, how many words of the table of pages it names.
    pub pages: u64,
    /// Of Modify: 1 if to shared.
    pub shared: u64,
}

/// What a query of one page or a fault gives.
#[repr(C)]
#[derive(Debug, Clone, Copy, PartialEq, Eq, Default)]
pub struct Value {
    /// Document 01's number; 0 where none.
    pub number: u64,
    /// The answer, or the code of the number.
    pub value: u64,
}

/// The numbers of operations.
pub mod operation {
    /// No thread accesses guest memory by what the maps said before.
    pub const WAIT: u64 = 1;
    /// The whole TLB is flushed.
    pub const FLUSH_ALL: u64 = 2;
    /// Permissions of a VTL in hardware.
    pub const PROTECT: u64 = 3;
    /// Pages are unaccepted, on SNP.
    pub const INVALIDATE: u64 = 4;
    /// Pages are released, on TDX.
    pub const RELEASE: u64 = 5;
    /// The hypervisor changes the visibility of pages.
    pub const MODIFY: u64 = 6;
    /// Pages that came back are accepted.
    pub const ACCEPT: u64 = 7;
    /// Pages that came back are zeroed, on SNP.
    pub const ZERO: u64 = 8;
    /// A VTL's TLB is flushed.
    pub const FLUSH: u64 = 9;
    /// No processor holds a TLB lock of a VTL.
    pub const TLB_WAIT: u64 = 10;
}

/// The words of a protector's state block.
pub const STATE_WORDS: usize = 128;
/// The words of the table of the request's pages.
pub const PAGES_WORDS: usize = 1024;
/// The words of the tables of overlays and locks.
pub const TABLES_WORDS: usize = 3460;

/// Places in the state block.
pub mod place {
    /// SNP 2, TDX 3, CCA 4.
    pub const ISOLATION: usize = 16;
    /// 1 if permissions are tracked.
    pub const TRACKED: usize = 17;
    /// 1 if VTL1's protections are enabled.
    pub const ENABLED: usize = 19;
    /// The default flags of VTL0,
    pub const DEFAULT0: usize = 20;
    /// and of VTL1, above 15 where none are given.
    pub const DEFAULT1: usize = 21;
}

/// The tables of overlays and locks: of each VTL, how many and then the entries, the rest zero.
pub mod table {
    /// Where the overlays of each VTL begin, five words an entry: page, previous flags, own flags,
    /// count, source.
    pub const OVERLAYS: [usize; 2] = [0, 641];
    /// Where the locked lists of each VTL begin: 64 words, of which word k is how many pages the
    /// first k lists have together, then the pages of all.
    pub const LOCKS: [usize; 2] = [1282, 2371];
    /// Where among these words the first page stands.
    pub const FIRST_PAGE: usize = 65;
}

/// The bitmaps: page p is bit p % 8 of byte p / 8. The last four are empty if untracked.
#[derive(Debug)]
pub struct Maps<'a> {
    /// The marks of private pages.
    pub private: &'a mut [u8],
    /// The marks of shared pages.
    pub shared: &'a mut [u8],
    /// What VTL0 may read,
    pub read: &'a mut [u8],
    /// write,
    pub write: &'a mut [u8],
    /// execute in kernel mode
    pub kernel: &'a mut [u8],
    /// and execute in user mode.
    pub user: &'a mut [u8],
}

/// What a call of the protector is lent.
#[derive(Debug)]
pub struct Lent<'a> {
    /// A bit a page: [`map_bytes`] bytes each.
    pub maps: Maps<'a>,
    /// [`STATE_WORDS`] words.
    pub state: &'a mut [u64],
    /// [`PAGES_WORDS`] words: the pages that the request asks for, then their places in its list.
    pub pages: &'a mut [u64],
    /// [`TABLES_WORDS`] words.
    pub tables: &'a mut [u64],
}

/// How many bytes a bitmap of the pages below `last_end` has.
pub fn map_bytes(last_end: u64) -> u64 {
    last_end / 32_768
}

/// A list as it crosses: eight bytes a page, the lowest first.
pub fn list(gpns: &[u64]) -> &[u8] {
    const {
        assert!(
            cfg!(target_endian = "little"),
            "a word's lowest byte is first"
        )
    };
    // SAFETY: the bytes are those of a slice that is borrowed as long, and any bytes are fit.
    unsafe { std::slice::from_raw_parts(gpns.as_ptr().cast(), size_of_val(gpns)) }
}

/// Calls an entry with what is lent between the words before and those behind.
macro_rules! call {
    ($entry:ident, [$($before:expr),*], $lent:expr, [$($behind:expr),*]) => {{
        let Lent { maps, state, pages, tables } = $lent;
        let Maps { private, shared, read, write, kernel, user } = maps;
        entries::$entry(
            $($before,)*
            private, shared, read, write, kernel, user, state, pages, tables,
            $($behind,)*
        )
    }};
}

mod changes;

pub use changes::*;

/// `ram` is three words an entry: start, end, node. `isolation` is 2 for SNP, 3 for TDX, 4 for
/// CCA; `tracked` and `release` are 0 or 1.
pub fn build(ram: &[u64], isolation: u64, tracked: u64, release: u64, lent: Lent<'_>) -> Reply {
    call!(
        protector_build,
        [ram, isolation, tracked, release],
        lent,
        []
    )
}

/// `visibility` is 0 for private, 1 for shared; `list` has eight bytes a page, the lowest first.
/// The tables are read only.
pub fn change_host_visibility(lent: Lent<'_>, vtl: u64, visibility: u64, list: &[u8]) -> Reply {
    call!(
        protector_change_host_visibility,
        [],
        lent,
        [vtl, visibility, list]
    )
}

/// The operation asked for is done.
#[inline]
pub fn answer_done(lent: Lent<'_>) -> Reply {
    call!(protector_answer_done, [], lent, [])
}

/// The operation asked for failed; the code and the pages processed are read of a Modify alone.
pub fn answer_failed(lent: Lent<'_>, code: u16, processed: u64) -> Reply {
    call!(protector_answer_failed, [], lent, [code, processed])
}

/// What a query that writes nothing is lent.
#[derive(Debug, Clone, Copy)]
pub struct Seen<'a> {
    /// The marks of private pages.
    pub private: &'a [u8],
    /// The marks of shared pages.
    pub shared: &'a [u8],
    /// What VTL0 may read,
    pub read: &'a [u8],
    /// write,
    pub write: &'a [u8],
    /// execute in kernel mode
    pub kernel: &'a [u8],
    /// and execute in user mode.
    pub user: &'a [u8],
    /// [`STATE_WORDS`] words.
    pub state: &'a [u64],
}

/// Calls an entry with what is seen, and the words behind.
macro_rules! look {
    ($entry:ident, $seen:expr, [$($behind:expr),*]) => {{
        let Seen { private, shared, read, write, kernel, user, state } = $seen;
        entries::$entry(private, shared, read, write, kernel, user, state, $($behind,)*)
    }};
}

/// Writes a byte a page to `out`, as far as it goes: 0 private, 1 shared.
pub fn query_host_visibility(state: &[u64], shared: &[u8], list: &[u8], out: &mut [u8]) -> Reply {
    entries::protector_query_host_visibility(state, shared, list, out)
}

/// `mapping` is 0 for the encrypted one, 1 for the shared; `view` is 0 for read, 1 for kernel
/// execute, 2 for user execute; `writes` and `failure` are 0 or 1. The answer is 0 for Retry, 1
/// for NotMapped, 2 for NotShared, 3 for NotPrivate, 4 for VtlProtected. Refused by 4 and 8
/// alone. Past the maps no page is marked.
pub fn page_fault(
    seen: Seen<'_>,
    mapping: u64,
    view: u64,
    address: u64,
    writes: u64,
    failure: u64,
) -> Value {
    look!(
        protector_page_fault,
        seen,
        [mapping, view, address, writes, failure]
    )
}

/// The flags that a VTL has on a page, as far as lower VTLs decide. Refused by 4, 8 and, in a hole
/// of the layout, 7. A page past the maps is in no hole.
pub fn query_lower_vtl_permissions(seen: Seen<'_>, vtl: u64, gpn: u64) -> Value {
    look!(protector_query_lower_vtl_permissions, seen, [vtl, gpn])
}

/// The flags of a page in the permission maps, none past their end. Refused by 4 and 24.
pub fn query_access_permission(seen: Seen<'_>, gpn: u64) -> Value {
    look!(protector_query_access_permission, seen, [gpn])
}
