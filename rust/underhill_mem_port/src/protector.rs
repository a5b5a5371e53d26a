//! The protector: which guest pages the host may see, and what each VTL may do with them.

use crate::BuildError;
use crate::MemoryRangeWithNode;
use crate::Refusal;
use crate::raw::protector as raw;
use crate::raw::protector::Lent;
use crate::raw::protector::Maps;
use crate::raw::protector::PAGES_WORDS;
use crate::raw::protector::Reply;
use crate::raw::protector::STATE_WORDS;
use crate::raw::protector::TABLES_WORDS;
use crate::raw::protector::Value;
use crate::raw::protector::operation;
use crate::raw::protector::place;
use std::error::Error;
use std::fmt;

/// The isolation types that the protector serves, by the hypervisor's numbers.
#[derive(Debug, Clone, Copy, PartialEq, Eq, Hash)]
#[repr(u8)]
pub enum IsolationType {
    /// SEV-SNP, of AMD.
    Snp = 2,
    /// TDX, of Intel.
    Tdx = 3,
    /// CCA, of Arm.
    Cca = 4,
}

/// A virtual trust level of the guest.
#[derive(Debug, Clone, Copy, PartialEq, Eq, Hash, PartialOrd, Ord)]
#[repr(u8)]
pub enum GuestVtl {
    /// The lower one, where the guest runs.
    Vtl0 = 0,
    /// The one that guards it.
    Vtl1 = 1,
}

/// Whether the host sees a page.
#[derive(Debug, Clone, Copy, PartialEq, Eq, Hash)]
#[repr(u8)]
pub enum Visibility {
    /// It is encrypted, and the host does not.
    Private = 0,
    /// It does.
    Shared = 1,
}

/// Permissions: readable 1, writable 2, kernel execute 4, user execute 8.
#[derive(Debug, Clone, Copy, PartialEq, Eq, Hash, Default)]
pub struct Flags(u8);

impl Flags {
    /// No permission.
    pub const NONE: Self = Self(0);
    /// It may be read.
    pub const READABLE: Self = Self(1);
    /// It may be written.
    pub const WRITABLE: Self = Self(2);
    /// It may be executed in kernel mode.
    pub const KERNEL_EXECUTABLE: Self = Self(4);
    /// It may be executed in user mode.
    pub const USER_EXECUTABLE: Self = Self(8);
    /// All four.
    pub const ALL: Self = Self(15);

    /// The flags of those bits; none if there are others.
    #[inline]
    pub fn from_bits(bits: u64) -> Option<Self> {
        u8::try_from(bits).ok().filter(|&b| b < 16).map(Self)
    }

    /// Their bits, below 16.
    pub fn bits(self) -> u8 {
        self.0
    }

    /// Whether all flags of the other are set.
    pub fn contains(self, other: Self) -> bool {
        self.0 & other.0 == other.0
    }
}

impl std::ops::BitOr for Flags {
    type Output = Self;

    fn bitor(self, other: Self) -> Self {
        Self(self.0 | other.0)
    }
}

/// Pages that follow each other: a page is 4,096 bytes, its number the address / 4,096.
#[derive(Debug, Clone, Copy, PartialEq, Eq, Hash)]
pub struct PageRun {
    /// The number of the first.
    pub first: u64,
    /// How many there are.
    pub count: u64,
}

/// A change of a VTL's permissions in hardware.
#[derive(Debug, Clone, Copy, PartialEq, Eq, Hash)]
pub struct Protect {
    /// Whose permissions.
    pub vtl: GuestVtl,
    /// What they are to be.
    pub flags: Flags,
    /// The RMPADJUST operand, on SNP. On TDX and CCA the backend encodes VTL and flags.
    pub operand: Option<u64>,
    /// Of which pages.
    pub pages: PageRun,
}

/// What a call asks of the backend.
#[derive(Debug, Clone, Copy, PartialEq, Eq)]
pub enum Operation<'a> {
    /// Wait until no thread accesses guest memory by what the maps said before.
    Wait,
    /// Flush the whole TLB.
    FlushAll,
    /// Flush a VTL's TLB.
    Flush(GuestVtl),
    /// Wait until no processor holds a TLB lock of a VTL.
    TlbWait(GuestVtl),
    /// Change a VTL's permissions in hardware.
    Protect(Protect),
    /// Unaccept pages on SNP (PVALIDATE).
    Invalidate(PageRun),
    /// Release pages on TDX.
    Release(PageRun),
    /// Ask the hypervisor to change the pages' visibility, in that order. There may be none.
    Modify {
        /// What it is to be.
        to: Visibility,
        /// Their numbers.
        pages: &'a [u64],
    },
    /// Accept pages that came back.
    Accept(PageRun),
    /// Zero pages that came back.
    Zero(PageRun),
}

/// A Modify that the hypervisor did not carry out in full.
#[derive(Debug, Clone, Copy, PartialEq, Eq, Hash)]
pub struct ModifyError {
    /// The hypervisor's status.
    pub code: u16,
    /// How many of the pages it did change, from the first.
    pub processed: u64,
}

/// What carries the operations out, one method each.
///
/// Waits and flushes can't fail. A failure of any other halts the protector, as the original panics
/// there: log it before it is returned. Two failures halt nothing, and the call fails:
/// [`modify`](Self::modify) to private with fewer pages processed than asked for, and
/// [`protect`](Self::protect) of an overlay call.
pub trait Backend {
    /// Why an operation failed: the backend's own, the protector does not read it.
    type Error;

    /// Waits until no thread accesses guest memory by what the maps said before.
    fn wait(&mut self);
    /// Flushes the whole TLB. SNP alone.
    fn flush_all(&mut self);
    /// Flushes a VTL's TLB.
    fn flush(&mut self, vtl: GuestVtl);
    /// Waits until no processor holds a TLB lock of a VTL.
    fn tlb_wait(&mut self, vtl: GuestVtl);
    /// Changes a VTL's permissions in hardware.
    fn protect(&mut self, protect: Protect) -> Result<(), Self::Error>;
    /// Unaccepts pages. SNP alone.
    fn invalidate(&mut self, pages: PageRun) -> Result<(), Self::Error>;
    /// Releases pages. TDX alone, if the protector was built so.
    fn release(&mut self, pages: PageRun) -> Result<(), Self::Error>;
    /// Asks the hypervisor to change the pages' visibility. Where there are none it must do well.
    fn modify(&mut self, to: Visibility, pages: &[u64]) -> Result<(), ModifyError>;
    /// Accepts pages that came back. Not on CCA.
    fn accept(&mut self, pages: PageRun) -> Result<(), Self::Error>;
    /// Zeroes pages that came back. SNP alone.
    fn zero(&mut self, pages: PageRun) -> Result<(), Self::Error>;
}

/// Where a call stands.
#[derive(Debug, Clone, Copy, PartialEq, Eq)]
pub enum Progress<'a> {
    /// It is finished, well, and asked for so many operations.
    Done {
        /// How many.
        count: u64,
    },
    /// It asks for an operation, and waits for an answer.
    Asked(Operation<'a>),
}

/// How a call ended that didn't end well. Unless refused it is finished, and `count` is the number
/// of operations that it asked for.
#[derive(Debug, Clone, Copy, PartialEq, Eq)]
pub enum ChangeError {
    /// Nothing was asked for, and nothing was changed but the default where a default change is
    /// refused by [`Refusal::Locked`].
    Refused(Refusal),
    /// 15: VTL0 may not read and write the page at that place of the list. Those before it are
    /// changed.
    AccessDenied {
        /// The place.
        index: u64,
        /// The operations asked for.
        count: u64,
    },
    /// 16: the hypervisor gave that code for the page at that place of the list. Those before it
    /// are changed. Of an overlay call: Protect failed, the code is 8 and the place 0.
    Failed {
        /// The hypervisor's status.
        code: u16,
        /// The place.
        index: u64,
        /// The operations asked for.
        count: u64,
    },
    /// 20: an operation failed that can't be taken back. Marks stay as they were then, and every
    /// further call but faults and permission queries is refused by [`Refusal::Halted`].
    Halted {
        /// The operations asked for, the failed one among them.
        count: u64,
    },
}

impl ChangeError {
    /// Document 01's number.
    pub fn number(&self) -> u64 {
        match self {
            Self::Refused(refusal) => refusal.number(),
            Self::AccessDenied { .. } => 15,
            Self::Failed { .. } => 16,
            Self::Halted { .. } => 20,
        }
    }

    /// The hypervisor's code and the place in the list, where the original gives them.
    pub fn code_and_index(&self) -> Option<(u16, u64)> {
        match *self {
            Self::Refused(refusal) => refusal.code().map(|code| (code, 0)),
            Self::AccessDenied { index, .. } => Some((6, index)),
            Self::Failed { code, index, .. } => Some((code, index)),
            Self::Halted { .. } => None,
        }
    }

    /// How many operations the call asked for.
    pub fn count(&self) -> u64 {
        match *self {
            Self::Refused(_) => 0,
            Self::AccessDenied { count, .. }
            | Self::Failed { count, .. }
            | Self::Halted { count } => count,
        }
    }
}

impl fmt::Display for ChangeError {
    fn fmt(&self, f: &mut fmt::Formatter<'_>) -> fmt::Result {
        match self {
            Self::Refused(refusal) => refusal.fmt(f),
            Self::AccessDenied { index, .. } => {
                write!(f, "VTL0 may not read and write page {index} of the list")
            }
            Self::Failed { code, index, .. } => {
                write!(f, "the backend gave {code:#x} at page {index} of the list")
            }
            Self::Halted { .. } => write!(f, "an operation failed that can't be taken back"),
        }
    }
}

impl Error for ChangeError {}

impl From<Refusal> for ChangeError {
    fn from(refusal: Refusal) -> Self {
        Self::Refused(refusal)
    }
}

/// Keeps the marks and permissions of guest pages, and changes them with the hypervisor's and the
/// hardware's help.
///
/// Visibility, protection and default changes and the overlay calls run to their end over a
/// [`Backend`]. The `start_` calls and the answers do the same one operation at a time, for a
/// caller whose backend answers later; until the call has ended any other but faults and permission
/// queries is refused by [`Refusal::Busy`]. If a backend panics, its operation stays asked for.
///
/// The original is shared between threads and locks itself; this one is borrowed exclusively, so
/// that the lock is the caller's. It can't be cloned: a clone would keep marks of pages that the
/// other changes, and be asked again for what the other was asked.
///
/// ```compile_fail,E0277
/// fn cloned<T: Clone>() {}
/// cloned::<underhill_mem_port::HardwareIsolatedMemoryProtector>();
/// ```
///
/// # Example
///
/// ```
/// use underhill_mem_port::{Backend, Flags, GpnSource, GuestVtl, HardwareIsolatedMemoryProtector};
/// use underhill_mem_port::{IsolationType, MemoryRange, MemoryRangeWithNode, ModifyError, Overlay};
/// use underhill_mem_port::{PageRun, Protect, Refusal, Visibility};
///
/// /// Notes what is asked for, and does nothing.
/// #[derive(Default)]
/// struct Notes(Vec<String>);
///
/// impl Backend for Notes {
///     type Error = std::io::Error;
///
///     fn wait(&mut self) {
///         self.0.push("Wait".to_string());
///     }
///     fn flush_all(&mut self) {
///         self.0.push("FlushAll".to_string());
///     }
///     fn flush(&mut self, vtl: GuestVtl) {
///         self.0.push(format!("Flush {vtl:?}"));
///     }
///     fn tlb_wait(&mut self, vtl: GuestVtl) {
///         self.0.push(format!("TlbWait {vtl:?}"));
///     }
///     fn protect(&mut self, p: Protect) -> Result<(), Self::Error> {
///         self.0.push(format!("Protect {:?} {:?} {:?}", p.vtl, p.operand, p.pages));
///         Ok(())
///     }
///     fn invalidate(&mut self, pages: PageRun) -> Result<(), Self::Error> {
///         self.0.push(format!("Invalidate {pages:?}"));
///         Ok(())
///     }
///     fn release(&mut self, pages: PageRun) -> Result<(), Self::Error> {
///         self.0.push(format!("Release {pages:?}"));
///         Ok(())
///     }
///     fn modify(&mut self, to: Visibility, pages: &[u64]) -> Result<(), ModifyError> {
///         self.0.push(format!("Modify {to:?} {pages:?}"));
///         Ok(())
///     }
///     fn accept(&mut self, pages: PageRun) -> Result<(), Self::Error> {
///         self.0.push(format!("Accept {pages:?}"));
///         Ok(())
///     }
///     fn zero(&mut self, pages: PageRun) -> Result<(), Self::Error> {
///         self.0.push(format!("Zero {pages:?}"));
///         Ok(())
///     }
/// }
///
/// // RAM pages 0 to 15 and 32 to 39, all private.
/// let ram = [
///     MemoryRangeWithNode { range: MemoryRange { start: 0, end: 65_536 }, vnode: 0 },
///     MemoryRangeWithNode { range: MemoryRange { start: 131_072, end: 163_840 }, vnode: 0 },
/// ];
/// let mut protector = HardwareIsolatedMemoryProtector::new(&ram, IsolationType::Snp, false, false)?;
///
/// // VTL0 shares pages 3, 9 and 10: two runs, nine operations.
/// let mut notes = Notes::default();
/// let count =
///     protector.change_host_visibility(GuestVtl::Vtl0, Visibility::Shared, &[3, 9, 10], &mut notes)?;
/// assert_eq!(count, 9);
/// assert_eq!(notes.0[..2], ["Wait", "FlushAll"]);
/// assert_eq!(notes.0[2], "Protect Vtl0 Some(2) PageRun { first: 3, count: 1 }");
/// assert_eq!(notes.0[8], "Modify Shared [3, 9, 10]");
/// assert_eq!(protector.private(), [0xF7, 0xF9, 0, 0, 0xFF]);
/// assert_eq!(protector.shared(), [0x08, 0x06, 0, 0, 0]);
///
/// // VTL1 may only read page 4 as its overlay. Its own TLB is flushed.
/// let overlay = Overlay {
///     gpn: 4,
///     source: GpnSource::GuestMemory,
///     checked: Flags::READABLE,
///     new: Some(Flags::READABLE),
/// };
/// let mut notes = Notes::default();
/// assert_eq!(protector.register_overlay_page(GuestVtl::Vtl1, overlay, &mut notes), Ok(4));
/// assert_eq!(notes.0[0], "Protect Vtl1 Some(257) PageRun { first: 4, count: 1 }");
/// assert_eq!(notes.0[1..], ["Wait", "Flush Vtl1", "TlbWait Vtl1"]);
/// assert_eq!(protector.is_overlay_page(GuestVtl::Vtl1, 4), Ok(true));
///
/// // What is locked can't be changed.
/// protector.lock_gpns(GuestVtl::Vtl0, &[6, 7])?;
/// let narrowed =
///     protector.change_vtl_protections(GuestVtl::Vtl0, &[7], Flags::READABLE, &mut notes);
/// assert_eq!(narrowed, Err(Refusal::Locked.into()));
/// protector.unlock_gpns(GuestVtl::Vtl0, &[6, 7])?;
/// # Ok::<(), Box<dyn std::error::Error>>(())
/// ```
pub struct HardwareIsolatedMemoryProtector {
    /// Private, shared, read, write, kernel execute, user execute.
    maps: [Vec<u8>; 6],
    state: Box<[u64; STATE_WORDS]>,
    pages: Box<[u64; PAGES_WORDS]>,
    tables: Box<[u64; TABLES_WORDS]>,
    /// The operation asked for and not answered yet.
    asked: Option<Reply>,
}

/// The maps and tables are left out.
impl fmt::Debug for HardwareIsolatedMemoryProtector {
    fn fmt(&self, f: &mut fmt::Formatter<'_>) -> fmt::Result {
        f.debug_struct("HardwareIsolatedMemoryProtector")
            .field("isolation", &self.state[place::ISOLATION])
            .field("tracked", &(self.state[place::TRACKED] == 1))
            .field("asked", &self.asked())
            .finish_non_exhaustive()
    }
}

impl HardwareIsolatedMemoryProtector {
    /// A protector of RAM that is all private, with all permissions for VTL0 and VTL1's
    /// protections not enabled.
    ///
    /// `ram` has 1 to 32 non-empty entries, ascending and disjoint, starts and ends at multiples
    /// of 32,768 and at most 2^52. If `tracked`, VTL0's permissions are kept in four bitmaps
    /// besides the two of marks. `release` counts on TDX: pages are released before they are shared.
    pub fn new(
        ram: &[MemoryRangeWithNode],
        isolation: IsolationType,
        tracked: bool,
        release: bool,
    ) -> Result<Self, BuildError> {
        let entries = ram.iter();
        let words: Vec<u64> = entries
            .flat_map(|e| [e.range.start, e.range.end, u64::from(e.vnode)])
            .collect();
        let mut new = Self {
            maps: Default::default(),
            state: Box::new([0; STATE_WORDS]),
            pages: Box::new([0; PAGES_WORDS]),
            tables: Box::new([0; TABLES_WORDS]),
            asked: None,
        };
        let isolation = u64::from(isolation as u8);
        let (tracks, release) = (u64::from(tracked), u64::from(release));
        // A build with no bitmaps is refused by 4 if by nothing before it: so no memory is taken
        // for what is unfit.
        match raw::build(&words, isolation, tracks, release, new.lent()).number {
            4 => (),
            number => return Err(refused(number).into()),
        }
        let last_end = ram.last().map_or(0, |entry| entry.range.end);
        let maps = if tracked { 6 } else { 2 };
        for map in &mut new.maps[..maps] {
            *map = zeros(raw::map_bytes(last_end))?;
        }
        match raw::build(&words, isolation, tracks, release, new.lent()).number {
            0 => Ok(new),
            number => Err(refused(number).into()),
        }
    }

    #[inline]
    fn lent(&mut self) -> Lent<'_> {
        let [private, shared, read, write, kernel, user] = &mut self.maps;
        Lent {
            maps: Maps {
                private,
                shared,
                read,
                write,
                kernel,
                user,
            },
            state: &mut self.state[..],
            pages: &mut self.pages[..],
            tables: &mut self.tables[..],
        }
    }

    /// Makes pages shared or private, as a VTL asks. Gives the number of operations asked.
    ///
    /// The list has at most 512 pages, none twice. Pages that are so already drop out; where VTL1's
    /// protections are enabled, a share by VTL0 stops at the first page that it may not read and
    /// write.
    pub fn change_host_visibility(
        &mut self,
        vtl: GuestVtl,
        to: Visibility,
        gpns: &[u64],
        backend: &mut impl Backend,
    ) -> Result<u64, ChangeError> {
        let reply = self.change(vtl, to, gpns);
        self.drive(reply, backend)
    }

    /// Carries out what is asked for until the call has ended.
    fn drive(&mut self, reply: Reply, backend: &mut impl Backend) -> Result<u64, ChangeError> {
        let mut driven = Driven {
            protector: self,
            reply,
        };
        while driven.reply.operation != 0 {
            let pages = &driven.protector.pages[..];
            driven.reply = match carry_out(&driven.reply, pages, backend) {
                Ok(()) => driven.protector.done(),
                Err(ModifyError { code, processed }) => driven.protector.failed(code, processed),
            };
        }
        finished(&driven.reply)
    }

    /// Begins [`change_host_visibility`](Self::change_host_visibility).
    pub fn start_change_host_visibility(
        &mut self,
        vtl: GuestVtl,
        to: Visibility,
        gpns: &[u64],
    ) -> Result<Progress<'_>, ChangeError> {
        let reply = self.change(vtl, to, gpns);
        self.progress(reply)
    }

    /// The operation that is asked for and not answered yet.
    pub fn asked(&self) -> Option<Operation<'_>> {
        let reply = self.asked.as_ref()?;
        Some(operation_of(reply, &self.pages[..]))
    }

    /// The operation asked for is done.
    pub fn answer_done(&mut self) -> Result<Progress<'_>, ChangeError> {
        let reply = self.done();
        self.progress(reply)
    }

    /// The operation asked for failed; the code and the pages processed count for a Modify.
    pub fn answer_failed(
        &mut self,
        code: u16,
        processed: u64,
    ) -> Result<Progress<'_>, ChangeError> {
        let reply = self.failed(code, processed);
        self.progress(reply)
    }

    fn change(&mut self, vtl: GuestVtl, to: Visibility, gpns: &[u64]) -> Reply {
        let (vtl, to) = (number(vtl), u64::from(to as u8));
        raw::change_host_visibility(self.lent(), vtl, to, raw::list(gpns))
    }

    #[inline]
    fn done(&mut self) -> Reply {
        raw::answer_done(self.lent())
    }

    fn failed(&mut self, code: u16, processed: u64) -> Reply {
        raw::answer_failed(self.lent(), code, processed)
    }

    /// Keeps what is asked for; a refusal leaves it as it is.
    fn note(&mut self, reply: &Reply) {
        if reply.operation != 0 {
            self.asked = Some(*reply);
        } else if matches!(reply.number, 0 | 15 | 16) || is_halt(reply) {
            self.asked = None;
        }
    }

    /// Where a stepped call stands by its last reply.
    fn progress(&mut self, reply: Reply) -> Result<Progress<'_>, ChangeError> {
        self.note(&reply);
        match reply.operation {
            0 => finished(&reply).map(|count| Progress::Done { count }),
            _ => Ok(Progress::Asked(operation_of(&reply, &self.pages[..]))),
        }
    }

    /// Page p is private if bit p % 8 of byte p / 8 is set.
    pub fn private(&self) -> &[u8] {
        &self.maps[0]
    }

    /// Page p is shared if bit p % 8 of byte p / 8 is set.
    pub fn shared(&self) -> &[u8] {
        &self.maps[1]
    }

    /// VTL0's permissions, a bitmap each as for marks: read, write, kernel execute, user execute.
    /// None if they aren't tracked.
    pub fn permissions(&self) -> Option<[&[u8]; 4]> {
        let [_, _, read, write, kernel, user] = &self.maps;
        (self.state[place::TRACKED] == 1).then_some([read, write, kernel, user])
    }
}

/// A call that is carried out, and its last reply. What is asked for is noted at its end alone: of
/// a call that ends nothing is, where its backend panics the last operation is.
struct Driven<'a> {
    protector: &'a mut HardwareIsolatedMemoryProtector,
    reply: Reply,
}

impl Drop for Driven<'_> {
    fn drop(&mut self) {
        self.protector.note(&self.reply);
    }
}

mod changes;

pub use changes::GpnSource;
pub use changes::Overlay;
pub use queries::*;

/// Queries and faults: they change nothing and ask for nothing.
mod queries {
    use super::*;
    use crate::raw::protector::Seen;

    /// Which mapping a fault is on.
    #[derive(Debug, Clone, Copy, PartialEq, Eq, Hash)]
    #[repr(u8)]
    pub enum Mapping {
        /// That of private pages.
        Encrypted = 0,
        /// That of shared pages.
        Shared = 1,
    }

    /// Which view of it.
    #[derive(Debug, Clone, Copy, PartialEq, Eq, Hash)]
    #[repr(u8)]
    pub enum View {
        /// Data, read and written.
        Read = 0,
        /// Instructions in kernel mode.
        KernelExecute = 1,
        /// Instructions in user mode.
        UserExecute = 2,
    }

    /// What a fault is answered.
    #[derive(Debug, Clone, Copy, PartialEq, Eq, Hash)]
    pub enum Fault {
        /// The bitmaps permit it by now: access it again.
        Retry,
        /// No bitmap barred it, so nothing is mapped there.
        NotMapped,
        /// The page isn't shared, and the fault is on the shared mapping.
        NotShared,
        /// The page isn't private, and the fault is on the encrypted mapping.
        NotPrivate,
        /// VTL1 has barred it.
        VtlProtected,
    }

    /// A query of a list that is refused.
    #[derive(Debug, Clone, Copy, PartialEq, Eq)]
    pub struct QueryError {
        /// What refuses it.
        pub refusal: Refusal,
        /// The place in the list that the refusal is about.
        pub index: u64,
    }

    impl fmt::Display for QueryError {
        fn fmt(&self, f: &mut fmt::Formatter<'_>) -> fmt::Result {
            write!(f, "{}, page {} of the list", self.refusal, self.index)
        }
    }

    impl Error for QueryError {}

    /// 7: a page isn't RAM, though there is RAM above it.
    #[derive(Debug, Clone, Copy, PartialEq, Eq, Hash)]
    pub struct NotRam;

    impl fmt::Display for NotRam {
        fn fmt(&self, f: &mut fmt::Formatter<'_>) -> fmt::Result {
            Refusal::NotRam.fmt(f)
        }
    }

    impl Error for NotRam {}

    impl From<NotRam> for Refusal {
        fn from(_: NotRam) -> Self {
            Self::NotRam
        }
    }

    impl HardwareIsolatedMemoryProtector {
        fn seen(&self) -> Seen<'_> {
            let [private, shared, read, write, kernel, user] = &self.maps;
            Seen {
                private,
                shared,
                read,
                write,
                kernel,
                user,
                state: &self.state[..],
            }
        }

        /// The visibility of each page of a list, as far as `out` goes.
        pub fn query_host_visibility(
            &self,
            gpns: &[u64],
            out: &mut [Visibility],
        ) -> Result<(), QueryError> {
            // A longer list is refused.
            let mut bytes = [0; 512];
            let bytes = &mut bytes[..out.len().min(gpns.len()).min(512)];
            let list = raw::list(gpns);
            let reply = raw::query_host_visibility(&self.state[..], self.shared(), list, bytes);
            if reply.number != 0 {
                return Err(QueryError {
                    refusal: refused(reply.number),
                    index: reply.index,
                });
            }
            for (out, byte) in out.iter_mut().zip(bytes) {
                *out = match *byte {
                    0 => Visibility::Private,
                    _ => Visibility::Shared,
                };
            }
            Ok(())
        }

        /// What a fault at an address leads to: past the end of RAM to `NotMapped` or, after a bitmap
        /// failure, to `NotPrivate` or `NotShared`.
        pub fn page_fault(
            &self,
            mapping: Mapping,
            view: View,
            address: u64,
            write: bool,
            bitmap_failure: bool,
        ) -> Fault {
            let answer = raw::page_fault(
                self.seen(),
                u64::from(mapping as u8),
                u64::from(view as u8),
                address,
                u64::from(write),
                u64::from(bitmap_failure),
            );
            match (answer.number, answer.value) {
                (0, 0) => Fault::Retry,
                (0, 1) => Fault::NotMapped,
                (0, 2) => Fault::NotShared,
                (0, 3) => Fault::NotPrivate,
                (0, 4) => Fault::VtlProtected,
                _ => unreachable!("what is lent fits, and a fault has no other answer"),
            }
        }

        /// The flags that a VTL has on a page, as far as lower VTLs decide: of VTL0 those in the
        /// permission maps if they are tracked, else all four.
        ///
        /// Past the end of RAM that is [`Flags::NONE`] for VTL0 if they are tracked, else all four. A
        /// page in a hole below it is refused.
        pub fn query_lower_vtl_permissions(
            &self,
            vtl: GuestVtl,
            gpn: u64,
        ) -> Result<Flags, NotRam> {
            let answer = raw::query_lower_vtl_permissions(self.seen(), number(vtl), gpn);
            match answer.number {
                0 => Ok(flags(answer.value)),
                7 => Err(NotRam),
                _ => unreachable!("what is lent fits, and this query has no other number"),
            }
        }

        /// The flags of a page in the permission maps, [`Flags::NONE`] outside RAM; `None` where
        /// permissions aren't tracked.
        pub fn query_access_permission(&self, gpn: u64) -> Option<Flags> {
            let answer = raw::query_access_permission(self.seen(), gpn);
            match answer.number {
                0 => Some(flags(answer.value)),
                24 => None,
                _ => unreachable!("what is lent fits, and this query has no other number"),
            }
        }
    }
}

fn value(answer: Value) -> Result<u64, Refusal> {
    match answer.number {
        0 => Ok(answer.value),
        number => Err(refused(number)),
    }
}

fn number(vtl: GuestVtl) -> u64 {
    u64::from(vtl as u8)
}

/// An operation carried out; of one that isn't Modify a failure has no code.
fn carry_out(reply: &Reply, pages: &[u64], backend: &mut impl Backend) -> Result<(), ModifyError> {
    let done = match operation_of(reply, pages) {
        Operation::Wait => {
            backend.wait();
            Ok(())
        }
        Operation::FlushAll => {
            backend.flush_all();
            Ok(())
        }
        Operation::Flush(vtl) => {
            backend.flush(vtl);
            Ok(())
        }
        Operation::TlbWait(vtl) => {
            backend.tlb_wait(vtl);
            Ok(())
        }
        Operation::Modify { to, pages } => return backend.modify(to, pages),
        Operation::Protect(protect) => backend.protect(protect),
        Operation::Invalidate(pages) => backend.invalidate(pages),
        Operation::Release(pages) => backend.release(pages),
        Operation::Accept(pages) => backend.accept(pages),
        Operation::Zero(pages) => backend.zero(pages),
    };
    done.map_err(|_| ModifyError {
        code: 0,
        processed: 0,
    })
}

/// The operation that a reply asks for.
#[inline]
fn operation_of<'a>(reply: &Reply, pages: &'a [u64]) -> Operation<'a> {
    let run = PageRun {
        first: reply.first,
        count: reply.pages,
    };
    let vtl = match reply.vtl {
        0 => GuestVtl::Vtl0,
        _ => GuestVtl::Vtl1,
    };
    match reply.operation {
        operation::WAIT => Operation::Wait,
        operation::FLUSH_ALL => Operation::FlushAll,
        operation::FLUSH => Operation::Flush(vtl),
        operation::TLB_WAIT => Operation::TlbWait(vtl),
        operation::PROTECT => Operation::Protect(Protect {
            vtl,
            flags: flags(reply.flags),
            // On SNP alone it isn't 0: its low byte is the VMPL.
            operand: (reply.operand != 0).then_some(reply.operand),
            pages: run,
        }),
        operation::INVALIDATE => Operation::Invalidate(run),
        operation::RELEASE => Operation::Release(run),
        operation::MODIFY => Operation::Modify {
            to: match reply.shared {
                0 => Visibility::Private,
                _ => Visibility::Shared,
            },
            pages: &pages[..reply.pages as usize],
        },
        operation::ACCEPT => Operation::Accept(run),
        operation::ZERO => Operation::Zero(run),
        _ => unreachable!("the protector's contract has no other operation"),
    }
}

#[inline]
fn flags(bits: u64) -> Flags {
    Flags::from_bits(bits).expect("the protector's contract has no other flags")
}

/// Whether this answer halts: a refusal by 20 has no count.
fn is_halt(reply: &Reply) -> bool {
    reply.number == 20 && reply.count != 0
}

/// The end of a call: its count.
fn finished(reply: &Reply) -> Result<u64, ChangeError> {
    let &Reply { index, count, .. } = reply;
    match reply.number {
        0 => Ok(count),
        15 => Err(ChangeError::AccessDenied { index, count }),
        16 => Err(ChangeError::Failed {
            code: reply.code as u16,
            index,
            count,
        }),
        20 if is_halt(reply) => Err(ChangeError::Halted { count }),
        number => Err(refused(number).into()),
    }
}

fn zeros(bytes: u64) -> Result<Vec<u8>, BuildError> {
    let words = bytes.div_ceil(8);
    let out_of_memory = BuildError::OutOfMemory { words };
    let len = usize::try_from(bytes).map_err(|_| out_of_memory)?;
    let mut zeros = Vec::new();
    zeros.try_reserve_exact(len).map_err(|_| out_of_memory)?;
    zeros.resize(len, 0);
    Ok(zeros)
}

fn refused(number: u64) -> Refusal {
    Refusal::from_number(number).expect("the protector's contract has no other number")
}
