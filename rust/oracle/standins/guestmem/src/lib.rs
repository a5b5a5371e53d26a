//! Stand-in: guest memory access, as far as the source implements or calls it.

use recorder::Op;
use std::error::Error;
use std::ptr::NonNull;

pub mod ranges;

pub const PAGE_SIZE: usize = 4096;

/// The domain whose readers a writer waits for.
pub struct Rcu;

/// The process's domain.
pub fn rcu() -> Rcu {
    Rcu
}

impl Rcu {
    /// Waits for all readers; here it is only noted.
    pub fn synchronize_blocking(&self) {
        recorder::tell(Op::Wait);
    }
}

type BoxedError = Box<dyn Error + Send + Sync>;

/// An access to guest memory failed below.
#[derive(Debug)]
pub struct GuestMemoryBackingError {
    pub address: u64,
    pub error: BoxedError,
}

impl GuestMemoryBackingError {
    pub fn other(address: u64, error: impl Into<BoxedError>) -> Self {
        Self {
            address,
            error: error.into(),
        }
    }
}

/// The kinds of failed access that the source names, and the rest.
#[derive(Debug, Clone, Copy, PartialEq, Eq)]
pub enum GuestMemoryErrorKind {
    Other,
    NotShared,
    NotPrivate,
    VtlProtected,
}

/// Why a fault can't be mended.
#[derive(Debug)]
pub struct PageFaultError {
    pub kind: GuestMemoryErrorKind,
    pub error: BoxedError,
}

impl PageFaultError {
    pub fn new(kind: GuestMemoryErrorKind, error: impl Into<BoxedError>) -> Self {
        Self {
            kind,
            error: error.into(),
        }
    }

    pub fn other(error: impl Into<BoxedError>) -> Self {
        Self::new(GuestMemoryErrorKind::Other, error)
    }
}

/// What to do about a fault.
#[derive(Debug)]
pub enum PageFaultAction {
    Retry,
    Fail(PageFaultError),
}

/// Where the bitmaps lie that an access is checked against.
#[derive(Debug)]
pub struct BitmapInfo {
    pub read_bitmap: NonNull<u8>,
    pub write_bitmap: NonNull<u8>,
    pub bit_offset: u8,
}

/// What a backing of guest memory offers.
///
/// # Safety
/// The pointers given must stay good for the lengths promised. Nothing here reads them.
pub unsafe trait GuestMemoryAccess {
    fn mapping(&self) -> Option<NonNull<u8>>;
    fn max_address(&self) -> u64;
    fn expose_va(&self, address: u64, len: u64) -> Result<(), GuestMemoryBackingError>;
    fn base_iova(&self) -> Option<u64>;
    fn access_bitmap(&self) -> Option<BitmapInfo>;
    fn page_fault(
        &self,
        address: u64,
        len: usize,
        write: bool,
        bitmap_failure: bool,
    ) -> PageFaultAction;
    fn lock_kernel_gpns(&self, gpns: &[u64]) -> Result<bool, GuestMemoryBackingError>;
    fn unlock_gpns(&self, gpns: &[u64]);
}
