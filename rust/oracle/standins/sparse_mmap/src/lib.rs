//! Stand-in: a large reserved stretch of address space, of which parts are mapped.
//!
//! The source uses it in two ways, told apart by how it is mapped: zero pages are memory (a
//! bitmap), a file is guest memory, of which nothing is kept: a fill with zeros there is the
//! operation Zero. Every mapping has a number, shown by Debug, under which [`find`] gives its
//! bytes to whoever wants to look at them.

mod memory;

pub use memory::Memory;
use recorder::Op;
use recorder::Pages;
use std::collections::BTreeMap;
use std::fmt;
use std::io;
use std::ops::Range;
use std::sync::Arc;
use std::sync::Mutex;
use std::sync::MutexGuard;
use std::sync::OnceLock;
use std::sync::PoisonError;
use std::sync::Weak;
use std::sync::atomic::AtomicU64;
use std::sync::atomic::Ordering::Relaxed;

const PAGE_SIZE: usize = 4096;

/// Why an access failed.
#[derive(Debug, Clone, Copy, PartialEq, Eq)]
pub enum SparseMappingError {
    OutOfBounds,
    NotMapped,
    NotWritable,
    /// A scripted failure.
    Memory,
}

impl fmt::Display for SparseMappingError {
    fn fmt(&self, f: &mut fmt::Formatter<'_>) -> fmt::Result {
        fmt::Debug::fmt(self, f)
    }
}

impl std::error::Error for SparseMappingError {}

/// A reserved stretch of whole host pages.
pub struct SparseMapping {
    number: u64,
    len: usize,
    /// Zero pages, once mapped.
    memory: OnceLock<Arc<Memory>>,
    /// Mapped from a file.
    guest: Mutex<Vec<Range<usize>>>,
}

static NEXT: AtomicU64 = AtomicU64::new(1);
static ALL: Mutex<BTreeMap<u64, Weak<Memory>>> = Mutex::new(BTreeMap::new());

/// The memory of the mapping with that number, while it lives.
pub fn find(number: u64) -> Option<Arc<Memory>> {
    held(&ALL).get(&number)?.upgrade()
}

fn held<T>(mutex: &Mutex<T>) -> MutexGuard<'_, T> {
    mutex.lock().unwrap_or_else(PoisonError::into_inner)
}

impl fmt::Debug for SparseMapping {
    fn fmt(&self, f: &mut fmt::Formatter<'_>) -> fmt::Result {
        write!(f, "SparseMapping({})", self.number)
    }
}

impl Drop for SparseMapping {
    fn drop(&mut self) {
        held(&ALL).remove(&self.number);
    }
}

impl SparseMapping {
    /// Reserves `len` bytes, rounded up to whole host pages.
    pub fn new(len: usize) -> io::Result<Self> {
        let rounded = len.checked_next_multiple_of(PAGE_SIZE);
        match rounded {
            None | Some(0) => Err(io::ErrorKind::InvalidInput.into()),
            Some(len) => Ok(Self {
                number: NEXT.fetch_add(1, Relaxed),
                len,
                memory: OnceLock::new(),
                guest: Mutex::new(Vec::new()),
            }),
        }
    }

    pub fn len(&self) -> usize {
        self.len
    }

    pub fn is_empty(&self) -> bool {
        self.len == 0
    }

    /// Never read through here; null where no zero pages are mapped.
    pub fn as_ptr(&self) -> *mut u8 {
        match self.memory() {
            Ok(memory) => memory.as_ptr(),
            Err(_) => std::ptr::null_mut(),
        }
    }

    /// Maps zero pages, not yet writable. The source maps the whole.
    pub fn map_zero(&self, offset: usize, len: usize) -> io::Result<()> {
        if offset != 0 || len != self.len {
            return Err(io::ErrorKind::Unsupported.into());
        }
        let memory = Arc::new(Memory::new(len)?);
        held(&ALL).insert(self.number, Arc::downgrade(&memory));
        let mapped_before = |_| io::Error::from(io::ErrorKind::AlreadyExists);
        self.memory.set(memory).map_err(mapped_before)
    }

    /// Makes zero pages writable.
    pub fn set_writable(&self, offset: usize, len: usize, writable: bool) -> io::Result<()> {
        let invalid = |_| io::Error::from(io::ErrorKind::InvalidInput);
        if !writable {
            return Err(io::ErrorKind::Unsupported.into());
        }
        let range = self.bounds(offset, len).map_err(invalid)?;
        self.memory().map_err(invalid)?.allow(range);
        Ok(())
    }

    /// Maps guest memory.
    pub fn map_file<F>(
        &self,
        offset: usize,
        len: usize,
        _file: F,
        _file_offset: u64,
        _writable: bool,
    ) -> io::Result<()> {
        let range = self.bounds(offset, len);
        let range = range.map_err(|_| io::Error::from(io::ErrorKind::InvalidInput))?;
        held(&self.guest).push(range);
        Ok(())
    }

    pub fn read_at(&self, offset: usize, to: &mut [u8]) -> Result<(), SparseMappingError> {
        let range = self.bounds(offset, to.len())?;
        self.memory()?.read(range.start, to);
        Ok(())
    }

    pub fn write_at(&self, offset: usize, from: &[u8]) -> Result<(), SparseMappingError> {
        let range = self.bounds(offset, from.len())?;
        let memory = self.memory()?;
        memory.check(&range)?;
        memory.write(range.start, from);
        Ok(())
    }

    pub fn fill_at(&self, offset: usize, value: u8, len: usize) -> Result<(), SparseMappingError> {
        let range = self.bounds(offset, len)?;
        let Ok(memory) = self.memory() else {
            return self.fill_guest(range, value);
        };
        memory.check(&range)?;
        memory.fill(range, value);
        Ok(())
    }

    fn fill_guest(&self, range: Range<usize>, value: u8) -> Result<(), SparseMappingError> {
        assert_eq!(value, 0, "guest memory is only ever zeroed");
        if !covered(&held(&self.guest), &range) {
            return Err(SparseMappingError::NotMapped);
        }
        let pages = Pages {
            first: (range.start / PAGE_SIZE) as u64,
            count: (range.len() / PAGE_SIZE) as u64,
        };
        recorder::ask(Op::Zero(pages)).map_err(|_| SparseMappingError::Memory)
    }

    fn memory(&self) -> Result<&Memory, SparseMappingError> {
        let memory = self.memory.get();
        memory.map(Arc::as_ref).ok_or(SparseMappingError::NotMapped)
    }

    fn bounds(&self, offset: usize, len: usize) -> Result<Range<usize>, SparseMappingError> {
        match offset.checked_add(len) {
            Some(end) if end <= self.len => Ok(offset..end),
            _ => Err(SparseMappingError::OutOfBounds),
        }
    }
}

/// Whether the ranges, ascending, hold every place of `range`.
fn covered(ranges: &[Range<usize>], range: &Range<usize>) -> bool {
    let mut start = range.start;
    for part in ranges {
        if part.start <= start && start < part.end {
            start = part.end;
        }
    }
    start >= range.end
}

#[cfg(test)]
mod tests {
    use super::*;

    fn bitmap(len: usize) -> SparseMapping {
        let mapping = SparseMapping::new(len).unwrap();
        mapping.map_zero(0, mapping.len()).unwrap();
        mapping
    }

    #[test]
    fn length_is_rounded_up_to_host_pages() {
        assert_eq!(SparseMapping::new(5).unwrap().len(), 4096);
        assert_eq!(SparseMapping::new(4096).unwrap().len(), 4096);
        assert!(SparseMapping::new(0).is_err());
    }

    #[test]
    fn reads_zero_and_takes_writes_where_allowed() {
        let map = bitmap(3 * 4096);
        map.set_writable(4096, 4096, true).unwrap();
        map.fill_at(4096, 0xff, 3).unwrap();
        map.write_at(8191, &[7]).unwrap();
        let mut bytes = [1; 5];
        map.read_at(4095, &mut bytes).unwrap();
        assert_eq!(bytes, [0, 0xff, 0xff, 0xff, 0]);
        let outside = Err(SparseMappingError::NotWritable);
        assert_eq!(map.write_at(4095, &[7]), outside);
        assert_eq!(map.fill_at(8191, 7, 2), outside);
        let past = Err(SparseMappingError::OutOfBounds);
        assert_eq!(map.read_at(3 * 4096, &mut bytes[..1]), past);
    }

    #[test]
    fn found_by_the_number_that_debug_shows() {
        let map = bitmap(1 << 37);
        map.set_writable(1 << 36, 4096, true).unwrap();
        map.write_at((1 << 36) + 2, &[1, 2]).unwrap();
        let shown = format!("{map:?}");
        let digits = shown
            .trim_start_matches("SparseMapping(")
            .trim_end_matches(')');
        let memory = find(digits.parse().unwrap()).unwrap();
        let nonzero: Vec<_> = memory.nonzero(1 << 37).collect();
        assert_eq!(nonzero, [((1 << 36) + 2, vec![1, 2])]);
        drop(memory);
        drop(map);
        assert!(find(digits.parse().unwrap()).is_none());
    }

    #[test]
    fn a_fill_of_guest_memory_is_the_operation_zero() {
        let map = SparseMapping::new(1 << 52).unwrap();
        map.map_file(8 * 4096, 8 * 4096, (), 0, true).unwrap();
        map.map_file(16 * 4096, 8 * 4096, (), 0, true).unwrap();
        recorder::begin(BTreeMap::new(), None);
        assert_eq!(map.fill_at(15 * 4096, 0, 8192), Ok(()));
        let hole = map.fill_at(7 * 4096, 0, 8192);
        assert_eq!(hole, Err(SparseMappingError::NotMapped));
        let asked = recorder::finish().asked;
        let pages = Pages {
            first: 15,
            count: 2,
        };
        assert_eq!(asked.len(), 1);
        assert_eq!(asked[0].op, Op::Zero(pages));
    }
}
