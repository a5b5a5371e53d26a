//! Zero pages that take up room only where they are written.

use crate::PAGE_SIZE;
use crate::SparseMappingError;
use crate::held;
use std::ffi::c_int;
use std::ffi::c_void;
use std::io;
use std::ops::Range;
use std::ptr::NonNull;
use std::sync::Mutex;
use std::sync::atomic::AtomicU8;
use std::sync::atomic::Ordering::Relaxed;

/// Bytes that read as zero until they are written; writable page by page.
pub struct Memory {
    bytes: Region,
    /// One byte a page: not 0 where it is writable.
    writable: Region,
    /// The writable ranges, ascending and apart: all that can hold something.
    allowed: Mutex<Vec<Range<usize>>>,
}

impl Memory {
    pub fn new(len: usize) -> io::Result<Self> {
        Ok(Self {
            bytes: Region::new(len)?,
            writable: Region::new(len / PAGE_SIZE)?,
            allowed: Mutex::new(Vec::new()),
        })
    }

    pub fn as_ptr(&self) -> *mut u8 {
        self.bytes.start.as_ptr()
    }

    /// Makes the pages of a range writable.
    pub fn allow(&self, range: Range<usize>) {
        for page in pages(&range) {
            self.writable.at(page).store(1, Relaxed);
        }
        let mut allowed = held(&self.allowed);
        allowed.push(range);
        allowed.sort_by_key(|range| range.start);
        let mut joined: Vec<Range<usize>> = Vec::new();
        for next in allowed.drain(..) {
            match joined.last_mut() {
                Some(last) if next.start <= last.end => last.end = last.end.max(next.end),
                _ => joined.push(next),
            }
        }
        *allowed = joined;
    }

    /// Whether a range may be written.
    pub fn check(&self, range: &Range<usize>) -> Result<(), SparseMappingError> {
        let writable = |page| self.writable.at(page).load(Relaxed) != 0;
        if pages(range).all(writable) {
            Ok(())
        } else {
            Err(SparseMappingError::NotWritable)
        }
    }

    pub fn read(&self, place: usize, to: &mut [u8]) {
        for (byte, at) in to.iter_mut().zip(place..) {
            *byte = self.bytes.at(at).load(Relaxed);
        }
    }

    pub fn write(&self, place: usize, from: &[u8]) {
        for (byte, at) in from.iter().zip(place..) {
            self.bytes.at(at).store(*byte, Relaxed);
        }
    }

    pub fn fill(&self, range: Range<usize>, value: u8) {
        for at in range {
            self.bytes.at(at).store(value, Relaxed);
        }
    }

    /// The runs of nonzero bytes among the first `len`, ascending: place and bytes.
    pub fn nonzero(&self, len: usize) -> impl Iterator<Item = (usize, Vec<u8>)> {
        let allowed = held(&self.allowed).clone();
        allowed.into_iter().flat_map(move |range| {
            let end = range.end.min(len);
            self.nonzero_in(range.start.min(end)..end)
        })
    }

    fn nonzero_in(&self, range: Range<usize>) -> Vec<(usize, Vec<u8>)> {
        let mut bytes = vec![0; range.len()];
        self.read(range.start, &mut bytes);
        let mut runs = Vec::new();
        let mut place = range.start;
        for run in bytes.chunk_by(|a, b| (*a == 0) == (*b == 0)) {
            if run[0] != 0 {
                runs.push((place, run.to_vec()));
            }
            place += run.len();
        }
        runs
    }
}

fn pages(range: &Range<usize>) -> Range<usize> {
    range.start / PAGE_SIZE..range.end.div_ceil(PAGE_SIZE)
}

/// Reserved address space of zero bytes.
struct Region {
    start: NonNull<u8>,
    len: usize,
}

// SAFETY: the bytes are only reached as atomics.
unsafe impl Send for Region {}
// SAFETY: as above.
unsafe impl Sync for Region {}

impl Region {
    fn new(len: usize) -> io::Result<Self> {
        // SAFETY: an anonymous mapping at a place of the kernel's choice harms nobody.
        let start = unsafe {
            mmap(
                std::ptr::null_mut(),
                len,
                PROT_READ | PROT_WRITE,
                MAP_PRIVATE | MAP_ANONYMOUS | MAP_NORESERVE,
                -1,
                0,
            )
        };
        match NonNull::new(start.cast::<u8>()) {
            Some(start) if start.as_ptr().addr() != MAP_FAILED => Ok(Self { start, len }),
            _ => Err(io::Error::last_os_error()),
        }
    }

    #[track_caller]
    fn at(&self, place: usize) -> &AtomicU8 {
        assert!(place < self.len, "past the end of the mapping");
        // SAFETY: inside the mapping, which lives as long as self and is reached only so.
        unsafe { AtomicU8::from_ptr(self.start.as_ptr().add(place)) }
    }
}

impl Drop for Region {
    fn drop(&mut self) {
        // SAFETY: the mapping is ours and no reference to it outlives self.
        unsafe { munmap(self.start.as_ptr().cast(), self.len) };
    }
}

const PROT_READ: c_int = 1;
const PROT_WRITE: c_int = 2;
const MAP_PRIVATE: c_int = 2;
const MAP_ANONYMOUS: c_int = 0x20;
const MAP_NORESERVE: c_int = 0x4000;
const MAP_FAILED: usize = usize::MAX;

unsafe extern "C" {
    fn mmap(
        address: *mut c_void,
        len: usize,
        protection: c_int,
        flags: c_int,
        file: c_int,
        offset: i64,
    ) -> *mut c_void;
    fn munmap(address: *mut c_void, len: usize) -> c_int;
}
