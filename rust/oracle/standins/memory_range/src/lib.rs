//! Stand-in: ranges of whole 4 KiB pages.

use std::fmt;
use std::ops::Range;

const PAGE_SIZE: u64 = 4096;

/// A range of addresses, both ends multiples of 4,096, the end exclusive.
#[derive(Debug, Clone, Copy, PartialEq, Eq)]
pub struct MemoryRange {
    start: u64,
    end: u64,
}

impl fmt::Display for MemoryRange {
    fn fmt(&self, f: &mut fmt::Formatter<'_>) -> fmt::Result {
        write!(f, "{:#x}-{:#x}", self.start, self.end)
    }
}

impl MemoryRange {
    pub const EMPTY: Self = Self { start: 0, end: 0 };

    /// Panics unless the ends are whole pages in order.
    #[track_caller]
    pub fn new(range: Range<u64>) -> Self {
        assert!(
            range.start <= range.end,
            "memory range ends before it starts"
        );
        assert!(
            range.start.is_multiple_of(PAGE_SIZE) && range.end.is_multiple_of(PAGE_SIZE),
            "memory range is not whole pages"
        );
        Self {
            start: range.start,
            end: range.end,
        }
    }

    /// Panics where an end passes 2^64 - 1.
    #[track_caller]
    pub fn from_4k_gpn_range(gpns: Range<u64>) -> Self {
        let address = |gpn: u64| gpn.checked_mul(PAGE_SIZE);
        match (address(gpns.start), address(gpns.end)) {
            (Some(start), Some(end)) => Self::new(start..end),
            _ => panic!("page number past the address space"),
        }
    }

    pub fn start(&self) -> u64 {
        self.start
    }

    pub fn end(&self) -> u64 {
        self.end
    }

    pub fn start_4k_gpn(&self) -> u64 {
        self.start / PAGE_SIZE
    }

    pub fn len(&self) -> u64 {
        self.end - self.start
    }

    pub fn is_empty(&self) -> bool {
        self.start == self.end
    }

    pub fn contains_addr(&self, address: u64) -> bool {
        self.start <= address && address < self.end
    }

    pub fn overlaps(&self, other: &Self) -> bool {
        self.start < other.end && other.start < self.end
    }

    /// How far into the range an address lies; none if it lies outside.
    pub fn offset_of(&self, address: u64) -> Option<u64> {
        self.contains_addr(address).then(|| address - self.start)
    }

    /// The part before `offset` and the part from there on.
    #[track_caller]
    pub fn split_at_offset(&self, offset: u64) -> (Self, Self) {
        assert!(offset <= self.len(), "split past the end");
        let middle = self.start + offset;
        (Self::new(self.start..middle), Self::new(middle..self.end))
    }

    /// The largest part whose ends are multiples of `alignment`, a power of two; `EMPTY` if there
    /// is none.
    pub fn aligned_subrange(&self, alignment: u64) -> Self {
        debug_assert!(alignment.is_power_of_two());
        let below = alignment - 1;
        let start = self.start.checked_add(below).map(|start| start & !below);
        let end = self.end & !below;
        match start {
            Some(start) if start < end => Self { start, end },
            _ => Self::EMPTY,
        }
    }

    fn intersection(&self, other: &Self) -> Option<Self> {
        let start = self.start.max(other.start);
        let end = self.end.min(other.end);
        (start < end).then(|| Self::new(start..end))
    }
}

/// What is left of `left` without `right`; both ascending and disjoint.
pub fn subtract_ranges(
    left: impl IntoIterator<Item = MemoryRange>,
    right: impl IntoIterator<Item = MemoryRange>,
) -> impl Iterator<Item = MemoryRange> {
    let mut left = left.into_iter();
    let mut cuts = right.into_iter().filter(|cut| !cut.is_empty()).peekable();
    let mut rest = None;
    std::iter::from_fn(move || {
        loop {
            let range = rest.take().or_else(|| left.next())?;
            while cuts.next_if(|cut| cut.end <= range.start).is_some() {}
            let Some(cut) = cuts.peek().filter(|cut| cut.start < range.end) else {
                return Some(range);
            };
            if cut.end < range.end {
                rest = Some(MemoryRange::new(cut.end..range.end));
            }
            if range.start < cut.start {
                return Some(MemoryRange::new(range.start..cut.start));
            }
        }
    })
}

/// What both have; both ascending and disjoint.
pub fn overlapping_ranges(
    left: impl IntoIterator<Item = MemoryRange>,
    right: impl IntoIterator<Item = MemoryRange>,
) -> impl Iterator<Item = MemoryRange> {
    let mut left = left.into_iter().peekable();
    let mut right = right.into_iter().peekable();
    std::iter::from_fn(move || {
        loop {
            let (a, b) = (*left.peek()?, *right.peek()?);
            if a.end <= b.end {
                left.next();
            } else {
                right.next();
            }
            if let Some(common) = a.intersection(&b) {
                return Some(common);
            }
        }
    })
}

/// Cuts a range into pieces no longer than a limit, at multiples of the limit.
#[derive(Debug, Clone)]
pub struct AlignedSubranges {
    rest: MemoryRange,
    limit: u64,
}

impl AlignedSubranges {
    pub fn new(range: MemoryRange) -> Self {
        Self {
            rest: range,
            limit: u64::MAX,
        }
    }

    pub fn with_max_range_len(self, limit: u64) -> Self {
        assert!(limit >= PAGE_SIZE, "limit below one page");
        Self { limit, ..self }
    }
}

impl Iterator for AlignedSubranges {
    type Item = MemoryRange;

    fn next(&mut self) -> Option<MemoryRange> {
        if self.rest.is_empty() {
            return None;
        }
        let room = self.limit - self.rest.start % self.limit;
        let (piece, rest) = self.rest.split_at_offset(room.min(self.rest.len()));
        self.rest = rest;
        Some(piece)
    }
}

#[cfg(test)]
mod tests {
    use super::*;

    fn pages(start: u64, end: u64) -> MemoryRange {
        MemoryRange::from_4k_gpn_range(start..end)
    }

    #[test]
    fn aligned_part() {
        assert_eq!(pages(3, 26).aligned_subrange(8 * 4096), pages(8, 24));
        assert_eq!(pages(8, 24).aligned_subrange(8 * 4096), pages(8, 24));
        assert_eq!(pages(3, 13).aligned_subrange(8 * 4096), MemoryRange::EMPTY);
        assert_eq!(pages(9, 16).aligned_subrange(8 * 4096), MemoryRange::EMPTY);
    }

    #[test]
    fn subtraction_keeps_what_lies_beside() {
        let rest = |cut| subtract_ranges([pages(3, 26)], [cut]).collect::<Vec<_>>();
        assert_eq!(rest(pages(8, 24)), [pages(3, 8), pages(24, 26)]);
        assert_eq!(rest(pages(3, 26)), []);
        assert_eq!(rest(MemoryRange::EMPTY), [pages(3, 26)]);
        let first = subtract_ranges([pages(0, 2)], [MemoryRange::EMPTY]);
        assert_eq!(first.collect::<Vec<_>>(), [pages(0, 2)]);
        let left = [pages(0, 4), pages(6, 9), pages(10, 12)];
        let several = subtract_ranges(left, [pages(1, 2), pages(3, 7), pages(8, 9)]);
        let rest = [pages(0, 1), pages(2, 3), pages(7, 8), pages(10, 12)];
        assert_eq!(several.collect::<Vec<_>>(), rest);
    }

    #[test]
    fn overlap_ascends() {
        let ram = [pages(0, 16), pages(32, 40)];
        let both = |range| overlapping_ranges([range], ram).collect::<Vec<_>>();
        assert_eq!(both(pages(8, 48)), [pages(8, 16), pages(32, 40)]);
        assert_eq!(both(pages(16, 32)), []);
        let several = overlapping_ranges([pages(2, 5), pages(6, 33), pages(38, 50)], ram);
        let common = [pages(2, 5), pages(6, 16), pages(32, 33), pages(38, 40)];
        assert_eq!(several.collect::<Vec<_>>(), common);
    }

    #[test]
    fn subranges_cover_in_order() {
        let cut = AlignedSubranges::new(pages(3, 20)).with_max_range_len(8 * 4096);
        let cut: Vec<_> = cut.collect();
        assert_eq!(cut, [pages(3, 8), pages(8, 16), pages(16, 20)]);
    }

    #[test]
    fn split_and_offset() {
        assert_eq!(
            pages(3, 9).split_at_offset(4096),
            (pages(3, 4), pages(4, 9))
        );
        assert_eq!(pages(3, 9).offset_of(4 * 4096 + 1), Some(4097));
        assert_eq!(pages(3, 9).offset_of(9 * 4096), None);
        assert!(!pages(3, 9).overlaps(&pages(9, 10)));
    }

    #[test]
    #[should_panic(expected = "past the address space")]
    fn the_last_page_has_no_end() {
        pages((1 << 52) - 1, 1 << 52);
    }

    #[test]
    #[should_panic(expected = "not whole pages")]
    fn half_a_page_is_no_range() {
        MemoryRange::new(0..2048);
    }
}
