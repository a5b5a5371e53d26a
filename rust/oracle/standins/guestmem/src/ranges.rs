//! Lists of pages as ranges of bytes.

use std::ops::Range;

/// A page whose end passes the address space.
#[derive(Debug, Clone, Copy, PartialEq, Eq)]
pub struct InvalidGpn(pub u64);

/// A list of pages, from a byte of the first one on.
#[derive(Debug, Clone, Copy)]
pub struct PagedRange<'a> {
    gpns: &'a [u64],
}

impl<'a> PagedRange<'a> {
    pub const PAGE_SIZE: usize = crate::PAGE_SIZE;

    /// None unless `offset` is 0 and `len` the length of all pages, which is all that the source
    /// asks for.
    pub fn new(offset: usize, len: usize, gpns: &'a [u64]) -> Option<Self> {
        (offset == 0 && len == gpns.len() * Self::PAGE_SIZE).then_some(Self { gpns })
    }

    /// Runs of ascending neighbours, in list order, as addresses.
    pub fn ranges(&self) -> impl Iterator<Item = Result<Range<u64>, InvalidGpn>> {
        self.gpns
            .chunk_by(|a, b| a.checked_add(1) == Some(*b))
            .map(|run| addresses(run[0], run.len() as u64))
    }
}

fn addresses(first: u64, count: u64) -> Result<Range<u64>, InvalidGpn> {
    let address = |gpn: u64| gpn.checked_mul(crate::PAGE_SIZE as u64);
    let end = first.checked_add(count).and_then(address);
    match (address(first), end) {
        (Some(start), Some(end)) => Ok(start..end),
        _ => Err(InvalidGpn(first)),
    }
}

#[cfg(test)]
mod tests {
    use super::*;

    fn runs(gpns: &[u64]) -> Vec<Range<u64>> {
        let list = PagedRange::new(0, gpns.len() * 4096, gpns).unwrap();
        let pages = |r: Range<u64>| r.start / 4096..r.end / 4096;
        list.ranges().map(|r| pages(r.unwrap())).collect()
    }

    #[test]
    fn runs_are_of_ascending_neighbours() {
        assert_eq!(runs(&[]), []);
        assert_eq!(runs(&[3, 9, 10]), [3..4, 9..11]);
        assert_eq!(runs(&[10, 9, 8]), [10..11, 9..10, 8..9]);
        assert_eq!(runs(&[3, 4, 3]), [3..5, 3..4]);
        assert_eq!(runs(&[3, 3]), [3..4, 3..4]);
    }

    #[test]
    fn a_page_past_the_address_space_is_an_error() {
        let gpns = [1 << 52];
        let list = PagedRange::new(0, 4096, &gpns).unwrap();
        assert_eq!(list.ranges().next(), Some(Err(InvalidGpn(1 << 52))));
    }
}
