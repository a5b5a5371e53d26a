//! Stand-in: where a virtual machine's RAM lies.

pub mod memory {
    use memory_range::MemoryRange;

    /// A stretch of RAM and its virtual NUMA node.
    #[derive(Debug, Clone, Copy, PartialEq, Eq)]
    pub struct MemoryRangeWithNode {
        pub range: MemoryRange,
        pub vnode: u32,
    }

    /// The RAM, ascending.
    #[derive(Debug, Clone)]
    pub struct MemoryLayout {
        ram: Vec<MemoryRangeWithNode>,
    }

    /// An entry is empty, or begins before the one in front of it ends.
    #[derive(Debug, Clone, Copy, PartialEq, Eq)]
    pub struct UnfitLayout;

    impl MemoryLayout {
        pub fn new(ram: Vec<MemoryRangeWithNode>) -> Result<Self, UnfitLayout> {
            let mut end = 0;
            for entry in &ram {
                if entry.range.is_empty() || entry.range.start() < end {
                    return Err(UnfitLayout);
                }
                end = entry.range.end();
            }
            Ok(Self { ram })
        }

        pub fn ram(&self) -> &[MemoryRangeWithNode] {
            &self.ram
        }
    }

    #[cfg(test)]
    mod tests {
        use super::*;

        fn layout(ends: &[(u64, u64)]) -> Result<MemoryLayout, UnfitLayout> {
            let entry = |&(start, end)| MemoryRangeWithNode {
                range: MemoryRange::new(start * 4096..end * 4096),
                vnode: 0,
            };
            MemoryLayout::new(ends.iter().map(entry).collect())
        }

        #[test]
        fn entries_ascend_and_may_touch() {
            assert!(layout(&[(0, 8), (8, 16), (32, 40)]).is_ok());
            assert!(layout(&[(0, 8), (7, 16)]).is_err());
            assert!(layout(&[(8, 16), (0, 8)]).is_err());
            assert!(layout(&[(8, 8)]).is_err());
        }
    }
}
