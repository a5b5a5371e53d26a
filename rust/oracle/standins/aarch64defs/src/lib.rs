//! Stand-in: the one name of Arm CCA that the source uses.

pub mod rsi {
    /// Which entry of the realm's permission table a page uses. The source only makes one.
    #[derive(Debug, Default, Clone, Copy, PartialEq, Eq)]
    pub struct CcaMemPermIndex(pub u64);
}
