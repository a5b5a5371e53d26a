//! Stand-in: names of the Hyper-V interface, with the numbers of the TLFS.

pub const HV_PAGE_SHIFT: u64 = 12;
pub const HV_PAGE_SIZE: u64 = 1 << HV_PAGE_SHIFT;

/// A failing hypercall's 16-bit status.
#[derive(Debug, Clone, Copy, PartialEq, Eq)]
pub struct HvError(pub u16);

#[expect(non_upper_case_globals)]
impl HvError {
    pub const AccessDenied: Self = Self(6);
    pub const OperationDenied: Self = Self(8);
}

impl std::fmt::Display for HvError {
    fn fmt(&self, f: &mut std::fmt::Formatter<'_>) -> std::fmt::Result {
        write!(f, "hypervisor status {:#x}", self.0)
    }
}

impl std::error::Error for HvError {}

/// What may be done with a page.
#[derive(Debug, Default, Clone, Copy, PartialEq, Eq)]
pub struct HvMapGpaFlags(u32);

pub const HV_MAP_GPA_PERMISSIONS_NONE: HvMapGpaFlags = HvMapGpaFlags(0);
pub const HV_MAP_GPA_PERMISSIONS_ALL: HvMapGpaFlags = HvMapGpaFlags(0xf);

impl HvMapGpaFlags {
    const READABLE: u32 = 1;
    const WRITABLE: u32 = 2;
    const KERNEL_EXECUTABLE: u32 = 4;
    const USER_EXECUTABLE: u32 = 8;

    pub const fn new() -> Self {
        Self(0)
    }

    pub const fn from_bits(bits: u32) -> Self {
        Self(bits)
    }

    pub const fn into_bits(self) -> u32 {
        self.0
    }

    pub const fn readable(self) -> bool {
        self.0 & Self::READABLE != 0
    }

    pub const fn writable(self) -> bool {
        self.0 & Self::WRITABLE != 0
    }

    pub const fn kernel_executable(self) -> bool {
        self.0 & Self::KERNEL_EXECUTABLE != 0
    }

    pub const fn user_executable(self) -> bool {
        self.0 & Self::USER_EXECUTABLE != 0
    }

    pub const fn with_readable(self, on: bool) -> Self {
        self.with(Self::READABLE, on)
    }

    pub const fn with_writable(self, on: bool) -> Self {
        self.with(Self::WRITABLE, on)
    }

    pub const fn with_kernel_executable(self, on: bool) -> Self {
        self.with(Self::KERNEL_EXECUTABLE, on)
    }

    pub const fn with_user_executable(self, on: bool) -> Self {
        self.with(Self::USER_EXECUTABLE, on)
    }

    const fn with(self, bit: u32, on: bool) -> Self {
        Self(if on { self.0 | bit } else { self.0 & !bit })
    }
}

/// The hypercalls that the source names.
#[derive(Debug, Clone, Copy, PartialEq, Eq)]
pub enum HypercallCode {
    HvCallAcceptGpaPages,
    HvCallModifySparseGpaPageHostVisibility,
    HvCallModifyVtlProtectionMask,
}

/// A virtual trust level.
#[derive(Debug, Clone, Copy, PartialEq, Eq)]
pub enum Vtl {
    Vtl0,
    Vtl1,
    Vtl2,
}

pub mod hypercall {
    use crate::Vtl;

    #[derive(Debug, Clone, Copy, PartialEq, Eq)]
    pub struct AcceptMemoryType(pub u32);

    impl AcceptMemoryType {
        pub const RAM: Self = Self(1);
    }

    /// Who may see a page.
    #[derive(Debug, Clone, Copy, PartialEq, Eq)]
    pub struct HostVisibilityType(pub u8);

    impl HostVisibilityType {
        pub const PRIVATE: Self = Self(0);
        pub const SHARED: Self = Self(3);
    }

    #[derive(Debug, Clone, Copy, PartialEq, Eq)]
    pub struct HvInputVtl(pub Vtl);
}

#[cfg(test)]
mod tests {
    use super::*;

    #[test]
    fn flags_are_the_tlfs_bits() {
        let bits = |flags: HvMapGpaFlags| flags.into_bits();
        assert_eq!(bits(HvMapGpaFlags::new().with_readable(true)), 1);
        assert_eq!(bits(HvMapGpaFlags::new().with_writable(true)), 2);
        assert_eq!(bits(HvMapGpaFlags::new().with_kernel_executable(true)), 4);
        assert_eq!(bits(HvMapGpaFlags::new().with_user_executable(true)), 8);
        let all = HV_MAP_GPA_PERMISSIONS_ALL;
        assert_eq!(bits(all), 15);
        assert_eq!(bits(all.with_writable(false)), 13);
        assert_eq!(HV_MAP_GPA_PERMISSIONS_NONE, HvMapGpaFlags::new());
    }
}
