//! Stand-in: the processor's numbers for page permissions, as AMD and Intel publish them.

pub mod snp {
    /// A virtual machine privilege level.
    #[derive(Debug, Clone, Copy, PartialEq, Eq)]
    pub enum Vmpl {
        Vmpl0,
        Vmpl1,
        Vmpl2,
        Vmpl3,
    }

    impl From<Vmpl> for u64 {
        fn from(vmpl: Vmpl) -> u64 {
            vmpl as u64
        }
    }

    /// RMPADJUST's operand in RDX: the VMPL in bits 0 to 7, the permission mask from bit 8.
    #[derive(Debug, Default, Clone, Copy, PartialEq, Eq)]
    pub struct SevRmpAdjust(u64);

    impl SevRmpAdjust {
        const READ: u64 = 1 << 8;
        const WRITE: u64 = 1 << 9;
        const USER_EXECUTE: u64 = 1 << 10;
        const KERNEL_EXECUTE: u64 = 1 << 11;

        pub const fn new() -> Self {
            Self(0)
        }

        pub const fn into_bits(self) -> u64 {
            self.0
        }

        pub const fn target_vmpl(self) -> u64 {
            self.0 & 0xff
        }

        pub const fn enable_read(self) -> bool {
            self.0 & Self::READ != 0
        }

        pub const fn enable_write(self) -> bool {
            self.0 & Self::WRITE != 0
        }

        pub const fn enable_user_execute(self) -> bool {
            self.0 & Self::USER_EXECUTE != 0
        }

        pub const fn enable_kernel_execute(self) -> bool {
            self.0 & Self::KERNEL_EXECUTE != 0
        }

        pub const fn with_target_vmpl(self, vmpl: u64) -> Self {
            assert!(vmpl <= 0xff);
            Self(self.0 & !0xff | vmpl)
        }

        pub const fn with_enable_read(self, on: bool) -> Self {
            self.with(Self::READ, on)
        }

        pub const fn with_enable_write(self, on: bool) -> Self {
            self.with(Self::WRITE, on)
        }

        pub const fn with_enable_user_execute(self, on: bool) -> Self {
            self.with(Self::USER_EXECUTE, on)
        }

        pub const fn with_enable_kernel_execute(self, on: bool) -> Self {
            self.with(Self::KERNEL_EXECUTE, on)
        }

        const fn with(self, bit: u64, on: bool) -> Self {
            Self(if on { self.0 | bit } else { self.0 & !bit })
        }
    }
}

pub mod tdx {
    /// One virtual machine's 16 bits of a page's attributes.
    #[derive(Debug, Default, Clone, Copy, PartialEq, Eq)]
    pub struct GpaVmAttributes(u16);

    impl GpaVmAttributes {
        const READ: u16 = 1;
        const WRITE: u16 = 2;
        const KERNEL_EXECUTE: u16 = 4;
        const USER_EXECUTE: u16 = 8;
        const VALID: u16 = 1 << 15;

        pub const FULL_ACCESS: Self = Self(0x800f);

        pub const fn new() -> Self {
            Self(0)
        }

        pub const fn into_bits(self) -> u16 {
            self.0
        }

        pub const fn read(self) -> bool {
            self.0 & Self::READ != 0
        }

        pub const fn write(self) -> bool {
            self.0 & Self::WRITE != 0
        }

        pub const fn kernel_execute(self) -> bool {
            self.0 & Self::KERNEL_EXECUTE != 0
        }

        pub const fn user_execute(self) -> bool {
            self.0 & Self::USER_EXECUTE != 0
        }

        pub const fn with_read(self, on: bool) -> Self {
            self.with(Self::READ, on)
        }

        pub const fn with_write(self, on: bool) -> Self {
            self.with(Self::WRITE, on)
        }

        pub const fn with_kernel_execute(self, on: bool) -> Self {
            self.with(Self::KERNEL_EXECUTE, on)
        }

        pub const fn with_user_execute(self, on: bool) -> Self {
            self.with(Self::USER_EXECUTE, on)
        }

        pub const fn with_valid(self, on: bool) -> Self {
            self.with(Self::VALID, on)
        }

        const fn with(self, bit: u16, on: bool) -> Self {
            Self(if on { self.0 | bit } else { self.0 & !bit })
        }
    }

    /// Which of those 16 bits are to change.
    #[derive(Debug, Default, Clone, Copy, PartialEq, Eq)]
    pub struct GpaVmAttributesMask(u16);

    impl GpaVmAttributesMask {
        pub const ALL_CHANGED: Self = Self(0x800f);

        pub const fn into_bits(self) -> u16 {
            self.0
        }
    }

    /// A page's attributes: L1 in bits 0 to 15, then the L2 machines 1 to 3.
    #[derive(Debug, Default, Clone, Copy, PartialEq, Eq)]
    pub struct TdgMemPageGpaAttr(u64);

    impl TdgMemPageGpaAttr {
        pub const fn new() -> Self {
            Self(0)
        }

        pub const fn into_bits(self) -> u64 {
            self.0
        }

        pub const fn l2_vm1(self) -> GpaVmAttributes {
            GpaVmAttributes((self.0 >> 16) as u16)
        }

        pub const fn l2_vm2(self) -> GpaVmAttributes {
            GpaVmAttributes((self.0 >> 32) as u16)
        }

        pub const fn with_l2_vm1(self, attributes: GpaVmAttributes) -> Self {
            Self(put(self.0, 16, attributes.0))
        }

        pub const fn with_l2_vm2(self, attributes: GpaVmAttributes) -> Self {
            Self(put(self.0, 32, attributes.0))
        }
    }

    /// Which attributes are to change, placed as the attributes are.
    #[derive(Debug, Default, Clone, Copy, PartialEq, Eq)]
    pub struct TdgMemPageAttrWriteR8(u64);

    impl TdgMemPageAttrWriteR8 {
        pub const fn new() -> Self {
            Self(0)
        }

        pub const fn into_bits(self) -> u64 {
            self.0
        }

        pub const fn l2_vm1(self) -> GpaVmAttributesMask {
            GpaVmAttributesMask((self.0 >> 16) as u16)
        }

        pub const fn l2_vm2(self) -> GpaVmAttributesMask {
            GpaVmAttributesMask((self.0 >> 32) as u16)
        }

        pub const fn with_l2_vm1(self, mask: GpaVmAttributesMask) -> Self {
            Self(put(self.0, 16, mask.0))
        }

        pub const fn with_l2_vm2(self, mask: GpaVmAttributesMask) -> Self {
            Self(put(self.0, 32, mask.0))
        }
    }

    /// The TD's CONFIG_FLAGS, as far as the source asks.
    #[derive(Debug, Default, Clone, Copy, PartialEq, Eq)]
    pub struct TdxConfigFlags {
        pub connect_and_release: bool,
    }

    impl TdxConfigFlags {
        pub const fn tdx_connect(self) -> bool {
            self.connect_and_release
        }

        pub const fn page_release(self) -> bool {
            self.connect_and_release
        }
    }

    const fn put(bits: u64, shift: u32, part: u16) -> u64 {
        bits & !(0xffff << shift) | (part as u64) << shift
    }
}

#[cfg(test)]
mod tests {
    use super::snp::*;
    use super::tdx::*;

    #[test]
    fn rmpadjust_operand_is_the_apm_s() {
        let none = SevRmpAdjust::new().with_target_vmpl(Vmpl::Vmpl2.into());
        assert_eq!(none.into_bits(), 2);
        assert_eq!(none.with_enable_read(true).into_bits(), 2 + 256);
        assert_eq!(none.with_enable_write(true).into_bits(), 2 + 512);
        assert_eq!(none.with_enable_user_execute(true).into_bits(), 2 + 1024);
        assert_eq!(none.with_enable_kernel_execute(true).into_bits(), 2 + 2048);
        assert_eq!(none.with_enable_read(false), none);
    }

    #[test]
    fn tdx_attributes_have_16_bits_a_machine() {
        let part = GpaVmAttributes::new().with_valid(true).with_write(true);
        assert_eq!(part.into_bits(), 0x8002);
        let both = TdgMemPageGpaAttr::new().with_l2_vm1(part).with_l2_vm2(part);
        assert_eq!(both.into_bits(), 0x8002_8002_0000);
        assert_eq!(both.l2_vm2(), part);
    }
}
