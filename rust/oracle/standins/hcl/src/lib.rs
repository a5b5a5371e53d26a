//! Stand-in: the kernel's interface to the hypervisor and the processor's confidential parts.

pub mod ioctl;

use hvdef::Vtl;
use hvdef::hypercall::HvInputVtl;

/// A VTL that a guest runs in.
#[derive(Debug, Clone, Copy, PartialEq, Eq)]
pub enum GuestVtl {
    Vtl0,
    Vtl1,
}

impl From<GuestVtl> for Vtl {
    fn from(vtl: GuestVtl) -> Vtl {
        match vtl {
            GuestVtl::Vtl0 => Vtl::Vtl0,
            GuestVtl::Vtl1 => Vtl::Vtl1,
        }
    }
}

impl From<GuestVtl> for HvInputVtl {
    fn from(vtl: GuestVtl) -> HvInputVtl {
        HvInputVtl(vtl.into())
    }
}
