//! The calls into the kernel. Each is noted and answered as scripted; none does anything.

use crate::GuestVtl;
use hvdef::HvError;
use hvdef::HvMapGpaFlags;
use hvdef::HypercallCode;
use hvdef::Vtl;
use hvdef::hypercall::AcceptMemoryType;
use hvdef::hypercall::HostVisibilityType;
use hvdef::hypercall::HvInputVtl;
use memory_range::MemoryRange;
use recorder::Attributes;
use recorder::Op;
use recorder::Pages;
use std::fmt;
use x86defs::snp::SevRmpAdjust;
use x86defs::tdx::GpaVmAttributes;
use x86defs::tdx::GpaVmAttributesMask;
use x86defs::tdx::TdgMemPageAttrWriteR8;
use x86defs::tdx::TdgMemPageGpaAttr;
use x86defs::tdx::TdxConfigFlags;

/// A call failed, as the script had it.
#[derive(Debug, Clone, Copy, PartialEq, Eq)]
pub struct Error {
    pub code: u16,
}

impl fmt::Display for Error {
    fn fmt(&self, f: &mut fmt::Formatter<'_>) -> fmt::Result {
        write!(f, "scripted failure {}", self.code)
    }
}

impl std::error::Error for Error {}

/// Pages could not be accepted. Made by the source.
#[derive(Debug)]
pub enum AcceptPagesError {
    Hypervisor(HvError),
    Snp {
        failed_operation: Error,
        range: MemoryRange,
    },
    Tdx {
        error: Error,
        range: MemoryRange,
    },
}

/// Permissions could not be set. Made by the source.
#[derive(Debug)]
pub enum ApplyVtlProtectionsError {
    Hypervisor(HvError),
    Snp {
        failed_operation: Error,
        range: MemoryRange,
        permissions: SevRmpAdjust,
        vtl: Vtl,
    },
    Tdx {
        error: Error,
        range: MemoryRange,
        permissions: TdgMemPageGpaAttr,
        vtl: Vtl,
    },
    Cca {
        range: MemoryRange,
        vtl: Vtl,
    },
}

/// The device that the others come from.
#[derive(Debug)]
pub struct Mshv;

impl Mshv {
    pub fn new() -> Result<Self, Error> {
        Ok(Self)
    }

    pub fn create_vtl(&self) -> Result<MshvVtl, Error> {
        Ok(MshvVtl)
    }
}

/// Guest memory as a file.
#[derive(Debug)]
pub struct MshvVtlLow;

impl MshvVtlLow {
    pub const SHARED_MEMORY_FLAG: u64 = 1 << 63;

    pub fn new() -> Result<Self, Error> {
        Ok(Self)
    }

    /// The file; it holds nothing.
    pub fn get(&self) -> &Self {
        self
    }
}

/// Hypercalls.
#[derive(Debug)]
pub struct MshvHvcall;

impl MshvHvcall {
    pub fn new() -> Result<Self, Error> {
        Ok(Self)
    }

    pub fn set_allowed_hypercalls(&self, _codes: &[HypercallCode]) {}

    /// Only reached under VBS, which is outside the domain.
    pub fn accept_gpa_pages(
        &self,
        _range: MemoryRange,
        _memory_type: AcceptMemoryType,
    ) -> Result<(), AcceptPagesError> {
        unimplemented!("VBS")
    }

    /// Only reached under VBS, which is outside the domain.
    pub fn modify_vtl_protection_mask(
        &self,
        _range: MemoryRange,
        _flags: HvMapGpaFlags,
        _vtl: HvInputVtl,
    ) -> Result<(), ApplyVtlProtectionsError> {
        unimplemented!("VBS")
    }

    /// Modify; a failure carries the status and how many pages were processed.
    pub fn modify_gpa_visibility(
        &self,
        visibility: HostVisibilityType,
        gpns: &[u64],
    ) -> Result<(), (HvError, usize)> {
        if recorder::idle() {
            return Ok(());
        }
        let modify = Op::Modify {
            shared: visibility == HostVisibilityType::SHARED,
            pages: gpns.to_vec(),
        };
        recorder::ask(modify).map_err(|failure| (HvError(failure.code), failure.processed as usize))
    }
}

/// The lower VTLs' memory.
#[derive(Debug)]
pub struct MshvVtl;

impl MshvVtl {
    /// Register.
    pub fn add_vtl0_memory(&self, range: MemoryRange, _shared: bool) -> Result<(), Error> {
        ask(Op::Register {
            start: range.start(),
            end: range.end(),
        })
    }

    pub fn tdx_get_config_flags(&self) -> TdxConfigFlags {
        TdxConfigFlags {
            connect_and_release: recorder::release(),
        }
    }

    /// Accept, or Invalidate.
    pub fn pvalidate_pages(
        &self,
        range: MemoryRange,
        validate: bool,
        _terminate_on_failure: bool,
    ) -> Result<(), Error> {
        let pages = pages(range);
        ask(if validate {
            Op::Accept {
                pages,
                attributes: None,
            }
        } else {
            Op::Invalidate(pages)
        })
    }

    /// Protect on SNP.
    pub fn rmpadjust_pages(
        &self,
        range: MemoryRange,
        operand: SevRmpAdjust,
        _terminate_on_failure: bool,
    ) -> Result<(), Error> {
        ask(Op::Protect {
            vtl: vmpl_vtl(operand),
            flags: Some(flags([
                operand.enable_read(),
                operand.enable_write(),
                operand.enable_kernel_execute(),
                operand.enable_user_execute(),
            ])),
            operand: Some(operand.into_bits()),
            attributes: None,
            pages: pages(range),
        })
    }

    /// Accept on TDX, with the attributes that go with it.
    pub fn tdx_accept_pages(
        &self,
        range: MemoryRange,
        attributes: Option<(TdgMemPageGpaAttr, TdgMemPageAttrWriteR8)>,
    ) -> Result<(), Error> {
        ask(Op::Accept {
            pages: pages(range),
            attributes: attributes.map(carried),
        })
    }

    /// Release.
    pub fn tdx_release_pages(&self, range: MemoryRange) -> Result<(), Error> {
        ask(Op::Release(pages(range)))
    }

    /// Protect on TDX: the mask says whose attributes change, L2 machine 1 is VTL0 and 2 is VTL1.
    pub fn tdx_set_page_attributes(
        &self,
        range: MemoryRange,
        attributes: TdgMemPageGpaAttr,
        mask: TdgMemPageAttrWriteR8,
    ) -> Result<(), Error> {
        let (vtl, part) = changed_part(attributes, mask);
        ask(Op::Protect {
            vtl,
            flags: Some(flags([
                part.read(),
                part.write(),
                part.kernel_execute(),
                part.user_execute(),
            ])),
            operand: None,
            attributes: Some(carried((attributes, mask))),
            pages: pages(range),
        })
    }

    /// Protect on CCA; the source hands over no flags.
    pub fn rsi_set_mem_perm(&self, vtl: GuestVtl, range: &MemoryRange) -> Result<(), Error> {
        ask(Op::Protect {
            vtl: vtl as u8,
            flags: None,
            operand: None,
            attributes: None,
            pages: pages(*range),
        })
    }
}

fn ask(op: Op) -> Result<(), Error> {
    recorder::ask(op).map_err(|failure| Error { code: failure.code })
}

fn pages(range: MemoryRange) -> Pages {
    Pages {
        first: range.start_4k_gpn(),
        count: range.len() / hvdef::HV_PAGE_SIZE,
    }
}

fn flags(bits: [bool; 4]) -> u8 {
    (0..4).map(|i| u8::from(bits[i]) << i).sum()
}

/// VMPL 2 is VTL0's and VMPL 1 is VTL1's; another shows as itself plus 100.
fn vmpl_vtl(operand: SevRmpAdjust) -> u8 {
    match operand.target_vmpl() {
        2 => 0,
        1 => 1,
        other => 100 + other as u8,
    }
}

fn changed_part(
    attributes: TdgMemPageGpaAttr,
    mask: TdgMemPageAttrWriteR8,
) -> (u8, GpaVmAttributes) {
    if mask.l2_vm1() == GpaVmAttributesMask::ALL_CHANGED {
        (0, attributes.l2_vm1())
    } else {
        (1, attributes.l2_vm2())
    }
}

fn carried((attributes, mask): (TdgMemPageGpaAttr, TdgMemPageAttrWriteR8)) -> Attributes {
    Attributes {
        attr: attributes.into_bits(),
        mask: mask.into_bits(),
    }
}

#[cfg(test)]
mod tests {
    use super::*;
    use std::collections::BTreeMap;

    fn range() -> MemoryRange {
        MemoryRange::from_4k_gpn_range(3..5)
    }

    /// The VTL and flags that an operation is noted with.
    fn noted(call: impl FnOnce()) -> (u8, Option<u8>) {
        recorder::begin(BTreeMap::new(), None);
        call();
        match recorder::finish().asked[0].op {
            Op::Protect { vtl, flags, .. } => (vtl, flags),
            ref other => panic!("{other:?}"),
        }
    }

    // One test: the record is the process's.
    #[test]
    fn protections_are_read_back_from_what_is_handed_over() {
        let snp = SevRmpAdjust::new()
            .with_target_vmpl(1)
            .with_enable_kernel_execute(true);
        let call = || MshvVtl.rmpadjust_pages(range(), snp, false).unwrap();
        assert_eq!(noted(call), (1, Some(4)));

        let part = GpaVmAttributes::new()
            .with_valid(true)
            .with_user_execute(true);
        let attributes = TdgMemPageGpaAttr::new().with_l2_vm1(part);
        let mask = TdgMemPageAttrWriteR8::new().with_l2_vm1(GpaVmAttributesMask::ALL_CHANGED);
        let call = || {
            MshvVtl
                .tdx_set_page_attributes(range(), attributes, mask)
                .unwrap()
        };
        assert_eq!(noted(call), (0, Some(8)));

        let call = || MshvVtl.rsi_set_mem_perm(GuestVtl::Vtl1, &range()).unwrap();
        assert_eq!(noted(call), (1, None));
    }
}
