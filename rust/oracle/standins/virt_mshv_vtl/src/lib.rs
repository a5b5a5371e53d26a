//! Stand-in: the two traits between the partition and its memory protector.

use guestmem::GuestMemoryBackingError;
use hcl::GuestVtl;
use hvdef::HvError;
use hvdef::HvMapGpaFlags;
use hvdef::hypercall::HostVisibilityType;

/// Where a page comes from.
#[derive(Debug, Clone, Copy, PartialEq, Eq)]
pub enum GpnSource {
    GuestMemory,
    Dma,
}

/// Flushing, and waiting for those who hold translations.
pub trait TlbFlushLockAccess {
    fn flush(&mut self, vtl: GuestVtl);
    fn flush_entire(&mut self);
    fn set_wait_for_tlb_locks(&mut self, vtl: GuestVtl);
}

/// What the partition asks of the protector.
pub trait ProtectIsolatedMemory: Send + Sync {
    fn change_host_visibility(
        &self,
        vtl: GuestVtl,
        shared: bool,
        gpns: &[u64],
        tlb_access: &mut dyn TlbFlushLockAccess,
    ) -> Result<(), (HvError, usize)>;

    fn query_host_visibility(
        &self,
        gpns: &[u64],
        host_visibility: &mut [HostVisibilityType],
    ) -> Result<(), (HvError, usize)>;

    fn default_vtl0_protections(&self) -> HvMapGpaFlags;

    fn change_default_vtl_protections(
        &self,
        target_vtl: GuestVtl,
        protections: HvMapGpaFlags,
        tlb_access: &mut dyn TlbFlushLockAccess,
    ) -> Result<(), HvError>;

    fn change_vtl_protections(
        &self,
        target_vtl: GuestVtl,
        gpns: &[u64],
        protections: HvMapGpaFlags,
        tlb_access: &mut dyn TlbFlushLockAccess,
    ) -> Result<(), (HvError, usize)>;

    fn register_overlay_page(
        &self,
        vtl: GuestVtl,
        gpn: u64,
        gpn_source: GpnSource,
        check_perms: HvMapGpaFlags,
        new_perms: Option<HvMapGpaFlags>,
        tlb_access: &mut dyn TlbFlushLockAccess,
    ) -> Result<(), HvError>;

    fn unregister_overlay_page(
        &self,
        vtl: GuestVtl,
        gpn: u64,
        tlb_access: &mut dyn TlbFlushLockAccess,
    ) -> Result<(), HvError>;

    fn is_overlay_page(&self, vtl: GuestVtl, gpn: u64) -> bool;

    fn lock_gpns(&self, vtl: GuestVtl, gpns: &[u64]) -> Result<(), GuestMemoryBackingError>;

    fn unlock_gpns(&self, vtl: GuestVtl, gpns: &[u64]);

    fn set_vtl1_protections_enabled(&self);

    fn vtl1_protections_enabled(&self) -> bool;
}
