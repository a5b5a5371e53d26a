//! What is measured: a protector of either kind, with backends that do nothing.

use crate::row::Kind;
use guestmem::GuestMemoryAccess;
use guestmem::PageFaultAction;
use hcl::GuestVtl;
use hvdef::HvMapGpaFlags;
use hvdef::hypercall::HostVisibilityType;
use memory_range::MemoryRange;
use std::hint::black_box;
use underhill_mem_port::Backend;
use underhill_mem_port::Fault;
use underhill_mem_port::Flags;
use underhill_mem_port::GpnSource;
use underhill_mem_port::HardwareIsolatedMemoryProtector;
use underhill_mem_port::IsolationType;
use underhill_mem_port::Mapping;
use underhill_mem_port::ModifyError;
use underhill_mem_port::Overlay;
use underhill_mem_port::PageRun;
use underhill_mem_port::Protect;
use underhill_mem_port::View;
use underhill_mem_port::Visibility;
use underhill_mem_source::Init;
use underhill_mem_source::MemoryMappings;
use underhill_mem_source::Side;
use virt_mshv_vtl::ProtectIsolatedMemory;
use virt_mshv_vtl::TlbFlushLockAccess;
use vm_topology::memory::MemoryLayout;
use vm_topology::memory::MemoryRangeWithNode;

/// A backend that does nothing, of either kind.
struct Idle;

impl Backend for Idle {
    type Error = ();

    fn wait(&mut self) {}

    fn flush_all(&mut self) {}

    fn flush(&mut self, _: underhill_mem_port::GuestVtl) {}

    fn tlb_wait(&mut self, _: underhill_mem_port::GuestVtl) {}

    fn protect(&mut self, _: Protect) -> Result<(), ()> {
        Ok(())
    }

    fn invalidate(&mut self, _: PageRun) -> Result<(), ()> {
        Ok(())
    }

    fn release(&mut self, _: PageRun) -> Result<(), ()> {
        Ok(())
    }

    fn modify(&mut self, _: Visibility, _: &[u64]) -> Result<(), ModifyError> {
        Ok(())
    }

    fn accept(&mut self, _: PageRun) -> Result<(), ()> {
        Ok(())
    }

    fn zero(&mut self, _: PageRun) -> Result<(), ()> {
        Ok(())
    }
}

impl TlbFlushLockAccess for Idle {
    fn flush(&mut self, _: GuestVtl) {}

    fn flush_entire(&mut self) {}

    fn set_wait_for_tlb_locks(&mut self, _: GuestVtl) {}
}

/// VTL0's calls; each says whether it went well.
pub trait Subject {
    fn change(&mut self, shared: bool, pages: &[u64]) -> bool;
    fn protect(&mut self, flags: u8, pages: &[u64]) -> bool;
    fn set_default(&mut self, flags: u8) -> bool;
    /// An overlay in guest memory that is read and written from now on.
    fn register(&mut self, gpn: u64) -> bool;
    fn unregister(&mut self, gpn: u64) -> bool;
    fn lock(&mut self, pages: &[u64]) -> bool;
    fn unlock(&mut self, pages: &[u64]) -> bool;
    /// A fault of a read by one of the mappings where its bitmap failed: whether it is tried again.
    fn fault(&mut self, shared: bool, address: u64) -> bool;
    /// Whether VTL0 has all permissions on a page.
    fn lower(&mut self, gpn: u64) -> bool;
    /// The same by the permission maps.
    fn access(&mut self, gpn: u64) -> bool;
    /// Of at most 512 pages.
    fn query(&mut self, pages: &[u64]) -> bool;
}

const VTL0: underhill_mem_port::GuestVtl = underhill_mem_port::GuestVtl::Vtl0;

fn port_flags(bits: u8) -> Flags {
    Flags::from_bits(bits.into()).expect("they are below 16")
}

impl Subject for HardwareIsolatedMemoryProtector {
    fn change(&mut self, shared: bool, pages: &[u64]) -> bool {
        let to = match shared {
            true => Visibility::Shared,
            false => Visibility::Private,
        };
        self.change_host_visibility(VTL0, to, pages, &mut Idle)
            .is_ok()
    }

    fn protect(&mut self, flags: u8, pages: &[u64]) -> bool {
        self.change_vtl_protections(VTL0, pages, port_flags(flags), &mut Idle)
            .is_ok()
    }

    fn set_default(&mut self, flags: u8) -> bool {
        self.change_default_vtl_protections(VTL0, port_flags(flags), &mut Idle)
            .is_ok()
    }

    fn register(&mut self, gpn: u64) -> bool {
        let overlay = Overlay {
            gpn,
            source: GpnSource::GuestMemory,
            checked: Flags::NONE,
            new: Some(Flags::READABLE | Flags::WRITABLE),
        };
        self.register_overlay_page(VTL0, overlay, &mut Idle).is_ok()
    }

    fn unregister(&mut self, gpn: u64) -> bool {
        self.unregister_overlay_page(VTL0, gpn, &mut Idle).is_ok()
    }

    fn lock(&mut self, pages: &[u64]) -> bool {
        self.lock_gpns(VTL0, pages).is_ok()
    }

    fn unlock(&mut self, pages: &[u64]) -> bool {
        self.unlock_gpns(VTL0, pages).is_ok()
    }

    fn fault(&mut self, shared: bool, address: u64) -> bool {
        let mapping = match shared {
            true => Mapping::Shared,
            false => Mapping::Encrypted,
        };
        self.page_fault(mapping, View::Read, address, false, true) == Fault::Retry
    }

    fn lower(&mut self, gpn: u64) -> bool {
        self.query_lower_vtl_permissions(VTL0, gpn) == Ok(Flags::ALL)
    }

    fn access(&mut self, gpn: u64) -> bool {
        self.query_access_permission(gpn) == Some(Flags::ALL)
    }

    fn query(&mut self, pages: &[u64]) -> bool {
        let mut out = [Visibility::Private; 512];
        let given = self.query_host_visibility(pages, &mut out);
        black_box(&out);
        given.is_ok()
    }
}

fn flags(bits: u8) -> HvMapGpaFlags {
    HvMapGpaFlags::from_bits(bits.into())
}

/// The original's protector, and views of its mappings that faults are put to.
struct Original {
    mappings: MemoryMappings,
    encrypted: Box<dyn GuestMemoryAccess>,
    shared: Box<dyn GuestMemoryAccess>,
}

impl Subject for Original {
    fn change(&mut self, shared: bool, pages: &[u64]) -> bool {
        let protector = &self.mappings.protector;
        let changed = protector.change_host_visibility(GuestVtl::Vtl0, shared, pages, &mut Idle);
        changed.is_ok()
    }

    fn protect(&mut self, bits: u8, pages: &[u64]) -> bool {
        let protector = &self.mappings.protector;
        let changed =
            protector.change_vtl_protections(GuestVtl::Vtl0, pages, flags(bits), &mut Idle);
        changed.is_ok()
    }

    fn set_default(&mut self, bits: u8) -> bool {
        let protector = &self.mappings.protector;
        let changed =
            protector.change_default_vtl_protections(GuestVtl::Vtl0, flags(bits), &mut Idle);
        changed.is_ok()
    }

    fn register(&mut self, gpn: u64) -> bool {
        let source = virt_mshv_vtl::GpnSource::GuestMemory;
        let (vtl, new) = (GuestVtl::Vtl0, Some(flags(3)));
        let protector = &self.mappings.protector;
        let registered =
            protector.register_overlay_page(vtl, gpn, source, flags(0), new, &mut Idle);
        registered.is_ok()
    }

    fn unregister(&mut self, gpn: u64) -> bool {
        let protector = &self.mappings.protector;
        let gone = protector.unregister_overlay_page(GuestVtl::Vtl0, gpn, &mut Idle);
        gone.is_ok()
    }

    fn lock(&mut self, pages: &[u64]) -> bool {
        self.mappings
            .protector
            .lock_gpns(GuestVtl::Vtl0, pages)
            .is_ok()
    }

    fn unlock(&mut self, pages: &[u64]) -> bool {
        self.mappings.protector.unlock_gpns(GuestVtl::Vtl0, pages);
        true
    }

    fn fault(&mut self, shared: bool, address: u64) -> bool {
        let view = match shared {
            true => &self.shared,
            false => &self.encrypted,
        };
        let action = view.page_fault(address, 1, false, true);
        matches!(action, PageFaultAction::Retry)
    }

    fn lower(&mut self, gpn: u64) -> bool {
        let given = self
            .mappings
            .query_lower_vtl_permissions(GuestVtl::Vtl0, gpn);
        given.is_ok_and(|given| given.into_bits() == flags(15).into_bits())
    }

    fn access(&mut self, gpn: u64) -> bool {
        let given = self.mappings.query_access_permission(gpn);
        given.is_some_and(|given| given.into_bits() == flags(15).into_bits())
    }

    fn query(&mut self, pages: &[u64]) -> bool {
        let mut out = [HostVisibilityType::PRIVATE; 512];
        let protector = &self.mappings.protector;
        let given = protector.query_host_visibility(pages, &mut out);
        black_box(&out);
        given.is_ok()
    }
}

/// What VTL0 has besides, at the end of memory.
#[derive(Clone, Copy)]
pub struct Held {
    pub overlays: u64,
    pub lists: u64,
    /// How many pages each locked list has.
    pub list: u64,
}

impl Held {
    pub const NOTHING: Held = Held {
        overlays: 0,
        lists: 0,
        list: 0,
    };

    /// As much as the tables take.
    pub const FULL: Held = Held {
        overlays: 128,
        lists: 64,
        list: 16,
    };
}

/// Overlays of the last pages, and locked lists of pages before them; whether all went well.
pub fn hold(subject: &mut dyn Subject, end: u64, held: Held) -> bool {
    let end = end / 4096;
    let mut overlays = end - held.overlays..end;
    let first = end - 2000;
    let mut lists = (0..held.lists).map(|i| first + i * held.list);
    overlays.all(|gpn| subject.register(gpn))
        && lists.all(|first| subject.lock(&Vec::from_iter(first..first + held.list)))
}

/// A protector of one entry of RAM, permissions tracked.
pub fn subject(kind: Kind, isolation: IsolationType, end: u64) -> Box<dyn Subject> {
    match kind {
        Kind::Port => Box::new(port(isolation, end)),
        Kind::Original => Box::new(original(isolation, end)),
    }
}

fn port(isolation: IsolationType, end: u64) -> HardwareIsolatedMemoryProtector {
    let ram = [underhill_mem_port::MemoryRangeWithNode {
        range: underhill_mem_port::MemoryRange { start: 0, end },
        vnode: 0,
    }];
    HardwareIsolatedMemoryProtector::new(&ram, isolation, true, false).expect("the layout is fit")
}

fn original(isolation: IsolationType, end: u64) -> Original {
    let ram = vec![MemoryRangeWithNode {
        range: MemoryRange::new(0..end),
        vnode: 0,
    }];
    let params = Init {
        isolation: match isolation {
            IsolationType::Snp => virt::IsolationType::Snp,
            IsolationType::Tdx => virt::IsolationType::Tdx,
            IsolationType::Cca => virt::IsolationType::Cca,
        },
        tracked: true,
        layout: MemoryLayout::new(ram).expect("the layout is fit"),
        vp_count: 2,
    };
    let mappings = underhill_mem_source::init(&params).expect("the layout is fit");
    let view = |side| Box::new(mappings.view(side, underhill_mem_source::View::Read));
    Original {
        encrypted: view(Side::Encrypted),
        shared: view(Side::Shared),
        mappings,
    }
}
