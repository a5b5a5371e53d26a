//! Ours, in the place of the original's init.rs: builds a protector or a registrar, and reads
//! what only a child of the source's root may read.

use super::GpaVtlPermissions;
use super::HardwareIsolatedMemoryProtector;
use super::MemoryAcceptor;
use super::MshvVtlWithPolicy;
use super::OverlayPage;
use super::mapping::GuestMemoryMapping;
use super::mapping::GuestMemoryView;
use super::mapping::GuestMemoryViewReadType;
use super::mapping::GuestPartitionMemoryView;
use super::mapping::GuestValidMemoryType;
use super::mapping::MappingError;
use super::registrar::MemoryRegistrar;
use super::registrar::RegisterAllError;
use guestmem::GuestMemoryAccess;
use hcl::GuestVtl;
use hcl::ioctl::Mshv;
use hcl::ioctl::MshvVtlLow;
use hvdef::HvError;
use hvdef::HvMapGpaFlags;
use memory_range::MemoryRange;
use sparse_mmap::Memory;
use std::sync::Arc;
use virt::IsolationType;
use virt_mshv_vtl::GpnSource;
use vm_topology::memory::MemoryLayout;

/// What a protector is built from.
pub struct Init {
    pub isolation: IsolationType,
    /// Whether VTL0's permissions are tracked.
    pub tracked: bool,
    pub layout: MemoryLayout,
    /// Sets the number of threads of a default change: one below 3, else one less.
    pub vp_count: u32,
}

/// A protector and the mappings that it works on.
pub struct MemoryMappings {
    pub protector: Arc<HardwareIsolatedMemoryProtector>,
    encrypted: Arc<GuestMemoryMapping>,
    shared: Arc<GuestMemoryMapping>,
}

/// Builds the two mappings and the protector over them.
pub fn init(params: &Init) -> Result<MemoryMappings, BootInit::BuildError> {
    let layout = &params.layout;
    let low = MshvVtlLow::new()?;
    let encrypted_view =
        GuestPartitionMemoryView::new(layout, GuestValidMemoryType::Encrypted, true)?;
    let encrypted = GuestMemoryMapping::builder(0)
        .use_permissions_bitmaps(params.tracked.then_some(true))
        .build_with_bitmap(&low, &encrypted_view)?;
    let encrypted = Arc::new(encrypted);
    let shared_view = GuestPartitionMemoryView::new(layout, GuestValidMemoryType::Shared, false)?;
    let shared = GuestMemoryMapping::builder(0)
        .shared(true)
        .build_with_bitmap(&low, &shared_view)?;
    let protector = HardwareIsolatedMemoryProtector::new(
        encrypted_view.partition_valid_memory(),
        shared_view.partition_valid_memory(),
        encrypted.clone(),
        encrypted.clone(),
        layout.clone(),
        Arc::new(MemoryAcceptor::new(params.isolation)?),
        params.vp_count,
    );
    Ok(MemoryMappings {
        protector: Arc::new(protector),
        encrypted,
        shared: Arc::new(shared),
    })
}

impl MemoryMappings {
    /// The protector's own query.
    pub fn query_lower_vtl_permissions(
        &self,
        vtl: GuestVtl,
        gpn: u64,
    ) -> Result<HvMapGpaFlags, HvError> {
        self.protector.query_lower_vtl_permissions(vtl, gpn)
    }

    /// The mapping's own query; none where permissions aren't tracked.
    pub fn query_access_permission(&self, gpn: u64) -> Option<HvMapGpaFlags> {
        self.encrypted.query_access_permission(gpn).ok()
    }

    /// A view of a mapping, which faults are put to.
    pub fn view(&self, side: BootInit::Side, view: BootInit::View) -> impl GuestMemoryAccess + use<> {
        let mapping = match side {
            BootInit::Side::Encrypted => &self.encrypted,
            BootInit::Side::Shared => &self.shared,
        };
        let view = match view {
            BootInit::View::Read => GuestMemoryViewReadType::Read,
            BootInit::View::KernelExecute => GuestMemoryViewReadType::KernelExecute,
            BootInit::View::UserExecute => GuestMemoryViewReadType::UserExecute,
        };
        let protector = self.protector.clone();
        GuestMemoryView::new(Some(protector), mapping.clone(), view, GuestVtl::Vtl0)
    }

    /// The defaults, overlays and locks.
    pub fn tables(&self) -> BootInit::Tables {
        let inner = self.protector.inner.lock();
        let vtls = [GuestVtl::Vtl0, GuestVtl::Vtl1];
        BootInit::Tables {
            default0: inner.default_vtl_permissions.vtl0,
            default1: inner.default_vtl_permissions.vtl1,
            overlays: vtls.map(|vtl| inner.overlay_pages[vtl].iter().map(overlay).collect()),
            locks: vtls.map(|vtl| inner.locked_pages[vtl].iter().map(|l| l.to_vec()).collect()),
        }
    }

    /// The bitmaps: private, shared, read, write, kernel execute, user execute; the last four
    /// only if tracked. They are private to the source's mapping module, so each is found by its
    /// field's name in what Debug shows.
    pub fn maps(&self) -> [Option<Arc<Memory>>; 6] {
        let encrypted = format!("{:?}", self.encrypted);
        let shared = format!("{:?}", self.shared);
        [
            named_map(&encrypted, "valid_bitmap"),
            named_map(&shared, "valid_bitmap"),
            named_map(&encrypted, "read_bitmap"),
            named_map(&encrypted, "write_bitmap"),
            named_map(&encrypted, "kernel_execute_bitmap"),
            named_map(&encrypted, "user_execute_bitmap"),
        ]
    }
}

fn overlay(page: &OverlayPage) -> BootInit::Overlay {
    BootInit::Overlay {
        page: page.gpn,
        previous: page.previous_permissions,
        own: page.overlay_permissions,
        count: page.ref_count,
        source: page.gpn_source,
    }
}

/// The map behind ` field: .. SparseMapping(NUMBER)`.
fn named_map(shown: &str, field: &str) -> Option<Arc<Memory>> {
    let (_, rest) = shown.split_once(&format!(" {field}: "))?;
    let (_, rest) = rest.split_once("SparseMapping(")?;
    let (number, _) = rest.split_once(')')?;
    sparse_mmap::find(number.parse().ok()?)
}

/// The words behind ` field: Bitmap([WORD, ..])`.
fn named_words(shown: &str, field: &str) -> Vec<u64> {
    let words = shown
        .split_once(&format!(" {field}: Bitmap(["))
        .and_then(|(_, rest)| rest.split_once(']'))
        .expect("the registrar shows its bitmaps");
    let number = |word: &str| word.parse().expect("a number");
    match words.0 {
        "" => Vec::new(),
        list => list.split(", ").map(number).collect(),
    }
}

/// The source's root hands on four names of this module, one of them this: a module, so that all
/// else can come along.
#[expect(non_snake_case)]
pub mod BootInit {
    use super::*;

    /// Names that the source's own modules reach from their crate root.
    pub(crate) mod names {
        pub(crate) use super::super::super::registrar::MemoryRegistrar;
        pub(crate) use super::super::super::registrar::RegisterAllError;

        pub(crate) type MshvVtlWithPolicy = super::super::super::MshvVtlWithPolicy;
        pub(crate) type RegistrationError = super::super::super::RegistrationError;
        #[expect(non_upper_case_globals)]
        pub(crate) const RegistrationError: RegistrationError = super::super::super::RegistrationError;
    }

    /// A build that failed: the name of the case.
    #[derive(Debug, Clone, PartialEq, Eq)]
    pub struct BuildError(pub &'static str);

    impl From<MappingError> for BuildError {
        fn from(error: MappingError) -> Self {
            Self(match error {
                MappingError::Reserve(_) => "Reserve",
                MappingError::Map(_) => "Map",
                MappingError::BitmapReserve(_) => "BitmapReserve",
                MappingError::BitmapMap(_) => "BitmapMap",
                MappingError::BitmapProtect(_) => "BitmapProtect",
                MappingError::BadAlignment(_) => "BadAlignment",
                MappingError::OpenDevice(_) => "OpenDevice",
            })
        }
    }

    impl From<hcl::ioctl::Error> for BuildError {
        fn from(_: hcl::ioctl::Error) -> Self {
            Self("OpenDevice")
        }
    }

    /// Which mapping a fault is on.
    #[derive(Debug, Clone, Copy, PartialEq, Eq)]
    pub enum Side {
        Encrypted,
        Shared,
    }

    /// Which view of it.
    #[derive(Debug, Clone, Copy, PartialEq, Eq)]
    pub enum View {
        Read,
        KernelExecute,
        UserExecute,
    }

    /// What the protector keeps besides its maps, by VTL and in table order.
    #[derive(Debug, Clone, PartialEq, Eq)]
    pub struct Tables {
        pub default0: HvMapGpaFlags,
        pub default1: Option<HvMapGpaFlags>,
        pub overlays: [Vec<Overlay>; 2],
        pub locks: [Vec<Vec<u64>>; 2],
    }

    /// One overlay page.
    #[derive(Debug, Clone, PartialEq, Eq)]
    pub struct Overlay {
        pub page: u64,
        pub previous: HvMapGpaFlags,
        pub own: HvMapGpaFlags,
        pub count: u16,
        pub source: GpnSource,
    }

    /// The RMPADJUST operand for a VTL's flags.
    pub fn snp_operand(vtl: GuestVtl, flags: HvMapGpaFlags) -> u64 {
        match GpaVtlPermissions::new(IsolationType::Snp, vtl, flags) {
            GpaVtlPermissions::Snp(operand) => operand.into_bits(),
            _ => unreachable!("SNP was asked for"),
        }
    }

    /// The TDX attributes for a VTL's flags, and the mask.
    pub fn tdx_attributes(vtl: GuestVtl, flags: HvMapGpaFlags) -> (u64, u64) {
        match GpaVtlPermissions::new(IsolationType::Tdx, vtl, flags) {
            GpaVtlPermissions::Tdx(attr, mask) => (attr.into_bits(), mask.into_bits()),
            _ => unreachable!("TDX was asked for"),
        }
    }

    /// A registrar on its own.
    pub struct Registrar(MemoryRegistrar<MshvVtlWithPolicy>);

    /// Why not all RAM was registered.
    #[derive(Debug, Clone, PartialEq, Eq)]
    pub enum NotAll {
        Failed {
            address: u64,
        },
        Unaligned {
            span: MemoryRange,
            edge: MemoryRange,
            vnode: u32,
            node_range: MemoryRange,
            alignment: u64,
        },
    }

    impl Registrar {
        pub fn new(layout: &MemoryLayout, offset: u64, granularity: u64) -> Self {
            let mshv = Mshv::new().expect("the stand-in opens");
            let register = MshvVtlWithPolicy {
                mshv_vtl: mshv.create_vtl().expect("the stand-in opens"),
                ignore_registration_failure: false,
                shared: false,
            };
            Self(MemoryRegistrar::new(layout, offset, granularity, register))
        }

        /// The error is an address.
        pub fn register(&self, address: u64, len: u64) -> Result<(), u64> {
            self.0.register(address, len)
        }

        pub fn register_all_aligned(
            &self,
            alignment: u64,
            ignore_edges: bool,
        ) -> Result<(), NotAll> {
            let result = self.0.register_all_aligned(alignment, ignore_edges);
            result.map_err(|error| match error {
                RegisterAllError::RegistrationFailed { address } => NotAll::Failed { address },
                RegisterAllError::UnalignedMemory {
                    span,
                    edge,
                    vnode,
                    node_range,
                    alignment,
                } => NotAll::Unaligned {
                    span,
                    edge,
                    vnode,
                    node_range,
                    alignment,
                },
            })
        }

        /// The words of registered and failed chunks. They are private to the source's registrar
        /// module, so they are read from what Debug shows.
        pub fn words(&self) -> (Vec<u64>, Vec<u64>) {
            let shown = format!("{:?}", self.0);
            (
                named_words(&shown, "registered"),
                named_words(&shown, "failed"),
            )
        }
    }
}
