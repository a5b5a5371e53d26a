//! The three files of underhill_mem, compiled unchanged, as the module `unchanged`.
//!
//! They were written as a crate root and its modules. A crate root can't be taken from the build
//! folder (`include!` doesn't take its inner attributes), a module can; so the few names that they
//! reach by `crate::` are given again here. Some of those names are private to them: our init.rs,
//! which their root declares as its child, may see them and hands them on.

include!(concat!(env!("OUT_DIR"), "/module.rs"));

pub use unchanged::BootInit::*;
pub use unchanged::HardwareIsolatedMemoryProtector;
pub use unchanged::Init;
pub use unchanged::MemoryMappings;
pub use unchanged::init;

mod registrar {
    pub(crate) use crate::unchanged::BootInit::names::MemoryRegistrar;
    pub(crate) use crate::unchanged::BootInit::names::RegisterAllError;
}
pub(crate) use unchanged::BootInit::names::MshvVtlWithPolicy;
pub(crate) use unchanged::BootInit::names::RegistrationError;
