//! The proved port of underhill_mem, for Rust.
//!
//! The port is one static library, which the build script makes with `rt lib`. It
//! holds no memory of its own: each call is lent a state block and bitmaps, and asks one backend
//! operation at a time instead of calling back. This crate owns that memory, speaks in Rust's types
//! and drives a call to its end over a backend. Nothing is decided here: each answer is the
//! library's own.
//!
//! - [`HardwareIsolatedMemoryProtector`] takes the place of the original's; its [`Backend`] has a
//!   method for each operation.
//! - [`MemoryRegistrar`] takes the place of the original's `MemoryRegistrar`.
//! - [`raw`] has the library's entries as they are, over lent slices of any length.
//!
//! Refusals go by document 01's numbers, [`Refusal`].
//!
//! # Example
//!
//! [`HardwareIsolatedMemoryProtector`] has one of its own; this is the registrar's.
//!
//! ```
//! use underhill_mem_port::{MemoryRange, MemoryRangeWithNode, MemoryRegistrar, RegisterError};
//!
//! // RAM pages 0 to 15 and 32 to 39, in chunks of 64 KiB.
//! let ram = [
//!     MemoryRangeWithNode { range: MemoryRange { start: 0, end: 65_536 }, vnode: 0 },
//!     MemoryRangeWithNode { range: MemoryRange { start: 131_072, end: 163_840 }, vnode: 7 },
//! ];
//! let mut registrar = MemoryRegistrar::new(&ram, 0, 65_536)?;
//!
//! // The backend: any FnMut(MemoryRange) -> Result, or a type of your own.
//! let mut asked = Vec::new();
//! let mut kernel = |range: MemoryRange| {
//!     asked.push(range);
//!     Ok::<(), std::io::Error>(())
//! };
//!
//! // One page is widened to its chunk; asked for again, it is known.
//! assert_eq!(registrar.register(4096, 1, &mut kernel), Ok(1));
//! assert_eq!(registrar.register(8192, 1, &mut kernel), Ok(0));
//! assert_eq!(asked, [MemoryRange { start: 0, end: 65_536 }]);
//!
//! // Nothing of the second span is aligned to 64 KiB.
//! match registrar.register_all_aligned(65_536, false, &mut |_| Ok::<(), std::io::Error>(())) {
//!     Err(RegisterError::Unaligned { memory, count: 0 }) => assert_eq!(memory.vnode, 7),
//!     other => panic!("{other:?}"),
//! }
//!
//! // Step by step: the operation is asked for, and the caller answers when it is done.
//! registrar.start_register(131_072, 1)?;
//! assert_eq!(registrar.asked(), Some(MemoryRange { start: 131_072, end: 163_840 }));
//! registrar.answer_done()?;
//! assert_eq!(registrar.asked(), None);
//! # Ok::<(), Box<dyn std::error::Error>>(())
//! ```

#![warn(missing_docs)]

mod protector;
pub mod raw;
mod refusal;
mod registrar;

pub use protector::Backend;
pub use protector::ChangeError;
pub use protector::Fault;
pub use protector::Flags;
pub use protector::GpnSource;
pub use protector::GuestVtl;
pub use protector::HardwareIsolatedMemoryProtector;
pub use protector::IsolationType;
pub use protector::Mapping;
pub use protector::ModifyError;
pub use protector::NotRam;
pub use protector::Operation;
pub use protector::Overlay;
pub use protector::PageRun;
pub use protector::Progress;
pub use protector::Protect;
pub use protector::QueryError;
pub use protector::View;
pub use protector::Visibility;
pub use refusal::Refusal;
pub use registrar::BuildError;
pub use registrar::MemoryRange;
pub use registrar::MemoryRangeWithNode;
pub use registrar::MemoryRegistrar;
pub use registrar::RegisterError;
pub use registrar::RegisterMemory;
pub use registrar::Step;
pub use registrar::UnalignedMemory;
