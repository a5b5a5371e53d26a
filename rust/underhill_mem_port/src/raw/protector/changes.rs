//! The entries of protections, defaults, overlays and locks.

use super::Lent;
use super::Maps;
use super::Reply;
use super::Value;
use super::entries;

/// No new flags, in the place of some.
pub const NO_FLAGS: u64 = 16;

/// `flags` are 0 to 15; `list` has eight bytes a page, the lowest first. Marks and tables are read
/// only.
pub fn change_vtl_protections(lent: Lent<'_>, vtl: u64, flags: u64, list: &[u8]) -> Reply {
    call!(
        protector_change_vtl_protections,
        [],
        lent,
        [vtl, flags, list]
    )
}

/// `flags` are 0 to 15. Marks and the table of pages are read only.
pub fn change_default_vtl_protections(lent: Lent<'_>, vtl: u64, flags: u64) -> Reply {
    call!(
        protector_change_default_vtl_protections,
        [],
        lent,
        [vtl, flags]
    )
}

/// `source` is 0 for guest memory, 1 for Dma; `checked` are flags, `new` flags or [`NO_FLAGS`].
/// Marks and the table of pages are read only.
pub fn register_overlay_page(
    lent: Lent<'_>,
    vtl: u64,
    gpn: u64,
    source: u64,
    checked: u64,
    new: u64,
) -> Reply {
    call!(
        protector_register_overlay_page,
        [],
        lent,
        [vtl, gpn, source, checked, new]
    )
}

/// Marks and the table of pages are read only.
pub fn unregister_overlay_page(lent: Lent<'_>, vtl: u64, gpn: u64) -> Reply {
    call!(protector_unregister_overlay_page, [], lent, [vtl, gpn])
}

/// The answer is 0 or 1.
pub fn is_overlay_page(state: &[u64], tables: &[u64], vtl: u64, gpn: u64) -> Value {
    entries::protector_is_overlay_page(state, tables, vtl, gpn)
}

/// `list` has eight bytes a page, the lowest first.
pub fn lock_gpns(state: &[u64], tables: &mut [u64], vtl: u64, list: &[u8]) -> Reply {
    entries::protector_lock_gpns(state, tables, vtl, list)
}

/// `list` has eight bytes a page, the lowest first.
pub fn unlock_gpns(state: &[u64], tables: &mut [u64], vtl: u64, list: &[u8]) -> Reply {
    entries::protector_unlock_gpns(state, tables, vtl, list)
}

/// Nothing takes it back.
pub fn set_vtl1_protections_enabled(state: &mut [u64]) -> Reply {
    entries::protector_set_vtl1_protections_enabled(state)
}

/// The answer is 0 or 1.
pub fn vtl1_protections_enabled(state: &[u64]) -> Value {
    entries::protector_vtl1_protections_enabled(state)
}

/// The answer is flags.
pub fn default_vtl0_protections(state: &[u64]) -> Value {
    entries::protector_default_vtl0_protections(state)
}
