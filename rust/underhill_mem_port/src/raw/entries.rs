//! The entries, declared as they are in the crates of the library. A test holds these declarations
//! against those and against `include/underhill_mem.h`.

use super::protector;
use super::registrar;

/// Declares entries, each a safe function.
macro_rules! entries {
    ($($name:ident($($arguments:tt)*) -> $gives:ty;)*) => {
        $(entry! { $name [] [] [] [$($arguments)*] $gives })*
    };
}

/// Takes the arguments one by one: as C has them, as Rust has them, as they are handed over. A
/// slice crosses as its pointer and its length.
macro_rules! entry {
    ($name:ident [$($c:tt)*] [$($rust:tt)*] [$($given:tt)*] [] $gives:ty) => {
        #[inline]
        #[allow(clippy::too_many_arguments)]
        pub(super) fn $name($($rust)*) -> $gives {
            unsafe extern "C" {
                fn $name($($c)*) -> $gives;
            }
            // SAFETY: the pointers and lengths are of slices that are borrowed for the call, those
            // that are written exclusively. The entry reads and writes inside them alone, keeps
            // none, and takes any length, any bytes and any words: that is proved of it.
            unsafe { $name($($given)*) }
        }
    };
    (
        $name:ident [$($c:tt)*] [$($rust:tt)*] [$($given:tt)*]
        [$arg:ident: &mut [$word:ty], $($rest:tt)*] $gives:ty
    ) => {
        entry! {
            $name [$($c)* $arg: *mut $word, _: usize,] [$($rust)* $arg: &mut [$word],]
            [$($given)* $arg.as_mut_ptr(), $arg.len(),] [$($rest)*] $gives
        }
    };
    (
        $name:ident [$($c:tt)*] [$($rust:tt)*] [$($given:tt)*]
        [$arg:ident: &[$word:ty], $($rest:tt)*] $gives:ty
    ) => {
        entry! {
            $name [$($c)* $arg: *const $word, _: usize,] [$($rust)* $arg: &[$word],]
            [$($given)* $arg.as_ptr(), $arg.len(),] [$($rest)*] $gives
        }
    };
    (
        $name:ident [$($c:tt)*] [$($rust:tt)*] [$($given:tt)*]
        [$arg:ident: $word:ty, $($rest:tt)*] $gives:ty
    ) => {
        entry! {
            $name [$($c)* $arg: $word,] [$($rust)* $arg: $word,] [$($given)* $arg,] [$($rest)*] $gives
        }
    };
}

entries! {
    registrar_build(
        ram: &[u64], offset: u64, granularity: u64, state: &mut [u64], registered: &mut [u64],
        failed: &mut [u64],
    ) -> registrar::Reply;

    registrar_register(
        state: &mut [u64], registered: &mut [u64], failed: &mut [u64], address: u64, len: u64,
    ) -> registrar::Reply;

    registrar_register_all_aligned(
        state: &mut [u64], registered: &mut [u64], failed: &mut [u64], alignment: u64,
        ignore_unaligned_ranges: u64,
    ) -> registrar::Reply;

    registrar_answer_done(
        state: &mut [u64], registered: &mut [u64], failed: &mut [u64],
    ) -> registrar::Reply;

    registrar_answer_failed(
        state: &mut [u64], registered: &mut [u64], failed: &mut [u64],
    ) -> registrar::Reply;

    protector_build(
        ram: &[u64], isolation: u64, tracked: u64, release: u64, private: &mut [u8],
        shared: &mut [u8], read: &mut [u8], write: &mut [u8], kernel: &mut [u8],
        user: &mut [u8], state: &mut [u64], pages: &mut [u64], tables: &mut [u64],
    ) -> protector::Reply;

    protector_change_host_visibility(
        private: &mut [u8], shared: &mut [u8], read: &mut [u8], write: &mut [u8],
        kernel: &mut [u8], user: &mut [u8], state: &mut [u64], pages: &mut [u64],
        tables: &[u64], vtl: u64, visibility: u64, list: &[u8],
    ) -> protector::Reply;

    protector_answer_done(
        private: &mut [u8], shared: &mut [u8], read: &mut [u8], write: &mut [u8],
        kernel: &mut [u8], user: &mut [u8], state: &mut [u64], pages: &mut [u64],
        tables: &mut [u64],
    ) -> protector::Reply;

    protector_answer_failed(
        private: &mut [u8], shared: &mut [u8], read: &mut [u8], write: &mut [u8],
        kernel: &mut [u8], user: &mut [u8], state: &mut [u64], pages: &mut [u64],
        tables: &mut [u64], code: u16, processed: u64,
    ) -> protector::Reply;

    protector_query_host_visibility(
        state: &[u64], shared: &[u8], list: &[u8], out: &mut [u8],
    ) -> protector::Reply;

    protector_page_fault(
        private: &[u8], shared: &[u8], read: &[u8], write: &[u8], kernel: &[u8], user: &[u8],
        state: &[u64], mapping: u64, view: u64, address: u64, writes: u64, failure: u64,
    ) -> protector::Value;

    protector_query_lower_vtl_permissions(
        private: &[u8], shared: &[u8], read: &[u8], write: &[u8], kernel: &[u8], user: &[u8],
        state: &[u64], vtl: u64, gpn: u64,
    ) -> protector::Value;

    protector_query_access_permission(
        private: &[u8], shared: &[u8], read: &[u8], write: &[u8], kernel: &[u8], user: &[u8],
        state: &[u64], gpn: u64,
    ) -> protector::Value;

    protector_change_vtl_protections(
        private: &[u8], shared: &[u8], read: &mut [u8], write: &mut [u8], kernel: &mut [u8],
        user: &mut [u8], state: &mut [u64], pages: &mut [u64], tables: &[u64], vtl: u64,
        flags: u64, list: &[u8],
    ) -> protector::Reply;

    protector_change_default_vtl_protections(
        private: &[u8], shared: &[u8], read: &mut [u8], write: &mut [u8], kernel: &mut [u8],
        user: &mut [u8], state: &mut [u64], pages: &[u64], tables: &mut [u64], vtl: u64,
        flags: u64,
    ) -> protector::Reply;

    protector_set_vtl1_protections_enabled(
        state: &mut [u64],
    ) -> protector::Reply;

    protector_vtl1_protections_enabled(
        state: &[u64],
    ) -> protector::Value;

    protector_default_vtl0_protections(
        state: &[u64],
    ) -> protector::Value;

    protector_register_overlay_page(
        private: &[u8], shared: &[u8], read: &mut [u8], write: &mut [u8], kernel: &mut [u8],
        user: &mut [u8], state: &mut [u64], pages: &[u64], tables: &mut [u64], vtl: u64,
        gpn: u64, source: u64, checked: u64, new: u64,
    ) -> protector::Reply;

    protector_unregister_overlay_page(
        private: &[u8], shared: &[u8], read: &mut [u8], write: &mut [u8], kernel: &mut [u8],
        user: &mut [u8], state: &mut [u64], pages: &[u64], tables: &mut [u64], vtl: u64,
        gpn: u64,
    ) -> protector::Reply;

    protector_is_overlay_page(
        state: &[u64], tables: &[u64], vtl: u64, gpn: u64,
    ) -> protector::Value;

    protector_lock_gpns(
        state: &[u64], tables: &mut [u64], vtl: u64, list: &[u8],
    ) -> protector::Reply;

    protector_unlock_gpns(
        state: &[u64], tables: &mut [u64], vtl: u64, list: &[u8],
    ) -> protector::Reply;
}
