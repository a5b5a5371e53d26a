//! Protections, defaults, overlays and locks.

use super::*;

/// Where an overlay page's memory is.
#[derive(Debug, Clone, Copy, PartialEq, Eq, Hash)]
#[repr(u8)]
pub enum GpnSource {
    /// The guest's RAM.
    GuestMemory = 0,
    /// Device memory: no page of it is RAM, and no permission map has it.
    Dma = 1,
}

/// An overlay page to register.
#[derive(Debug, Clone, Copy, PartialEq, Eq, Hash)]
pub struct Overlay {
    /// Its number.
    pub gpn: u64,
    /// Where its memory is.
    pub source: GpnSource,
    /// What the VTL must be permitted now; of a Dma page not looked at.
    pub checked: Flags,
    /// What it is to be permitted from now on; none leaves it as it is.
    pub new: Option<Flags>,
}

/// The calls that ask for operations. Each gives the number of operations asked.
impl HardwareIsolatedMemoryProtector {
    /// Changes what a VTL may do with pages of the list, at most 512 of them.
    ///
    /// Refused where a page isn't RAM, is locked or an overlay of that VTL, or is shared. A Protect
    /// that fails halts the protector.
    pub fn change_vtl_protections(
        &mut self,
        vtl: GuestVtl,
        gpns: &[u64],
        flags: Flags,
        backend: &mut impl Backend,
    ) -> Result<u64, ChangeError> {
        let reply = self.change_protections(vtl, gpns, flags);
        self.drive(reply, backend)
    }

    /// Begins [`change_vtl_protections`](Self::change_vtl_protections).
    pub fn start_change_vtl_protections(
        &mut self,
        vtl: GuestVtl,
        gpns: &[u64],
        flags: Flags,
    ) -> Result<Progress<'_>, ChangeError> {
        let reply = self.change_protections(vtl, gpns, flags);
        self.progress(reply)
    }

    /// Changes what a VTL may do with a page by default, and with every private page now.
    ///
    /// Pages are protected in ascending order. An overlay of that VTL keeps its permissions, and
    /// gets the new ones when it is unregistered. Where a private page is locked the call is refused
    /// by [`Refusal::Locked`], yet the new default stands. A Protect that fails halts the
    /// protector.
    pub fn change_default_vtl_protections(
        &mut self,
        vtl: GuestVtl,
        flags: Flags,
        backend: &mut impl Backend,
    ) -> Result<u64, ChangeError> {
        let reply = self.change_default(vtl, flags);
        self.drive(reply, backend)
    }

    /// Begins [`change_default_vtl_protections`](Self::change_default_vtl_protections).
    pub fn start_change_default_vtl_protections(
        &mut self,
        vtl: GuestVtl,
        flags: Flags,
    ) -> Result<Progress<'_>, ChangeError> {
        let reply = self.change_default(vtl, flags);
        self.progress(reply)
    }

    /// Makes a page an overlay of a VTL, or counts it once more if it is one.
    ///
    /// At most 128 pages of a VTL, and a count of at most 65,535. Where Protect fails the page is
    /// no overlay: [`ChangeError::Failed`] with code 8, yet the permission maps have the new flags.
    pub fn register_overlay_page(
        &mut self,
        vtl: GuestVtl,
        overlay: Overlay,
        backend: &mut impl Backend,
    ) -> Result<u64, ChangeError> {
        let reply = self.register_overlay(vtl, overlay);
        self.drive(reply, backend)
    }

    /// Begins [`register_overlay_page`](Self::register_overlay_page).
    pub fn start_register_overlay_page(
        &mut self,
        vtl: GuestVtl,
        overlay: Overlay,
    ) -> Result<Progress<'_>, ChangeError> {
        let reply = self.register_overlay(vtl, overlay);
        self.progress(reply)
    }

    /// Counts an overlay page once less, and gives it its permissions back once none is left.
    ///
    /// Where Protect fails it stays an overlay: [`ChangeError::Failed`] with code 8.
    pub fn unregister_overlay_page(
        &mut self,
        vtl: GuestVtl,
        gpn: u64,
        backend: &mut impl Backend,
    ) -> Result<u64, ChangeError> {
        let reply = self.unregister_overlay(vtl, gpn);
        self.drive(reply, backend)
    }

    /// Begins [`unregister_overlay_page`](Self::unregister_overlay_page).
    pub fn start_unregister_overlay_page(
        &mut self,
        vtl: GuestVtl,
        gpn: u64,
    ) -> Result<Progress<'_>, ChangeError> {
        let reply = self.unregister_overlay(vtl, gpn);
        self.progress(reply)
    }

    fn change_protections(&mut self, vtl: GuestVtl, gpns: &[u64], flags: Flags) -> Reply {
        let (vtl, flags) = (number(vtl), u64::from(flags.bits()));
        raw::change_vtl_protections(self.lent(), vtl, flags, raw::list(gpns))
    }

    fn change_default(&mut self, vtl: GuestVtl, flags: Flags) -> Reply {
        let (vtl, flags) = (number(vtl), u64::from(flags.bits()));
        raw::change_default_vtl_protections(self.lent(), vtl, flags)
    }

    fn register_overlay(&mut self, vtl: GuestVtl, overlay: Overlay) -> Reply {
        let Overlay { gpn, source, .. } = overlay;
        let checked = u64::from(overlay.checked.bits());
        let new = overlay.new.map_or(raw::NO_FLAGS, |new| new.bits().into());
        let source = u64::from(source as u8);
        raw::register_overlay_page(self.lent(), number(vtl), gpn, source, checked, new)
    }

    fn unregister_overlay(&mut self, vtl: GuestVtl, gpn: u64) -> Reply {
        raw::unregister_overlay_page(self.lent(), number(vtl), gpn)
    }
}

/// The calls that ask for none. While an operation is asked for they are refused too.
impl HardwareIsolatedMemoryProtector {
    /// Whether a page is an overlay of a VTL.
    pub fn is_overlay_page(&self, vtl: GuestVtl, gpn: u64) -> Result<bool, Refusal> {
        let (state, tables) = (&self.state[..], &self.tables[..]);
        value(raw::is_overlay_page(state, tables, number(vtl), gpn)).map(|is| is == 1)
    }

    /// Locks the pages of a list for a VTL: until they are unlocked, changes of any of them are
    /// refused, unless it is an overlay.
    ///
    /// A page may be locked more than once. At most 64 lists of a VTL, of 1,024 pages in all.
    pub fn lock_gpns(&mut self, vtl: GuestVtl, gpns: &[u64]) -> Result<(), Refusal> {
        let (state, tables) = (&self.state[..], &mut self.tables[..]);
        ended(&raw::lock_gpns(state, tables, number(vtl), raw::list(gpns)))
    }

    /// Unlocks a list that was locked, in the same order. Where there is none the original panics;
    /// here that is [`Refusal::NotLocked`].
    pub fn unlock_gpns(&mut self, vtl: GuestVtl, gpns: &[u64]) -> Result<(), Refusal> {
        let (state, tables) = (&self.state[..], &mut self.tables[..]);
        ended(&raw::unlock_gpns(
            state,
            tables,
            number(vtl),
            raw::list(gpns),
        ))
    }

    /// From now on VTL0 may share only what it may read and write. Nothing takes it back.
    pub fn set_vtl1_protections_enabled(&mut self) -> Result<(), Refusal> {
        ended(&raw::set_vtl1_protections_enabled(&mut self.state[..]))
    }

    /// Whether that was set.
    pub fn vtl1_protections_enabled(&self) -> Result<bool, Refusal> {
        value(raw::vtl1_protections_enabled(&self.state[..])).map(|is| is == 1)
    }

    /// VTL0's default permissions.
    pub fn default_vtl0_protections(&self) -> Result<Flags, Refusal> {
        value(raw::default_vtl0_protections(&self.state[..])).map(flags)
    }
}

fn ended(reply: &Reply) -> Result<(), Refusal> {
    match reply.number {
        0 => Ok(()),
        number => Err(refused(number)),
    }
}
