//! The protector over a backend that notes and fails as told.

use std::panic::AssertUnwindSafe;
use std::panic::catch_unwind;
use underhill_mem_port::Backend;
use underhill_mem_port::BuildError;
use underhill_mem_port::ChangeError;
use underhill_mem_port::Flags;
use underhill_mem_port::GpnSource;
use underhill_mem_port::GuestVtl;
use underhill_mem_port::HardwareIsolatedMemoryProtector;
use underhill_mem_port::IsolationType;
use underhill_mem_port::MemoryRange;
use underhill_mem_port::MemoryRangeWithNode;
use underhill_mem_port::ModifyError;
use underhill_mem_port::Operation;
use underhill_mem_port::Overlay;
use underhill_mem_port::PageRun;
use underhill_mem_port::Progress;
use underhill_mem_port::Protect;
use underhill_mem_port::Refusal;
use underhill_mem_port::Visibility;

/// Notes the kinds of what it is asked for; what `fail` names fails, at what `panics` names it panics.
#[derive(Default)]
struct Notes {
    kinds: Vec<&'static str>,
    protects: Vec<Protect>,
    /// Of each Flush and TlbWait.
    flushed: Vec<GuestVtl>,
    fail: &'static str,
    processed: u64,
    panics: &'static str,
}

impl Notes {
    fn note(&mut self, kind: &'static str) -> Result<(), ()> {
        self.kinds.push(kind);
        assert_ne!(kind, self.panics, "as it was told to");
        if kind == self.fail { Err(()) } else { Ok(()) }
    }
}

impl Backend for Notes {
    type Error = ();

    fn wait(&mut self) {
        let _ = self.note("Wait");
    }

    fn flush_all(&mut self) {
        let _ = self.note("FlushAll");
    }

    fn flush(&mut self, vtl: GuestVtl) {
        let _ = self.note("Flush");
        self.flushed.push(vtl);
    }

    fn tlb_wait(&mut self, vtl: GuestVtl) {
        let _ = self.note("TlbWait");
        self.flushed.push(vtl);
    }

    fn protect(&mut self, protect: Protect) -> Result<(), ()> {
        self.protects.push(protect);
        self.note("Protect")
    }

    fn invalidate(&mut self, _: PageRun) -> Result<(), ()> {
        self.note("Invalidate")
    }

    fn release(&mut self, _: PageRun) -> Result<(), ()> {
        self.note("Release")
    }

    fn modify(&mut self, _: Visibility, _: &[u64]) -> Result<(), ModifyError> {
        let processed = self.processed;
        self.note("Modify")
            .map_err(|()| ModifyError { code: 5, processed })
    }

    fn accept(&mut self, _: PageRun) -> Result<(), ()> {
        self.note("Accept")
    }

    fn zero(&mut self, _: PageRun) -> Result<(), ()> {
        self.note("Zero")
    }
}

fn failing(fail: &'static str, processed: u64) -> Notes {
    Notes {
        fail,
        processed,
        ..Notes::default()
    }
}

/// RAM pages 0 to 15 and 32 to 39.
fn built(isolation: IsolationType, tracked: bool) -> HardwareIsolatedMemoryProtector {
    let entry = |start, end| MemoryRangeWithNode {
        range: MemoryRange { start, end },
        vnode: 0,
    };
    let ram = [entry(0, 65_536), entry(131_072, 163_840)];
    HardwareIsolatedMemoryProtector::new(&ram, isolation, tracked, true).expect("it is fit")
}

use GuestVtl::Vtl0;
use GuestVtl::Vtl1;
use Visibility::Private;
use Visibility::Shared;

#[test]
fn p3_a_return_that_fails_in_part() {
    let mut protector = built(IsolationType::Snp, true);
    let mut backend = Notes::default();
    let shared = protector.change_host_visibility(Vtl0, Shared, &[3, 9, 10], &mut backend);
    assert_eq!(shared, Ok(9));
    let [read, ..] = protector.permissions().expect("tracked");
    assert_eq!(read, [0xF7, 0xF9, 0, 0, 0xFF]);
    let mut backend = failing("Modify", 1);
    let returned = protector.change_host_visibility(Vtl0, Private, &[9, 10], &mut backend);
    let error = ChangeError::Failed {
        code: 5,
        index: 1,
        count: 6,
    };
    assert_eq!(returned, Err(error));
    assert_eq!(error.code_and_index(), Some((5, 1)));
    let kinds = ["Wait", "FlushAll", "Modify", "Accept", "Zero", "Protect"];
    assert_eq!(backend.kinds, kinds);
    let awaited = Protect {
        vtl: Vtl0,
        flags: Flags::ALL,
        operand: Some(3842),
        pages: PageRun { first: 9, count: 1 },
    };
    assert_eq!(backend.protects, [awaited]);
    assert_eq!(protector.private()[..2], [0xF7, 0xFB]);
    assert_eq!(protector.shared()[..2], [0x08, 0x04]);
    assert_eq!(protector.asked(), None);
}

#[test]
fn a_backend_that_panics_leaves_its_operation_asked() {
    let mut protector = built(IsolationType::Snp, true);
    let mut backend = Notes {
        panics: "FlushAll",
        ..Notes::default()
    };
    let call = AssertUnwindSafe(|| {
        let _ = protector.change_host_visibility(Vtl0, Shared, &[3], &mut backend);
    });
    assert!(catch_unwind(call).is_err());
    assert_eq!(protector.asked(), Some(Operation::FlushAll));
    let mut backend = Notes::default();
    let other = protector.change_host_visibility(Vtl0, Shared, &[4], &mut backend);
    assert_eq!(other, Err(Refusal::Busy.into()));
    assert_eq!(protector.asked(), Some(Operation::FlushAll));
    let next = protector.answer_done();
    assert!(matches!(next, Ok(Progress::Asked(Operation::Protect(_)))));
}

#[test]
fn each_isolation_has_its_operations() {
    for (isolation, shares, returns) in [
        (IsolationType::Snp, 6, 6),
        (IsolationType::Tdx, 3, 4),
        (IsolationType::Cca, 2, 3),
    ] {
        let mut protector = built(isolation, false);
        assert_eq!(protector.permissions(), None);
        let mut backend = Notes::default();
        let mut change = |to| protector.change_host_visibility(Vtl0, to, &[3], &mut backend);
        assert_eq!(change(Shared), Ok(shares), "{isolation:?}");
        assert_eq!(change(Private), Ok(returns), "{isolation:?}");
        let operands = backend.protects.iter().all(|p| p.operand.is_some());
        assert_eq!(operands, isolation == IsolationType::Snp);
    }
}

#[test]
fn a_failure_that_cannot_be_taken_back_halts() {
    let mut protector = built(IsolationType::Snp, false);
    let mut backend = failing("Invalidate", 0);
    let mut change =
        |list: &[u64]| protector.change_host_visibility(Vtl0, Shared, list, &mut backend);
    assert_eq!(change(&[3]), Err(ChangeError::Halted { count: 5 }));
    assert_eq!(change(&[4]), Err(ChangeError::Refused(Refusal::Halted)));
    assert_eq!(protector.asked(), None);
    assert_eq!(protector.private()[0], 0xF7);
    let answered = protector.answer_done().map(|_| ());
    assert_eq!(answered, Err(ChangeError::Refused(Refusal::Halted)));
}

#[test]
fn a_call_is_stepped() {
    let mut protector = built(IsolationType::Cca, false);
    let started = protector.start_change_host_visibility(Vtl0, Shared, &[9, 3, 4]);
    assert_eq!(started, Ok(Progress::Asked(Operation::Wait)));
    let busy = protector.start_change_host_visibility(Vtl0, Shared, &[]);
    assert_eq!(busy, Err(ChangeError::Refused(Refusal::Busy)));
    let refused = protector.answer_failed(5, 0).map(|_| ());
    assert_eq!(refused, Err(ChangeError::Refused(Refusal::NothingAsked)));
    assert_eq!(protector.asked(), Some(Operation::Wait));
    let modify = Operation::Modify {
        to: Shared,
        pages: &[9, 3, 4],
    };
    assert_eq!(protector.answer_done(), Ok(Progress::Asked(modify)));
    assert_eq!(protector.answer_done(), Ok(Progress::Done { count: 2 }));
    assert_eq!(protector.shared()[..2], [0x18, 0x02]);
    let refused = protector.answer_done().map(|_| ());
    assert_eq!(refused, Err(ChangeError::Refused(Refusal::NothingAsked)));
}

#[test]
fn refusals_change_nothing() {
    let mut protector = built(IsolationType::Tdx, true);
    let long: Vec<u64> = (0..100_000).collect();
    for (list, refusal) in [
        (&[3, 16][..], Refusal::NotRam),
        (&[3, 3], Refusal::RepeatedPage),
        (&[1 << 52], Refusal::NotRam),
        (&long, Refusal::LongList),
    ] {
        let mut backend = Notes::default();
        let given = protector.change_host_visibility(Vtl0, Shared, list, &mut backend);
        assert_eq!(given, Err(ChangeError::Refused(refusal)));
        assert!(backend.kinds.is_empty());
        assert_eq!(protector.private(), [0xFF, 0xFF, 0, 0, 0xFF]);
    }
}

#[test]
fn unfit_layouts_are_refused() {
    let build = |start, end| {
        let entry = MemoryRangeWithNode {
            range: MemoryRange { start, end },
            vnode: 0,
        };
        let built =
            HardwareIsolatedMemoryProtector::new(&[entry], IsolationType::Snp, false, false);
        built.map(|_| ())
    };
    assert_eq!(build(0, 32_768), Ok(()));
    let refused = |refusal| Err(BuildError::Refused(refusal));
    assert_eq!(build(0, 28_672), refused(Refusal::BadAlignment));
    assert_eq!(build(4, 4), refused(Refusal::UnfitLayout));
}

fn guest(gpn: u64, checked: Flags, new: Option<Flags>) -> Overlay {
    Overlay {
        gpn,
        source: GpnSource::GuestMemory,
        checked,
        new,
    }
}

#[test]
fn protections_flush_vtl0_and_wait_for_their_vtl() {
    let mut protector = built(IsolationType::Snp, true);
    let mut backend = Notes::default();
    let list = [3, 4, 3];
    let narrowed = protector.change_vtl_protections(Vtl0, &list, Flags::READABLE, &mut backend);
    assert_eq!(narrowed, Ok(5));
    let kinds = ["Protect", "Protect", "Wait", "Flush", "TlbWait"];
    assert_eq!(backend.kinds, kinds);
    assert_eq!(backend.protects[0].pages, PageRun { first: 3, count: 2 });
    let [read, write, ..] = protector.permissions().expect("tracked");
    assert_eq!((read[0], write[0]), (0xFF, 0xE7));
    let mut backend = Notes::default();
    let narrowed = protector.change_vtl_protections(Vtl1, &[], Flags::NONE, &mut backend);
    assert_eq!(narrowed, Ok(3));
    assert_eq!(backend.flushed, [Vtl0, Vtl1]);
    let mut backend = failing("Protect", 0);
    let halted = protector.change_vtl_protections(Vtl1, &[5], Flags::NONE, &mut backend);
    assert_eq!(halted, Err(ChangeError::Halted { count: 1 }));
    assert_eq!(protector.vtl1_protections_enabled(), Err(Refusal::Halted));
}

#[test]
fn a_default_is_split_at_holes_and_overlays() {
    let mut protector = built(IsolationType::Tdx, true);
    let mut backend = Notes::default();
    let overlay = guest(5, Flags::ALL, Some(Flags::READABLE));
    let registered = protector.register_overlay_page(Vtl0, overlay, &mut backend);
    assert_eq!(registered, Ok(4));
    assert_eq!(backend.flushed, [Vtl0, Vtl0]);
    let mut backend = Notes::default();
    let read_write = Flags::READABLE | Flags::WRITABLE;
    let changed = protector.change_default_vtl_protections(Vtl0, read_write, &mut backend);
    assert_eq!(changed, Ok(6));
    let pages: Vec<_> = backend.protects.iter().map(|p| p.pages).collect();
    let run = |first, count| PageRun { first, count };
    assert_eq!(pages, [run(0, 5), run(6, 10), run(32, 8)]);
    assert_eq!(protector.default_vtl0_protections(), Ok(read_write));
    let mut backend = Notes::default();
    let unregistered = protector.unregister_overlay_page(Vtl0, 5, &mut backend);
    assert_eq!(unregistered, Ok(4));
    assert_eq!(backend.protects[0].flags, read_write);
    protector.lock_gpns(Vtl0, &[5]).expect("there is room");
    let changed = protector.change_default_vtl_protections(Vtl0, Flags::ALL, &mut backend);
    assert_eq!(changed, Err(ChangeError::Refused(Refusal::Locked)));
    assert_eq!(protector.default_vtl0_protections(), Ok(Flags::ALL));
}

#[test]
fn overlays_are_counted_and_fail_without_a_halt() {
    let mut protector = built(IsolationType::Cca, false);
    let overlay = guest(3, Flags::ALL, None);
    let mut backend = Notes::default();
    let mut register = |overlay| protector.register_overlay_page(Vtl1, overlay, &mut backend);
    assert_eq!(register(overlay), Ok(3));
    assert_eq!(register(overlay), Ok(0));
    assert_eq!(protector.is_overlay_page(Vtl1, 3), Ok(true));
    assert_eq!(protector.is_overlay_page(Vtl0, 3), Ok(false));
    let mut backend = failing("Protect", 0);
    let mut unregister = |gpn| protector.unregister_overlay_page(Vtl1, gpn, &mut backend);
    assert_eq!(unregister(3), Ok(0));
    let failed = ChangeError::Failed {
        code: 8,
        index: 0,
        count: 1,
    };
    assert_eq!(unregister(3), Err(failed));
    assert_eq!(unregister(4), Err(ChangeError::Refused(Refusal::NoOverlay)));
    assert_eq!(protector.is_overlay_page(Vtl1, 3), Ok(true));
    let dma = Overlay {
        gpn: 1 << 45,
        source: GpnSource::Dma,
        ..overlay
    };
    let started = protector.start_register_overlay_page(Vtl0, dma);
    assert_eq!(started, Ok(Progress::Asked(Operation::Wait)));
    assert_eq!(protector.is_overlay_page(Vtl0, dma.gpn), Err(Refusal::Busy));
    let flush = Operation::Flush(Vtl0);
    assert_eq!(protector.answer_done(), Ok(Progress::Asked(flush)));
}

#[test]
fn lists_are_locked_and_unlocked_whole() {
    let mut protector = built(IsolationType::Snp, false);
    assert_eq!(protector.lock_gpns(Vtl1, &[7, 8]), Ok(()));
    let other_way_round = protector.unlock_gpns(Vtl1, &[8, 7]);
    assert_eq!(other_way_round, Err(Refusal::NotLocked));
    assert_eq!(protector.unlock_gpns(Vtl1, &[7, 8]), Ok(()));
    for _ in 0..64 {
        assert_eq!(protector.lock_gpns(Vtl0, &[]), Ok(()));
    }
    assert_eq!(protector.lock_gpns(Vtl0, &[]), Err(Refusal::Full));
    let enabled = protector.set_vtl1_protections_enabled();
    assert_eq!(enabled, Err(Refusal::Untracked));
    assert_eq!(protector.vtl1_protections_enabled(), Ok(false));
}
