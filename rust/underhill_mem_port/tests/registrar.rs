//! The registrar over a backend that notes what it is asked for.

use std::panic::AssertUnwindSafe;
use std::panic::catch_unwind;
use underhill_mem_port::BuildError;
use underhill_mem_port::MemoryRange;
use underhill_mem_port::MemoryRangeWithNode;
use underhill_mem_port::MemoryRegistrar;
use underhill_mem_port::Refusal;
use underhill_mem_port::RegisterError;
use underhill_mem_port::RegisterMemory;
use underhill_mem_port::Step;
use underhill_mem_port::UnalignedMemory;

/// Notes what it is asked for; one of them fails.
#[derive(Default)]
struct Kernel {
    asked: Vec<(u64, u64)>,
    /// Which one, from 1.
    failing: Option<usize>,
}

impl RegisterMemory for Kernel {
    type Error = ();

    fn register_range(&mut self, range: MemoryRange) -> Result<(), ()> {
        self.asked.push((range.start, range.end));
        match self.failing {
            Some(place) if place == self.asked.len() => Err(()),
            _ => Ok(()),
        }
    }
}

fn range(start: u64, end: u64) -> MemoryRange {
    MemoryRange { start, end }
}

fn entry(start: u64, end: u64, vnode: u32) -> MemoryRangeWithNode {
    MemoryRangeWithNode {
        range: range(start, end),
        vnode,
    }
}

/// RAM pages 0 to 15 and 32 to 39.
fn worked(granularity: u64) -> MemoryRegistrar {
    let ram = [entry(0, 65_536, 0), entry(131_072, 163_840, 7)];
    MemoryRegistrar::new(&ram, 0, granularity).expect("the layout is fit")
}

#[test]
fn p8_an_empty_request_touches_its_chunk_unless_aligned() {
    let mut registrar = worked(65_536);
    let mut kernel = Kernel::default();
    assert_eq!(registrar.register(0, 0, &mut kernel), Ok(0));
    assert_eq!(registrar.registered(), [0]);
    assert_eq!(registrar.register(4096, 0, &mut kernel), Ok(1));
    assert_eq!(registrar.registered(), [1]);
    assert_eq!(kernel.asked, [(0, 65_536)]);
}

#[test]
fn p9_all_aligned_stops_at_the_second_span() {
    let mut registrar = worked(65_536);
    let mut kernel = Kernel::default();
    let memory = UnalignedMemory {
        span: range(131_072, 163_840),
        edge: range(131_072, 163_840),
        vnode: 7,
        node_range: range(131_072, 163_840),
        alignment: 65_536,
    };
    let given = registrar.register_all_aligned(65_536, false, &mut kernel);
    assert_eq!(given, Err(RegisterError::Unaligned { memory, count: 1 }));
    assert_eq!(registrar.registered(), [1]);
    assert_eq!(kernel.asked, [(0, 65_536)]);
    let given = registrar.register_all_aligned(65_536, true, &mut kernel);
    assert_eq!(given, Ok(0));
}

#[test]
fn failures_are_remembered() {
    let ram = [entry(0, 65_536, 0), entry(98_304, 131_072, 1)];
    let mut registrar = MemoryRegistrar::new(&ram, 1 << 32, 32_768).expect("the layout is fit");
    let mut kernel = Kernel {
        failing: Some(2),
        ..Kernel::default()
    };
    let failed = |count| {
        let address = 32_768;
        Err(RegisterError::Failed { address, count })
    };
    assert_eq!(registrar.register(0, 40_000, &mut kernel), failed(2));
    let base = 1 << 32;
    assert_eq!(
        kernel.asked,
        [(base, base + 32_768), (base + 32_768, base + 65_536)]
    );
    assert_eq!(registrar.register(40_000, 1, &mut kernel), failed(0));
    let all = registrar.register_all_aligned(32_768, true, &mut kernel);
    assert_eq!(all, failed(0));
    assert_eq!(
        (registrar.registered(), registrar.failed()),
        (&[1][..], &[2][..])
    );
}

#[test]
fn step_by_step() {
    let mut registrar = worked(262_144);
    let refused = |refusal: Refusal| Err(RegisterError::Refused(refusal));
    assert_eq!(registrar.answer_done(), refused(Refusal::NothingAsked));
    let first = range(0, 65_536);
    assert_eq!(registrar.start_register(0, 1), Ok(Step::Asked(first)));
    assert_eq!(registrar.asked(), Some(first));
    assert_eq!(registrar.start_register(0, 1), refused(Refusal::Busy));
    let second = range(131_072, 163_840);
    assert_eq!(registrar.answer_done(), Ok(Step::Asked(second)));
    assert_eq!(registrar.registered(), [0]);
    assert_eq!(registrar.answer_done(), Ok(Step::Done { count: 2 }));
    assert_eq!(registrar.registered(), [1]);
    assert_eq!(registrar.asked(), None);
    let mut registrar = worked(262_144);
    assert_eq!(registrar.start_register(0, 1), Ok(Step::Asked(first)));
    let failed = RegisterError::Failed {
        address: 0,
        count: 1,
    };
    assert_eq!(registrar.answer_failed(), Err(failed));
    assert_eq!(registrar.failed(), [1]);
}

#[test]
fn a_backend_that_panics_leaves_its_operation_asked() {
    let mut registrar = worked(65_536);
    let mut kernel = |_: MemoryRange| -> Result<(), ()> { panic!("as it was told to") };
    let call = AssertUnwindSafe(|| registrar.register(0, 1, &mut kernel));
    assert!(catch_unwind(call).is_err());
    assert_eq!(registrar.asked(), Some(range(0, 65_536)));
    assert_eq!(registrar.answer_done(), Ok(Step::Done { count: 1 }));
}

#[test]
fn unfit_builds_are_refused() {
    let ram = [entry(0, 65_536, 0)];
    let built = |ram: &[_], offset, granularity| {
        MemoryRegistrar::new(ram, offset, granularity).map(|r| r.registered().len())
    };
    let refused = |refusal| Err(BuildError::Refused(refusal));
    assert_eq!(built(&ram, 0, 4096), Ok(1));
    assert_eq!(built(&ram, 0, 1 << 63), Ok(1));
    assert_eq!(built(&[], 0, 4096), refused(Refusal::UnfitLayout));
    assert_eq!(built(&ram, 1, 4096), refused(Refusal::UnfitLayout));
    assert_eq!(
        built(&ram, u64::MAX - 4095, 4096),
        refused(Refusal::UnfitLayout)
    );
    let odd = [entry(0, 65_536 + 4096, 0)];
    assert_eq!(built(&odd, 0, 4096), refused(Refusal::BadAlignment));
    for granularity in [0, 1, 2048, 4097, 12_288, u64::MAX] {
        assert_eq!(built(&ram, 0, granularity), refused(Refusal::UnfitChunk));
    }
    // Nothing is allocated for what is refused, whatever its end.
    let past = [entry(0, u64::MAX, 0)];
    assert_eq!(built(&past, 0, 4096), refused(Refusal::UnfitLayout));
}

#[test]
fn unfit_requests_are_refused() {
    let mut registrar = worked(65_536);
    let mut kernel = Kernel::default();
    let refused = |refusal: Refusal| Err(RegisterError::Refused(refusal));
    let past_last = registrar.register(196_608, 1, &mut kernel);
    assert_eq!(past_last, refused(Refusal::UnfitChunk));
    assert_eq!(registrar.register(196_608, 0, &mut kernel), Ok(0));
    let past_all = registrar.register(u64::MAX, u64::MAX, &mut kernel);
    assert_eq!(past_all, refused(Refusal::UnfitChunk));
    for alignment in [0, 4096, 65_537, 196_608] {
        let given = registrar.register_all_aligned(alignment, true, &mut kernel);
        assert_eq!(given, refused(Refusal::UnfitChunk), "{alignment}");
    }
    assert!(kernel.asked.is_empty());
    assert_eq!(
        (registrar.registered(), registrar.failed()),
        (&[0][..], &[0][..])
    );
}

#[test]
fn refusals_have_their_numbers() {
    for number in 0..30 {
        if let Some(refusal) = Refusal::from_number(number) {
            assert_eq!(refusal.number(), number);
        }
    }
    assert_eq!(Refusal::from_number(22), None);
    let error = RegisterError::from(Refusal::Busy);
    assert_eq!(
        error.to_string(),
        "an operation is outstanding (refusal 19)"
    );
}
