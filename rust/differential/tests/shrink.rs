//! That a difference is shortened.

use differential::case::Act;
use differential::case::Build;
use differential::case::Entry;
use differential::case::Lend;
use differential::case::MOST_CHUNKS;
use differential::case::Request;
use differential::case::What;
use differential::coverage::Coverage;
use differential::part::Case;
use differential::protector::change::Change;
use differential::protector::change::List;
use differential::protector::lines;
use differential::protector::raw;
use differential::run::Difference;
use differential::run::run;
use differential::shrink::shrink;
use std::collections::BTreeMap;

fn register(address: u64, len: u64) -> Act {
    Act {
        what: What::Call {
            request: Request::Register { address, len },
            fail: Some(7),
        },
        lend: Lend::default(),
    }
}

/// A registrar on entries of so many bytes.
fn built(bounds: &[(u64, u64)], granularity: u64) -> Act {
    let entry = |&(start, end): &(u64, u64)| Entry {
        start,
        end,
        node: 9,
    };
    Act {
        what: What::Build(Build {
            ram: bounds.iter().map(entry).collect(),
            offset: 1 << 40,
            granularity,
        }),
        lend: Lend::default(),
    }
}

/// As if a request past 100,000 on a layout of two entries differed.
fn differs_high(acts: &[Act]) -> Option<usize> {
    let entries = acts.iter().find_map(|act| match &act.what {
        What::Build(build) => Some(build.ram.len()),
        _ => None,
    });
    acts.iter().position(|act| match act.what {
        What::Call {
            request: Request::Register { address, .. },
            ..
        } => entries >= Some(2) && address > 100_000,
        _ => false,
    })
}

#[test]
fn a_difference_is_shortened() {
    let case = [
        built(
            &[(0, 65_536), (98_304, 1 << 30), (1 << 31, 1 << 32)],
            65_536,
        ),
        register(5, 5),
        register(7 << 20, 1 << 20),
        register(3, 3),
    ];
    let short = shrink(&case, differs_high);
    let lines: Vec<_> = short.iter().map(Act::line).collect();
    assert_eq!(lines[1..], ["register 100001 0"]);
    assert!(
        lines[0].starts_with("registrar offset=0 granularity="),
        "{}",
        lines[0]
    );
    assert_eq!(lines[0].matches(',').count(), 1, "{}", lines[0]);
}

/// A layout up to 2^52 in 64 chunks, and requests high up. In chunks of a page it has 2^40.
fn large() -> [Act; 4] {
    let top = 1 << 52;
    let bounds = [(0, 1 << 40), (top / 4, top / 2), (top / 2, top)];
    [
        built(&bounds, top / 64),
        register(5, 5),
        register(7 << 48, 1 << 40),
        register(3 << 50, 1 << 44),
    ]
}

/// As if a Register that fails were told wrongly where RAM ends past 2^51. Each case is run, and
/// has no difference of its own.
fn differs_past_2_51(acts: &[Act]) -> Option<usize> {
    assert_eq!(run(acts, &mut Coverage::default()), None);
    let mut built = false;
    acts.iter().position(|act| match &act.what {
        What::Build(build) => {
            built = build.ram.last().is_some_and(|entry| entry.end > 1 << 51);
            false
        }
        What::Call { fail, .. } => built && fail.is_some(),
        _ => false,
    })
}

/// One test of two parts: what the original asks for goes into one list of the process.
#[test]
fn a_difference_on_a_large_layout_is_shortened_and_shown() {
    is_shortened();
    is_shown();
}

fn is_shortened() {
    let short = shrink(&large(), differs_past_2_51);
    let lines: Vec<_> = short.iter().map(Act::line).collect();
    assert_eq!(lines[1..], ["register 0 0 fail=1:5:0"]);
    assert_eq!(lines[0].matches(',').count(), 0, "{}", lines[0]);
    let What::Build(build) = &short[0].what else {
        panic!("{}", lines[0]);
    };
    assert!(build.is_small() && build.ram[0].end / build.granularity > MOST_CHUNKS / 4);
}

/// Every simpler case is run before it is told.
fn is_shown() {
    let [a, b] = ["one", "another"].map(str::to_string);
    let told = Case::Registrar(large().to_vec()).report(Difference {
        place: 1,
        line: "register 5 5 fail=7:5:0".to_string(),
        port: a.clone(),
        original: Some(b),
        predicted: a,
    });
    assert!(told.starts_with("The shortest list found, "), "{told}");
    for line in [
        "    registrar offset=1099511627776 granularity=70368744177664 ram=0-",
        "    register 5 5 fail=7:5:0\n",
        "\ndiffers at       register 5 5 fail=7:5:0\n",
        "\nthe port gives   one\nthe original     another\npredicted        one\n",
    ] {
        assert!(told.contains(line), "{told}");
    }
}

fn called(change: Change) -> lines::Act {
    lines::Act {
        what: lines::What::Call {
            change,
            failures: BTreeMap::from([(2, (5, 1))]),
        },
        lend: [None; 9],
    }
}

fn locked(pages: Vec<u64>) -> lines::Act {
    let list = List::Pages(pages);
    called(Change::Lock { vtl: 1, list })
}

fn overlay(gpn: u64) -> lines::Act {
    called(Change::Register {
        vtl: 0,
        gpn,
        source: 0,
        checked: 9,
        new: 3,
    })
}

/// As if an overlay of page 7 behind a lock of page 9 differed.
fn differs_behind_a_lock(acts: &[lines::Act]) -> Option<usize> {
    let locks = acts.iter().position(|act| match &act.what {
        lines::What::Call {
            change: Change::Lock { list, .. },
            ..
        } => matches!(list, List::Pages(pages) if pages.contains(&9)),
        _ => false,
    })?;
    let mut behind = acts[locks..].iter();
    let place = behind.position(|act| {
        let line = act.line();
        line.starts_with("register_overlay_page 0 7 ")
    })?;
    Some(locks + place)
}

#[test]
fn overlays_and_locks_are_shortened() {
    let default = called(Change::Default { vtl: 0, flags: 3 });
    let case = [
        locked((0..40).collect()),
        default,
        overlay(8),
        locked(vec![3]),
        overlay(7),
        overlay(9),
    ];
    let short = shrink(&case, differs_behind_a_lock);
    let lines: Vec<_> = short.iter().map(lines::Act::line).collect();
    assert_eq!(
        lines,
        ["lock_gpns 1 9", "register_overlay_page 0 7 guest 0 ."]
    );
}

/// As if an unlock of a list with page 5 differed.
#[test]
fn raw_lists_are_shortened() {
    use differential::protector::predict::Call;
    let list = (0..100).flat_map(u64::to_le_bytes).collect();
    let case = [raw::Act::Call(Call::Unlock { vtl: 0, list })];
    let differs = |acts: &[raw::Act]| {
        acts.iter().position(|act| match act {
            raw::Act::Call(Call::Unlock { list, .. }) => list.chunks(8).any(|p| p[0] == 5),
            _ => false,
        })
    };
    let short = shrink(&case, differs);
    let list = vec![5, 0, 0, 0, 0, 0, 0, 0];
    assert_eq!(short, [raw::Act::Call(Call::Unlock { vtl: 0, list })]);
}
