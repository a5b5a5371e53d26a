//! Where the page of a fault or of a permission query lies: which pages are drawn, what must be met
//! at each place, and where the original answers alike.

use super::change::Change;
use super::predict::Answer;
use super::predict::Query;
use super::predict::World;
use crate::random::Random;

/// The pages that a host page of a map has. The original's maps go on to the end of a host page.
const HOST_PAGE: u64 = 32_768;

#[derive(Debug, Clone, Copy, PartialEq, Eq)]
enum Place {
    Ram,
    /// Below the end of the maps, and not RAM.
    Hole,
    /// The last page of the maps.
    Last,
    FirstPast,
    /// Past the maps, not past the original's.
    HostPage,
    Past,
    /// From 2^52 on, where no fault is.
    High,
    /// The highest that a call can name.
    Highest,
    /// In forged words alone: an entry reaches past the maps.
    RamPast,
}

const PLACES: [(Place, &str); 9] = [
    (Place::Ram, "RAM"),
    (Place::Hole, "a hole"),
    (Place::Last, "last page"),
    (Place::FirstPast, "first page past"),
    (Place::HostPage, "past on the host page"),
    (Place::Past, "past"),
    (Place::High, "from 2^52 on"),
    (Place::Highest, "highest page"),
    (Place::RamPast, "RAM past the maps"),
];

impl Place {
    fn of(world: &World, page: u64, highest: u64) -> Self {
        let end = world.end();
        match page {
            _ if world.is_hole(page) => Self::Hole,
            _ if page.checked_add(1) == Some(end) => Self::Last,
            _ if page < end => Self::Ram,
            _ if world.is_ram(page) => Self::RamPast,
            _ if page == highest => Self::Highest,
            _ if page >> 52 != 0 => Self::High,
            _ if page == end => Self::FirstPast,
            _ if page < end.next_multiple_of(HOST_PAGE) => Self::HostPage,
            _ => Self::Past,
        }
    }

    fn name(self) -> &'static str {
        let mut places = PLACES.iter();
        let own = places.find(|(place, _)| *place == self);
        own.map_or("", |(_, name)| name)
    }

    /// Whether a build marks it.
    fn is_marked(self) -> bool {
        matches!(self, Self::Ram | Self::Last)
    }
}

const FAULT: &str = "page_fault";
const ACCESS: &str = "query_access_permission";
const LOWER0: &str = "query_lower_vtl_permissions of VTL0";
const LOWER1: &str = "query_lower_vtl_permissions of VTL1";
const CALLS: [&str; 4] = [FAULT, ACCESS, LOWER0, LOWER1];

/// What a fault is answered, by number.
pub(super) const FAULTS: [&str; 5] = [
    "Retry",
    "NotMapped",
    "NotShared",
    "NotPrivate",
    "VtlProtected",
];

const FLAGS: [&str; 3] = ["no flags", "some flags", "all flags"];

fn tracking(tracked: bool) -> &'static str {
    if tracked { "tracked" } else { "untracked" }
}

/// The call, its page and the highest page that it can name.
fn asked(query: &Query) -> Option<(&'static str, u64, u64)> {
    match *query {
        Query::Fault { address, .. } => Some((FAULT, address / 4096, u64::MAX / 4096)),
        Query::Access { gpn } => Some((ACCESS, gpn, u64::MAX)),
        Query::Lower { vtl: 0, gpn } => Some((LOWER0, gpn, u64::MAX)),
        Query::Lower { vtl: 1, gpn } => Some((LOWER1, gpn, u64::MAX)),
        _ => None,
    }
}

/// What was met, unless it is refused by 4 or 8: the call, where its page lies, the answer.
pub(super) fn met(world: &World, query: &Query, given: &Answer) -> Option<String> {
    let answer = match (query, given.number, given.value) {
        (Query::Fault { .. }, 0, action) => FAULTS[action as usize],
        (_, 0, 0) => FLAGS[0],
        (_, 0, 15) => FLAGS[2],
        (_, 0, _) => FLAGS[1],
        (_, 7, _) => "#7",
        (_, 24, _) => "#24",
        _ => return None,
    };
    let (call, page, highest) = asked(query)?;
    let (tracking, place) = (tracking(world.tracked()), Place::of(world, page, highest));
    Some(format!("{call} ({tracking}): {}: {answer}", place.name()))
}

/// What a call must have been answered at a place.
fn answers(call: &str, tracked: bool, place: Place) -> &'static [&'static str] {
    match (call, place) {
        (FAULT, Place::High) => &[],
        (FAULT, _) if place.is_marked() && tracked => &FAULTS,
        (FAULT, _) if place.is_marked() => &FAULTS[..4],
        (FAULT, _) => &FAULTS[1..4],
        (ACCESS, _) if !tracked => &["#24"],
        (LOWER0 | LOWER1, Place::Hole) => &["#7"],
        (LOWER1, _) => &FLAGS[2..],
        (LOWER0, _) if !tracked => &FLAGS[2..],
        _ if place.is_marked() => &FLAGS,
        _ => &FLAGS[..1],
    }
}

/// What a long run must have met. What forged maps hold where there is RAM is left to chance.
pub fn must_be_met() -> Vec<String> {
    let mut all = Vec::new();
    for (call, tracked) in CALLS.iter().flat_map(|call| [(call, true), (call, false)]) {
        for (place, name) in PLACES {
            let kind = format!("{call} ({}): {name}", tracking(tracked));
            for answer in answers(call, tracked, place) {
                all.extend((place != Place::RamPast).then(|| format!("{kind}: {answer}")));
                all.extend((!place.is_marked()).then(|| format!("raw {kind}: {answer}")));
            }
        }
    }
    let with_original = [FAULT, ACCESS, "query_lower_vtl_permissions"];
    all.extend(with_original.map(compared));
    let overlays = [(0, true), (0, false), (1, true), (1, false)];
    all.extend(overlays.map(|(vtl, tracked)| overlay(vtl, tracked)));
    all
}

/// An answer past the maps that was compared with the original's.
fn compared(call: &str) -> String {
    format!("{call}: past the maps with the original")
}

/// A fault without bitmap failure, or a query without tracking, reads no map and doesn't count.
pub(super) fn met_with_original(
    world: &World,
    query: &Query,
    name: &str,
    given: &Answer,
) -> Option<String> {
    let (_, page, _) = asked(query)?;
    let counts = match query {
        Query::Fault { failure, .. } => *failure == 1,
        _ => given.number == 0,
    };
    (counts && page >= world.end()).then(|| compared(name))
}

/// A guest page past the maps, which no VTL may have as overlay.
fn overlay(vtl: u64, tracked: bool) -> String {
    let tracking = tracking(tracked);
    format!("overlay of VTL{vtl} ({tracking}): a guest page past: #7")
}

pub(super) fn met_overlay(world: &World, change: &Change, number: u64) -> Option<String> {
    match *change {
        Change::Register {
            vtl,
            gpn,
            source: 0,
            ..
        } if number == 7 && gpn >= world.end() => Some(overlay(vtl, world.tracked())),
        _ => None,
    }
}

/// Whether the original answers as documents 01 and 02 have it: it panics where it reads a map past
/// its last host page, and drops the bits of a page from 2^52 on when it looks for RAM.
pub fn is_alike(world: &World, query: &Query) -> bool {
    let (end, tracked) = (world.end(), world.tracked());
    let in_its_maps = |page: u64| page < end.next_multiple_of(HOST_PAGE);
    match *query {
        Query::Fault {
            address, failure, ..
        } => failure == 0 || in_its_maps(address / 4096),
        Query::Access { gpn } => !tracked || in_its_maps(gpn),
        Query::Lower { gpn, .. } if gpn >> 52 == 0 => gpn < end,
        Query::Lower { vtl, gpn } => world.is_ram(gpn % (1 << 52)) && (vtl == 1 || !tracked),
        _ => true,
    }
}

/// A page at the end of the maps, past it or anywhere below; `end` is the first past it.
pub(super) fn some_page(random: &mut Random, end: u64) -> u64 {
    let host = end.next_multiple_of(HOST_PAGE);
    let low = random.below(end + 8);
    let above = random.within(1, 4095) << 52;
    match random.below(12) {
        0..=1 => low,
        2..=3 => end.saturating_sub(1),
        4 => end,
        5 => random.within(end, host),
        6 => (host + random.below(3)).saturating_sub(1),
        7 => random.within(host, 1 << 52),
        8 => random.pick(&[end + 1, (1 << 52) - 1, 1 << 52, (1 << 52) + 3]),
        9 => (1 << 52) + low,
        10 => above + low,
        _ => u64::MAX - random.pick(&[0, 0, 0, 1, low]),
    }
}
