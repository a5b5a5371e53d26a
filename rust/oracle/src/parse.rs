//! The words of a line that name the source's own types. An error is the text behind `bad`.

use hcl::GuestVtl;
use hvdef::HvMapGpaFlags;
use memory_range::MemoryRange;
use protocol::parse;
use virt::IsolationType;
use virt_mshv_vtl::GpnSource;
use vm_topology::memory::MemoryLayout;
use vm_topology::memory::MemoryRangeWithNode;

pub use protocol::parse::*;

pub fn vtl(word: &str) -> Parsed<GuestVtl> {
    match number(word)? {
        0 => Ok(GuestVtl::Vtl0),
        1 => Ok(GuestVtl::Vtl1),
        _ => bad("a VTL is 0 or 1"),
    }
}

pub fn flags(word: &str) -> Parsed<HvMapGpaFlags> {
    match number(word)? {
        bits @ 0..=15 => Ok(HvMapGpaFlags::from_bits(bits as u32)),
        _ => bad("flags are 0 to 15"),
    }
}

/// FLAGS, or `.` for none.
pub fn new_flags(word: &str) -> Parsed<Option<HvMapGpaFlags>> {
    match word {
        "." => Ok(None),
        _ => flags(word).map(Some),
    }
}

pub fn isolation(word: &str) -> Parsed<IsolationType> {
    let known = [
        ("snp", IsolationType::Snp),
        ("tdx", IsolationType::Tdx),
        ("cca", IsolationType::Cca),
    ];
    choice(word, &known)
}

pub fn source(word: &str) -> Parsed<GpnSource> {
    let known = [("guest", GpnSource::GuestMemory), ("dma", GpnSource::Dma)];
    choice(word, &known)
}

/// `.`, or a list of N and A-B.
pub fn pages(word: &str) -> Parsed<Vec<u64>> {
    if word.starts_with("hex:") {
        return bad("raw bytes are the port's");
    }
    parse::pages(word)
}

/// `START-END:NODE,..`, or `.` for no entry.
pub fn ram(word: &str) -> Parsed<MemoryLayout> {
    let entries = entries(word, ram_entry)?;
    MemoryLayout::new(entries).or_else(|_| bad("an entry is empty or out of order"))
}

fn ram_entry(text: &str) -> Parsed<MemoryRangeWithNode> {
    let (start, end, node) = entry(text)?;
    if end < start || !start.is_multiple_of(4096) || !end.is_multiple_of(4096) {
        return bad("an entry is no range of whole pages");
    }
    let Ok(vnode) = u32::try_from(number(node)?) else {
        return bad("a node has 32 bits");
    };
    let range = MemoryRange::new(start..end);
    Ok(MemoryRangeWithNode { range, vnode })
}
