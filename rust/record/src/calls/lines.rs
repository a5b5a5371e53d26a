//! A call as a line of the protocol.

use crate::file;
use crate::file::Call;

pub fn line(call: &Call) -> String {
    let [a, b, c, d, e] = call.arguments;
    let list = list(&call.runs);
    let text = match call.kind {
        file::BUILD => build(call),
        file::VISIBILITY => format!(
            "change_host_visibility {a} {} {list}",
            ["private", "shared"][b as usize]
        ),
        file::PROTECTIONS => format!("change_vtl_protections {a} {b} {list}"),
        file::DEFAULT => format!("change_default_vtl_protections {a} {b}"),
        file::REGISTER_OVERLAY => register_overlay(call),
        file::UNREGISTER_OVERLAY => format!("unregister_overlay_page {a} {b}"),
        file::LOCK => format!("lock_gpns {a} {list}"),
        file::UNLOCK => format!("unlock_gpns {a} {list}"),
        file::ENABLE => "set_vtl1_protections_enabled".to_string(),
        file::ENABLED => "vtl1_protections_enabled".to_string(),
        file::DEFAULT0 => "default_vtl0_protections".to_string(),
        file::IS_OVERLAY => format!("is_overlay_page {a} {b}"),
        file::QUERY => format!("query_host_visibility {list} {a}"),
        file::FAULT => {
            let side = ["encrypted", "shared"][a as usize];
            let view = ["read", "kx", "ux"][b as usize];
            format!("page_fault {side} {view} {c} {d} {e}")
        }
        file::LOWER => format!("query_lower_vtl_permissions {a} {b}"),
        file::ACCESS => format!("query_access_permission {a}"),
        _ => unreachable!("no call of the protector"),
    };
    match call.failure {
        [0, ..] => text,
        [place, code, processed] => format!("{text} fail={place}:{code}:{processed}"),
    }
}

fn register_overlay(call: &Call) -> String {
    let [vtl, gpn, source, checked, new] = call.arguments;
    let source = ["guest", "dma"][source as usize];
    let new = match new {
        file::NO_FLAGS => ".".to_string(),
        flags => flags.to_string(),
    };
    format!("register_overlay_page {vtl} {gpn} {source} {checked} {new}")
}

fn build(call: &Call) -> String {
    let [isolation, tracked, release, ..] = call.arguments;
    let isolation = ["snp", "tdx", "cca"][isolation as usize - 2];
    let ram = ram(&call.runs);
    format!("build iso={isolation} tracked={tracked} release={release} ram={ram}")
}

/// A layout: the node of an entry is its place.
pub fn ram(runs: &[(u64, u64)]) -> String {
    let entries = runs.iter().enumerate().map(|(node, &(first, count))| {
        format!("{}-{}:{node}", first * 4096, (first + count) * 4096)
    });
    entries.collect::<Vec<_>>().join(",")
}

fn list(runs: &[(u64, u64)]) -> String {
    if runs.is_empty() {
        return ".".to_string();
    }
    let runs = runs.iter().map(|&(first, count)| match count {
        1 => first.to_string(),
        count => format!("{first}-{}", first + count - 1),
    });
    runs.collect::<Vec<_>>().join(",")
}

/// The bytes that a visibility query leaves, those it doesn't write as 0xa5.
pub fn output(result: &str) -> Vec<u8> {
    let (_, digits) = result.split_once("out=[").expect("an output");
    let digits = digits.trim_end_matches(']').chars();
    let byte = |digit: char| match digit {
        '0' => 0,
        '1' => 1,
        _ => 0xa5,
    };
    digits.map(byte).collect()
}
