//! The answer line and what stands in it.

use protocol::show;
use protocol::show::hex;
use protocol::show::joined;
use recorder::Asked;
use recorder::Record;
use sparse_mmap::Memory;
use std::sync::Arc;
use underhill_mem_source::Overlay;
use underhill_mem_source::Tables;
use virt_mshv_vtl::GpnSource;

/// A map longer than this is shown by its nonzero bytes alone.
const LONGEST_WHOLE: usize = 65_536;

/// `RESULT | ops=N | OP; OP; .. | cannot-fail=K,..`
pub fn answer(result: &str, record: &Record) -> String {
    let ops: Vec<_> = record.asked.iter().map(asked).collect();
    let cannot_fail = match &record.cannot_fail[..] {
        [] => None,
        places => Some(format!("cannot-fail={}", joined(places, ","))),
    };
    show::answer(result, &ops, &Vec::from_iter(cannot_fail))
}

/// A panic's text, on one line and without the line's own marks.
pub fn panic(payload: &(dyn std::any::Any + Send)) -> String {
    let text = match (
        payload.downcast_ref::<&str>(),
        payload.downcast_ref::<String>(),
    ) {
        (Some(text), _) => text,
        (_, Some(text)) => text.as_str(),
        _ => "without a text",
    };
    let text = text.replace('|', "/");
    let words: Vec<_> = text.split_whitespace().collect();
    format!("panic {}", words.join(" "))
}

fn asked(asked: &Asked) -> String {
    match &asked.maps {
        Some(maps) => format!("{} {{{maps}}}", asked.op),
        None => asked.op.to_string(),
    }
}

/// The six maps of a protector and how many bytes of each count.
pub struct Maps {
    pub maps: [Option<Arc<Memory>>; 6],
    pub len: usize,
}

impl Maps {
    /// `private=.. shared=.. read=.. write=.. kx=.. ux=..`
    pub fn show(&self) -> String {
        let names = ["private", "shared", "read", "write", "kx", "ux"];
        let one = |(name, map): (&str, &Option<Arc<Memory>>)| match map {
            Some(memory) => format!("{name}={}", bytes(memory, self.len)),
            None => format!("{name}=-"),
        };
        joined(names.into_iter().zip(&self.maps).map(one), " ")
    }
}

fn bytes(memory: &Memory, len: usize) -> String {
    if len > LONGEST_WHOLE {
        return show::sparse(len, memory.nonzero(len));
    }
    let mut bytes = vec![0; len];
    memory.read(0, &mut bytes);
    hex(&bytes)
}

/// `enabled=.. default0=.. .. locks1=[..]`
pub fn tables(enabled: bool, tables: &Tables) -> String {
    let [overlays0, overlays1] = tables.overlays.each_ref();
    let [locks0, locks1] = tables.locks.each_ref();
    let default1 = tables.default1.map(|flags| flags.into_bits().to_string());
    format!(
        "enabled={} default0={} default1={} overlays0=[{}] overlays1=[{}] locks0=[{}] locks1=[{}]",
        u8::from(enabled),
        tables.default0.into_bits(),
        default1.unwrap_or("-".to_string()),
        joined(overlays0.iter().map(overlay), ","),
        joined(overlays1.iter().map(overlay), ","),
        joined(locks0.iter().map(lock), ""),
        joined(locks1.iter().map(lock), ""),
    )
}

fn overlay(overlay: &Overlay) -> String {
    let source = match overlay.source {
        GpnSource::GuestMemory => "guest",
        GpnSource::Dma => "dma",
    };
    let (previous, own) = (overlay.previous.into_bits(), overlay.own.into_bits());
    let Overlay { page, count, .. } = overlay;
    format!("{page}:{previous}:{own}:{count}:{source}")
}

fn lock(pages: &Vec<u64>) -> String {
    format!("({})", joined(pages, ","))
}
