//! What was built so far, and the calls.

use crate::parse;
use crate::parse::Failures;
use crate::parse::Options;
use crate::parse::Parsed;
use crate::parse::bad;
use crate::parse::exactly;
use crate::show;
use crate::show::Maps;
use guestmem::GuestMemoryAccess;
use guestmem::GuestMemoryErrorKind;
use guestmem::PageFaultAction;
use hcl::GuestVtl;
use hvdef::HvError;
use hvdef::hypercall::HostVisibilityType;
use memory_range::MemoryRange;
use protocol::serve;
use protocol::show::failed;
use protocol::show::unaligned;
use protocol::show::words;
use recorder::Op;
use recorder::Record;
use recorder::Watch;
use std::panic::AssertUnwindSafe;
use std::panic::catch_unwind;
use std::sync::Arc;
use underhill_mem_source::Init;
use underhill_mem_source::MemoryMappings;
use underhill_mem_source::NotAll;
use underhill_mem_source::Registrar;
use underhill_mem_source::Side;
use underhill_mem_source::View;
use virt_mshv_vtl::ProtectIsolatedMemory;
use virt_mshv_vtl::TlbFlushLockAccess;
use vm_topology::memory::MemoryLayout;

/// The most RAM that the oracle takes: its maps are real memory where RAM is.
const MOST_RAM: u64 = 1 << 41;

/// The most chunks that a registrar may have: the source keeps a bit for each, twice.
const MOST_CHUNKS: u64 = 1 << 28;

/// A conversation: at most one protector and one registrar.
pub struct Session {
    vp_count: u32,
    trace: bool,
    protector: Slot<Protector>,
    registrar: Slot<Registrar>,
}

/// Something that is built, and gone once the source panicked in it.
enum Slot<T> {
    Empty,
    Live(T),
    Gone(T),
}

struct Protector {
    mappings: MemoryMappings,
    maps: Arc<Maps>,
}

impl<T> Slot<T> {
    fn live(&self) -> Parsed<&T> {
        match self {
            Slot::Live(built) => Ok(built),
            Slot::Gone(_) => bad("the Rust panicked: build again"),
            Slot::Empty => bad("nothing is built"),
        }
    }

    /// Also what is gone, to be looked at.
    fn any(&self) -> Parsed<&T> {
        match self {
            Slot::Live(built) | Slot::Gone(built) => Ok(built),
            Slot::Empty => bad("nothing is built"),
        }
    }

    fn panicked(&mut self) {
        *self = match std::mem::replace(self, Slot::Empty) {
            Slot::Live(built) | Slot::Gone(built) => Slot::Gone(built),
            Slot::Empty => Slot::Empty,
        };
    }
}

/// Flushes, noted.
struct Tlb;

impl TlbFlushLockAccess for Tlb {
    fn flush(&mut self, vtl: GuestVtl) {
        recorder::tell(Op::Flush { vtl: vtl as u8 });
    }

    fn flush_entire(&mut self) {
        recorder::tell(Op::FlushAll);
    }

    fn set_wait_for_tlb_locks(&mut self, vtl: GuestVtl) {
        recorder::tell(Op::TlbWait { vtl: vtl as u8 });
    }
}

impl Session {
    /// `vp_count` is what the source is told.
    pub fn new(vp_count: u32) -> Self {
        Self {
            vp_count,
            trace: false,
            protector: Slot::Empty,
            registrar: Slot::Empty,
        }
    }

    /// The answer to a line; none to a blank one or a comment.
    pub fn line(&mut self, line: &str) -> Option<String> {
        serve::line(line, |line| self.command(line))
    }

    fn command(&mut self, line: &str) -> Parsed<String> {
        let (words, failures) = parse::split_failures(line)?;
        let Some((&name, args)) = words.split_first() else {
            return bad("no command");
        };
        match name {
            "build" => self.build(args),
            "registrar" => self.build_registrar(args),
            "trace" => self.set_trace(args),
            "step" => no_step(args),
            "answer" | "ranswer" | "lend" => bad("the port alone can be stepped or lent to"),
            "permissions" => permissions(args),
            "dump" => self.dump(args),
            "tables" => self.tables(args),
            "rdump" => self.rdump(args),
            "register" => self.register(args, failures),
            "register_all_aligned" => self.register_all_aligned(args, failures),
            _ => self.protector_call(name, args, failures),
        }
    }

    fn set_trace(&mut self, args: &[&str]) -> Parsed<String> {
        let [on] = exactly(args)?;
        self.trace = parse::bit(on)?;
        plain("ok")
    }

    fn build(&mut self, args: &[&str]) -> Parsed<String> {
        let options = Options::new(args, &["iso", "tracked", "release", "ram"])?;
        let params = Init {
            isolation: parse::isolation(options.get("iso", "snp"))?,
            tracked: parse::bit(options.get("tracked", "0"))?,
            layout: parse::ram(options.required("ram")?)?,
            vp_count: self.vp_count,
        };
        let release = parse::bit(options.get("release", "0"))?;
        let sizes = params.layout.ram().iter().map(|entry| entry.range.len());
        if sizes.sum::<u64>() > MOST_RAM {
            return bad("more RAM than the oracle keeps maps of");
        }
        self.protector = Slot::Empty;
        recorder::set_release(release);
        let built = catch_unwind(AssertUnwindSafe(|| underhill_mem_source::init(&params)));
        match built {
            Ok(Ok(mappings)) => {
                self.protector = Slot::Live(protector(mappings, &params.layout));
                plain("ok")
            }
            Ok(Err(error)) => plain(&format!("err {}", error.0)),
            Err(payload) => plain(&show::panic(&*payload)),
        }
    }

    fn build_registrar(&mut self, args: &[&str]) -> Parsed<String> {
        let options = Options::new(args, &["offset", "granularity", "ram"])?;
        let offset = parse::number(options.get("offset", "0"))?;
        let granularity = parse::number(options.get("granularity", "4096"))?;
        let layout = parse::ram(options.required("ram")?)?;
        if last_end(&layout) / granularity.max(1) > MOST_CHUNKS {
            return bad("more chunks than the oracle keeps");
        }
        self.registrar = Slot::Empty;
        let new = || Registrar::new(&layout, offset, granularity);
        match catch_unwind(AssertUnwindSafe(new)) {
            Ok(registrar) => {
                self.registrar = Slot::Live(registrar);
                plain("ok")
            }
            Err(payload) => plain(&show::panic(&*payload)),
        }
    }

    fn dump(&self, args: &[&str]) -> Parsed<String> {
        let [] = exactly(args)?;
        let protector = self.protector.any()?;
        plain(&format!("ok {}", protector.maps.show()))
    }

    fn tables(&self, args: &[&str]) -> Parsed<String> {
        let [] = exactly(args)?;
        let mappings = &self.protector.any()?.mappings;
        let enabled = mappings.protector.vtl1_protections_enabled();
        let tables = show::tables(enabled, &mappings.tables());
        plain(&format!("ok {tables}"))
    }

    fn rdump(&self, args: &[&str]) -> Parsed<String> {
        let [] = exactly(args)?;
        let (registered, failed) = self.registrar.any()?.words();
        let (registered, failed) = (words(&registered), words(&failed));
        plain(&format!("ok registered={registered} failed={failed}"))
    }

    fn register(&mut self, args: &[&str], failures: Failures) -> Parsed<String> {
        let [address, len] = exactly(args)?;
        let (address, len) = (parse::number(address)?, parse::number(len)?);
        self.registrar_call(failures, |registrar| {
            match registrar.register(address, len) {
                Ok(()) => "ok".to_string(),
                Err(address) => failed(address),
            }
        })
    }

    fn register_all_aligned(&mut self, args: &[&str], failures: Failures) -> Parsed<String> {
        let [alignment, ignore] = exactly(args)?;
        let (alignment, ignore) = (parse::number(alignment)?, parse::bit(ignore)?);
        self.registrar_call(failures, |registrar| {
            match registrar.register_all_aligned(alignment, ignore) {
                Ok(()) => "ok".to_string(),
                Err(error) => not_all(&error),
            }
        })
    }

    fn registrar_call(
        &mut self,
        failures: Failures,
        call: impl FnOnce(&Registrar) -> String,
    ) -> Parsed<String> {
        let registrar = self.registrar.live()?;
        let (result, record) = run(failures, None, || call(registrar));
        self.registrar.settle(result, &record)
    }

    fn protector_call(&mut self, name: &str, args: &[&str], failures: Failures) -> Parsed<String> {
        let call = call(name, args)?;
        let Protector { mappings, maps } = self.protector.live()?;
        let watch: Option<Watch> = self.trace.then(|| {
            let maps = maps.clone();
            Arc::new(move || maps.show()) as Watch
        });
        let (result, record) = run(failures, watch, || call(mappings));
        self.protector.settle(result, &record)
    }
}

impl<T> Slot<T> {
    /// The answer line; after a panic the thing is gone.
    fn settle(&mut self, result: Result<String, String>, record: &Record) -> Parsed<String> {
        let result = result.unwrap_or_else(|panic| {
            self.panicked();
            panic
        });
        Ok(show::answer(&result, record))
    }
}

/// Makes a call with its operations recorded; the error is a panic.
fn run(
    failures: Failures,
    watch: Option<Watch>,
    call: impl FnOnce() -> String,
) -> (Result<String, String>, Record) {
    recorder::begin(failures, watch);
    let result = catch_unwind(AssertUnwindSafe(call));
    let record = recorder::finish();
    (result.map_err(|payload| show::panic(&*payload)), record)
}

/// A line that asked for nothing.
fn plain(result: &str) -> Parsed<String> {
    Ok(show::answer(result, &Record::default()))
}

fn last_end(layout: &MemoryLayout) -> u64 {
    layout.ram().last().map_or(0, |entry| entry.range.end())
}

fn protector(mappings: MemoryMappings, layout: &MemoryLayout) -> Protector {
    let maps = Maps {
        maps: mappings.maps(),
        len: (last_end(layout) / 32_768) as usize,
    };
    Protector {
        mappings,
        maps: Arc::new(maps),
    }
}

fn no_step(args: &[&str]) -> Parsed<String> {
    let [on] = exactly(args)?;
    match parse::bit(on)? {
        false => plain("ok"),
        true => bad("the port alone can be stepped"),
    }
}

fn permissions(args: &[&str]) -> Parsed<String> {
    let [isolation, vtl, flags] = exactly(args)?;
    let (vtl, flags) = (parse::vtl(vtl)?, parse::flags(flags)?);
    match isolation {
        "snp" => {
            let operand = underhill_mem_source::snp_operand(vtl, flags);
            plain(&format!("ok operand={operand}"))
        }
        "tdx" => {
            let (attr, mask) = underhill_mem_source::tdx_attributes(vtl, flags);
            plain(&format!("ok attr={attr:#x} mask={mask:#x}"))
        }
        _ => bad("permissions are of snp or tdx"),
    }
}

fn not_all(error: &NotAll) -> String {
    let bytes = |range: &MemoryRange| protocol::show::bytes(range.start(), range.end());
    match error {
        NotAll::Failed { address } => failed(*address),
        NotAll::Unaligned {
            span,
            edge,
            vnode,
            node_range,
            alignment,
        } => {
            let vnode = u64::from(*vnode);
            unaligned(
                &bytes(span),
                &bytes(edge),
                vnode,
                &bytes(node_range),
                *alignment,
            )
        }
    }
}

type Call = Box<dyn FnOnce(&MemoryMappings) -> String>;

fn boxed(call: impl FnOnce(&MemoryMappings) -> String + 'static) -> Parsed<Call> {
    Ok(Box::new(call))
}

/// A call of the protector, its words read.
fn call(name: &str, args: &[&str]) -> Parsed<Call> {
    match name {
        "change_host_visibility" => change_host_visibility(exactly(args)?),
        "query_host_visibility" => query_host_visibility(exactly(args)?),
        "change_vtl_protections" => change_vtl_protections(exactly(args)?),
        "change_default_vtl_protections" => change_default_vtl_protections(exactly(args)?),
        "register_overlay_page" => register_overlay_page(exactly(args)?),
        "unregister_overlay_page" => unregister_overlay_page(exactly(args)?),
        "is_overlay_page" => is_overlay_page(exactly(args)?),
        "lock_gpns" => lock_gpns(exactly(args)?),
        "unlock_gpns" => unlock_gpns(exactly(args)?),
        "set_vtl1_protections_enabled" => set_vtl1_protections_enabled(exactly(args)?),
        "vtl1_protections_enabled" => vtl1_protections_enabled(exactly(args)?),
        "default_vtl0_protections" => default_vtl0_protections(exactly(args)?),
        "query_lower_vtl_permissions" => query_lower_vtl_permissions(exactly(args)?),
        "query_access_permission" => query_access_permission(exactly(args)?),
        "page_fault" => page_fault(exactly(args)?),
        _ => bad("unknown command"),
    }
}

fn change_host_visibility([vtl, to, pages]: [&str; 3]) -> Parsed<Call> {
    let vtl = parse::vtl(vtl)?;
    let shared = parse::choice(to, &[("shared", true), ("private", false)])?;
    let pages = parse::pages(pages)?;
    boxed(move |m| {
        indexed(
            m.protector
                .change_host_visibility(vtl, shared, &pages, &mut Tlb),
        )
    })
}

fn query_host_visibility([pages, len]: [&str; 2]) -> Parsed<Call> {
    const UNTOUCHED: HostVisibilityType = HostVisibilityType(0xa5);
    let pages = parse::pages(pages)?;
    let mut out = vec![UNTOUCHED; parse::places(len)?];
    boxed(move |m| {
        let result = indexed(m.protector.query_host_visibility(&pages, &mut out));
        let digit = |visibility: &HostVisibilityType| match *visibility {
            HostVisibilityType::PRIVATE => '0',
            HostVisibilityType::SHARED => '1',
            _ => '_',
        };
        let digits: String = out.iter().map(digit).collect();
        format!("{result} out=[{digits}]")
    })
}

fn change_vtl_protections([vtl, flags, pages]: [&str; 3]) -> Parsed<Call> {
    let (vtl, flags) = (parse::vtl(vtl)?, parse::flags(flags)?);
    let pages = parse::pages(pages)?;
    boxed(move |m| {
        indexed(
            m.protector
                .change_vtl_protections(vtl, &pages, flags, &mut Tlb),
        )
    })
}

fn change_default_vtl_protections([vtl, flags]: [&str; 2]) -> Parsed<Call> {
    let (vtl, flags) = (parse::vtl(vtl)?, parse::flags(flags)?);
    boxed(move |m| {
        coded(
            m.protector
                .change_default_vtl_protections(vtl, flags, &mut Tlb),
        )
    })
}

fn register_overlay_page([vtl, page, source, check, new]: [&str; 5]) -> Parsed<Call> {
    let (vtl, page) = (parse::vtl(vtl)?, parse::number(page)?);
    let source = parse::source(source)?;
    let (check, new) = (parse::flags(check)?, parse::new_flags(new)?);
    boxed(move |m| {
        let protector = &m.protector;
        coded(protector.register_overlay_page(vtl, page, source, check, new, &mut Tlb))
    })
}

fn unregister_overlay_page([vtl, page]: [&str; 2]) -> Parsed<Call> {
    let (vtl, page) = (parse::vtl(vtl)?, parse::number(page)?);
    boxed(move |m| coded(m.protector.unregister_overlay_page(vtl, page, &mut Tlb)))
}

fn is_overlay_page([vtl, page]: [&str; 2]) -> Parsed<Call> {
    let (vtl, page) = (parse::vtl(vtl)?, parse::number(page)?);
    boxed(move |m| yes_no(m.protector.is_overlay_page(vtl, page)))
}

fn lock_gpns([vtl, pages]: [&str; 2]) -> Parsed<Call> {
    let (vtl, pages) = (parse::vtl(vtl)?, parse::pages(pages)?);
    boxed(move |m| match m.protector.lock_gpns(vtl, &pages) {
        Ok(()) => "ok".to_string(),
        Err(error) => failed(error.address),
    })
}

fn unlock_gpns([vtl, pages]: [&str; 2]) -> Parsed<Call> {
    let (vtl, pages) = (parse::vtl(vtl)?, parse::pages(pages)?);
    boxed(move |m| {
        m.protector.unlock_gpns(vtl, &pages);
        "ok".to_string()
    })
}

fn set_vtl1_protections_enabled([]: [&str; 0]) -> Parsed<Call> {
    boxed(|m| {
        m.protector.set_vtl1_protections_enabled();
        "ok".to_string()
    })
}

fn vtl1_protections_enabled([]: [&str; 0]) -> Parsed<Call> {
    boxed(|m| yes_no(m.protector.vtl1_protections_enabled()))
}

fn default_vtl0_protections([]: [&str; 0]) -> Parsed<Call> {
    boxed(|m| format!("ok {}", m.protector.default_vtl0_protections().into_bits()))
}

fn query_lower_vtl_permissions([vtl, page]: [&str; 2]) -> Parsed<Call> {
    let (vtl, page) = (parse::vtl(vtl)?, parse::number(page)?);
    boxed(move |m| match m.query_lower_vtl_permissions(vtl, page) {
        Ok(flags) => format!("ok {}", flags.into_bits()),
        Err(error) => format!("err {}", error.0),
    })
}

fn query_access_permission([page]: [&str; 1]) -> Parsed<Call> {
    let page = parse::number(page)?;
    boxed(move |m| match m.query_access_permission(page) {
        Some(flags) => format!("ok {}", flags.into_bits()),
        None => "err NoPermissionsTracked".to_string(),
    })
}

fn page_fault([side, view, address, write, failure]: [&str; 5]) -> Parsed<Call> {
    let sides = [("encrypted", Side::Encrypted), ("shared", Side::Shared)];
    let views = [
        ("read", View::Read),
        ("kx", View::KernelExecute),
        ("ux", View::UserExecute),
    ];
    let side = parse::choice(side, &sides)?;
    let view = parse::choice(view, &views)?;
    let address = parse::number(address)?;
    let (write, failure) = (parse::bit(write)?, parse::bit(failure)?);
    boxed(move |m| fault(m.view(side, view).page_fault(address, 1, write, failure)))
}

fn fault(action: PageFaultAction) -> String {
    match action {
        PageFaultAction::Retry => "ok Retry".to_string(),
        PageFaultAction::Fail(error) => match error.kind {
            GuestMemoryErrorKind::Other => format!("ok {:?}", error.error),
            kind => format!("ok {kind:?}"),
        },
    }
}

fn indexed(result: Result<(), (HvError, usize)>) -> String {
    match result {
        Ok(()) => "ok".to_string(),
        Err((error, index)) => format!("err {} {index}", error.0),
    }
}

fn coded(result: Result<(), HvError>) -> String {
    match result {
        Ok(()) => "ok".to_string(),
        Err(error) => format!("err {}", error.0),
    }
}

fn yes_no(yes: bool) -> String {
    format!("ok {}", u8::from(yes))
}
