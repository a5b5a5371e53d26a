//! The library's entries, over buffers that are guarded on both sides.

use crate::guard::GUARD_BYTE;
use crate::guard::GUARD_WORD;
use crate::guard::guarded;
use crate::guard::inner;
use crate::guard::unguarded;
use crate::protector::predict::Answer;
use crate::protector::predict::Call;
use crate::protector::predict::Given;
use crate::protector::predict::Query;
use crate::protector::predict::UNTOUCHED;
use crate::protector::predict::World;
use underhill_mem_port::raw::protector as entries;
use underhill_mem_port::raw::protector::Lent;
use underhill_mem_port::raw::protector::Maps;
use underhill_mem_port::raw::protector::Reply;
use underhill_mem_port::raw::protector::Seen;

/// What is lent, guarded.
struct Guarded {
    maps: [Vec<u8>; 6],
    state: Vec<u64>,
    pages: Vec<u64>,
    tables: Vec<u64>,
}

impl Guarded {
    fn new(world: &World) -> Self {
        Self {
            maps: world.maps.each_ref().map(|map| guarded(map, GUARD_BYTE)),
            state: guarded(&world.state, GUARD_WORD),
            pages: guarded(&world.pages, GUARD_WORD),
            tables: guarded(&world.tables, GUARD_WORD),
        }
    }

    fn lent(&mut self) -> Lent<'_> {
        let [private, shared, read, write, kernel, user] =
            self.maps.each_mut().map(|map| inner(map));
        Lent {
            maps: Maps {
                private,
                shared,
                read,
                write,
                kernel,
                user,
            },
            state: inner(&mut self.state),
            pages: inner(&mut self.pages),
            tables: inner(&mut self.tables),
        }
    }

    /// What lies between the guards; none if they aren't whole.
    fn world(&self) -> Option<World> {
        let mut world = World {
            maps: Default::default(),
            state: unguarded(&self.state, GUARD_WORD)?,
            pages: unguarded(&self.pages, GUARD_WORD)?,
            tables: unguarded(&self.tables, GUARD_WORD)?,
        };
        for (after, map) in world.maps.iter_mut().zip(&self.maps) {
            *after = unguarded(map, GUARD_BYTE)?;
        }
        Some(world)
    }
}

/// Makes the call by the library's entry; none if it wrote beside a buffer.
pub(super) fn call(world: &World, call: &Call) -> Option<(World, Given)> {
    let mut buffers = Guarded::new(world);
    let reply = put(call, buffers.lent());
    Some((buffers.world()?, given(&reply)))
}

fn put(call: &Call, lent: Lent<'_>) -> Reply {
    match call {
        Call::Build {
            ram,
            isolation,
            tracked,
            release,
        } => entries::build(ram, *isolation, *tracked, *release, lent),
        Call::Change {
            vtl,
            visibility,
            list,
        } => entries::change_host_visibility(lent, *vtl, *visibility, list),
        Call::Protections { vtl, flags, list } => {
            entries::change_vtl_protections(lent, *vtl, *flags, list)
        }
        Call::Default { vtl, flags } => entries::change_default_vtl_protections(lent, *vtl, *flags),
        &Call::Register {
            vtl,
            gpn,
            source,
            checked,
            new,
        } => entries::register_overlay_page(lent, vtl, gpn, source, checked, new),
        Call::Unregister { vtl, gpn } => entries::unregister_overlay_page(lent, *vtl, *gpn),
        Call::Lock { vtl, list } => entries::lock_gpns(lent.state, lent.tables, *vtl, list),
        Call::Unlock { vtl, list } => entries::unlock_gpns(lent.state, lent.tables, *vtl, list),
        Call::Enable => entries::set_vtl1_protections_enabled(lent.state),
        Call::Done => entries::answer_done(lent),
        Call::Failed { code, processed } => entries::answer_failed(lent, *code, *processed),
    }
}

fn given(reply: &Reply) -> Given {
    Given {
        number: reply.number,
        code: reply.code,
        index: reply.index,
        count: reply.count,
        operation: reply.operation,
        vtl: reply.vtl,
        flags: reply.flags,
        operand: reply.operand,
        first: reply.first,
        pages: reply.pages,
        shared: reply.shared,
    }
}

/// Puts a query to the library's entry.
pub(super) fn query(world: &World, query: &Query) -> Answer {
    let [private, shared, read, write, kernel, user] = &world.maps;
    let seen = Seen {
        private,
        shared,
        read,
        write,
        kernel,
        user,
        state: &world.state,
    };
    let value = match query {
        Query::Visibility { list, out } => return query_visibility(world, list, *out),
        &Query::Fault {
            mapping,
            view,
            address,
            writes,
            failure,
        } => entries::page_fault(seen, mapping, view, address, writes, failure),
        &Query::Lower { vtl, gpn } => entries::query_lower_vtl_permissions(seen, vtl, gpn),
        &Query::Access { gpn } => entries::query_access_permission(seen, gpn),
        &Query::Overlay { vtl, gpn } => {
            entries::is_overlay_page(&world.state, &world.tables, vtl, gpn)
        }
        Query::Enabled => entries::vtl1_protections_enabled(&world.state),
        Query::Default0 => entries::default_vtl0_protections(&world.state),
    };
    Answer {
        number: value.number,
        value: value.value,
        ..Answer::default()
    }
}

fn query_visibility(world: &World, list: &[u8], out: usize) -> Answer {
    let mut buffer = guarded(&vec![UNTOUCHED; out], GUARD_BYTE);
    let shared = &world.maps[1];
    let reply = entries::query_host_visibility(&world.state, shared, list, inner(&mut buffer));
    let plain = Reply {
        number: reply.number,
        code: reply.code,
        index: reply.index,
        ..Reply::default()
    };
    Answer {
        // Nothing else is in such a reply.
        number: match reply == plain {
            true => reply.number,
            false => u64::MAX,
        },
        value: reply.code,
        index: reply.index,
        out: unguarded(&buffer, GUARD_BYTE).unwrap_or_default(),
    }
}
