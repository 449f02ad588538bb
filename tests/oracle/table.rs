//! The Rust's table with its open section.
use h3::qpack::dynamic::{DynamicTable, DynamicTableEncoder};
use h3::qpack::field::HeaderField;
use h3::qpack::vas::VirtualAddressSpace;
use std::collections::HashMap;

/// The parts of an open section: what a DynamicTableEncoder holds beside the table.
#[derive(Clone)]
pub struct Open {
    pub stream: u64,
    pub base: usize,
    pub refs: HashMap<usize, usize>,
}

#[derive(Default)]
pub struct Table {
    pub rust: DynamicTable,
    pub open: Option<Open>,
}

pub fn field(name: &[u8], value: &[u8]) -> HeaderField {
    HeaderField::new(name, value)
}

impl Clone for Table {
    fn clone(&self) -> Table {
        let t = &self.rust;
        let rust = DynamicTable {
            fields: t.fields.clone(),
            curr_size: t.curr_size,
            max_size: t.max_size,
            vas: VirtualAddressSpace { inserted: t.vas.inserted, dropped: t.vas.dropped, delta: t.vas.delta },
            field_map: t.field_map.clone(),
            name_map: t.name_map.clone(),
            track_map: t.track_map.clone(),
            track_blocks: t.track_blocks.clone(),
            largest_known_received: t.largest_known_received,
            blocked_max: t.blocked_max,
            blocked_count: t.blocked_count,
            blocked_streams: t.blocked_streams.clone(),
        };
        Table { rust, open: self.open.clone() }
    }
}

impl Table {
    /// A call on the open section: the crate's own struct, made of its parts for one call.
    pub fn in_section<A>(&mut self, call: impl FnOnce(&mut DynamicTableEncoder) -> A) -> A {
        let open = self.open.take().expect("an open section");
        let mut e = DynamicTableEncoder {
            table: &mut self.rust,
            base: open.base,
            commited: false,
            stream_id: open.stream,
            block_refs: open.refs,
        };
        let answer = call(&mut e);
        let refs = std::mem::take(&mut e.block_refs);
        let commited = std::mem::replace(&mut e.commited, true);
        drop(e);
        if !commited {
            self.open = Some(Open { refs, ..open_without(open.stream, open.base) });
        }
        answer
    }

    /// Whether another table is the same in everything that the crate keeps.
    pub fn is_same(&self, other: &Table) -> bool {
        let (a, b) = (&self.rust, &other.rust);
        let numbers = |t: &DynamicTable| {
            [t.vas.inserted, t.vas.dropped, t.vas.delta, t.curr_size, t.max_size, t.largest_known_received, t.blocked_max, t.blocked_count]
        };
        numbers(a) == numbers(b)
            && a.fields == b.fields
            && a.field_map == b.field_map
            && a.name_map == b.name_map
            && a.track_map == b.track_map
            && a.track_blocks == b.track_blocks
            && a.blocked_streams == b.blocked_streams
    }

    /// How many sections of a stream are queued.
    pub fn queued_on(&self, stream: u64) -> usize {
        self.rust.track_blocks.get(&stream).map_or(0, |q| q.len())
    }

    /// How many sections are queued.
    pub fn queued(&self) -> usize {
        self.rust.track_blocks.values().map(|q| q.len()).sum()
    }
}

fn open_without(stream: u64, base: usize) -> Open {
    Open { stream, base, refs: HashMap::new() }
}
