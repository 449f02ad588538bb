//! The functions of libembed.a, as include/qpack_table.h declares them. A slice is a pointer and a length.

pub const SLOTS: usize = 512;
pub const SECTION_ENTRIES: usize = 32;
pub const QUEUE_PLACES: usize = 32;
pub const BLOCKED_VALUES: usize = 64;

#[repr(C)]
#[derive(Clone, Copy)]
pub struct Ring {
    pub inserted: usize,
    pub dropped: usize,
    pub size: usize,
    pub capacity: usize,
    pub tail: usize,
    pub head: usize,
    pub starts: [u16; SLOTS],
    pub names: [u16; SLOTS],
    pub values: [u16; SLOTS],
}

#[repr(C)]
#[derive(Clone, Copy)]
pub struct Held {
    pub offset: u16,
    pub count: u16,
}

#[repr(C)]
#[derive(Clone, Copy)]
pub struct Section {
    pub stream: u64,
    pub from: usize,
    pub used: usize,
    pub uses: [Held; SECTION_ENTRIES],
}

#[repr(C)]
#[derive(Clone, Copy)]
pub struct Queue {
    pub queued: usize,
    pub places: [Section; QUEUE_PLACES],
}

#[repr(C)]
#[derive(Clone, Copy)]
pub struct Value {
    pub largest: usize,
    pub sections: usize,
}

#[repr(C)]
#[derive(Clone, Copy)]
pub struct Waiting {
    pub total: usize,
    pub distinct: usize,
    pub values: [Value; BLOCKED_VALUES],
}

#[repr(C)]
#[derive(Clone, Copy)]
pub struct Table {
    pub ring: Ring,
    pub known: usize,
    pub most: usize,
    pub waiting: Waiting,
    pub queue: Queue,
    pub active: bool,
    pub base: usize,
    pub section: Section,
}

#[repr(C)]
pub struct Outcome {
    pub table: Table,
    pub answer: u8,
}

#[repr(C)]
#[derive(Clone, Copy)]
pub struct Named {
    pub index: usize,
    pub postbase: usize,
    pub absolute: usize,
    pub kind: u8,
}

#[repr(C)]
pub struct NamedOutcome {
    pub table: Table,
    pub named: Named,
    pub answer: u8,
}

#[repr(C)]
pub struct EncoderOutcome {
    pub table: Table,
    pub consumed: usize,
    pub inserted: usize,
    pub written: usize,
    pub answer: u8,
}

#[repr(C)]
pub struct DecoderOutcome {
    pub table: Table,
    pub consumed: usize,
    pub answer: u8,
}

#[repr(C)]
pub struct SectionOutcome {
    pub count: usize,
    pub used: usize,
    pub size: usize,
    pub dynamic: bool,
    pub answer: u8,
}

extern "C" {
    pub fn qpack_fresh() -> Table;
    pub fn qpack_set_capacity(table: Table, capacity: usize) -> Outcome;
    pub fn qpack_set_max_blocked(table: Table, most: usize) -> Outcome;
    pub fn qpack_put(
        table: Table,
        arena: *mut u8,
        arena_len: usize,
        name: *const u8,
        name_len: usize,
        value: *const u8,
        value_len: usize,
    ) -> Outcome;
    pub fn qpack_begin(table: Table, stream: u64) -> Outcome;
    pub fn qpack_find(
        table: Table,
        arena: *const u8,
        arena_len: usize,
        name: *const u8,
        name_len: usize,
        value: *const u8,
        value_len: usize,
    ) -> NamedOutcome;
    pub fn qpack_insert(
        table: Table,
        arena: *mut u8,
        arena_len: usize,
        name: *const u8,
        name_len: usize,
        value: *const u8,
        value_len: usize,
    ) -> NamedOutcome;
    pub fn qpack_commit(table: Table, largest: usize) -> Outcome;
    pub fn qpack_abandon(table: Table) -> Outcome;
    pub fn qpack_acknowledge(table: Table, stream: u64) -> Outcome;
    pub fn qpack_cancel(table: Table, stream: u64) -> Outcome;
    pub fn qpack_increment(table: Table, inserts: usize) -> Outcome;
    pub fn qpack_on_encoder_recv(
        table: Table,
        arena: *mut u8,
        arena_len: usize,
        bytes: *const u8,
        bytes_len: usize,
        out: *mut u8,
        out_len: usize,
    ) -> EncoderOutcome;
    pub fn qpack_on_decoder_recv(
        table: Table,
        bytes: *const u8,
        bytes_len: usize,
    ) -> DecoderOutcome;
    pub fn qpack_read_section(
        table: Table,
        arena: *const u8,
        arena_len: usize,
        bytes: *const u8,
        bytes_len: usize,
        fields: *mut [usize; 3],
        fields_len: usize,
        out: *mut u8,
        out_len: usize,
    ) -> SectionOutcome;
    pub fn qpack_read_stateless(
        bytes: *const u8,
        bytes_len: usize,
        most: usize,
        fields: *mut [usize; 3],
        fields_len: usize,
        out: *mut u8,
        out_len: usize,
    ) -> SectionOutcome;
}
