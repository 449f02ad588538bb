use crate::decode::{grown, numbers, stored};
use crate::{ffi, Decoded, Encoder, Error, Insertion, Lookup, Record, SectionError, Stored};
use std::fmt;

/// How many bytes a table's strings stand in; also the largest capacity.
pub const ARENA: usize = 16_384;

/// The least length of a buffer for an increment.
pub const INCREMENT: usize = 3;

/// A dynamic table with its strings. It is 25,600 bytes on the heap, and nothing else is allocated.
#[derive(Clone)]
pub struct Table {
    record: Box<ffi::Table>,
    arena: Box<[u8; ARENA]>,
}

/// What a call on the encoder stream did.
#[derive(Debug, Clone, Copy, PartialEq, Eq)]
pub struct Received {
    /// The bytes of whole instructions. What follows belongs in front of the next bytes.
    pub consumed: usize,
    /// How many entries were ever inserted.
    pub inserted: usize,
    /// The bytes of the increment, for the decoder stream.
    pub written: usize,
}

/// A refused call on a stream. What stands before the bad instruction was applied.
#[derive(Debug, Clone, Copy, PartialEq, Eq)]
pub struct StreamError {
    pub error: Error,
    pub consumed: usize,
}

impl fmt::Display for StreamError {
    fn fmt(&self, f: &mut fmt::Formatter<'_>) -> fmt::Result {
        write!(f, "{} after {} bytes", self.error, self.consumed)
    }
}

impl std::error::Error for StreamError {}

impl From<StreamError> for Error {
    fn from(e: StreamError) -> Error {
        e.error
    }
}

impl Default for Table {
    fn default() -> Table {
        Table::new()
    }
}

impl fmt::Debug for Table {
    fn fmt(&self, f: &mut fmt::Formatter<'_>) -> fmt::Result {
        f.debug_struct("Table")
            .field("capacity", &self.capacity())
            .field("size", &self.size())
            .field("inserted", &self.inserted())
            .field("dropped", &self.dropped())
            .finish_non_exhaustive()
    }
}

// SAFETY, for every `unsafe` below: the record came from `qpack_fresh` or from the call before; each pointer comes with
// its own slice's length; and the borrow of the arena (`&mut` where the call writes it) and of each lent buffer keeps
// them apart. Nothing is kept after the call.
impl Table {
    /// A table with nothing in it; its capacity and its blocked maximum are 0.
    pub fn new() -> Table {
        Table {
            record: Box::new(unsafe { ffi::qpack_fresh() }),
            arena: Box::new([0; ARENA]),
        }
    }

    fn took(&mut self, o: ffi::Outcome) -> Result<(), Error> {
        *self.record = o.table;
        Error::check(o.answer)
    }

    fn named(&mut self, o: ffi::NamedOutcome) -> Result<ffi::Named, Error> {
        *self.record = o.table;
        Error::check(o.answer).map(|()| o.named)
    }

    /// Sets the capacity (h3: `set_max_size`).
    pub fn set_capacity(&mut self, capacity: usize) -> Result<(), Error> {
        let o = unsafe { ffi::qpack_set_capacity(*self.record, capacity) };
        self.took(o)
    }

    /// Sets the blocked maximum.
    pub fn set_max_blocked(&mut self, most: usize) -> Result<(), Error> {
        let o = unsafe { ffi::qpack_set_max_blocked(*self.record, most) };
        self.took(o)
    }

    /// Inserts a field outside of any section. Where entries in use keep it out, it does nothing.
    pub fn put(&mut self, name: &[u8], value: &[u8]) -> Result<(), Error> {
        let o = unsafe {
            ffi::qpack_put(
                *self.record,
                self.arena.as_mut_ptr(),
                ARENA,
                name.as_ptr(),
                name.len(),
                value.as_ptr(),
                value.len(),
            )
        };
        self.took(o)
    }

    /// Opens a section of a stream, as a guard that abandons it when dropped (h3: `DynamicTable::encoder`).
    pub fn encoder(&mut self, stream: u64) -> Result<Encoder<'_>, Error> {
        self.begin(stream)?;
        Ok(Encoder::opened(self))
    }

    /// Opens a section of a stream, with no guard.
    pub fn begin(&mut self, stream: u64) -> Result<(), Error> {
        let o = unsafe { ffi::qpack_begin(*self.record, stream) };
        self.took(o)
    }

    /// The latest entry equal to a field, which the open section then uses.
    pub fn find(&mut self, name: &[u8], value: &[u8]) -> Result<Lookup, Error> {
        let o = unsafe {
            ffi::qpack_find(
                *self.record,
                self.arena.as_ptr(),
                ARENA,
                name.as_ptr(),
                name.len(),
                value.as_ptr(),
                value.len(),
            )
        };
        self.named(o).map(ffi::Named::lookup)
    }

    /// Inserts a field that the open section then uses, or says what names it.
    pub fn insert(&mut self, name: &[u8], value: &[u8]) -> Result<Insertion, Error> {
        let o = unsafe {
            ffi::qpack_insert(
                *self.record,
                self.arena.as_mut_ptr(),
                ARENA,
                name.as_ptr(),
                name.len(),
                value.as_ptr(),
                value.len(),
            )
        };
        self.named(o).map(ffi::Named::insertion)
    }

    /// Queues the open section; `largest` is the largest absolute index that it refers to, 0 for none.
    pub fn commit(&mut self, largest: usize) -> Result<(), Error> {
        let o = unsafe { ffi::qpack_commit(*self.record, largest) };
        self.took(o)
    }

    /// Closes the open section and gives all its references back.
    pub fn abandon(&mut self) -> Result<(), Error> {
        let o = unsafe { ffi::qpack_abandon(*self.record) };
        self.took(o)
    }

    /// The peer acknowledged a section of a stream (h3: `untrack_block`).
    pub fn acknowledge(&mut self, stream: u64) -> Result<(), Error> {
        let o = unsafe { ffi::qpack_acknowledge(*self.record, stream) };
        self.took(o)
    }

    /// The peer cancelled a stream.
    pub fn cancel(&mut self, stream: u64) -> Result<(), Error> {
        let o = unsafe { ffi::qpack_cancel(*self.record, stream) };
        self.took(o)
    }

    /// The peer received more inserts (h3: `update_largest_received`).
    pub fn increment(&mut self, inserts: usize) -> Result<(), Error> {
        let o = unsafe { ffi::qpack_increment(*self.record, inserts) };
        self.took(o)
    }

    /// Applies the whole instructions of the peer's encoder stream, and writes the increment to `out`, which has at least `INCREMENT` bytes.
    pub fn on_encoder_recv(
        &mut self,
        bytes: &[u8],
        out: &mut [u8],
    ) -> Result<Received, StreamError> {
        let o = unsafe {
            ffi::qpack_on_encoder_recv(
                *self.record,
                self.arena.as_mut_ptr(),
                ARENA,
                bytes.as_ptr(),
                bytes.len(),
                out.as_mut_ptr(),
                out.len(),
            )
        };
        *self.record = o.table;
        let received = Received {
            consumed: o.consumed,
            inserted: o.inserted,
            written: o.written,
        };
        Error::check(o.answer)
            .map(|()| received)
            .map_err(|error| StreamError {
                error,
                consumed: o.consumed,
            })
    }

    /// Applies the whole reports of the peer's decoder stream, and says how many bytes they were.
    pub fn on_decoder_recv(&mut self, bytes: &[u8]) -> Result<usize, StreamError> {
        let o = unsafe { ffi::qpack_on_decoder_recv(*self.record, bytes.as_ptr(), bytes.len()) };
        *self.record = o.table;
        Error::check(o.answer)
            .map(|()| o.consumed)
            .map_err(|error| StreamError {
                error,
                consumed: o.consumed,
            })
    }

    /// Reads a section into lent buffers.
    pub fn read_section(
        &self,
        section: &[u8],
        records: &mut [Record],
        out: &mut [u8],
    ) -> Result<Stored, SectionError> {
        stored(unsafe {
            ffi::qpack_read_section(
                *self.record,
                self.arena.as_ptr(),
                ARENA,
                section.as_ptr(),
                section.len(),
                numbers(records),
                records.len(),
                out.as_mut_ptr(),
                out.len(),
            )
        })
    }

    /// Reads a section whose names and values have at most `most` bytes together; more is `OutputFull`.
    pub fn decode_header(&self, section: &[u8], most: usize) -> Result<Decoded, Error> {
        grown(section, most, |records, out| {
            self.read_section(section, records, out)
        })
    }

    /// The capacity in force.
    pub fn capacity(&self) -> usize {
        self.record.ring.capacity
    }

    /// The sum over the live entries of name + value + 32.
    pub fn size(&self) -> usize {
        self.record.ring.size
    }

    /// How many entries were ever inserted (h3: `total_inserted`).
    pub fn inserted(&self) -> usize {
        self.record.ring.inserted
    }

    /// How many of these are gone.
    pub fn dropped(&self) -> usize {
        self.record.ring.dropped
    }

    /// The known received count.
    pub fn known_received(&self) -> usize {
        self.record.known
    }

    /// The open section's base, if one is open.
    pub fn base(&self) -> Option<usize> {
        self.record.active.then_some(self.record.base)
    }

    #[cfg(test)]
    pub(crate) fn record(&self) -> &ffi::Table {
        &self.record
    }
}
