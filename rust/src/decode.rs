use crate::{ffi, Error, Field};
use std::fmt;

/// Where a decoded field stands in the buffer that was lent for the bytes.
#[repr(transparent)]
#[derive(Debug, Clone, Copy, PartialEq, Eq, Default)]
pub struct Record([usize; 3]);

impl Record {
    /// A record with these numbers, for a list to lend.
    pub fn new(start: usize, name_len: usize, value_len: usize) -> Record {
        Record([start, name_len, value_len])
    }

    pub fn start(&self) -> usize {
        self.0[0]
    }

    pub fn name_len(&self) -> usize {
        self.0[1]
    }

    pub fn value_len(&self) -> usize {
        self.0[2]
    }

    /// The field's name and value in the buffer; none where the buffer does not have them.
    pub fn split<'a>(&self, out: &'a [u8]) -> Option<(&'a [u8], &'a [u8])> {
        let both = out
            .get(self.0[0]..)?
            .get(..self.0[1].checked_add(self.0[2])?)?;
        Some(both.split_at(self.0[1]))
    }
}

/// What a section left in the lent list and buffer: how many records and bytes, the size sum, and whether its required count was above 0.
#[derive(Debug, Clone, Copy, PartialEq, Eq)]
pub struct Stored {
    pub count: usize,
    pub used: usize,
    pub size: usize,
    pub dynamic: bool,
}

/// A refused section. What earlier lines stored is kept.
#[derive(Debug, Clone, Copy, PartialEq, Eq)]
pub struct SectionError {
    pub error: Error,
    pub stored: Stored,
}

impl fmt::Display for SectionError {
    fn fmt(&self, f: &mut fmt::Formatter<'_>) -> fmt::Result {
        write!(f, "{} after {} fields", self.error, self.stored.count)
    }
}

impl std::error::Error for SectionError {}

impl From<SectionError> for Error {
    fn from(e: SectionError) -> Error {
        e.error
    }
}

/// A decoded section, in h3's names.
#[derive(Debug, Clone, PartialEq, Eq)]
pub struct Decoded {
    pub fields: Vec<Field>,
    /// Whether the required insert count was above 0.
    pub dyn_ref: bool,
    /// The sum over the fields of name + value + 32.
    pub mem_size: u64,
}

pub(crate) fn stored(o: ffi::SectionOutcome) -> Result<Stored, SectionError> {
    let stored = Stored {
        count: o.count,
        used: o.used,
        size: o.size,
        dynamic: o.dynamic,
    };
    Error::check(o.answer)
        .map(|()| stored)
        .map_err(|error| SectionError { error, stored })
}

/// The lent list as the archive takes it.
pub(crate) fn numbers(records: &mut [Record]) -> *mut [usize; 3] {
    records.as_mut_ptr().cast()
}

/// Reads a section with no dynamic table into lent buffers; `most` is the largest size sum.
pub fn read_stateless(
    section: &[u8],
    most: usize,
    records: &mut [Record],
    out: &mut [u8],
) -> Result<Stored, SectionError> {
    // SAFETY: each pointer comes with its own slice's length, and the two `&mut` overlap with nothing.
    stored(unsafe {
        ffi::qpack_read_stateless(
            section.as_ptr(),
            section.len(),
            most,
            numbers(records),
            records.len(),
            out.as_mut_ptr(),
            out.len(),
        )
    })
}

/// Reads a section with no dynamic table; `max_size` is the largest size sum.
pub fn decode_stateless(section: &[u8], max_size: usize) -> Result<Decoded, Error> {
    grown(section, max_size, |records, out| {
        read_stateless(section, max_size, records, out)
    })
}

/// Reads into buffers that grow while the bytes do not fit, up to `most` bytes.
pub(crate) fn grown(
    section: &[u8],
    most: usize,
    read: impl Fn(&mut [Record], &mut [u8]) -> Result<Stored, SectionError>,
) -> Result<Decoded, Error> {
    // each field takes at least one byte of the section
    let mut records = vec![Record::default(); section.len()];
    let mut room = most.min(section.len().saturating_mul(8).saturating_add(256));
    loop {
        let mut out = vec![0; room];
        match read(&mut records, &mut out) {
            Err(e) if e.error == Error::OutputFull && room < most => {
                room = most.min(room.saturating_mul(4))
            }
            Err(e) => return Err(e.error),
            Ok(s) => return Ok(decoded(&records[..s.count], &out, s)),
        }
    }
}

fn decoded(records: &[Record], out: &[u8], s: Stored) -> Decoded {
    let field = |r: &Record| {
        let (name, value) = r.split(out).expect("a record lies in the buffer");
        Field::new(name, value)
    };
    Decoded {
        fields: records.iter().map(field).collect(),
        dyn_ref: s.dynamic,
        mem_size: s.size as u64,
    }
}
