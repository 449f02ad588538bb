//! The QPACK table of h3 0.0.8 (RFC 9204), proved, as safe Rust over the archive `libembed.a`.
//!
//! A [`Table`] owns its record and its strings. The encoder's side opens a section with [`Table::encoder`] (or
//! [`Table::begin`]), looks up and inserts, and commits it; reports of the peer come by [`Table::on_decoder_recv`]. The
//! decoder's side takes the peer's encoder stream by [`Table::on_encoder_recv`] and reads sections by
//! [`Table::decode_header`]; [`decode_stateless`] reads one with no table.
//!
//! ```
//! # fn main() -> Result<(), qpack_table::Error> {
//! use qpack_table::{Field, Insertion, Table};
//!
//! let mut table = Table::new();
//! table.set_capacity(220)?;
//! table.set_max_blocked(1)?;
//! let mut section = table.encoder(4)?;
//! let inserted = section.insert(b"custom-key", b"custom-value")?;
//! assert_eq!(inserted, Insertion::Inserted { postbase: 0, absolute: 1 });
//! section.commit(1)?;
//!
//! // required insert count 1, base 0, the post-base index 0
//! let decoded = table.decode_header(&[0x02, 0x80, 0x10], 64)?;
//! assert_eq!(decoded.fields, [Field::new("custom-key", "custom-value")]);
//! # Ok(())
//! # }
//! ```
//!
//! What is proved ends at the archive's functions: docs/EMBED.md says what is not.

mod decode;
mod encoder;
mod error;
mod ffi;
mod field;
#[cfg(test)]
mod layout;
mod table;

pub use decode::{decode_stateless, read_stateless, Decoded, Record, SectionError, Stored};
pub use encoder::Encoder;
pub use error::Error;
pub use field::{Field, Insertion, Lookup};
pub use table::{Received, StreamError, Table, ARENA, INCREMENT};
