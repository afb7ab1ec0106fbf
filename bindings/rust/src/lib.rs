//! Streams of Go's `encoding/gob`, read exactly, without Go and without the Go types: a gob stream describes itself.
//!
//! ```
//! # let bytes: &[u8] = b"\x1f\xff\x81\x03\x01\x01\x05Point\x01\xff\x82\x00\x01\x02\x01\x01X\x01\x04\x00\x01\x01Y\
//! #     \x01\x04\x00\x00\x00\x07\xff\x82\x01\x2c\x01\x42\x00";
//! let mut reader = gob::Reader::new(bytes)?;
//! while let Some(value) = reader.next_value()? {
//!     let x = value.field("X").and_then(|part| part.as_int());
//!     assert_eq!(x, Some(22));
//! }
//! # Ok::<(), gob::Error>(())
//! ```
//!
//! A [`Reader`] reads from any [`std::io::Read`], and a [`Stream`] is fed the bytes as they come. Both give each value
//! as a [`Part`], which is looked at where it stands; [`Part::to_value`] makes a [`Value`] of it, and with the feature
//! `serde` `Part::to` any type that can be deserialized.
//!
//! The bytes are read by a C library whose reader is proved; this crate is tested. Its `unsafe` is the calls of that
//! library, in `stream.rs`, and rests on the structs of `raw.rs` being those of gob.h.

#[cfg(feature = "serde")]
mod deserialize;
mod error;
mod part;
mod raw;
mod reader;
mod stream;
mod types;
mod value;

#[cfg(feature = "serde")]
pub use deserialize::Mismatch;
pub use error::{Error, Reason, Refused};
pub use part::{Fields, Held, List, Pairs, Part, Shown};
pub use reader::Reader;
pub use stream::{Limits, Options, Stream};
pub use types::{Field, Kind, Marshal, Type, Types};
pub use value::Value;
