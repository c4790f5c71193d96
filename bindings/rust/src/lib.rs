//! Decodes, checks, changes and encodes Protocol Buffers messages. It learns their types at run time, from a descriptor set or .proto sources.
//!
//! ```
//! use mabristu::Pool;
//!
//! # fn main() -> Result<(), mabristu::Error> {
//! let pool = Pool::of_sources([("note.proto", "syntax = \"proto3\"; message Note { string text = 1; }")])?;
//! let note = pool.message_type("Note")?.decode(b"\x0a\x05hello")?;
//! assert_eq!(note.to_string(), "text: \"hello\"\n");
//! assert_eq!(note.encode()?, b"\x0a\x05hello");
//! # Ok(())
//! # }
//! ```
//!
//! Types come from a descriptor set ([`Pool::link`]) or from sources of proto3 ([`Pool::of_sources`]). A [`MessageType`] checks, rewrites and lists bytes,
//! splits streams, and decodes a [`Message`]. A [`Part`] reads a place in a message, and a [`PartMut`] changes it. A [`Decoder`] decodes a message that
//! arrives in pieces. A refusal is an [`Error`] with the byte, the path and the cause.
//!
//! A [`Pool`], a [`MessageType`], a [`Message`] and a [`Decoder`] may go to another thread, and one thread at a time uses them. A clone of a pool or a
//! type copies no types.
mod calls;
mod change;
mod compat;
mod decoder;
mod error;
mod frames;
mod given;
mod message;
mod message_type;
mod near;
mod part;
mod pool;
mod report;
mod schema;
mod structs;
mod value;

pub use change::PartMut;
pub use compat::{Difference, Severity};
pub use decoder::Decoder;
pub use error::{Cause, Error, Step, StreamError};
pub use frames::{Frame, Frames};
pub use given::Given;
pub use message::{JsonForm, Message};
pub use message_type::{raw_check, raw_short, Field, JsonInput, Limits, MessageType, Shape};
pub use part::{Key, Part};
pub use pool::Pool;
pub use schema::{DeclaredEnum, DeclaredField, DeclaredFile, DeclaredType, Schema};
pub use structs::TextForm;
pub use value::Value;
