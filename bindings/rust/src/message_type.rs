//! Message types, and calls on the bytes of messages.
use crate::calls;
use crate::near::near;
use crate::report::{judged, written, Report};
use crate::structs::{Field as FieldReport, Frame as FrameReport, Value as Reported};
use crate::value::{scalar, size as size_of};
use crate::{Cause, Decoder, Error, Frames, Message, Pool, Value};
use std::io::Read;

/// How many bytes a message may have, and how deep it may nest.
#[derive(Clone, Copy, Debug, PartialEq, Eq)]
pub struct Limits {
    pub max_bytes: u32,
    pub max_depth: u8,
}

impl Limits {
    /// The greatest limits, 2^31 - 1 bytes and 100 levels.
    pub const FULL: Limits = Limits { max_bytes: calls::MAX_BYTES, max_depth: calls::MAX_DEPTH };
}

/// How JSON is read. The default: a name that no field or enum has is refused.
#[derive(Clone, Copy, Debug, Default, PartialEq, Eq)]
pub struct JsonInput {
    /// Members that no field has are passed over, and so are strings that an enum does not declare.
    pub ignore_unknown: bool,
}

/// How a field holds its values.
#[derive(Clone, Copy, Debug, PartialEq, Eq)]
pub enum Shape {
    /// One value, which is unset while it is the default.
    Implicit,
    /// One value, set or not.
    Optional,
    /// One value, a member of a oneof.
    Oneof,
    List,
    Map,
}

impl Shape {
    pub fn name(self) -> &'static str {
        match self {
            Shape::Implicit => "implicit",
            Shape::Optional => "optional",
            Shape::Oneof => "oneof",
            Shape::List => "list",
            Shape::Map => "map",
        }
    }
}

/// A field of a message type.
#[derive(Clone, Copy, Debug, PartialEq, Eq)]
pub struct Field {
    pub number: u32,
    /// The kind of its values, as the number of a type in descriptor.proto: 5 for int32, 9 for string, 11 for a message, 14 for an enum.
    pub kind: u32,
    pub shape: Shape,
    /// For a map the kind of its keys.
    pub key: Option<u32>,
    /// The number of the message type or enum of its values, else 0.
    pub type_of: usize,
}

#[rustfmt::skip]
const KINDS: [&str; 18] = ["double", "float", "int64", "uint64", "int32", "fixed64", "fixed32", "bool", "string", "group", "message", "bytes", "uint32",
    "enum", "sfixed32", "sfixed64", "sint32", "sint64"];

/// The name of a kind by its number.
pub(crate) fn kind_name(kind: u32) -> &'static str {
    (kind as usize).checked_sub(1).and_then(|kind| KINDS.get(kind)).unwrap_or(&"?")
}

impl Field {
    pub(crate) fn of(FieldReport { number, kind, shape, key, type_of }: FieldReport) -> Field {
        let shape = match shape {
            0 => Shape::Implicit,
            1 => Shape::Optional,
            2 => Shape::Oneof,
            3 => Shape::List,
            _ => Shape::Map,
        };
        Field { number, kind, shape, key: (key != 0).then_some(key), type_of }
    }

    /// The kind of its values, as a source writes it, or `message` or `enum`.
    pub fn kind_name(&self) -> &'static str {
        kind_name(self.kind)
    }
}

/// A message type of a pool, with the limits of its calls. It may go to another thread. A clone copies no types.
#[derive(Clone)]
pub struct MessageType {
    pub(crate) pool: Pool,
    pub(crate) number: u32,
    pub(crate) limits: Limits,
}

impl MessageType {
    /// The same type with other limits for its calls.
    pub fn with_limits(self, limits: Limits) -> MessageType {
        MessageType { limits, ..self }
    }

    /// The number of the type in its pool.
    pub fn number(&self) -> u32 {
        self.number
    }

    /// The pool of the type.
    pub fn pool(&self) -> &Pool {
        &self.pool
    }

    /// Checks that bytes are a message of the type, and builds no message.
    pub fn check(&self, bytes: &[u8]) -> Result<(), Error> {
        let Limits { max_bytes, max_depth } = self.limits;
        judged(|fault, path, steps| unsafe {
            calls::mb_check(self.pool.handle(), self.number, bytes.as_ptr(), bytes.len(), max_bytes, max_depth, fault, path, steps)
        })
    }

    /// The canonical bytes of a message.
    pub fn canonical(&self, bytes: &[u8]) -> Result<Vec<u8>, Error> {
        let Limits { max_bytes, max_depth } = self.limits;
        written(bytes.len(), |out, capacity, size, fault, path, steps| unsafe {
            let (at, len) = (bytes.as_ptr(), bytes.len());
            calls::mb_canon(self.pool.handle(), self.number, at, len, max_bytes, max_depth, out, capacity, size, fault, path, steps)
        })
    }

    /// The listing of a message, as `pbtool show` prints it.
    pub fn listing(&self, bytes: &[u8]) -> Result<String, Error> {
        let Limits { max_bytes, max_depth } = self.limits;
        let listing = written(5 * bytes.len(), |out, capacity, size, fault, path, steps| unsafe {
            let (at, len) = (bytes.as_ptr(), bytes.len());
            calls::mb_show(self.pool.handle(), self.number, at, len, max_bytes, max_depth, out, capacity, size, fault, path, steps)
        })?;
        Ok(text(listing))
    }

    /// The listing with floats in decimal: the fewest digits that read back as the same bits, or `nan`, `inf` or `-inf`.
    pub fn listing_decimal(&self, bytes: &[u8]) -> Result<String, Error> {
        let Limits { max_bytes, max_depth } = self.limits;
        let listing = written(5 * bytes.len(), |out, capacity, size, fault, path, steps| unsafe {
            let (at, len) = (bytes.as_ptr(), bytes.len());
            calls::mb_show_decimal(self.pool.handle(), self.number, at, len, max_bytes, max_depth, out, capacity, size, fault, path, steps)
        })?;
        Ok(text(listing))
    }

    /// The field with a simple name.
    pub fn field(&self, name: &str) -> Result<Field, Error> {
        let mut field = FieldReport::default();
        let answer = unsafe { calls::mb_pool_field(self.pool.handle(), self.number, name.as_ptr(), name.len(), &mut field) };
        match Report::new().judge(answer) {
            Ok(()) => Ok(Field::of(field)),
            Err(Error::NoField) => Err(self.unknown_field(name)),
            Err(error) => Err(error),
        }
    }

    /// The error that the type has no field or oneof of a name.
    pub(crate) fn unknown_field(&self, name: &str) -> Error {
        let near = near(name, &self.names_inside());
        Error::UnknownField { message_type: self.name().unwrap_or_default(), name: name.to_owned(), near }
    }

    /// The message type of the values of a field, if they are messages.
    pub fn inner(&self, field: &Field) -> Option<MessageType> {
        let number = u32::try_from(field.type_of).ok()?;
        matches!(field.kind, 10 | 11).then(|| MessageType { number, ..self.clone() })
    }

    /// An empty message.
    pub fn empty(&self) -> Result<Message, Error> {
        let message = Message::none(self);
        Report::new().judge(unsafe { calls::mb_message_new(self.pool.handle(), self.number, message.handle()) })?;
        Ok(message)
    }

    /// The message that the bytes encode.
    pub fn decode(&self, bytes: &[u8]) -> Result<Message, Error> {
        let (message, Limits { max_bytes, max_depth }) = (Message::none(self), self.limits);
        judged(|fault, path, steps| unsafe {
            let (at, len, held) = (bytes.as_ptr(), bytes.len(), message.handle());
            calls::mb_message_decode(self.pool.handle(), self.number, at, len, max_bytes, max_depth, held, fault, path, steps)
        })?;
        Ok(message)
    }

    /// A decoder of a message that arrives in pieces, which has received nothing.
    pub fn decoder(&self) -> Result<Decoder, Error> {
        Decoder::new(self)
    }

    /// The message of a JSON text in UTF-8 (ProtoJSON). A name that no field or enum has is refused.
    pub fn from_json(&self, json: impl AsRef<[u8]>) -> Result<Message, Error> {
        self.from_json_with(json, JsonInput::default())
    }

    /// The message of a JSON text in UTF-8, read as `input` says.
    pub fn from_json_with(&self, json: impl AsRef<[u8]>, input: JsonInput) -> Result<Message, Error> {
        self.read_json(json.as_ref(), input.ignore_unknown)
    }

    /// As [`MessageType::from_json_with`] with `ignore_unknown`.
    pub fn from_json_lenient(&self, json: impl AsRef<[u8]>) -> Result<Message, Error> {
        self.from_json_with(json, JsonInput { ignore_unknown: true })
    }

    fn read_json(&self, json: &[u8], ignore_unknown: bool) -> Result<Message, Error> {
        let (message, mut byte) = (Message::none(self), 0);
        let answer = unsafe {
            let (at, len, held) = (json.as_ptr(), json.len(), message.handle());
            calls::mb_message_from_json(self.pool.handle(), self.number, at, len, ignore_unknown, held, &mut byte)
        };
        Report::new().judge(answer).map_err(|error| of_text(error, byte))?;
        Ok(message)
    }

    /// The canonical bytes of the message that [`MessageType::from_json`] reads.
    pub fn canonical_from_json(&self, json: impl AsRef<[u8]>) -> Result<Vec<u8>, Error> {
        self.canonical_from_json_with(json, JsonInput::default())
    }

    /// The canonical bytes of the message that [`MessageType::from_json_with`] reads.
    pub fn canonical_from_json_with(&self, json: impl AsRef<[u8]>, input: JsonInput) -> Result<Vec<u8>, Error> {
        self.write_json(json.as_ref(), input.ignore_unknown)
    }

    /// As [`MessageType::canonical_from_json_with`] with `ignore_unknown`.
    pub fn canonical_from_json_lenient(&self, json: impl AsRef<[u8]>) -> Result<Vec<u8>, Error> {
        self.canonical_from_json_with(json, JsonInput { ignore_unknown: true })
    }

    fn write_json(&self, json: &[u8], ignore_unknown: bool) -> Result<Vec<u8>, Error> {
        let mut byte = 0;
        let bytes = written(json.len(), |out, capacity, size, _, _, _| unsafe {
            let (at, len) = (json.as_ptr(), json.len());
            calls::mb_from_json(self.pool.handle(), self.number, at, len, ignore_unknown, out, capacity, size, &mut byte)
        });
        bytes.map_err(|error| of_text(error, byte))
    }

    /// Reads a stream of messages, each after its length. After a refused frame it goes on with the next frame.
    pub fn frames<R: Read>(&self, stream: R) -> Frames<'_, R> {
        Frames::new(self, stream)
    }

    /// Judges the first frame of the bytes, and reports where its message begins and ends, also if it is refused; zeros if the length cannot be read.
    /// False if the bytes end before the end of the frame.
    pub(crate) fn frame(&self, bytes: &[u8], frame: &mut FrameReport) -> Result<bool, Error> {
        let (mut is_part, Limits { max_bytes, max_depth }) = (false, self.limits);
        judged(|fault, path, steps| unsafe {
            let (at, len) = (bytes.as_ptr(), bytes.len());
            let answer = calls::mb_frames(self.pool.handle(), self.number, at, len, max_bytes, max_depth, frame, fault, path, steps);
            is_part = answer == calls::PART;
            if is_part {
                calls::DONE
            } else {
                answer
            }
        })?;
        Ok(!is_part)
    }

    /// One scalar, read from the bytes of a message, without building the message. All bytes are checked as by [`MessageType::check`]. The names lead to
    /// the scalar from the outermost message on. None if the scalar is not set, or if a name is the name of a list or map. For a name after a scalar
    /// the error is [`Error::NoField`].
    pub fn find(&self, bytes: &[u8], names: &[&str]) -> Result<Option<Value>, Error> {
        let (mut numbers, mut inside) = (Vec::with_capacity(names.len()), Some(self.clone()));
        for name in names {
            let Some(at) = inside else { return Err(Error::NoField) };
            let field = at.field(name)?;
            numbers.push(field.number);
            inside = at.inner(&field);
        }
        self.find_numbers(bytes, &numbers)
    }

    /// As [`MessageType::find`], by the numbers of the fields.
    pub fn find_numbers(&self, bytes: &[u8], numbers: &[u32]) -> Result<Option<Value>, Error> {
        let Limits { max_bytes, max_depth } = self.limits;
        let mut value = Reported::default();
        let mut is_absent = false;
        let out = written(256, |out, capacity, size, fault, path, steps| unsafe {
            let (at, len, handle) = (bytes.as_ptr(), bytes.len(), self.pool.handle());
            let (of, count) = (numbers.as_ptr(), numbers.len());
            let answer = calls::mb_find(
                handle,
                self.number,
                at,
                len,
                max_bytes,
                max_depth,
                of,
                count,
                &mut value,
                out,
                capacity,
                fault,
                path,
                steps,
            );
            is_absent = answer == calls::ABSENT;
            *size = if answer == calls::DONE { size_of(&value) } else { 0 };
            if is_absent {
                calls::DONE
            } else {
                answer
            }
        })?;
        Ok(if is_absent { None } else { scalar(&value, out) })
    }
}

/// The refusal of a JSON text at a byte, or the same error.
fn of_text(error: Error, byte: usize) -> Error {
    match error {
        Error::Answer(cause @ 101..=109) => Error::JsonText { byte, cause: Cause(cause) },
        error => error,
    }
}

/// A listing is ASCII except for strings, which are UTF-8.
pub(crate) fn text(listing: Vec<u8>) -> String {
    String::from_utf8(listing).unwrap_or_else(|refused| String::from_utf8_lossy(refused.as_bytes()).into_owned())
}

/// Checks that bytes are records, without a schema.
pub fn raw_check(bytes: &[u8], Limits { max_bytes, max_depth }: Limits) -> Result<(), Error> {
    judged(|fault, path, steps| unsafe { calls::mb_raw_check(bytes.as_ptr(), bytes.len(), max_bytes, max_depth, fault, path, steps) })
}

/// The shortest encoding of the records in the bytes.
pub fn raw_short(bytes: &[u8], Limits { max_bytes, max_depth }: Limits) -> Result<Vec<u8>, Error> {
    written(bytes.len(), |out, capacity, size, fault, path, steps| unsafe {
        calls::mb_raw_short(bytes.as_ptr(), bytes.len(), max_bytes, max_depth, out, capacity, size, fault, path, steps)
    })
}
