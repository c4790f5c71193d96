//! Why a call fails.
use crate::calls;
use crate::message_type::text;
use crate::report::written_alone;
use std::sync::OnceLock;
use std::{error, fmt, io};

pub use crate::structs::Step;

/// The cause of a refusal. docs/ERRORS.md explains each cause.
#[derive(Clone, Copy, PartialEq, Eq, Hash)]
pub struct Cause(pub(crate) u32);

/// The greatest number that a cause may have.
const NUMBERS: u32 = 255;

/// The name that the library has for the cause of a number.
fn cause_name(number: u32) -> Option<String> {
    let name = written_alone(|out, capacity, size| unsafe { calls::mb_cause_name(number, out, capacity, size) });
    Some(text(name.ok()?))
}

impl Cause {
    pub fn number(self) -> u32 {
        self.0
    }

    pub fn name(self) -> &'static str {
        static NAMES: OnceLock<Vec<Option<String>>> = OnceLock::new();
        let names = NAMES.get_or_init(|| (0..=NUMBERS).map(cause_name).collect());
        names.get(self.0 as usize).and_then(Option::as_deref).unwrap_or("?")
    }
}

impl fmt::Debug for Cause {
    fn fmt(&self, f: &mut fmt::Formatter<'_>) -> fmt::Result {
        write!(f, "{}({})", self.name(), self.0)
    }
}

impl fmt::Display for Cause {
    fn fmt(&self, f: &mut fmt::Formatter<'_>) -> fmt::Result {
        f.write_str(self.name())
    }
}

/// A refusal, or another reason why a call fails. A refusal of bytes, a set, sources or JSON prints as the line of pbtool; the fault of a set prints
/// without the word `set`. Errors for which pbtool has no line print with the names of fields and types.
#[derive(Clone, Debug, PartialEq, Eq)]
#[non_exhaustive]
pub enum Error {
    /// Bytes are refused: a message, or a descriptor set. The path is outermost first.
    Fault { byte: u64, path: Vec<Step>, cause: Cause },
    /// A file of a set is refused, by its index.
    Set { file: usize, cause: Cause },
    /// A source is refused.
    Source { file: String, byte: u64, cause: Cause },
    /// Declarations do not link.
    Link { file: String, name: String, cause: Cause },
    /// A part of a message has no JSON form: the numbers of the fields that lead to it.
    Json { path: Vec<u32>, cause: Cause },
    /// A JSON text is not read as a message: the byte, counted from 0, where the refused part begins.
    JsonText { byte: usize, cause: Cause },
    /// A message refuses a change: the place, as in `lines[2].price`.
    Change { place: String, cause: Cause },
    /// A value is out of the range of its kind, or is a list or a map.
    BadValue,
    /// A limit is above 2^31 - 1 bytes or 100 levels.
    BadLimits,
    /// The pool has no message type with this full name. `near` is a declared name near to it, if there is one.
    UnknownType { name: String, near: Option<String> },
    /// The message type has no field or oneof with this simple name. `near` is a declared name near to it, if there is one.
    UnknownField { message_type: String, name: String, near: Option<String> },
    /// A path with names is no place of the message type: the byte where no field has the name, or where a part cannot be there.
    Path { byte: usize },
    /// The pool has no message type of this number.
    NoType,
    /// The message has nothing at this place.
    NoField,
    /// The output would have more than 2^31 - 1 bytes.
    TooLarge,
    /// The decoder has given its fault, or memory ran out and it lost its message.
    Finished,
    /// Memory ran out.
    Memory,
    /// An answer that these calls do not lead to.
    Answer(u32),
}

impl Error {
    /// The cause of a refusal, if it has one.
    pub fn cause(&self) -> Option<Cause> {
        match self {
            Error::Fault { cause, .. }
            | Error::Set { cause, .. }
            | Error::Source { cause, .. }
            | Error::Link { cause, .. }
            | Error::Json { cause, .. }
            | Error::JsonText { cause, .. }
            | Error::Change { cause, .. } => Some(*cause),
            Error::TooLarge => Some(Cause(calls::TOO_LARGE)),
            _ => None,
        }
    }
}

/// A question about a near name.
fn question(near: &Option<String>) -> String {
    near.as_ref().map(|name| format!(": did you mean {name}?")).unwrap_or_default()
}

impl fmt::Display for Error {
    fn fmt(&self, f: &mut fmt::Formatter<'_>) -> fmt::Result {
        let dash = |name: &str| if name.is_empty() { "-".to_owned() } else { name.to_owned() };
        match self {
            Error::Fault { byte, path, cause } => {
                let steps: Vec<String> = path.iter().map(|step| format!("{}[{}]", step.number, step.before)).collect();
                write!(f, "byte {byte} path {} cause {cause}", dash(&steps.join(".")))
            }
            Error::Set { file, cause } => write!(f, "set file {file} cause {cause}"),
            Error::Source { file, byte, cause } => write!(f, "source {file} byte {byte} cause {cause}"),
            Error::Link { file, name, cause } => write!(f, "link {} at {} cause {cause}", dash(file), dash(name)),
            Error::Json { path, cause } => {
                let numbers: Vec<String> = path.iter().map(u32::to_string).collect();
                write!(f, "json path {} cause {cause}", dash(&numbers.join(".")))
            }
            Error::JsonText { byte, cause } => write!(f, "json byte {byte} cause {cause}"),
            Error::Change { place, cause } => write!(f, "change at {} cause {cause}", dash(place)),
            Error::BadValue => f.write_str("the value is out of range"),
            Error::BadLimits => f.write_str("a limit is above the greatest"),
            Error::UnknownType { name, near } => write!(f, "type {name} unknown{}", question(near)),
            Error::UnknownField { message_type, name, near } => write!(f, "field {name} of {message_type} unknown{}", question(near)),
            Error::Path { byte } => write!(f, "path byte {byte} is no place of the type"),
            Error::NoType => f.write_str("type unknown"),
            Error::NoField => f.write_str("the message has nothing there"),
            Error::TooLarge => f.write_str("output cause TooLarge"),
            Error::Finished => f.write_str("the decoder is finished"),
            Error::Memory => f.write_str("memory"),
            Error::Answer(answer) => write!(f, "answer {answer}"),
        }
    }
}

impl error::Error for Error {}

/// Why there is no next frame of a stream.
#[derive(Debug)]
#[non_exhaustive]
pub enum StreamError {
    Io(io::Error),
    /// A frame is refused: its index, and where it begins in the stream. The byte of a fault counts from there.
    Refused {
        index: usize,
        at: u64,
        error: Error,
    },
}

impl From<io::Error> for StreamError {
    fn from(failure: io::Error) -> StreamError {
        StreamError::Io(failure)
    }
}

impl fmt::Display for StreamError {
    fn fmt(&self, f: &mut fmt::Formatter<'_>) -> fmt::Result {
        match self {
            StreamError::Io(failure) => failure.fmt(f),
            StreamError::Refused { index, error, .. } => write!(f, "frame {index} {error}"),
        }
    }
}

impl error::Error for StreamError {
    fn source(&self) -> Option<&(dyn error::Error + 'static)> {
        match self {
            StreamError::Io(failure) => Some(failure),
            StreamError::Refused { error, .. } => Some(error),
        }
    }
}
