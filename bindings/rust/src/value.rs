//! Values of fields.
use crate::calls;
use crate::structs::Value as Reported;

/// A value of a field.
#[derive(Clone, Debug, PartialEq)]
#[non_exhaustive]
pub enum Value {
    Double(f64),
    Float(f32),
    Int64(i64),
    Uint64(u64),
    Int32(i32),
    Uint32(u32),
    Bool(bool),
    String(String),
    Bytes(Vec<u8>),
    /// The number of an enum's value.
    Enum(i32),
    /// A message, by the number of its type ([`crate::MessageType::number`]).
    Message(u32),
    /// A list of this length.
    List(usize),
    /// A map with this number of entries.
    Map(usize),
}

/// The number of bytes of a string or bytes, 0 for other values.
pub(crate) fn size(value: &Reported) -> usize {
    if matches!(value.kind, calls::STRING | calls::BYTES) {
        value.number as usize
    } else {
        0
    }
}

/// A reported value. The bytes are those of a string or of bytes.
pub(crate) fn scalar(&Reported { kind, number }: &Reported, bytes: Vec<u8>) -> Option<Value> {
    Some(match kind {
        calls::DOUBLE => Value::Double(f64::from_bits(number)),
        calls::FLOAT => Value::Float(f32::from_bits(number as u32)),
        calls::INT64 => Value::Int64(number as i64),
        calls::UINT64 => Value::Uint64(number),
        calls::INT32 => Value::Int32(number as i32),
        calls::BOOL => Value::Bool(number != 0),
        calls::STRING => Value::String(String::from_utf8(bytes).ok()?),
        calls::MESSAGE => Value::Message(number as u32),
        calls::BYTES => Value::Bytes(bytes),
        calls::UINT32 => Value::Uint32(number as u32),
        calls::ENUM => Value::Enum(number as i32),
        calls::LIST => Value::List(number as usize),
        calls::MAP => Value::Map(number as usize),
        _ => return None,
    })
}

/// A value as the library takes it. The index is that of a string or bytes among the strings.
pub(crate) fn given(value: &Value, index: usize) -> (Reported, Option<&[u8]>) {
    let (kind, number) = match value {
        Value::Double(value) => (calls::DOUBLE, value.to_bits()),
        Value::Float(value) => (calls::FLOAT, u64::from(value.to_bits())),
        Value::Int64(value) => (calls::INT64, *value as u64),
        Value::Uint64(value) => (calls::UINT64, *value),
        Value::Int32(value) => (calls::INT32, i64::from(*value) as u64),
        Value::Uint32(value) => (calls::UINT32, u64::from(*value)),
        Value::Bool(value) => (calls::BOOL, u64::from(*value)),
        Value::Enum(value) => (calls::ENUM, i64::from(*value) as u64),
        Value::String(_) => (calls::STRING, index as u64),
        Value::Bytes(_) => (calls::BYTES, index as u64),
        Value::Message(_) => (calls::MESSAGE, 0),
        Value::List(_) => (calls::LIST, 0),
        Value::Map(_) => (calls::MAP, 0),
    };
    let bytes = match value {
        Value::String(text) => Some(text.as_bytes()),
        Value::Bytes(bytes) => Some(&bytes[..]),
        _ => None,
    };
    (Reported { kind, number }, bytes)
}

macro_rules! from {
    ($($variant:ident $kind:ty),*) => {
        $(impl From<$kind> for Value {
            fn from(value: $kind) -> Value {
                Value::$variant(value)
            }
        })*
    };
}

from!(Double f64, Float f32, Int64 i64, Uint64 u64, Int32 i32, Uint32 u32, Bool bool, String String, Bytes Vec<u8>);

impl From<&str> for Value {
    fn from(value: &str) -> Value {
        Value::String(value.to_owned())
    }
}

impl From<&[u8]> for Value {
    fn from(value: &[u8]) -> Value {
        Value::Bytes(value.to_owned())
    }
}
