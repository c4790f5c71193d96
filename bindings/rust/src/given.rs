//! Values that a caller gives to set a field.
use crate::{calls, Value};

/// A value to set, push or insert. A [`Value`] sets a field of its own kind only. An integer of Rust sets a field of any integer kind that holds it, and
/// an enum by the number of its value.
#[derive(Clone, Debug, PartialEq)]
pub struct Given(What);

#[derive(Clone, Debug, PartialEq)]
enum What {
    Value(Value),
    Integer(i128),
}

/// The kinds that hold integers, as a message has them.
const INTEGERS: [u32; 5] = [calls::INT32, calls::INT64, calls::UINT32, calls::UINT64, calls::ENUM];

/// The kind of the values of a field of a declared kind, if those are integers: 15 is sfixed32, 17 sint32, 16 sfixed64, 18 sint64, 7 fixed32 and 6
/// fixed64.
pub(crate) fn integer_kind(declared: u32) -> Option<u32> {
    match declared {
        15 | 17 => Some(calls::INT32),
        16 | 18 => Some(calls::INT64),
        7 => Some(calls::UINT32),
        6 => Some(calls::UINT64),
        kind => INTEGERS.contains(&kind).then_some(kind),
    }
}

/// An integer as a value of a kind, if that holds it.
pub(crate) fn integer_of(kind: u32, number: i128) -> Option<Value> {
    match kind {
        calls::INT32 => number.try_into().ok().map(Value::Int32),
        calls::INT64 => number.try_into().ok().map(Value::Int64),
        calls::UINT32 => number.try_into().ok().map(Value::Uint32),
        calls::UINT64 => number.try_into().ok().map(Value::Uint64),
        calls::ENUM => number.try_into().ok().map(Value::Enum),
        _ => None,
    }
}

impl Given {
    /// The values that this may be in a field of a declared kind, or of any kind if the kind is not known. There are none if the field's kind does not
    /// hold the integer.
    pub(crate) fn values(self, declared: Option<u32>) -> Vec<Value> {
        let number = match self.0 {
            What::Value(value) => return vec![value],
            What::Integer(number) => number,
        };
        match declared.map(integer_kind) {
            Some(Some(kind)) => integer_of(kind, number).into_iter().collect(),
            _ => INTEGERS.iter().filter_map(|kind| integer_of(*kind, number)).collect(),
        }
    }
}

impl From<Value> for Given {
    fn from(value: Value) -> Given {
        Given(What::Value(value))
    }
}

macro_rules! integers {
    ($($kind:ty),*) => {
        $(impl From<$kind> for Given {
            fn from(number: $kind) -> Given {
                Given(What::Integer(number as i128))
            }
        })*
    };
}

integers!(i8, i16, i32, i64, isize, u8, u16, u32, u64, usize);

macro_rules! values {
    ($($kind:ty),*) => {
        $(impl From<$kind> for Given {
            fn from(value: $kind) -> Given {
                Given(What::Value(Value::from(value)))
            }
        })*
    };
}

values!(f64, f32, bool, String, &str, Vec<u8>, &[u8]);
