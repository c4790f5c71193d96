//! Parts of a message.
use crate::given::{integer_kind, integer_of};
use crate::report::{written_alone, Report};
use crate::structs::{Bytes, Keys, Steps, Value as Reported};
use crate::value::{scalar, size};
use crate::{calls, Error, Message, MessageType, Value};
use std::fmt;

const ABSENT: Error = Error::NoField;

/// A key of a map.
#[derive(Clone, Debug, PartialEq, Eq, PartialOrd, Ord)]
pub enum Key {
    Int32(i32),
    Int64(i64),
    Uint32(u32),
    Uint64(u64),
    Bool(bool),
    String(String),
}

impl Key {
    /// The same key, of the declared kind of the map's keys, if this kind is known and holds the key.
    fn of_kind(self, declared: Option<u32>) -> Key {
        let number = match &self {
            Key::Int32(key) => i128::from(*key),
            Key::Int64(key) => i128::from(*key),
            Key::Uint32(key) => i128::from(*key),
            Key::Uint64(key) => i128::from(*key),
            Key::Bool(_) | Key::String(_) => return self,
        };
        let value = declared.and_then(integer_kind).and_then(|kind| integer_of(kind, number));
        value.and_then(Key::of_value).unwrap_or(self)
    }

    /// A reported key. The bytes are those of a string.
    fn reported(key: &Reported, bytes: Vec<u8>) -> Result<Key, Error> {
        scalar(key, bytes).and_then(Key::of_value).ok_or(Error::Answer(key.kind))
    }

    fn of_value(value: Value) -> Option<Key> {
        Some(match value {
            Value::Int32(key) => Key::Int32(key),
            Value::Int64(key) => Key::Int64(key),
            Value::Uint32(key) => Key::Uint32(key),
            Value::Uint64(key) => Key::Uint64(key),
            Value::Bool(key) => Key::Bool(key),
            Value::String(key) => Key::String(key),
            _ => return None,
        })
    }
}

macro_rules! from {
    ($($variant:ident $kind:ty),*) => {
        $(impl From<$kind> for Key {
            fn from(key: $kind) -> Key {
                Key::$variant(key)
            }
        })*
    };
}

from!(Int32 i32, Int64 i64, Uint32 u32, Uint64 u64, Bool bool, String String);

impl fmt::Display for Key {
    fn fmt(&self, f: &mut fmt::Formatter<'_>) -> fmt::Result {
        match self {
            Key::Int32(key) => key.fmt(f),
            Key::Int64(key) => key.fmt(f),
            Key::Uint32(key) => key.fmt(f),
            Key::Uint64(key) => key.fmt(f),
            Key::Bool(key) => key.fmt(f),
            Key::String(key) => write!(f, "{key:?}"),
        }
    }
}

impl From<&str> for Key {
    fn from(key: &str) -> Key {
        Key::String(key.to_owned())
    }
}

/// A place in a message: `message.field("lines")?.index(2).field("price")?`. The place need not be set.
#[derive(Clone)]
pub struct Part<'a> {
    pub(crate) message: &'a Message,
    /// The type of the message that is here, or of the messages in the list or map that is here.
    message_type: Option<MessageType>,
    /// The declared kind of the values of the field that is here, and of its keys if it is a map, if they are known.
    pub(crate) kind: Option<u32>,
    key_kind: Option<u32>,
    pub(crate) steps: Vec<Reported>,
    pub(crate) keys: Vec<Vec<u8>>,
}

impl Message {
    /// The message itself, as a part.
    pub fn whole(&self) -> Part<'_> {
        Part { message: self, message_type: Some(self.message_type().clone()), kind: None, key_kind: None, steps: vec![], keys: vec![] }
    }

    /// The place of a field, by its simple name.
    pub fn field(&self, name: &str) -> Result<Part<'_>, Error> {
        self.whole().field(name)
    }

    /// The place of a path with the names of fields, such as `lines[2].article` or `stock["pen"]`. The place need not be set. The empty path is the
    /// message itself.
    pub fn at(&self, path: &str) -> Result<Part<'_>, Error> {
        // A path has no more steps than bytes, and its strings have no more bytes.
        let most = path.len() + 1;
        let (mut steps, mut lengths, mut strings) = (vec![Reported::default(); most], vec![0; most], vec![0; most]);
        let mut report = Steps::default();
        let message_type = self.message_type();
        let answer = unsafe {
            calls::mb_path(message_type.pool.handle(), message_type.number, path.as_ptr(), path.len(), steps.as_mut_ptr(), most,
                lengths.as_mut_ptr(), most, strings.as_mut_ptr(), most, &mut report)
        };
        if matches!(answer, calls::ABSENT | calls::BAD_PLACE) {
            return Err(Error::Path { byte: report.byte });
        }
        Report::new().judge(answer)?;
        steps.truncate(report.steps);
        if steps.is_empty() {
            return Ok(self.whole());
        }
        let mut rest = &strings[..];
        let keys = lengths[..report.strings].iter().map(|&len| {
            let (key, after) = rest.split_at(len);
            rest = after;
            key.to_vec()
        });
        let keys = keys.collect();
        Ok(Part { message: self, message_type: None, kind: None, key_kind: None, steps, keys })
    }

    /// The simple name of the field of a oneof that is set, or None. `oneof` is the name of the oneof.
    pub fn which_oneof(&self, name: &str) -> Result<Option<String>, Error> {
        self.whole().which_oneof(name)
    }

    /// The unknown records of the message, without those of messages in it, in their shortest encoding.
    pub fn unknown(&self) -> Result<Vec<u8>, Error> {
        self.whole().unknown()
    }

    /// The value of a field, by its simple name, or None if it is not set.
    pub fn get(&self, name: &str) -> Result<Option<Value>, Error> {
        self.field(name)?.get()
    }
}

impl<'a> Part<'a> {
    fn step(&self, kind: u32, number: u64) -> Part<'a> {
        let mut part = self.clone();
        part.steps.push(Reported { kind, number });
        part
    }

    /// The type of the message that is here, or of the messages in the list or map that is here.
    fn message_type(&self) -> Result<MessageType, Error> {
        if let Some(message_type) = &self.message_type {
            return Ok(message_type.clone());
        }
        match self.reported()? {
            Some(Reported { kind: calls::MESSAGE, number }) => {
                Ok(MessageType { number: number as u32, ..self.message.message_type().clone() })
            }
            _ => Err(Error::NoField),
        }
    }

    /// The field of a number of the message that is here.
    pub fn number(&self, number: u32) -> Part<'a> {
        Part { message_type: None, kind: None, key_kind: None, ..self.step(calls::FIELD, u64::from(number)) }
    }

    /// A field of the message that is here.
    pub fn field(&self, name: &str) -> Result<Part<'a>, Error> {
        let message_type = self.message_type()?;
        let field = message_type.field(name)?;
        let (kind, key_kind) = (Some(field.kind), field.key);
        Ok(Part { message_type: message_type.inner(&field), kind, key_kind, ..self.step(calls::FIELD, u64::from(field.number)) })
    }

    /// The value at an index, counted from 0, of the list that is here.
    pub fn index(&self, index: usize) -> Part<'a> {
        self.step(calls::INDEX, index as u64)
    }

    /// The value under a key of the map that is here. An integer is a key of any integer kind that holds it.
    pub fn key(&self, key: impl Into<Key>) -> Part<'a> {
        match key.into().of_kind(self.key_kind) {
            Key::Int32(key) => self.step(calls::INT32, i64::from(key) as u64),
            Key::Int64(key) => self.step(calls::INT64, key as u64),
            Key::Uint32(key) => self.step(calls::UINT32, u64::from(key)),
            Key::Uint64(key) => self.step(calls::UINT64, key),
            Key::Bool(key) => self.step(calls::BOOL, u64::from(key)),
            Key::String(key) => {
                let mut part = self.step(calls::STRING, self.keys.len() as u64);
                part.keys.push(key.into_bytes());
                part
            }
        }
    }

    /// The strings among the keys of the place, as a call takes them.
    fn strings(&self) -> Vec<Bytes> {
        self.keys.iter().map(|key| Bytes { at: key.as_ptr(), len: key.len() }).collect()
    }

    fn call(&self, call: impl FnOnce(*const Reported, usize, *const Bytes, usize) -> u32) -> Result<(), Error> {
        let keys = self.strings();
        Report::new().judge(call(self.steps.as_ptr(), self.steps.len(), keys.as_ptr(), keys.len()))
    }

    fn reported(&self) -> Result<Option<Reported>, Error> {
        let mut value = Reported::default();
        let found = self.call(|place, steps, keys, count| unsafe {
            calls::mb_message_get(self.message.handle(), place, steps, keys, count, &mut value)
        });
        match found {
            Ok(()) => Ok(Some(value)),
            Err(ABSENT) => Ok(None),
            Err(error) => Err(error),
        }
    }

    /// The value that is here, or None.
    pub fn get(&self) -> Result<Option<Value>, Error> {
        let Some(value) = self.reported()? else { return Ok(None) };
        let mut out = vec![0; size(&value)];
        if matches!(value.kind, calls::STRING | calls::BYTES) {
            let mut len = 0;
            self.call(|place, steps, keys, count| unsafe {
                calls::mb_message_read(self.message.handle(), place, steps, keys, count, out.as_mut_ptr(), out.len(), &mut len)
            })?;
        }
        Ok(scalar(&value, out))
    }

    /// Whether a value is here.
    pub fn is_set(&self) -> Result<bool, Error> {
        Ok(self.reported()?.is_some())
    }

    /// How many values or entries the list or map that is here has: 0 if it is not set.
    pub fn len(&self) -> Result<usize, Error> {
        Ok(self.reported()?.map_or(0, |value| if matches!(value.kind, calls::LIST | calls::MAP) { value.number as usize } else { 0 }))
    }

    /// Whether the list or map that is here has no values.
    pub fn is_empty(&self) -> Result<bool, Error> {
        Ok(self.len()? == 0)
    }

    /// The places of the values of the list that is here.
    pub fn values(&self) -> Result<impl Iterator<Item = Part<'a>> + '_, Error> {
        Ok((0..self.len()?).map(|index| self.index(index)))
    }

    /// The numbers of the fields that are set in the message that is here, in rising order.
    pub fn numbers(&self) -> Result<Vec<u32>, Error> {
        let (mut numbers, mut count) = (vec![0; 64], 0);
        loop {
            self.call(|place, steps, keys, of| unsafe {
                calls::mb_message_fields(self.message.handle(), place, steps, keys, of, numbers.as_mut_ptr(), numbers.len(), &mut count)
            })?;
            let is_whole = count <= numbers.len();
            numbers.resize(count, 0);
            if is_whole {
                return Ok(numbers);
            }
        }
    }

    /// The fields that are set in the message that is here, by rising number: each number, and the place of the field.
    pub fn fields(&self) -> Result<impl Iterator<Item = (u32, Part<'a>)> + '_, Error> {
        Ok(self.numbers()?.into_iter().map(|number| (number, self.number(number))))
    }

    /// The simple name of the field of a oneof that is set in the message that is here, or None. `oneof` is the name of the oneof.
    pub fn which_oneof(&self, name: &str) -> Result<Option<String>, Error> {
        let message_type = self.message_type()?;
        let Some(index) = message_type.oneof_index(name)? else { return Err(message_type.unknown_field(name)) };
        let Some(number) = self.oneof_member(index)? else { return Ok(None) };
        Ok(message_type.fields()?.into_iter().find(|declared| declared.field.number == number).map(|declared| declared.name))
    }

    /// The number of the field of a oneof that is set in the message that is here, or None. The oneof is at this index of the message's type.
    pub fn oneof_member(&self, index: u32) -> Result<Option<u32>, Error> {
        let mut number = 0;
        let found = self.call(|place, steps, keys, count| unsafe {
            calls::mb_message_oneof(self.message.handle(), place, steps, keys, count, index, &mut number)
        });
        match found {
            Ok(()) => Ok(Some(number)),
            Err(ABSENT) => Ok(None),
            Err(error) => Err(error),
        }
    }

    /// The unknown records of the message that is here, without those of messages in it, in their shortest encoding.
    pub fn unknown(&self) -> Result<Vec<u8>, Error> {
        let (place, steps, keys) = (self.steps.as_ptr(), self.steps.len(), self.strings());
        written_alone(|out, capacity, size| unsafe {
            calls::mb_message_unknown(self.message.handle(), place, steps, keys.as_ptr(), keys.len(), out, capacity, size)
        })
    }

    /// The entries of the map that is here, by rising key: each key, and the place of its value.
    pub fn entries(&self) -> Result<impl Iterator<Item = (Key, Part<'a>)> + '_, Error> {
        Ok(self.keys()?.into_iter().map(|key| (key.clone(), self.key(key))))
    }

    /// The keys of the map that is here, in order.
    pub fn keys(&self) -> Result<Vec<Key>, Error> {
        let mut found = vec![Reported::default(); self.len()?];
        if found.is_empty() {
            return Ok(vec![]);
        }
        let (place, steps, keys) = (self.steps.as_ptr(), self.steps.len(), self.strings());
        let strings = written_alone(|out, capacity, bytes| {
            let (message, count, mut counts) = (self.message.handle(), found.len(), Keys::default());
            let answer = unsafe {
                calls::mb_message_keys(
                    message,
                    place,
                    steps,
                    keys.as_ptr(),
                    keys.len(),
                    0,
                    found.as_mut_ptr(),
                    count,
                    out,
                    capacity,
                    &mut counts,
                )
            };
            *bytes = counts.bytes;
            answer
        })?;
        let mut rest = &strings[..];
        let next = |key: &Reported| {
            let (bytes, after) = rest.split_at(size(key));
            rest = after;
            Key::reported(key, bytes.to_vec())
        };
        found.iter().map(next).collect()
    }

    /// The key at an index, counted from 0, of the map that is here, or None. The library walks to it from the first key. So for all keys, [`Part::keys`]
    /// takes less time.
    pub fn nth_key(&self, index: usize) -> Result<Option<Key>, Error> {
        let (place, steps, keys, mut key) = (self.steps.as_ptr(), self.steps.len(), self.strings(), Reported::default());
        let string = written_alone(|out, capacity, bytes| unsafe {
            let answer =
                calls::mb_message_key(self.message.handle(), place, steps, keys.as_ptr(), keys.len(), index, &mut key, out, capacity);
            *bytes = size(&key);
            answer
        });
        match string {
            Ok(string) => Key::reported(&key, string).map(Some),
            Err(ABSENT) => Ok(None),
            Err(error) => Err(error),
        }
    }

    /// The key of a step, if the step is a key.
    fn key_of_step(&self, step: &Reported) -> Option<Key> {
        let bytes = if step.kind == calls::STRING { self.keys.get(step.number as usize)?.clone() } else { vec![] };
        scalar(step, bytes).and_then(Key::of_value)
    }

    /// Writes a field as its name in the message type, or else as its number. Returns the type of the messages in the field.
    fn write_field(f: &mut fmt::Formatter<'_>, message_type: Option<MessageType>, number: u64) -> Result<Option<MessageType>, fmt::Error> {
        let of_number = |it: &MessageType| it.fields().ok()?.into_iter().find(|declared| u64::from(declared.field.number) == number);
        match message_type.as_ref().and_then(of_number) {
            Some(declared) => {
                f.write_str(&declared.name)?;
                Ok(message_type.and_then(|it| it.inner(&declared.field)))
            }
            None => write!(f, "{number}").map(|()| None),
        }
    }
}

/// The place as its steps: `lines[2].price`, `discounts["loyal"]`. A field without a name in the type is its number. The message itself is an empty
    /// string.
impl fmt::Display for Part<'_> {
    fn fmt(&self, f: &mut fmt::Formatter<'_>) -> fmt::Result {
        let mut message_type = Some(self.message.message_type().clone());
        for (index, step) in self.steps.iter().enumerate() {
            if step.kind == calls::FIELD {
                f.write_str(if index == 0 { "" } else { "." })?;
                message_type = Part::write_field(f, message_type, step.number)?;
            } else if step.kind == calls::INDEX {
                write!(f, "[{}]", step.number)?;
            } else if let Some(key) = self.key_of_step(step) {
                write!(f, "[{key}]")?;
            }
        }
        Ok(())
    }
}

impl fmt::Debug for Part<'_> {
    fn fmt(&self, f: &mut fmt::Formatter<'_>) -> fmt::Result {
        write!(f, "Part({self})")
    }
}
