//! Changes of a message.
use crate::report::Report;
use crate::structs::{Bytes, Value as Given};
use crate::value::given;
use crate::{calls, Error, Given as Put, Key, Message, Part, Value};

type Changes = unsafe extern "C" fn(*mut crate::structs::MessageHandle, *const Given, usize, *const Bytes, usize) -> u32;
type Puts = unsafe extern "C" fn(*mut crate::structs::MessageHandle, *const Given, usize, *const Bytes, usize, &Given) -> u32;

/// A place in a message that can be changed: `message.field_mut("lines")?.index(2).field("price")?.set(9.0)?`.
///
/// A refused call leaves the message as it was. [`Error::NoField`]: the message whose field the call changes is not set. [`Error::Change`] has the place
/// and the cause why the message refuses the change. [`Error::BadValue`]: the integer is out of the range of the field's kind.
pub struct PartMut<'a> {
    // Of a message that nothing else borrows.
    part: Part<'a>,
}

impl Message {
    /// The message itself, as a place that can be changed.
    pub fn whole_mut(&mut self) -> PartMut<'_> {
        PartMut { part: self.whole() }
    }

    /// The place of a field, by its simple name, that can be changed.
    pub fn field_mut(&mut self, name: &str) -> Result<PartMut<'_>, Error> {
        self.whole_mut().field(name)
    }

    /// Sets a field of one value, by its simple name. The default value clears a field without presence.
    pub fn set(&mut self, name: &str, value: impl Into<Put>) -> Result<(), Error> {
        self.field_mut(name)?.set(value)
    }

    /// Clears a field, by its simple name.
    pub fn clear(&mut self, name: &str) -> Result<(), Error> {
        self.field_mut(name)?.clear()
    }

    /// Puts a value at the end of a list, by the simple name of its field.
    pub fn push(&mut self, name: &str, value: impl Into<Put>) -> Result<(), Error> {
        self.field_mut(name)?.push(value)
    }

    /// Puts a value under a key of a map, by the simple name of its field.
    pub fn insert(&mut self, name: &str, key: impl Into<Key>, value: impl Into<Put>) -> Result<(), Error> {
        self.field_mut(name)?.insert(key, value)
    }

    /// Removes the entry of a key of a map, if it is there, by the simple name of its field.
    pub fn remove(&mut self, name: &str, key: impl Into<Key>) -> Result<(), Error> {
        self.field_mut(name)?.remove(key)
    }
}

impl<'a> PartMut<'a> {
    /// A field of the message that is here.
    pub fn field(self, name: &str) -> Result<PartMut<'a>, Error> {
        Ok(PartMut { part: self.part.field(name)? })
    }

    /// The field of a number of the message that is here.
    pub fn number(self, number: u32) -> PartMut<'a> {
        PartMut { part: self.part.number(number) }
    }

    /// The value at an index, counted from 0, of the list that is here.
    pub fn index(self, index: usize) -> PartMut<'a> {
        PartMut { part: self.part.index(index) }
    }

    /// The value under a key of the map that is here.
    pub fn key(self, key: impl Into<Key>) -> PartMut<'a> {
        PartMut { part: self.part.key(key) }
    }

    /// The same place, for reading.
    pub fn part(&self) -> Part<'_> {
        self.part.clone()
    }

    /// Sets the field, or the element of a list, that is here. [`Value::Message`] is an empty message of the field's type; its number is not read.
    pub fn set(&mut self, value: impl Into<Put>) -> Result<(), Error> {
        put(&self.part, calls::mb_message_set, value.into())
    }

    /// Clears the field that is here.
    pub fn clear(&mut self) -> Result<(), Error> {
        change(&self.part, calls::mb_message_clear)
    }

    /// Puts a value at the end of the list that is here.
    pub fn push(&mut self, value: impl Into<Put>) -> Result<(), Error> {
        put(&self.part, calls::mb_message_push, value.into())
    }

    /// Puts a value under a key of the map that is here.
    pub fn insert(&mut self, key: impl Into<Key>, value: impl Into<Put>) -> Result<(), Error> {
        put(&self.part.key(key), calls::mb_message_insert, value.into())
    }

    /// Removes the entry of a key of the map that is here, if it is there.
    pub fn remove(&mut self, key: impl Into<Key>) -> Result<(), Error> {
        change(&self.part.key(key), calls::mb_message_remove)
    }

    /// Removes the element at an index, counted from 0, of the list that is here. The elements after it move up.
    pub fn remove_at(&mut self, index: usize) -> Result<(), Error> {
        change(&self.part.index(index), calls::mb_message_remove)
    }

    /// Drops the unknown records of the message that is here. Messages in it keep their unknown records.
    pub fn drop_unknown(&mut self) -> Result<(), Error> {
        change(&self.part, calls::mb_message_drop_unknown)
    }
}

fn strings(part: &Part<'_>) -> Vec<Bytes> {
    part.keys.iter().map(|key| Bytes { at: key.as_ptr(), len: key.len() }).collect()
}

/// The same error, with the place of the refused change.
fn at_place(part: &Part<'_>, error: Error) -> Error {
    match error {
        Error::Change { cause, .. } => Error::Change { place: part.to_string(), cause },
        error => error,
    }
}

fn change(part: &Part<'_>, call: Changes) -> Result<(), Error> {
    let strings = strings(part);
    let answer = unsafe { call(part.message.handle(), part.steps.as_ptr(), part.steps.len(), strings.as_ptr(), strings.len()) };
    Report::new().judge(answer).map_err(|error| at_place(part, error))
}

/// Puts the first value that the field takes. A refused call leaves the message as it was.
fn put(part: &Part<'_>, call: Puts, value: Put) -> Result<(), Error> {
    let mut refused = Err(Error::BadValue);
    for value in value.values(part.kind) {
        refused = put_value(part, call, &value);
        if !matches!(refused, Err(Error::Change { cause, .. }) if cause.number() == calls::WRONG_KIND) {
            break;
        }
    }
    refused.map_err(|error| at_place(part, error))
}

fn put_value(part: &Part<'_>, call: Puts, value: &Value) -> Result<(), Error> {
    let mut strings = strings(part);
    let (given, bytes) = given(value, strings.len());
    strings.extend(bytes.map(|bytes| Bytes { at: bytes.as_ptr(), len: bytes.len() }));
    Report::new()
        .judge(unsafe { call(part.message.handle(), part.steps.as_ptr(), part.steps.len(), strings.as_ptr(), strings.len(), &given) })
}
