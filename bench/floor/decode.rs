//! A plain decoder by recursion, which answers a message or nothing.
//!
//! A run of records of one field is one loop; the elements of a packed list are counted first; a map is built at once of a run of entries.
use crate::tree::Map;
use crate::types::{Field, Kind, Shape, Types};

// The values are laid out as those of pb_value: a value takes 56 bytes and a field's content 64.
#[repr(u8)]
pub enum Value {
    I32(i32),
    I64(i64),
    U32(u32),
    U64(u64),
    Bool(bool),
    F32(u32),
    F64(u64),
    Enum(i32),
    Text(String),
    Bytes(Vec<u8>),
    Message(Body),
}

#[repr(u8)]
#[derive(PartialEq, Eq, PartialOrd, Ord)]
pub enum Key {
    I32(i32),
    I64(i64),
    U32(u32),
    U64(u64),
    Bool(bool),
    Text(String),
}

#[repr(u8)]
pub enum Content {
    One(Value),
    List(Vec<Value>),
    Map(Map<Key, Value>),
}

#[repr(u8)]
pub enum Unknown {
    Varint(u64),
    I64(u64),
    Len(Vec<u8>),
    Group(Vec<(u32, Unknown)>),
    I32(u32),
}

pub struct Body {
    fields: Map<u32, Content>,
    unknown: Vec<(u32, Unknown)>,
}

const VARINT: u64 = 0;
const I64: u64 = 1;
const LEN: u64 = 2;
const GROUP: u64 = 3;
const END: u64 = 4;
const I32: u64 = 5;

/// The bytes that are left.
#[derive(Clone, Copy)]
struct Input<'a>(&'a [u8]);

impl<'a> Input<'a> {
    #[inline(always)]
    fn varint(&mut self) -> Option<u64> {
        let (first, rest) = self.0.split_first()?;
        if *first < 0x80 {
            self.0 = rest;
            return Some(*first as u64);
        }
        self.long_varint()
    }

    fn long_varint(&mut self) -> Option<u64> {
        let mut value = 0;
        for (at, byte) in self.0.iter().enumerate().take(10) {
            value |= ((byte & 0x7f) as u64) << (7 * at);
            if *byte < 0x80 {
                self.0 = &self.0[at + 1..];
                return Some(value);
            }
        }
        None
    }

    #[inline(always)]
    fn take(&mut self, size: usize) -> Option<&'a [u8]> {
        let (taken, rest) = self.0.split_at_checked(size)?;
        self.0 = rest;
        Some(taken)
    }

    #[inline(always)]
    fn payload(&mut self) -> Option<&'a [u8]> {
        let size = self.varint()?;
        self.take(usize::try_from(size).ok()?)
    }

    #[inline(always)]
    fn fixed64(&mut self) -> Option<u64> {
        Some(u64::from_le_bytes(self.take(8)?.try_into().ok()?))
    }

    #[inline(always)]
    fn fixed32(&mut self) -> Option<u32> {
        Some(u32::from_le_bytes(self.take(4)?.try_into().ok()?))
    }

    /// Takes a tag where it comes next.
    #[inline(always)]
    fn goes_on(&mut self, tag: u64) -> bool {
        let mut ahead = *self;
        let is_next = ahead.varint() == Some(tag);
        if is_next {
            *self = ahead;
        }
        is_next
    }
}

#[inline(always)]
fn wire_type(kind: Kind) -> u64 {
    match kind {
        Kind::Double | Kind::Fixed64 | Kind::Sfixed64 => I64,
        Kind::Float | Kind::Fixed32 | Kind::Sfixed32 => I32,
        Kind::Text | Kind::Bytes | Kind::Message(_) => LEN,
        Kind::Group(_) => GROUP,
        _ => VARINT,
    }
}

#[inline(always)]
fn number(kind: Kind, bits: u64) -> Value {
    let unsigned = bits as u32;
    match kind {
        Kind::Double => Value::F64(bits),
        Kind::Float => Value::F32(unsigned),
        Kind::Int64 | Kind::Sfixed64 => Value::I64(bits as i64),
        Kind::Uint64 | Kind::Fixed64 => Value::U64(bits),
        Kind::Int32 | Kind::Sfixed32 => Value::I32(unsigned as i32),
        Kind::Uint32 | Kind::Fixed32 => Value::U32(unsigned),
        Kind::Sint32 => Value::I32((unsigned >> 1) as i32 ^ -((unsigned & 1) as i32)),
        Kind::Sint64 => Value::I64((bits >> 1) as i64 ^ -((bits & 1) as i64)),
        Kind::Bool => Value::Bool(bits != 0),
        _ => Value::Enum(unsigned as i32),
    }
}

fn default(kind: Kind) -> Value {
    match kind {
        Kind::Text => Value::Text(String::new()),
        Kind::Bytes => Value::Bytes(vec![]),
        Kind::Message(_) | Kind::Group(_) => Value::Message(Body::new()),
        _ => number(kind, 0),
    }
}

fn is_default(value: &Value) -> bool {
    match value {
        Value::I32(it) | Value::Enum(it) => *it == 0,
        Value::I64(it) => *it == 0,
        Value::U32(it) | Value::F32(it) => *it == 0,
        Value::U64(it) | Value::F64(it) => *it == 0,
        Value::Bool(it) => !it,
        Value::Text(it) => it.is_empty(),
        Value::Bytes(it) => it.is_empty(),
        Value::Message(_) => false,
    }
}

fn key(value: Value) -> Option<Key> {
    Some(match value {
        Value::I32(it) => Key::I32(it),
        Value::I64(it) => Key::I64(it),
        Value::U32(it) => Key::U32(it),
        Value::U64(it) => Key::U64(it),
        Value::Bool(it) => Key::Bool(it),
        Value::Text(it) => Key::Text(it),
        _ => return None,
    })
}

impl Body {
    fn new() -> Body {
        Body { fields: Map::new(), unknown: vec![] }
    }

    /// The list of a field is taken out, goes on, and is put back.
    fn take_list(&mut self, number: u32) -> Vec<Value> {
        match self.fields.get_mut(&number) {
            Some(Content::List(list)) => std::mem::take(list),
            _ => vec![],
        }
    }

    fn take_message(&mut self, number: u32) -> Body {
        match self.fields.get_mut(&number) {
            Some(Content::One(Value::Message(body))) => std::mem::replace(body, Body::new()),
            _ => Body::new(),
        }
    }

    fn put_entries(&mut self, number: u32, entries: Vec<(Key, Value)>) {
        if let Some(Content::Map(map)) = self.fields.get_mut(&number) {
            return entries.into_iter().for_each(|(key, value)| map.insert(key, value));
        }
        let map = if entries.is_sorted_by(|a, b| a.0 < b.0) {
            Map::from_rising(entries)
        } else {
            let mut map = Map::new();
            entries.into_iter().for_each(|(key, value)| map.insert(key, value));
            map
        };
        self.fields.insert(number, Content::Map(map));
    }
}

pub struct Decoder<'a> {
    pub types: &'a Types,
}

impl Decoder<'_> {
    pub fn decode(&self, of_type: usize, input: &[u8]) -> Option<Body> {
        let mut body = Body::new();
        self.message(of_type, &mut Input(input), None, 100, &mut body)?;
        Some(body)
    }

    /// Reads records up to the end, which is that of the bytes or the end tag of a group.
    fn message(&self, of_type: usize, input: &mut Input, group: Option<u32>, levels: u32, body: &mut Body) -> Option<()> {
        let levels = levels.checked_sub(1)?;
        while !input.0.is_empty() {
            let tag = input.varint()?;
            let (number, wire) = (u32::try_from(tag >> 3).ok()?, tag & 7);
            if wire == END {
                return if group == Some(number) { Some(()) } else { None };
            }
            match self.types.messages[of_type].field(number) {
                Some(field) if self.record(field, tag, input, levels, body)? => {}
                _ => {
                    let record = self.unknown(number, wire, input, levels)?;
                    body.unknown.push((number, record));
                }
            }
        }
        if group.is_none() { Some(()) } else { None }
    }

    /// Reads a record of a field, and those of the same tag after it. The answer is whether it is one by its wire type.
    #[inline(always)]
    fn record(&self, field: Field, tag: u64, input: &mut Input, levels: u32, body: &mut Body) -> Option<bool> {
        let (wire, own) = (tag & 7, wire_type(field.kind));
        match field.shape {
            Shape::Map(keys) if wire == LEN => {
                let mut entries = vec![];
                loop {
                    entries.push(self.entry(keys, field.kind, Input(input.payload()?), levels)?);
                    if !input.goes_on(tag) {
                        break;
                    }
                }
                body.put_entries(field.number, entries);
            }
            Shape::List if wire == own => {
                let mut list = body.take_list(field.number);
                loop {
                    if let Some(value) = self.element(field, input, levels, body)? {
                        list.push(value);
                    }
                    if !input.goes_on(tag) {
                        break;
                    }
                }
                body.fields.insert(field.number, Content::List(list));
            }
            Shape::List if wire == LEN && own != GROUP => self.packed(field, Input(input.payload()?), body)?,
            Shape::Implicit | Shape::Explicit if wire == own => self.one(field, input, levels, body)?,
            _ => return Some(false),
        }
        Some(true)
    }

    /// An element of a list. An undeclared number of a closed enum goes among the unknown records.
    #[inline(always)]
    fn element(&self, field: Field, input: &mut Input, levels: u32, body: &mut Body) -> Option<Option<Value>> {
        match field.kind {
            Kind::Message(_) | Kind::Group(_) => self.inner(field, input, levels, Body::new()).map(Some),
            Kind::Closed(entry) => {
                let bits = input.varint()?;
                if self.types.declares(entry, bits as i32) {
                    return Some(Some(Value::Enum(bits as i32)));
                }
                body.unknown.push((field.number, Unknown::Varint(bits)));
                Some(None)
            }
            kind => scalar(kind, input).map(Some),
        }
    }

    fn packed(&self, field: Field, mut input: Input, body: &mut Body) -> Option<()> {
        let mut list = body.take_list(field.number);
        list.reserve(match wire_type(field.kind) {
            I64 => input.0.len() / 8,
            I32 => input.0.len() / 4,
            _ => input.0.iter().filter(|it| **it < 0x80).count(),
        });
        while !input.0.is_empty() {
            if let Some(value) = self.element(field, &mut input, 0, body)? {
                list.push(value);
            }
        }
        body.fields.insert(field.number, Content::List(list));
        Some(())
    }

    /// A field of one value. A later part of a message goes on in the earlier one. The types of the inputs have no oneof of two members.
    #[inline(always)]
    fn one(&self, field: Field, input: &mut Input, levels: u32, body: &mut Body) -> Option<()> {
        let value = match field.kind {
            Kind::Message(_) | Kind::Group(_) => {
                let before = body.take_message(field.number);
                self.inner(field, input, levels, before)?
            }
            _ => match self.element(field, input, levels, body)? {
                Some(value) => value,
                None => return Some(()),
            },
        };
        if !matches!(field.shape, Shape::Implicit) || !is_default(&value) || body.fields.get_mut(&field.number).is_some() {
            body.fields.insert(field.number, Content::One(value));
        }
        Some(())
    }

    #[inline(always)]
    fn inner(&self, field: Field, input: &mut Input, levels: u32, mut body: Body) -> Option<Value> {
        match field.kind {
            Kind::Message(of_type) => self.message(of_type, &mut Input(input.payload()?), None, levels, &mut body)?,
            Kind::Group(of_type) => self.message(of_type, input, Some(field.number), levels, &mut body)?,
            _ => return None,
        }
        Some(Value::Message(body))
    }

    /// An entry of a map. What else is in it is dropped.
    fn entry(&self, keys: Kind, values: Kind, mut input: Input, levels: u32) -> Option<(Key, Value)> {
        let levels = levels.checked_sub(1)?;
        let (mut of_key, mut of_value) = (None, None);
        while !input.0.is_empty() {
            let tag = input.varint()?;
            let (number, wire) = (u32::try_from(tag >> 3).ok()?, tag & 7);
            if number == 1 && wire == wire_type(keys) {
                of_key = Some(scalar(keys, &mut input)?);
            } else if number == 2 && wire == wire_type(values) {
                let field = Field { number, kind: values, shape: Shape::Explicit };
                of_value = Some(match (values, of_value.take()) {
                    (Kind::Message(_), Some(Value::Message(before))) => self.inner(field, &mut input, levels, before)?,
                    (Kind::Message(_), _) => self.inner(field, &mut input, levels, Body::new())?,
                    _ => scalar(values, &mut input)?,
                });
            } else {
                self.unknown(number, wire, &mut input, levels)?;
            }
        }
        Some((key(of_key.unwrap_or_else(|| default(keys)))?, of_value.unwrap_or_else(|| default(values))))
    }

    fn unknown(&self, number: u32, wire: u64, input: &mut Input, levels: u32) -> Option<Unknown> {
        Some(match wire {
            VARINT => Unknown::Varint(input.varint()?),
            I64 => Unknown::I64(input.fixed64()?),
            LEN => Unknown::Len(input.payload()?.to_vec()),
            GROUP => Unknown::Group(self.unknown_group(number, input, levels.checked_sub(1)?)?),
            I32 => Unknown::I32(input.fixed32()?),
            _ => return None,
        })
    }

    fn unknown_group(&self, of: u32, input: &mut Input, levels: u32) -> Option<Vec<(u32, Unknown)>> {
        let mut records = vec![];
        loop {
            let tag = input.varint()?;
            let (number, wire) = (u32::try_from(tag >> 3).ok()?, tag & 7);
            if wire == END {
                return if number == of { Some(records) } else { None };
            }
            records.push((number, self.unknown(number, wire, input, levels)?));
        }
    }
}

#[inline(always)]
fn scalar(kind: Kind, input: &mut Input) -> Option<Value> {
    Some(match kind {
        Kind::Text => Value::Text(std::str::from_utf8(input.payload()?).ok()?.to_owned()),
        Kind::Bytes => Value::Bytes(input.payload()?.to_vec()),
        _ => match wire_type(kind) {
            I64 => number(kind, input.fixed64()?),
            I32 => number(kind, input.fixed32()? as u64),
            _ => number(kind, input.varint()?),
        },
    })
}
