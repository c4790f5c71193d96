//! What a message has, a place a line, and what is found in bytes, as read.c and find.c print it.
use crate::files::{refused, Failure};
use mabristu::{Error, Key, MessageType, Part, Value};

fn digits(bytes: &[u8]) -> String {
    bytes.iter().map(|byte| format!("{byte:02x}")).collect()
}

/// The kind of a value, and its number or bytes.
fn shown(value: &Value) -> String {
    match value {
        Value::Double(number) => format!("1 {}", number.to_bits()),
        Value::Float(number) => format!("2 {}", number.to_bits()),
        Value::Int64(number) => format!("3 {number}"),
        Value::Uint64(number) => format!("4 {number}"),
        Value::Int32(number) => format!("5 {number}"),
        Value::Bool(is_true) => format!("8 {}", u8::from(*is_true)),
        Value::String(text) => format!("9 {}", digits(text.as_bytes())),
        Value::Message(number) => format!("11 {number}"),
        Value::Bytes(bytes) => format!("12 {}", digits(bytes)),
        Value::Uint32(number) => format!("13 {number}"),
        Value::Enum(number) => format!("14 {number}"),
        Value::List(count) => format!("19 {count}"),
        Value::Map(count) => format!("20 {count}"),
        _ => "?".to_owned(),
    }
}

fn shown_key(key: &Key) -> String {
    shown(&match key.clone() {
        Key::Int32(key) => Value::Int32(key),
        Key::Int64(key) => Value::Int64(key),
        Key::Uint32(key) => Value::Uint32(key),
        Key::Uint64(key) => Value::Uint64(key),
        Key::Bool(key) => Value::Bool(key),
        Key::String(key) => Value::String(key),
    })
    .replacen(' ', ":", 1)
}

/// What is at a place and inside, a line for each.
pub fn places(part: &Part, at: &str) -> Result<String, Error> {
    let Some(value) = part.get()? else { return Err(Error::NoField) };
    let mut lines = format!("{at} {}\n", shown(&value));
    match value {
        Value::Message(_) => {
            for number in part.numbers()? {
                lines += &places(&part.number(number), &format!("{at}.{number}"))?;
            }
        }
        Value::List(count) => {
            for index in 0..count {
                lines += &places(&part.index(index), &format!("{at}[{index}]"))?;
            }
        }
        Value::Map(_) => {
            for key in part.keys()? {
                lines += &places(&part.key(key.clone()), &format!("{at}{{{}}}", shown_key(&key)))?;
            }
        }
        _ => {}
    }
    Ok(lines)
}

/// The scalar at a path of field numbers.
pub fn found(message_type: &MessageType, bytes: &[u8], path: &str) -> Result<String, Failure> {
    let numbers: Vec<u32> = path.split('.').filter_map(|it| it.parse().ok()).collect();
    let value = message_type.find_numbers(bytes, &numbers).map_err(refused)?;
    Ok(value.map_or("absent\n".to_owned(), |value| format!("{}\n", shown(&value))))
}
