//! Changes of a message by words, as change.c makes them, such as set:21,3/22,0/21,2=5,7.
use mabristu::{Error, Key, Message, PartMut, Value};

/// The kind and the number of a word, or the string.
fn parsed(word: &str) -> (&str, u64, &str) {
    let (kind, number) = word.split_once(',').unwrap_or((word, ""));
    (kind, number.parse().unwrap_or(0), if kind == "s" { number } else { number.trim_start_matches(',') })
}

fn key(word: &str) -> Key {
    match parsed(word) {
        ("s", _, text) => Key::from(text),
        ("5", number, _) => Key::Int32(number as i32),
        ("3", number, _) => Key::Int64(number as i64),
        ("13", number, _) => Key::Uint32(number as u32),
        ("4", number, _) => Key::Uint64(number),
        (_, number, _) => Key::Bool(number != 0),
    }
}

fn step<'a>(part: PartMut<'a>, word: &str) -> PartMut<'a> {
    match parsed(word) {
        ("21", number, _) => part.number(number as u32),
        ("22", number, _) => part.index(number as usize),
        _ => part.key(key(word)),
    }
}

fn value(word: &str) -> Value {
    match parsed(word) {
        ("1", number, _) => Value::Double(f64::from_bits(number)),
        ("2", number, _) => Value::Float(f32::from_bits(number as u32)),
        ("3", number, _) => Value::Int64(number as i64),
        ("4", number, _) => Value::Uint64(number),
        ("5", number, _) => Value::Int32(number as i32),
        ("8", number, _) => Value::Bool(number != 0),
        ("9", _, text) => Value::String(text.to_owned()),
        ("11", number, _) => Value::Message(number as u32),
        ("12", _, text) => Value::Bytes(text.as_bytes().to_vec()),
        ("13", number, _) => Value::Uint32(number as u32),
        ("14", number, _) => Value::Enum(number as i32),
        (_, number, _) => Value::List(number as usize),
    }
}

/// What a call comes to, by the number that the library answers.
fn number(answer: Result<(), Error>) -> u32 {
    match answer {
        Ok(()) => 0,
        Err(Error::NoField) => 6,
        Err(Error::BadValue) => 8,
        Err(Error::Memory) => 14,
        Err(Error::Change { cause, .. }) => cause.number(),
        Err(Error::Answer(answer)) => answer,
        Err(_) => 1,
    }
}

/// Makes the change that a word says, and returns the line of its answer.
pub fn change(message: &mut Message, word: &str) -> String {
    let (said, given) = word.split_once('=').unwrap_or((word, ""));
    let (call, place) = said.split_once(':').unwrap_or((said, ""));
    let mut steps: Vec<&str> = place.split('/').filter(|step| !step.is_empty()).collect();
    let last = if matches!(call, "insert" | "remove") { steps.pop().unwrap_or("") } else { "" };
    let mut part = steps.into_iter().fold(message.whole_mut(), step);
    let answer = match call {
        "set" => part.set(value(given)),
        "clear" => part.clear(),
        "push" => part.push(value(given)),
        "insert" => part.insert(key(last), value(given)),
        "remove" => match parsed(last) {
            ("22", index, _) => part.remove_at(index as usize),
            _ => part.remove(key(last)),
        },
        _ => part.drop_unknown(),
    };
    format!("{call} {}\n", number(answer))
}
