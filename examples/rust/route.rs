//! Reads a field from the bytes of each message of a stream: route SET TYPE FIELD STREAM. Prints where each message begins, and the value of the field.
use mabristu::{Pool, Value};
use std::{env, fs};

fn main() -> Result<(), Box<dyn std::error::Error>> {
    let words: Vec<String> = env::args().skip(1).collect();
    let [set, name, field, stream] = &words[..] else { return Err("route SET TYPE FIELD STREAM".into()) };
    let found = Pool::link(&fs::read(set)?)?.message_type(name)?;
    for frame in found.frames(fs::File::open(stream)?) {
        let frame = frame?;
        match found.find(&frame.data, &[field])? {
            Some(Value::Uint64(number)) => println!("{} {number}", frame.at),
            Some(Value::Int32(number) | Value::Enum(number)) => println!("{} {number}", frame.at),
            Some(Value::String(text)) => println!("{} {text}", frame.at),
            None => println!("{} 0", frame.at),
            Some(other) => println!("{} {other:?}", frame.at),
        }
    }
    Ok(())
}
