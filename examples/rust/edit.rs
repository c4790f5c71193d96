//! Changes fields of a shop.Order and writes it to OUT: edit SET IN OUT. Its state is 2 (PAID), its first line has one piece more, and it has one more line.
use mabristu::{Pool, Value};
use std::{env, fs};

fn main() -> Result<(), Box<dyn std::error::Error>> {
    let words: Vec<String> = env::args().skip(1).collect();
    let [set, from, to] = &words[..] else { return Err("edit SET IN OUT".into()) };
    let mut order = Pool::link(&fs::read(set)?)?.message_type("shop.Order")?.decode(&fs::read(from)?)?;
    order.set("state", Value::Enum(2))?;
    let mut pieces = order.field_mut("lines")?.index(0).field("pieces")?;
    if let Some(Value::Int32(count)) = pieces.part().get()? {
        pieces.set(count + 1)?;
    }
    order.push("lines", Value::Message(0))?;
    let last = order.field("lines")?.len()? - 1;
    order.field_mut("lines")?.index(last).field("article")?.set("washer")?;
    fs::write(to, order.encode()?)?;
    Ok(())
}
