//! Prints fields of a message type, or of the messages in its fields: schema SET TYPE NAME.., each NAME as lines or lines.price
use mabristu::{Error, Pool};
use std::{env, fs};

fn main() -> Result<(), Box<dyn std::error::Error>> {
    let words: Vec<String> = env::args().skip(1).collect();
    let [set, type_name, names @ ..] = &words[..] else { return Err("schema SET TYPE NAME..".into()) };
    let found = Pool::link(&fs::read(set)?)?.message_type(type_name)?;
    for name in names {
        let (mut at, mut last) = (Some(found.clone()), None);
        for part in name.split('.') {
            let message = at.ok_or(Error::NoField)?;
            let field = message.field(part)?;
            at = message.inner(&field);
            last = Some(field);
        }
        if let Some(field) = last {
            println!("{name} {} {} {}", field.number, field.kind_name(), field.shape.name());
        }
    }
    Ok(())
}
