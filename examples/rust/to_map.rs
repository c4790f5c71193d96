//! A message as maps and lists, and back: to_map SET TYPE FILE prints them. It fails if the message that they give is another message. Maps have no unknown
//! fields, so the program drops them first.
use mabristu::{Error, Key, Message, Part, PartMut, Pool, Value};
use std::collections::BTreeMap;
use std::{env, fs};

#[derive(Debug)]
enum Tree {
    One(Value),
    Message(BTreeMap<u32, Tree>),
    List(Vec<Tree>),
    Map(BTreeMap<Key, Tree>),
}

fn tree(part: &Part) -> Result<Tree, Error> {
    Ok(match part.get()? {
        Some(Value::Message(_)) => Tree::Message(part.fields()?.map(|(n, it)| Ok((n, tree(&it)?))).collect::<Result<_, Error>>()?),
        Some(Value::List(_)) => Tree::List(part.values()?.map(|it| tree(&it)).collect::<Result<_, _>>()?),
        Some(Value::Map(_)) => Tree::Map(part.entries()?.map(|(key, it)| Ok((key, tree(&it)?))).collect::<Result<_, Error>>()?),
        value => Tree::One(value.ok_or(Error::NoField)?),
    })
}

/// Fills the empty message, list or map at a place, which leads there from the message.
fn fill(message: &mut Message, place: &dyn Fn(&mut Message) -> PartMut<'_>, tree: &Tree) -> Result<(), Error> {
    // A message is empty first.
    let seed = |it: &Tree| if let Tree::One(value) = it { value.clone() } else { Value::Message(0) };
    match tree {
        Tree::One(_) => Ok(()),
        Tree::Message(fields) => fields.iter().try_for_each(|(number, it)| {
            if matches!(it, Tree::One(_) | Tree::Message(_)) {
                place(message).number(*number).set(seed(it))?;
            }
            fill(message, &|of| place(of).number(*number), it)
        }),
        Tree::List(values) => values.iter().enumerate().try_for_each(|(index, it)| {
            place(message).push(seed(it))?;
            fill(message, &|of| place(of).index(index), it)
        }),
        Tree::Map(entries) => entries.iter().try_for_each(|(key, it)| {
            place(message).insert(key.clone(), seed(it))?;
            fill(message, &|of| place(of).key(key.clone()), it)
        }),
    }
}

fn main() -> Result<(), Box<dyn std::error::Error>> {
    let words: Vec<String> = env::args().skip(1).collect();
    let [set, name, file] = &words[..] else { return Err("to_map SET TYPE FILE".into()) };
    let found = Pool::link(&fs::read(set)?)?.message_type(name)?;
    let mut message = found.decode(&fs::read(file)?)?;
    message.whole_mut().drop_unknown()?;
    let read = tree(&message.whole())?;
    println!("{read:#?}");
    let mut made = found.empty()?;
    fill(&mut made, &|of| of.whole_mut(), &read)?;
    assert_eq!(made.encode()?, message.encode()?);
    Ok(())
}
