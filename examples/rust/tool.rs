//! The words of pbtool, by the crate mabristu: tool check|show|canon|frames [--lenient] SET TYPE FILE, tool short FILE, tool compile [--lenient] ROOT FILE..
//! Canonical bytes, listing, text and JSON, of a message that the library holds: tool encode|list|decimal|text|json [--lenient] SET TYPE FILE, and of an empty message: tool empty
//! SET TYPE FILE. As encode, by the set that the library writes of the pool: tool relink
//! [--lenient] SET TYPE FILE. The listing with decimal floats, of bytes: tool decimal-bytes SET TYPE FILE. How many parts of a set lenient reading leaves out: tool omitted SET. What a field is: tool field SET TYPE NAME. What a message has, a
//! place a line: tool read [--lenient] SET TYPE FILE, as read.c prints it. The scalar at a path of field numbers, such as 3.1: tool find [--lenient] SET TYPE
//! FILE PATH. What a set declares: tool types [--lenient] SET. Changes of a message, and its bytes: tool change SET TYPE FILE CHANGE.., as change.c says.
//! A copy of a message with more bytes decoded onto it: tool whole SET TYPE FILE MORE, as whole.c prints it. What differs between two types: tool compat
//! OLD_SET OLD_TYPE NEW_SET NEW_TYPE, as compat.c prints it. The canonical bytes of a message in JSON: tool from-json [--lenient] SET TYPE FILE,
//! or by the call that keeps no message: tool json-bytes [--lenient] SET TYPE FILE. Canonical bytes of a message that arrives in pieces of SIZE bytes: tool
//! pieces SIZE [--lenient] SET TYPE FILE; and how many the decoder holds after each: tool pending SIZE [--lenient] SET TYPE FILE
mod changes;
mod files;
mod values;

use files::{failure, hexadecimal, print, read, refused, Failure};
use mabristu::{raw_check, raw_short, Error, Field, JsonForm, JsonInput, Limits, Message, MessageType, Pool, StreamError, TextForm};
use std::process::ExitCode;

/// The messages of a stream, each after its length.
fn frames(order: &MessageType, stream: &[u8]) -> Result<(), Failure> {
    for (count, frame) in order.frames(stream).enumerate() {
        let frame = frame.map_err(|error| match error {
            StreamError::Refused { index, error, .. } => failure(error, &format!("frame {index} ")),
            failure => (failure.to_string(), 3),
        })?;
        print(format!("frame {count} at {} size {}\n", frame.at, frame.size).as_bytes())?;
        for line in order.listing(&frame.data).map_err(refused)?.split_terminator('\n') {
            print(format!("  {line}\n").as_bytes())?;
        }
    }
    Ok(())
}

/// Prints the canonical bytes of a message that the library holds.
fn encode(message: Result<Message, Error>) -> Result<(), Failure> {
    let message = message.map_err(refused)?;
    let encoded = message.encode().map_err(refused)?;
    assert_eq!(message.encoded_length(), Ok(encoded.len()));
    print(&hexadecimal(&encoded))
}

fn message_type(pool: &Pool, name: &str) -> Result<MessageType, Failure> {
    pool.message_type(name).map_err(|error| match error {
        Error::UnknownType { .. } => (format!("type {name} unknown"), 1),
        _ => refused(error),
    })
}

/// What a field is, by the numbers of struct mb_field.
fn field(found: &MessageType, name: &str) -> Result<(), Failure> {
    let Field { number, kind, shape, key, type_of } = found.field(name).map_err(|error| match error {
        Error::UnknownField { .. } => (format!("field {name} unknown"), 1),
        _ => refused(error),
    })?;
    print(format!("{number} {kind} {} {} {type_of}\n", shape as u32, key.unwrap_or(0)).as_bytes())
}

/// Sources with their names.
fn sources<'a>(root: &str, names: &[&'a str]) -> Result<Vec<(&'a str, Vec<u8>)>, Failure> {
    names.iter().map(|name| Ok((*name, read(&format!("{root}/{name}"))?))).collect()
}

/// A copy of a message with more bytes decoded onto it, and what is of it then.
fn whole(message: &Message, more: &[u8]) -> Result<(), Failure> {
    let mut copy = message.try_clone().map_err(refused)?;
    print(format!("equal {}\n", u8::from(*message == copy)).as_bytes())?;
    copy.merge(more).map_err(refused)?;
    print(format!("equal {}\nbytes ", u8::from(*message == copy)).as_bytes())?;
    print(&hexadecimal(&copy.encode().map_err(refused)?))?;
    print(b"frame ")?;
    print(&hexadecimal(&copy.frame().map_err(refused)?))?;
    print(b"unknown ")?;
    print(&hexadecimal(&copy.unknown().map_err(refused)?))?;
    let mut oneofs: Vec<String> = vec![];
    for declared in copy.message_type().fields().map_err(refused)? {
        let Some(oneof) = declared.oneof.filter(|oneof| !oneofs.contains(oneof)) else { continue };
        let number = copy.whole().oneof_member(oneofs.len() as u32).map_err(refused)?;
        print(format!("oneof {}\n", number.unwrap_or(0)).as_bytes())?;
        oneofs.push(oneof);
    }
    Ok(())
}

/// The canonical bytes of a message in JSON, by way of the message or without.
fn json_bytes(found: &MessageType, command: &str, json: &[u8], lenient: bool) -> Result<Vec<u8>, Error> {
    match (command, lenient) {
        ("from-json", false) => found.from_json(json)?.encode(),
        ("from-json", true) => found.from_json_with(json, JsonInput { ignore_unknown: true })?.encode(),
        (_, false) => found.canonical_from_json(json),
        (_, true) => found.canonical_from_json_with(json, JsonInput { ignore_unknown: true }),
    }
}

/// What is held after each piece, and the canonical bytes.
fn pieces(found: &MessageType, bytes: &[u8], size: usize, is_pending: bool) -> Result<(), Failure> {
    let mut decoder = found.decoder().map_err(refused)?;
    for piece in bytes.chunks(size) {
        decoder.feed(piece).map_err(refused)?;
        if is_pending {
            print(format!("{}\n", decoder.pending()).as_bytes())?;
        }
    }
    print(&hexadecimal(&decoder.finish().and_then(|message| message.encode()).map_err(refused)?))
}

fn run(words: &[&str]) -> Result<(), Failure> {
    let of_set = |error| failure(error, "set ");
    if let ["short", name] = words {
        let bytes = read(name)?;
        raw_check(&bytes, Limits::FULL).map_err(refused)?;
        return print(&hexadecimal(&raw_short(&bytes, Limits::FULL).map_err(refused)?));
    }
    if let ["compile", "--lenient", root, names @ ..] = words {
        return Pool::of_sources_lenient(sources(root, names)?).map(drop).map_err(refused);
    }
    if let ["compile", root, names @ ..] = words {
        return Pool::of_sources(sources(root, names)?).map(drop).map_err(refused);
    }
    if let ["whole", set, name, file, more] = words {
        let found = message_type(&Pool::link(&read(set)?).map_err(of_set)?, name)?;
        return whole(&found.decode(&read(file)?).map_err(refused)?, &read(more)?);
    }
    if let ["compat", old_set, old_name, new_set, new_name] = words {
        let old = message_type(&Pool::link(&read(old_set)?).map_err(of_set)?, old_name)?;
        let new = message_type(&Pool::link(&read(new_set)?).map_err(of_set)?, new_name)?;
        let found = old.compat(&new).map_err(refused)?;
        return found.iter().try_for_each(|it| {
            print(format!("{} {} {} {}\n", it.old_type, it.number, it.severity.name(), it.new_type).as_bytes())?;
            let Some(shown) = old.witness(&new, it).map_err(refused)? else {
                return Ok(());
            };
            print(b"  shown by ")?;
            print(&hexadecimal(&shown.encode().map_err(refused)?))
        });
    }
    if let ["omitted", set] = words {
        return print(format!("{}\n", Pool::link_lenient(&read(set)?).map_err(of_set)?.left_out()).as_bytes());
    }
    if let ["types", options @ .., set] = words {
        let set = read(set)?;
        let pool = if options.is_empty() { Pool::link(&set) } else { Pool::link_lenient(&set) };
        return print(pool.map_err(of_set)?.schema().map_err(refused)?.to_string().as_bytes());
    }
    if let ["field", set, type_name, name] = words {
        return field(&message_type(&Pool::link(&read(set)?).map_err(of_set)?, type_name)?, name);
    }
    if let ["change", set, name, file, changes @ ..] = words {
        let found = message_type(&Pool::link(&read(set)?).map_err(of_set)?, name)?;
        let mut message = found.decode(&read(file)?).map_err(refused)?;
        for word in changes {
            print(changes::change(&mut message, word).as_bytes())?;
        }
        return print(&hexadecimal(&message.encode().map_err(refused)?));
    }
    if let ["find", options @ .., set, name, file, path] = words {
        let set = read(set)?;
        let pool = if options.is_empty() { Pool::link(&set) } else { Pool::link_lenient(&set) };
        return print(values::found(&message_type(&pool.map_err(of_set)?, name)?, &read(file)?, path)?.as_bytes());
    }
    if let [command @ ("from-json" | "json-bytes"), options @ .., set, name, file] = words {
        let set = read(set)?;
        let pool = if options.is_empty() { Pool::link(&set) } else { Pool::link_lenient(&set) };
        let found = message_type(&pool.map_err(of_set)?, name)?;
        return print(&json_bytes(&found, command, &read(file)?, !options.is_empty()).map_err(refused)?);
    }
    if let [command @ ("pieces" | "pending"), size, options @ .., set, name, file] = words {
        let set = read(set)?;
        let pool = if options.is_empty() { Pool::link(&set) } else { Pool::link_lenient(&set) };
        let found = message_type(&pool.map_err(of_set)?, name)?;
        let size = size.parse().map_err(|_| (format!("no size: {size}"), 2))?;
        return pieces(&found, &read(file)?, size, *command == "pending");
    }
    let (command, pool, name, file) = match words {
        [command, "--lenient", set, name, file] => (command, Pool::link_lenient(&read(set)?), name, file),
        [command, set, name, file] => (command, Pool::link(&read(set)?), name, file),
        _ => return Err(("usage: see the head of tool.rs".to_owned(), 2)),
    };
    let pool = pool.map_err(of_set)?;
    let found = message_type(&pool, name)?;
    let bytes = read(file)?;
    match *command {
        "check" => found.check(&bytes).map_err(refused).and_then(|()| print(b"ok\n")),
        "show" => print(found.listing(&bytes).map_err(refused)?.as_bytes()),
        "decimal-bytes" => print(found.listing_decimal(&bytes).map_err(refused)?.as_bytes()),
        "relink" => {
            let linked = Pool::link(&pool.to_set().map_err(refused)?).map_err(of_set)?;
            encode(message_type(&linked, name)?.decode(&bytes))
        }
        "canon" => print(&hexadecimal(&found.canonical(&bytes).map_err(refused)?)),
        "encode" => encode(found.decode(&bytes)),
        "empty" => encode(found.empty()),
        "json" => {
            let json = found.decode(&bytes).and_then(|message| message.to_json(JsonForm::default())).map_err(refused)?;
            print(format!("{json}\n").as_bytes())
        }
        "text" => print(found.decode(&bytes).and_then(|message| message.text(TextForm::default())).map_err(refused)?.as_bytes()),
        "list" => print(found.decode(&bytes).and_then(|message| message.listing()).map_err(refused)?.as_bytes()),
        "decimal" => print(found.decode(&bytes).and_then(|message| message.listing_decimal()).map_err(refused)?.as_bytes()),
        "read" => print(values::places(&found.decode(&bytes).map_err(refused)?.whole(), "").map_err(refused)?.as_bytes()),
        _ => frames(&found, &bytes),
    }
}

fn main() -> ExitCode {
    let words: Vec<String> = std::env::args().skip(1).collect();
    let words: Vec<&str> = words.iter().map(String::as_str).collect();
    match run(&words) {
        Ok(()) => ExitCode::SUCCESS,
        Err((line, status)) => {
            eprintln!("{line}");
            ExitCode::from(status)
        }
    }
}
