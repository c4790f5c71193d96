//! Whole messages: copies, comparisons, merging, oneofs, unknown records; lenient sources and two versions of a schema.
use mabristu::{Difference, Error, Message, Pool, Severity, Value};
use std::fs;

fn example(name: &str) -> Vec<u8> {
    fs::read(format!("{}/../../examples/{name}", env!("CARGO_MANIFEST_DIR"))).unwrap()
}

fn order() -> Message {
    Pool::link(&example("shop.set")).unwrap().message_type("shop.Order").unwrap().decode(&example("shop_order.bin")).unwrap()
}

#[test]
fn copies_and_compares() -> Result<(), Error> {
    let order = order();
    let mut copy = order.clone();
    assert_eq!(copy, order);
    assert_eq!(copy, copy);
    assert_eq!(copy.encode()?, order.encode()?);
    copy.set("number", 8_u64)?;
    assert_ne!(copy, order);
    assert_eq!((copy.get("number")?, order.get("number")? == copy.get("number")?), (Some(Value::Uint64(8)), false));
    // Another pool with the same types, and a type with the same bytes.
    let again = Pool::link(&example("shop.set"))?.message_type("shop.Order")?;
    assert_eq!(again.decode(&example("shop_order.bin"))?, order);
    assert_ne!(again.pool().message_type("shop.Line")?.empty()?, again.empty()?);
    // Floats are compared by their bits, so a message with a NaN equals itself.
    let pool = Pool::of_sources([("f.proto", "syntax = \"proto3\"; message F { float f = 1; }")])?;
    let mut nan = pool.message_type("F")?.empty()?;
    nan.set("f", f32::NAN)?;
    assert_eq!(nan.clone(), nan);
    Ok(())
}

#[test]
fn merges() -> Result<(), Error> {
    let mut order = order();
    let before = order.encode()?;
    // By hand: 1 varint 9; 8 packed zigzag 1.
    order.merge(b"\x08\x09\x42\x01\x01")?;
    let wanted = [&before[..], b"\x08\x09\x42\x01\x01"].concat();
    assert_eq!(order.encode()?, order.message_type().canonical(&wanted)?);
    let merged = order.encode()?;
    match order.merge(b"\x08\x09\x12\x05") {
        Err(Error::Fault { byte, cause, .. }) => assert_eq!((byte, cause.name()), (4, "Truncated")),
        other => panic!("{other:?}"),
    }
    assert_eq!(order.encode()?, merged);
    Ok(())
}

#[test]
fn oneofs_and_unknown_records() -> Result<(), Error> {
    let mut order = order().message_type().empty()?;
    assert_eq!(order.which_oneof("payment")?, None);
    order.set("card", "4000")?;
    assert_eq!(order.which_oneof("payment")?.as_deref(), Some("card"));
    order.set("invoice", Value::Message(0))?;
    assert_eq!(order.which_oneof("payment")?.as_deref(), Some("invoice"));
    assert_eq!((order.whole().oneof_member(0)?, order.whole().oneof_member(9)?), (Some(6), None));
    assert_eq!(order.which_oneof("nothing").unwrap_err().to_string(), "field nothing of shop.Order unknown");
    // By hand: field 99 is 2, in two bytes; the shortest encoding has one.
    assert_eq!(order.unknown()?, b"");
    order.merge(b"\x98\x06\x82\x00")?;
    assert_eq!(order.unknown()?, b"\x98\x06\x02");
    assert_eq!(order.field("invoice")?.unknown()?, b"");
    Ok(())
}

#[test]
fn decimal_listing() -> Result<(), Error> {
    let pool = Pool::of_sources([("f.proto", "syntax = \"proto3\"; message F { double d = 1; }")])?;
    let mut message = pool.message_type("F")?.empty()?;
    message.set("d", 0.1)?;
    assert_eq!(message.message_type().listing_decimal(&message.encode()?)?, "d: 0.1\n");
    assert_eq!((message.listing_decimal()?, message.listing()?), ("d: 0.1\n".to_owned(), "d: 0x3fb999999999999a\n".to_owned()));
    Ok(())
}

#[test]
fn lenient_sources() -> Result<(), Error> {
    let source = "syntax = \"proto3\"; message M { int32 a = 1 [(x).y = { z: 1.5 }]; }";
    match Pool::of_sources([("m.proto", source)]) {
        Err(Error::Source { cause, .. }) => assert_eq!(cause.name(), "CustomOption"),
        other => panic!("{:?}", other.err()),
    }
    assert_eq!(Pool::of_sources_lenient([("m.proto", source)])?.message_type("M")?.field("a")?.number, 1);
    Ok(())
}

// A map in a file of proto2 whose values are of an enum is the list of its entries, of which two have one key.
#[test]
fn lenient_maps_of_enums() -> Result<(), Error> {
    let source = "enum E { A = 0; B = 5; } message M { map<int32, E> m = 1; }";
    let message_type = Pool::of_sources_lenient([("m.proto", source)])?.message_type("M")?;
    let message = message_type.decode(&[10, 4, 8, 1, 16, 5, 10, 4, 8, 1, 16, 0])?;
    assert_eq!(message.listing()?, "m {\n  key: 1\n  value: B\n}\nm {\n  key: 1\n  value: A\n}\n");
    Ok(())
}

#[test]
fn two_versions() -> Result<(), Error> {
    let pool = |fields: &str| Pool::of_sources([("m.proto", format!("syntax = \"proto3\"; message M {{ {fields} }}"))]);
    let old = pool("int64 a = 1; int32 b = 2; string c = 3; M m = 4; int32 e = 5; int32 g = 7;")?.message_type("M")?;
    let new = pool("double a = 1; int64 b = 2; M m = 4; optional int32 e = 5; int32 f = 6; int32 h = 7;")?.message_type("M")?;
    let found = old.compat(&new)?;
    let all: Vec<(u32, Severity)> = found.iter().map(|it| (it.number, it.severity)).collect();
    let wanted = [(1, Severity::Breaks), (2, Severity::Converts), (3, Severity::Loses), (5, Severity::Presence), (7, Severity::Renames)];
    assert_eq!(all, wanted);
    let first = Difference { old_type: "M".to_owned(), new_type: "M".to_owned(), number: 1, severity: Severity::Breaks };
    assert_eq!((&found[0], found[0].to_string()), (&first, "M 1 breaks".to_owned()));
    let renamed = Difference { new_type: "N".to_owned(), ..first };
    assert_eq!(renamed.to_string(), "M 1 breaks (M -> N)");
    assert_eq!(old.compat(&old)?, []);
    // An int64 is a varint, and a double has eight bytes: the new type takes the record for an unknown one.
    let shown = old.witness(&new, &found[0])?.expect("a witness");
    let read = new.decode(&shown.encode()?)?;
    assert_eq!((shown.get("a")?.is_some(), read.get("a")?, read.unknown()?), (true, None, shown.encode()?));
    assert_eq!(found[1..].iter().map(|it| old.witness(&new, it)).collect::<Result<Vec<_>, _>>()?, [None, None, None, None]);
    Ok(())
}

#[test]
fn frames() -> Result<(), Error> {
    let mut order = order().message_type().empty()?;
    assert_eq!(order.frame()?, [0]);
    // 300 is the varint 0xac 0x02, and 297 is 0xa9 0x02.
    order.set("placed_on", "a".repeat(297))?;
    assert_eq!(order.frame()?, [b"\xac\x02\x12\xa9\x02".as_slice(), &[b'a'; 297]].concat());
    let stream = [order.frame()?, order.frame()?].concat();
    let found = order.message_type().frames(stream.as_slice()).map(|it| it.unwrap().data).collect::<Vec<_>>();
    assert_eq!(found, [order.encode()?, order.encode()?]);
    Ok(())
}

#[test]
fn set_of_a_pool() -> Result<(), Error> {
    let pool = order().message_type().pool().clone();
    let again = Pool::link(&pool.to_set()?)?;
    assert_eq!(again.schema()?.to_string(), pool.schema()?.to_string());
    Ok(())
}
