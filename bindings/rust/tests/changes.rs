//! Changes of the order of the shop.
use mabristu::{Error, Key, Message, Pool, Value};
use std::fs;

fn order() -> Message {
    let example = |name: &str| fs::read(format!("{}/../../examples/{name}", env!("CARGO_MANIFEST_DIR"))).unwrap();
    Pool::link(&example("shop.set")).unwrap().message_type("shop.Order").unwrap().decode(&example("shop_order.bin")).unwrap()
}

#[test]
fn sets_and_clears() -> Result<(), Error> {
    let mut order = order().message_type().empty()?;
    order.set("number", u64::MAX)?;
    order.set("placed_on", "h\u{e9}")?;
    order.set("state", Value::Enum(1))?;
    order.set("gift", false)?;
    order.push("corrections", -1)?;
    order.insert("discounts", "a", -3)?;
    order.set("card", "4000")?;
    // By hand: 1 varint 2^64 - 1; 2 "h\xc3\xa9"; 4 {1: "a", 2: -3}; 5 "4000"; 7 1; 8 packed zigzag 1; 9 0.
    let wanted = [
        &[0x08][..],
        &[0xff; 9],
        b"\x01\x12\x03h\xc3\xa9\x22\x0e\x0a\x01a\x10\xfd",
        &[0xff; 8],
        b"\x01\x2a\x044000\x38\x01\x42\x01\x01\x48\x00",
    ];
    assert_eq!(order.encode()?, wanted.concat());
    order.clear("gift")?;
    order.set("invoice", Value::Message(0))?;
    assert_eq!((order.get("gift")?, order.get("card")?, order.get("invoice")?), (None, None, Some(Value::Message(2))));
    Ok(())
}

#[test]
fn changes_inside() -> Result<(), Error> {
    let mut order = order();
    order.field_mut("lines")?.index(0).field("price")?.set(3.0)?;
    order.push("lines", Value::Message(0))?;
    order.field_mut("lines")?.index(2).number(1).set("nut")?;
    order.field_mut("invoice")?.field("signature")?.set(vec![7])?;
    order.insert("discounts", "new", 1)?;
    order.remove("discounts", "spring")?;
    order.remove("discounts", "nothing")?;
    let lines = order.field("lines")?;
    assert_eq!(lines.index(0).field("price")?.get()?, Some(Value::Double(3.0)));
    assert_eq!(
        lines.index(2).fields()?.map(|(number, it)| Ok((number, it.get()?))).collect::<Result<Vec<_>, Error>>()?,
        [(1, Some(Value::String("nut".to_owned())))]
    );
    assert_eq!(order.field("invoice")?.field("signature")?.get()?, Some(Value::Bytes(vec![7])));
    let entries = order.field("discounts")?.entries()?.map(|(key, it)| Ok((key, it.get()?))).collect::<Result<Vec<_>, Error>>()?;
    assert_eq!(entries, [(Key::from("loyal"), Some(Value::Int32(3))), (Key::from("new"), Some(Value::Int32(1)))]);
    let mut part = order.field_mut("discounts")?;
    part.clear()?;
    assert!(part.part().is_empty()?);
    Ok(())
}

#[test]
fn changes_elements() -> Result<(), Error> {
    let mut order = order();
    let pieces = |order: &Message| order.field("lines")?.values()?.map(|it| it.field("pieces")?.get()).collect::<Result<Vec<_>, Error>>();
    order.field_mut("corrections")?.index(1).set(5)?;
    assert_eq!(order.field("corrections")?.index(1).get()?, Some(Value::Int32(5)));
    order.field_mut("corrections")?.remove_at(0)?;
    order.field_mut("corrections")?.remove_at(0)?;
    assert!(order.field("corrections")?.is_empty()?);
    order.field_mut("lines")?.index(0).set(Value::Message(0))?;
    assert_eq!(pieces(&order)?, [None, Some(Value::Int32(1))]);
    order.field_mut("lines")?.remove_at(0)?;
    assert_eq!(pieces(&order)?, [Some(Value::Int32(1))]);
    assert_eq!(order.field_mut("lines")?.remove_at(1), Err(Error::NoField));
    assert_eq!(order.field_mut("lines")?.index(1).set(Value::Message(0)), Err(Error::NoField));
    assert_eq!(order.field_mut("lines")?.index(0).set(5).unwrap_err().cause().map(|it| it.name()), Some("WrongKind"));
    Ok(())
}

#[test]
fn refuses() -> Result<(), Error> {
    let mut order = order();
    let before = order.encode()?;
    let cause = |answer: Result<(), Error>| answer.unwrap_err().cause().map(|it| (it.number(), it.name()));
    assert_eq!(cause(order.set("number", Value::Int32(1))), Some((22, "WrongKind")));
    assert_eq!(cause(order.set("number", "1")), Some((22, "WrongKind")));
    assert_eq!(order.set("number", -1), Err(Error::BadValue));
    assert_eq!(order.field_mut("lines")?.index(0).field("pieces")?.set(1u64 << 31), Err(Error::BadValue));
    assert_eq!(cause(order.push("number", 1u64)), Some((23, "WrongShape")));
    assert_eq!(cause(order.whole_mut().number(99).set(1)), Some((21, "NoSuchField")));
    assert_eq!(order.set("nothing", 1).unwrap_err().to_string(), "field nothing of shop.Order unknown");
    assert_eq!(order.set("lines", Value::List(1)), Err(Error::BadValue));
    assert_eq!(order.field_mut("lines")?.index(5).number(2).set(1), Err(Error::NoField));
    let refused = order.set("number", "1").unwrap_err();
    assert_eq!(refused.to_string(), "change at number cause WrongKind");
    assert_eq!(format!("{refused:?}"), r#"Change { place: "number", cause: WrongKind(22) }"#);
    let refused = order.field_mut("lines")?.index(1).field("price")?.set("1").unwrap_err();
    assert_eq!(refused.to_string(), "change at lines[1].price cause WrongKind");
    assert_eq!(order.insert("discounts", "a", "1").unwrap_err().to_string(), r#"change at discounts["a"] cause WrongKind"#);
    assert_eq!(order.whole_mut().number(99).set(1).unwrap_err().to_string(), "change at 99 cause NoSuchField");
    assert_eq!(order.encode()?, before);
    let mut other = order.message_type().decode(b"\x08\x05\xfa\x06\x01\x07")?;
    other.whole_mut().drop_unknown()?;
    assert_eq!(other.encode()?, b"\x08\x05");
    Ok(())
}

/// A field of each integer kind, of an enum and of a map with each integer kind of keys, numbered from 1 on.
const INTEGERS: &str = r#"syntax = "proto3"; message T { int32 a = 1; int64 b = 2; uint32 c = 3; uint64 d = 4; sint32 e = 5; sint64 f = 6;
    fixed32 g = 7; fixed64 h = 8; sfixed32 i = 9; sfixed64 j = 10; E k = 11; repeated int64 l = 12; map<uint64, uint32> m = 13; map<sint32, T> n = 14; }
    enum E { ZERO = 0; ONE = 1; }"#;

#[test]
fn takes_integers() -> Result<(), Error> {
    let integers = Pool::of_sources([("t.proto", INTEGERS)])?.message_type("T")?;
    let mut message = integers.empty()?;
    for name in ["a", "b", "c", "d", "e", "f", "g", "h", "i", "j", "k"] {
        message.set(name, 1)?;
        message.set(name, 1u8)?;
        message.set(name, 1usize)?;
    }
    message.push("l", 7)?;
    message.field_mut("l")?.push(i64::MIN)?;
    message.field_mut("l")?.index(0).set(8u32)?;
    message.insert("m", 5, 6)?;
    message.insert("n", 5u64, Value::Message(0))?;
    message.field_mut("n")?.key(5).field("a")?.set(-1)?;
    assert_eq!(message.field("m")?.key(5).get()?, Some(Value::Uint32(6)));
    assert_eq!(message.field("n")?.key(5i64).field("a")?.get()?, Some(Value::Int32(-1)));
    assert_eq!(
        message.field("n")?.entries()?.map(|(key, it)| (key, it.to_string())).collect::<Vec<_>>(),
        [(Key::Int32(5), "n[5]".to_owned())]
    );
    // What protoc --encode of libprotobuf 3.21.12 makes of the same fields in its text format, from a to l.
    let wanted = b"\x08\x01\x10\x01\x18\x01\x20\x01\x28\x02\x30\x02\x3d\x01\0\0\0\x41\x01\0\0\0\0\0\0\0\x4d\x01\0\0\0\x51\x01\0\0\0\0\0\0\0\x58\x01\x62\x0b\x08\x80\x80\x80\x80\x80\x80\x80\x80\x80\x01";
    assert!(message.encode()?.starts_with(wanted));
    // By numbers alone, where the field's kind is not known before.
    for number in 1..=11 {
        message.whole_mut().number(number).set(1)?;
    }
    for (name, number) in [("a", 1i64 << 31), ("c", -1), ("d", -1), ("k", 1 << 40)] {
        assert_eq!(message.set(name, number), Err(Error::BadValue));
    }
    assert_eq!(message.set("b", u64::MAX), Err(Error::BadValue));
    assert_eq!(message.insert("m", -1, 6).unwrap_err().to_string(), "change at m[-1] cause WrongKind");
    Ok(())
}
