//! Fields of the order of the shop. The values are those of its listing in examples/.
use mabristu::{Error, Key, Message, Pool, Value};
use std::fs;

fn example(name: &str) -> Vec<u8> {
    fs::read(format!("{}/../../examples/{name}", env!("CARGO_MANIFEST_DIR"))).unwrap()
}

fn order() -> Message {
    Pool::link(&example("shop.set")).unwrap().message_type("shop.Order").unwrap().decode(&example("shop_order.bin")).unwrap()
}

#[test]
fn reads_scalars() -> Result<(), Error> {
    let order = order();
    assert_eq!(order.get("number"), Ok(Some(Value::Uint64(4711))));
    assert_eq!(order.get("placed_on"), Ok(Some(Value::String("2024-05-17".to_owned()))));
    assert_eq!(order.get("state"), Ok(Some(Value::Enum(1))));
    assert_eq!(order.get("gift"), Ok(Some(Value::Bool(false))));
    assert_eq!(order.get("card"), Ok(None));
    let unknown = order.get("nothing").unwrap_err();
    assert_eq!(unknown, Error::UnknownField { message_type: "shop.Order".to_owned(), name: "nothing".to_owned(), near: None });
    assert_eq!(unknown.to_string(), "field nothing of shop.Order unknown");
    let said = |name: &str| order.get(name).unwrap_err().to_string();
    assert_eq!(said("numbr"), "field numbr of shop.Order unknown: did you mean number?");
    let oneof = order.which_oneof("paiment").unwrap_err().to_string();
    assert_eq!(oneof, "field paiment of shop.Order unknown: did you mean payment?");
    assert_eq!(order.field("lines")?.index(9).get()?, None);
    Ok(())
}

#[test]
fn reads_lists_maps_and_messages() -> Result<(), Error> {
    let order = order();
    let lines = order.field("lines")?;
    assert_eq!((lines.len()?, lines.get()?, lines.index(2).get()?), (2, Some(Value::List(2)), None));
    let articles = lines.values()?.map(|line| line.field("article")?.get()).collect::<Result<Vec<_>, _>>()?;
    assert_eq!(articles, ["bolt M8", "torque wrench"].map(|it| Some(Value::String(it.to_owned()))));
    assert_eq!(lines.index(1).field("price")?.get()?, Some(Value::Double(89.5)));
    let discounts = order.field("discounts")?;
    assert_eq!(discounts.keys()?, [Key::from("loyal"), Key::from("spring")]);
    assert_eq!((discounts.key("loyal").get()?, discounts.key("none").get()?), (Some(Value::Int32(3)), None));
    let invoice = order.field("invoice")?;
    assert_eq!((invoice.get()?, invoice.numbers()?), (Some(Value::Message(2)), vec![1, 2]));
    assert_eq!(invoice.field("signature")?.get()?, Some(Value::Bytes(vec![1, 255])));
    assert_eq!(order.whole().numbers()?, [1, 2, 3, 4, 6, 7, 8, 9]);
    assert_eq!(order.whole().number(6).field("address")?.get()?, Some(Value::String("Main Street 1".to_owned())));
    assert_eq!(order.whole().number(3).index(1).number(2).get()?, Some(Value::Int32(1)));
    assert_eq!(order.whole().number(99).get()?, None);
    assert!(order.field("card")?.is_empty()? && !order.field("card")?.is_set()?);
    Ok(())
}

#[test]
fn reads_by_paths_with_names() -> Result<(), Error> {
    let order = order();
    assert_eq!(order.at("lines[1].price")?.get()?, Some(Value::Double(89.5)));
    assert_eq!(order.at("discounts[\"l\\x6fyal\"]")?.get()?, Some(Value::Int32(3)));
    assert_eq!(order.at("invoice.signature")?.get()?, Some(Value::Bytes(vec![1, 255])));
    assert_eq!((order.at("lines[9].price")?.get()?, order.at("lines")?.len()?), (None, 2));
    assert_eq!(order.at("")?.numbers()?, [1, 2, 3, 4, 6, 7, 8, 9]);
    for (path, byte) in [("lines[1].none", 9), ("number[0]", 6), ("lines.price", 5), ("lines[x]", 6)] {
        let refused = order.at(path).map(|_| ()).unwrap_err();
        assert_eq!(refused, Error::Path { byte });
        assert_eq!(refused.to_string(), format!("path byte {byte} is no place of the type"));
    }
    Ok(())
}

#[test]
fn reads_keys_in_order() -> Result<(), Error> {
    let source = "syntax = \"proto3\"; message M { map<string, int32> s = 1; map<sint32, M> i = 2; map<fixed64, M> u = 3; map<bool, M> b = 4; int32 n = 5; }";
    let mut m = Pool::of_sources([("m.proto", source)])?.message_type("M")?.empty()?;
    assert_eq!((m.field("s")?.keys()?, m.field("s")?.nth_key(0)?), (vec![], None));
    // 300 strings of 0 to 299 bytes, which are more than a first call writes, put in from the longest one on.
    let strings: Vec<Key> = (0..300).map(|len| Key::from("k".repeat(len))).collect();
    for key in strings.iter().rev() {
        m.insert("s", key.clone(), 1)?;
    }
    assert_eq!(m.field("s")?.keys()?, strings);
    assert_eq!((m.field("s")?.nth_key(299)?, m.field("s")?.nth_key(300)?), (strings.last().cloned(), None));
    for key in [1, -1, 0] {
        m.insert("i", key, Value::Message(0))?;
    }
    assert_eq!(m.field("i")?.keys()?, [-1, 0, 1].map(Key::Int32));
    assert_eq!(m.field("i")?.nth_key(1)?, Some(Key::Int32(0)));
    for key in [u64::MAX, 0] {
        m.field_mut("i")?.key(-1).field("u")?.insert(key, Value::Message(0))?;
    }
    assert_eq!(m.field("i")?.key(-1).field("u")?.keys()?, [0, u64::MAX].map(Key::Uint64));
    for key in [true, false] {
        m.insert("b", key, Value::Message(0))?;
    }
    assert_eq!(
        m.field("b")?.entries()?.map(|(key, it)| (key, it.to_string())).collect::<Vec<_>>(),
        [(Key::Bool(false), "b[false]".to_owned()), (Key::Bool(true), "b[true]".to_owned())]
    );
    // No map has keys there.
    assert_eq!((m.field("n")?.keys()?, m.field("n")?.nth_key(0)?), (vec![], None));
    Ok(())
}

#[test]
fn finds_in_bytes() {
    let (order, bytes) = (order(), example("shop_order.bin"));
    let order = order.message_type();
    assert_eq!(order.find(&bytes, &["number"]), Ok(Some(Value::Uint64(4711))));
    assert_eq!(order.find(&bytes, &["invoice", "address"]), Ok(Some(Value::String("Main Street 1".to_owned()))));
    assert_eq!(order.find(&bytes, &["card"]), Ok(None));
    assert_eq!(order.find(&bytes, &["lines", "price"]), Ok(None));
    assert_eq!(order.find(&bytes, &["number", "number"]), Err(Error::NoField));
    assert_eq!(order.find_numbers(&bytes, &[6, 2]), Ok(Some(Value::Bytes(vec![1, 255]))));
    assert_eq!(order.find(&bytes[..50], &["number"]).unwrap_err().to_string(), "byte 50 path 3[1].1[0] cause Truncated");
    let long = [&[0x12, 0xb8, 0x17][..], &[b'a'; 3000]].concat();
    assert_eq!(order.find(&long, &["placed_on"]), Ok(Some(Value::String("a".repeat(3000)))));
}

#[test]
fn places_print_as_their_steps() -> Result<(), Error> {
    let order = order();
    let price = order.field("lines")?.index(1).field("price")?;
    assert_eq!((price.to_string(), format!("{price:?}")), ("lines[1].price".to_owned(), "Part(lines[1].price)".to_owned()));
    assert_eq!(order.whole().number(3).index(0).number(3).to_string(), "lines[0].price");
    assert_eq!(order.field("discounts")?.key("a\"b").to_string(), r#"discounts["a\"b"]"#);
    assert_eq!(order.whole().number(99).number(1).to_string(), "99.1");
    assert_eq!(order.whole().to_string(), "");
    assert_eq!(order.field("discounts")?.field("key").unwrap_err(), Error::NoField);
    assert_eq!(order.field("lines")?.index(0).field("cost").unwrap_err().to_string(), "field cost of shop.Line unknown");
    Ok(())
}
