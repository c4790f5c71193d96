//! The order of the shop: its bytes, listing and types are those of examples/, and the records written here are made by hand.
use mabristu::{raw_check, raw_short, Error, JsonForm, JsonInput, Limits, MessageType, Pool, Shape, Step, StreamError, TextForm, Value};
use std::{fs, thread};

fn example(name: &str) -> Vec<u8> {
    fs::read(format!("{}/../../examples/{name}", env!("CARGO_MANIFEST_DIR"))).unwrap()
}

fn order() -> MessageType {
    Pool::link(&example("shop.set")).unwrap().message_type("shop.Order").unwrap()
}

/// A varint of one byte, then the message.
fn framed(message: &[u8]) -> Vec<u8> {
    [&[message.len() as u8], message].concat()
}

#[test]
fn lists_as_pbtool_does() {
    let (order, bytes) = (order(), example("shop_order.bin"));
    let listing = String::from_utf8(example("shop_order.show.txt")).unwrap();
    assert_eq!(order.listing(&bytes).unwrap(), listing);
    let message = order.decode(&bytes).unwrap();
    assert_eq!(message.listing().unwrap(), listing);
    // A message prints with its floats in decimal.
    let decimal = listing.replace("0x3fd6666666666666", "0.35").replace("0x4056600000000000", "89.5");
    assert_eq!(message.to_string(), decimal);
    assert_eq!(format!("{message:?}"), decimal);
}

#[test]
fn writes_text() {
    // What protoc --decode prints of the order.
    let message = order().decode(&example("shop_order.bin")).unwrap();
    let text = message.text(TextForm::default()).unwrap();
    assert!(text.starts_with("number: 4711\nplaced_on: \"2024-05-17\"\nlines {\n  article: \"bolt M8\"\n  pieces: 200\n  price: 0.35\n}\n"));
    assert!(text.ends_with("state: SENT\ncorrections: -1\ncorrections: 2\ngift: false\n"));
    let line = message.text(TextForm { single_line: true, ..TextForm::default() }).unwrap();
    assert_eq!(line, text.split_whitespace().collect::<Vec<_>>().join(" "));
    // Field 100 is no field of the type.
    let message = order().decode(b"\x12\x02\xc3\xa9\xa0\x06\x07").unwrap();
    assert_eq!(message.text(TextForm::default()).unwrap(), "placed_on: \"\\303\\251\"\n100: 7\n");
    let form = TextForm { single_line: true, utf8: true, omit_unknown: true };
    assert_eq!(message.text(form).unwrap(), "placed_on: \"é\"");
    assert_eq!(order().empty().unwrap().text(form).unwrap(), "");
}

#[test]
fn writes_json() {
    // The fields are those that protoc --decode prints of the order.
    let message = order().decode(&example("shop_order.bin")).unwrap();
    let line = message.to_json(JsonForm::default()).unwrap();
    assert!(line.starts_with(r#"{"number":"4711","placedOn":"2024-05-17","lines":[{"article":"bolt M8","#));
    let form = JsonForm { declared_names: true, indented: true };
    assert!(message.to_json(form).unwrap().starts_with("{\n  \"number\": \"4711\",\n  \"placed_on\": \"2024-05-17\",\n"));
    // A Timestamp of 2^40 seconds is after the year 9999.
    let stamp = r#"syntax = "proto3"; package google.protobuf; message Timestamp { int64 seconds = 1; int32 nanos = 2; }"#;
    let event = r#"syntax = "proto3"; import "t.proto"; message Event { google.protobuf.Timestamp at = 3; }"#;
    let pool = Pool::of_sources([("t.proto", stamp), ("e.proto", event)]).unwrap();
    let found = pool.message_type("Event").unwrap().decode(b"\x1a\x07\x08\x80\x80\x80\x80\x80\x20").unwrap();
    let error = found.to_json(JsonForm::default()).unwrap_err();
    assert_eq!(error.to_string(), "json path 3 cause OutOfRange");
}

/// A set of `message Shelf { string display_name = 1 [json_name = "label"]; int32 in_stock = 2; repeated Shelf shelf_below = 3
/// [json_name = "a \"b\""]; }` in the package names, as protoc 3.21.12 makes it.
const NAMED: &[u8] = b"\n\x87\x01\n\x0bnames.proto\x12\x05names\"i\n\x05Shelf\x12\x1b\n\x0cdisplay_name\x18\x01 \x01(\tR\x05label\
\x12\x19\n\x08in_stock\x18\x02 \x01(\x05R\x07inStock\x12(\n\x0bshelf_below\x18\x03 \x03(\x0b2\x0c.names.ShelfR\x05a \"b\"b\x06proto3";

#[test]
fn names_of_the_set_in_json() {
    // What is written and read is what json_format of protobuf 4.21.12 has.
    let bytes = b"\n\x03top\x10\x03\x1a\x05\n\x03low";
    let given = r#"{"label":"top","inStock":3,"a \"b\"":[{"label":"low"}]}"#;
    let declared = r#"{"display_name":"top","in_stock":3,"shelf_below":[{"display_name":"low"}]}"#;
    for pool in [Pool::link(NAMED).unwrap(), Pool::link_lenient(NAMED).unwrap().clone()] {
        let shelf = pool.message_type("names.Shelf").unwrap();
        drop(pool);
        let message = shelf.decode(bytes).unwrap();
        assert_eq!(message.to_json(JsonForm::default()).unwrap(), given);
        assert_eq!(message.clone().to_json(JsonForm { declared_names: true, indented: false }).unwrap(), declared);
        for json in [given, declared] {
            assert_eq!(shelf.from_json(json).unwrap(), message);
            assert_eq!(shelf.canonical_from_json(json).unwrap(), bytes);
        }
        for (json, line) in [
            (r#"{"displayName":""}"#, "json byte 1 cause UnknownName"),
            (r#"{"label":"","display_name":""}"#, "json byte 12 cause RepeatedName"),
        ] {
            assert_eq!(shelf.from_json(json).unwrap_err().to_string(), line);
            assert_eq!(shelf.canonical_from_json(json).unwrap_err().to_string(), line);
        }
        let read = shelf.from_json_lenient(r#"{"displayName":"","inStock":3}"#).unwrap();
        assert_eq!(read.encode().unwrap(), [0x10, 0x03]);
    }
    // A pool of sources has no such names, and neither has the set that a pool makes.
    let source = r#"syntax = "proto3"; package names; message Shelf { string display_name = 1 [json_name = "label"]; }"#;
    let of_source = Pool::of_sources([("names.proto", source)]).unwrap();
    for pool in [of_source, Pool::link(&Pool::link(NAMED).unwrap().to_set().unwrap()).unwrap()] {
        let shelf = pool.message_type("names.Shelf").unwrap();
        let json = r#"{"displayName":"top"}"#;
        let message = shelf.from_json(json).unwrap();
        assert_eq!(message.encode().unwrap(), b"\n\x03top");
        assert_eq!(message.to_json(JsonForm::default()).unwrap(), json);
    }
}

#[test]
fn reads_json() {
    // What is written of the order is read as the order; names as declared are taken too.
    let (order, bytes) = (order(), example("shop_order.bin"));
    let message = order.decode(&bytes).unwrap();
    for form in [JsonForm::default(), JsonForm { declared_names: true, indented: true }] {
        assert_eq!(order.from_json(message.to_json(form).unwrap()).unwrap(), message);
    }
    assert_eq!(order.from_json("{}").unwrap(), order.empty().unwrap());
    let error = order.from_json(r#"{"number":1,"nothing":2}"#).unwrap_err();
    assert_eq!(error.to_string(), "json byte 12 cause UnknownName");
    let (json, ignoring) = (r#"{"number":"1","nothing":2,"state":"LOST"}"#, JsonInput { ignore_unknown: true });
    assert_eq!(order.from_json_with(json, ignoring).unwrap().encode().unwrap(), [0x08, 0x01]);
    assert_eq!(order.canonical_from_json_with(json, ignoring).unwrap(), [0x08, 0x01]);
    assert_eq!(order.from_json_lenient(json).unwrap().encode().unwrap(), [0x08, 0x01]);
    assert!(order.from_json_with(json, JsonInput::default()).is_err());
    assert_eq!(order.from_json(r#"{"number":true}"#).unwrap_err().to_string(), "json byte 10 cause BadValue");
    assert_eq!(order.from_json("{").unwrap_err().cause().map(|cause| cause.number()), Some(102));
}

#[test]
fn writes_what_it_read() {
    // The example is canonical, but for its order: number 1 with an overlong varint is not.
    let order = order();
    let message = order.decode(&[0x08, 0x85, 0x00]).unwrap();
    assert_eq!(message.encode().unwrap(), [0x08, 0x05]);
    assert_eq!(message.encoded_length(), Ok(2));
    assert_eq!(order.canonical(&[0x08, 0x85, 0x00]).unwrap(), [0x08, 0x05]);
    assert_eq!(order.empty().unwrap().encode().unwrap(), []);
    assert_eq!(raw_short(&[0x08, 0x85, 0x00], Limits::FULL).unwrap(), [0x08, 0x05]);
}

#[test]
fn names_the_steps_of_a_path() {
    // Bad UTF-8 in the article of the second line, in a key, and in the address of the invoice; a group of no field that does not end.
    let order = order();
    let rows: [(&[u8], &[&str]); 4] = [
        (b"\x1a\x03\x0a\x01a\x1a\x03\x0a\x01\xff", &["lines", "article"]),
        (b"\x22\x03\x0a\x01\xff", &["discounts", "key"]),
        (b"\x32\x03\x0a\x01\xff", &["invoice", "address"]),
        (b"\x9b\x06\x08", &["99", "1"]),
    ];
    for (bytes, names) in rows {
        let Err(Error::Fault { path, .. }) = order.check(bytes) else { panic!("no fault") };
        assert_eq!(order.path_names(&path).unwrap(), names);
    }
}

#[test]
fn refuses_with_byte_path_and_cause() {
    let order = order();
    // In the second of two lines (3) the article (1) is longer than the line.
    let bytes = [0x1a, 0, 0x1a, 2, 0x0a, 5];
    let Err(Error::Fault { byte, path, cause }) = order.check(&bytes) else { panic!() };
    assert_eq!((byte, path), (5, vec![Step { number: 3, before: 1 }, Step { number: 1, before: 0 }]));
    assert_eq!((cause.name(), cause.number()), ("PastEnd", 2));
    assert_eq!(order.decode(&bytes).unwrap_err().to_string(), "byte 5 path 3[1].1[0] cause PastEnd");
    assert_eq!(raw_check(&[0x0f], Limits::FULL).unwrap_err().cause().unwrap().name(), "BadType");
    let short = order.with_limits(Limits { max_bytes: 3, ..Limits::FULL });
    assert_eq!(short.check(&bytes).unwrap_err().to_string(), "byte 3 path - cause InputTooLarge");
    let deep = short.with_limits(Limits { max_depth: 101, ..Limits::FULL });
    assert_eq!(deep.check(&bytes), Err(Error::BadLimits));
}

#[test]
fn lists_what_a_pool_declares() -> Result<(), Error> {
    let order = order();
    let schema = order.pool().schema()?;
    let lines = "file shop.proto proto3
message shop.Order shop.proto
field shop.Order.number 1 implicit uint64
field shop.Order.placed_on 2 implicit string
field shop.Order.lines 3 repeated shop.Line
field shop.Order.discounts 4 repeated map<string, int32>
field shop.Order.card 5 oneof:payment string
field shop.Order.invoice 6 oneof:payment shop.Invoice
field shop.Order.state 7 implicit shop.State
field shop.Order.corrections 8 repeated sint32 packed
field shop.Order.gift 9 optional bool
message shop.Line shop.proto
field shop.Line.article 1 implicit string
field shop.Line.pieces 2 implicit int32
field shop.Line.price 3 implicit double
message shop.Invoice shop.proto
field shop.Invoice.address 1 implicit string
field shop.Invoice.signature 2 implicit bytes
enum shop.State shop.proto
value shop.State OPEN 0
value shop.State SENT 1
value shop.State PAID 2
";
    assert_eq!(schema.to_string(), lines);
    assert_eq!((schema.files[0].package.as_str(), schema.files[0].imports, schema.messages[1].parent), ("shop", 0, None));
    let fields = order.fields()?;
    assert_eq!((order.name()?.as_str(), fields.len(), fields[5].oneof.as_deref()), ("shop.Order", 9, Some("payment")));
    assert_eq!(fields[5].field, order.field("invoice")?);
    assert!(fields[7].is_packed && !fields[2].is_packed);
    Ok(())
}

#[test]
fn names_types_and_fields() {
    let order = order();
    let lines = order.field("lines").unwrap();
    assert_eq!((lines.number, lines.kind, lines.shape, lines.key), (3, 11, Shape::List, None));
    assert_eq!(order.field("discounts").unwrap().key, Some(9));
    assert_eq!(order.field("gift").unwrap().shape, Shape::Optional);
    assert_eq!(order.field("card").unwrap().shape, Shape::Oneof);
    assert_eq!(order.field("number").unwrap().shape, Shape::Implicit);
    assert_eq!(order.inner(&lines).unwrap().field("price").unwrap().kind, 1);
    assert!(order.inner(&order.field("number").unwrap()).is_none());
    let unknown = order.field("nothing").unwrap_err();
    assert_eq!(unknown, Error::UnknownField { message_type: "shop.Order".to_owned(), name: "nothing".to_owned(), near: None });
    let unknown = order.pool().message_type("shop.Nothing").err().unwrap();
    assert_eq!(
        (&unknown, unknown.to_string().as_str()),
        (&Error::UnknownType { name: "shop.Nothing".to_owned(), near: None }, "type shop.Nothing unknown")
    );
    for name in ["Order", "shop.Ordr", "shop.order"] {
        let unknown = order.pool().message_type(name).err().unwrap().to_string();
        assert_eq!(unknown, format!("type {name} unknown: did you mean shop.Order?"));
    }
    let names: Vec<_> = order.pool().message_types().unwrap().map(|it| it.name().unwrap()).collect();
    assert_eq!(names, ["shop.Order", "shop.Line", "shop.Invoice"]);
    let enums: Vec<_> = order.pool().enums().unwrap().map(|it| (it.name, it.values.len())).collect();
    assert_eq!(enums, [("shop.State".to_owned(), 3)]);
    let line = order.pool().message_types().unwrap().nth(1).unwrap();
    assert_eq!(line.decode(b"\x10\x05").unwrap().get("pieces").unwrap(), Some(mabristu::Value::Int32(5)));
}

#[test]
fn refuses_sets_and_sources() {
    let refused = |text: &str| Pool::of_sources([("a.proto", text)]).err().unwrap().to_string();
    assert_eq!(refused("syntax = \"proto3\"; message A { B b = 1; }"), "link a.proto at A.b cause NotFound");
    assert_eq!(refused("syntax = \"proto3\"; message A { int32 b = 1 }"), "source a.proto byte 43 cause Unexpected");
    assert_eq!(Pool::link(&[0x0a]).err().unwrap().to_string(), "byte 1 path 1[0] cause Truncated");
    // A file with an extension (7) and the syntax proto2 (12).
    let set = [&[10, 25][..], b"\x0a\x01f", b"\x3a\x0c\x0a\x01x\x12\x01T\x18\x64\x20\x01\x28\x05", b"\x62\x06proto2"].concat();
    assert_eq!(Pool::link(&set).err().unwrap().to_string(), "set file 0 cause Extension");
    assert_eq!(Pool::link_lenient(&set).unwrap().left_out(), 1);
}

#[test]
fn reads_on_after_a_bad_frame() {
    let (order, message) = (order(), example("shop_order.bin"));
    let stream = [framed(&message), vec![3, 0x1a, 9, 9], framed(&[]), framed(&message)[..40].to_vec()].concat();
    let mut found = vec![];
    for frame in order.frames(&stream[..]) {
        match frame {
            Ok(frame) => found.push(format!("{} {}", frame.at, frame.size)),
            Err(StreamError::Refused { at, error: Error::Fault { byte, cause, .. }, .. }) => found.push(format!("{at}+{byte} {cause}")),
            Err(error) => panic!("{error}"),
        }
    }
    assert_eq!(found, ["0 119", "119+2 PastEnd", "123 1", "124+40 Truncated"]);
}

#[test]
fn reads_long_frames_by_pieces() {
    struct Slow<'a>(&'a [u8]);
    impl std::io::Read for Slow<'_> {
        fn read(&mut self, out: &mut [u8]) -> std::io::Result<usize> {
            let count = self.0.len().min(out.len()).min(1000);
            out[..count].copy_from_slice(&self.0[..count]);
            self.0 = &self.0[count..];
            Ok(count)
        }
    }
    // Two messages of an unknown record of 200,000 bytes, and between them one with the same length that is no message.
    let long = [&[0xfa, 0x06, 0xc0, 0x9a, 0x0c][..], &vec![7; 200_000]].concat();
    let length = [0xc5, 0x9a, 0x0c];
    let stream = [&length[..], &long, &length, &[0x0f], &long[1..], &length, &long].concat();
    let order = order();
    let found: Vec<_> =
        order.frames(Slow(&stream)).map(|it| it.map(|frame| frame.data == long).map_err(|error| error.to_string())).collect();
    assert_eq!(found, [Ok(true), Err("frame 1 byte 3 path - cause BadType".to_owned()), Ok(true)]);
}

#[test]
fn goes_to_threads() {
    let (order, bytes) = (order(), example("shop_order.bin"));
    let threads: Vec<_> = (0..4)
        .map(|_| {
            let (order, bytes) = (order.clone(), bytes.clone());
            thread::spawn(move || (0..100).all(|_| order.check(&bytes).is_ok() && order.decode(&bytes).is_ok()))
        })
        .collect();
    drop(order);
    assert!(threads.into_iter().all(|it| it.join().unwrap()));
}

#[test]
fn messages_and_decoders_change_threads() {
    let (order, bytes) = (order(), example("shop_order.bin"));
    let wanted = order.decode(&bytes).unwrap().encode().unwrap();
    for at in [0, 60, bytes.len()] {
        // Each of the two is made on one thread, used on a second one, and freed on a third.
        let (mut message, mut decoder) = (order.decode(&bytes).unwrap(), order.decoder().unwrap());
        let piece = bytes[..at].to_vec();
        decoder.feed(&piece).unwrap();
        let rest = bytes[at..].to_vec();
        let second = thread::spawn(move || {
            message.set("number", 7).unwrap();
            message.insert("discounts", "new", 1).unwrap();
            decoder.feed(&rest).unwrap();
            (message, decoder.finish().unwrap())
        });
        let (message, decoded) = second.join().unwrap();
        let third = thread::spawn(move || {
            assert_eq!((message.get("number").unwrap(), message.field("discounts").unwrap().len().unwrap()), (Some(Value::Uint64(7)), 3));
            decoded.encode().unwrap()
        });
        assert_eq!(third.join().unwrap(), wanted);
    }
}
