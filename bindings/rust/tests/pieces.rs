//! Messages that arrive in pieces, and the canonical bytes of JSON.
use mabristu::{Error, Limits, Message, MessageType, Pool};
use std::{fs, io};

fn example(name: &str) -> Vec<u8> {
    fs::read(format!("{}/../../examples/{name}", env!("CARGO_MANIFEST_DIR"))).unwrap()
}

fn order() -> MessageType {
    Pool::link(&example("shop.set")).unwrap().message_type("shop.Order").unwrap()
}

fn in_pieces(order: &MessageType, bytes: &[u8], size: usize) -> Result<Message, Error> {
    let mut decoder = order.decoder()?;
    for piece in bytes.chunks(size) {
        decoder.feed(piece)?;
    }
    decoder.finish()
}

#[test]
fn decodes_pieces() -> Result<(), Error> {
    let (order, bytes) = (order(), example("shop_order.bin"));
    for size in [1, 2, 3, 7, bytes.len()] {
        let message = in_pieces(&order, &bytes, size)?;
        assert_eq!(message.listing()?.as_bytes(), example("shop_order.show.txt"));
        assert_eq!(message.encode()?, order.canonical(&bytes)?);
    }
    assert_eq!(order.decoder()?.finish()?, order.empty()?);
    // Empty pieces say nothing.
    let mut decoder = order.decoder()?;
    for piece in [&b""[..], &bytes, b""] {
        decoder.feed(piece)?;
    }
    assert_eq!(decoder.finish()?, order.decode(&bytes)?);
    Ok(())
}

#[test]
fn answers_as_for_the_whole() {
    let (order, bytes) = (order(), example("shop_order.bin"));
    let changed = |at: usize| [&bytes[..at], &[0xff], &bytes[at + 1..]].concat();
    for hostile in (0..bytes.len()).flat_map(|at| [bytes[..at].to_vec(), changed(at)]) {
        for size in [1, 2, 3, 7, bytes.len()] {
            assert_eq!(in_pieces(&order, &hostile, size), order.decode(&hostile), "{hostile:?} in pieces of {size}");
        }
    }
}

#[test]
fn refuses_in_the_piece_that_settles_it() -> Result<(), Error> {
    // By hand: the string at byte 7 has 3 bytes by its length, and its message ends after 2 of them.
    let source = "syntax = \"proto3\"; message M { int32 a = 1; string b = 2; M c = 3; }";
    let found = Pool::of_sources([("m.proto", source)])?.message_type("M")?;
    let bytes = b"\x08\x01\x1a\x06\x08\x02\x12\x03ab\x08\x03";
    let mut decoder = found.decoder()?;
    for byte in &bytes[..7] {
        decoder.feed(&[*byte])?;
    }
    assert_eq!(decoder.feed(&bytes[7..8]).unwrap_err().to_string(), "byte 7 path 3[0].2[0] cause PastEnd");
    assert_eq!((decoder.feed(b"").unwrap_err(), decoder.pending()), (Error::Finished, 0));
    assert_eq!(decoder.finish().unwrap_err(), Error::Finished);
    assert_eq!(Error::Finished.to_string(), "the decoder is finished");
    Ok(())
}

#[test]
fn holds_what_is_not_complete() -> Result<(), Error> {
    // By hand: a number of two bytes, a string of 4, and an unknown record of 3.
    let bytes = b"\x08\xe7\x24\x12\x04abcd\xa2\x06\x03xyz";
    let held = [0, 1, 0, 0, 0, 1, 2, 3, 0, 1, 0, 0, 1, 2, 0];
    let mut decoder = order().decoder()?;
    assert_eq!(decoder.pending(), 0);
    for (byte, held) in bytes.iter().zip(held) {
        decoder.feed(&[*byte])?;
        assert_eq!(decoder.pending(), held);
    }
    assert_eq!(decoder.finish()?.encode()?, bytes);
    Ok(())
}

#[test]
fn keeps_limits() -> Result<(), Error> {
    let bytes = example("shop_order.bin");
    for limits in [Limits { max_bytes: 100, max_depth: 100 }, Limits { max_bytes: 1000, max_depth: 0 }] {
        let order = order().with_limits(limits);
        assert!(order.decode(&bytes).is_err());
        for size in [1, 2, 3, 7, bytes.len()] {
            assert_eq!(in_pieces(&order, &bytes, size), order.decode(&bytes));
        }
    }
    let bad = order().with_limits(Limits { max_bytes: 1, max_depth: 101 });
    assert_eq!(bad.decoder().unwrap_err(), Error::BadLimits);
    Ok(())
}

#[test]
fn takes_what_is_written() -> io::Result<()> {
    let (order, bytes) = (order(), example("shop_order.bin"));
    let mut decoder = order.decoder().unwrap();
    assert_eq!(io::copy(&mut &bytes[..], &mut decoder)?, bytes.len() as u64);
    assert_eq!(decoder.finish().unwrap(), order.decode(&bytes).unwrap());
    // By hand: field 0 is none.
    let mut decoder = order.decoder().unwrap();
    let failure = io::copy(&mut &b"\x00\x01"[..], &mut decoder).unwrap_err();
    assert_eq!((failure.kind(), failure.to_string().as_str()), (io::ErrorKind::InvalidData, "byte 0 path - cause NumberZero"));
    let refused = failure.get_ref().and_then(|error| error.downcast_ref::<Error>()).unwrap();
    assert_eq!(refused.cause().map(|cause| cause.number()), Some(5));
    Ok(())
}

#[test]
fn writes_the_bytes_of_json() -> Result<(), Error> {
    // The JSON is what protobuf's json_format prints of the order.
    let order = order();
    assert_eq!(order.canonical_from_json(example("shop_order.json"))?, order.canonical(&example("shop_order.bin"))?);
    assert_eq!(order.canonical_from_json("{}")?, b"");
    let error = order.canonical_from_json(r#"{"number":1,"nothing":2}"#).unwrap_err();
    assert_eq!(error.to_string(), "json byte 12 cause UnknownName");
    assert_eq!(order.canonical_from_json_lenient(r#"{"number":"1","nothing":2}"#)?, [0x08, 0x01]);
    assert_eq!(order.canonical_from_json("{").unwrap_err().cause().map(|cause| cause.number()), Some(102));
    // Longer than its JSON: 1,000 doubles of 8 bytes.
    let list = Pool::of_sources([("l.proto", "syntax = \"proto3\"; message L { repeated double d = 1; }")])?.message_type("L")?;
    let written = list.canonical_from_json(format!("{{\"d\":[{}]}}", ["0"; 1000].join(",")))?;
    assert_eq!(written, [&b"\x0a\xc0\x3e"[..], &[0; 8000]].concat());
    Ok(())
}
