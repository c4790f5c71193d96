//! Copies the good frames of a stream of messages, and reports the bad ones: skip_bad SET TYPE STREAM OUT
use mabristu::{Pool, StreamError};
use std::io::{BufWriter, Write};
use std::{env, fs};

/// The length of a message, seven bits a byte, lowest first.
fn length(mut left: usize) -> Vec<u8> {
    let mut bytes = vec![];
    while left > 127 {
        bytes.push(left as u8 | 128);
        left >>= 7;
    }
    bytes.push(left as u8);
    bytes
}

fn main() -> Result<(), Box<dyn std::error::Error>> {
    let words: Vec<String> = env::args().skip(1).collect();
    let [set, name, stream, out] = &words[..] else { return Err("skip_bad SET TYPE STREAM OUT".into()) };
    let found = Pool::link(&fs::read(set)?)?.message_type(name)?;
    let mut out = BufWriter::new(fs::File::create(out)?);
    let (mut kept, mut skipped) = (0, 0);
    for frame in found.frames(fs::File::open(stream)?) {
        match frame {
            Ok(frame) => {
                out.write_all(&length(frame.data.len()))?;
                out.write_all(&frame.data)?;
                kept += 1;
            }
            Err(refused @ StreamError::Refused { .. }) => {
                println!("{refused}");
                skipped += 1;
            }
            Err(error) => return Err(error.into()),
        }
    }
    out.flush()?;
    println!("{kept} kept, {skipped} skipped");
    Ok(())
}
