//! The floor that the types of pb_value set: how fast a plain decoder in Rust reads into values that are laid out as they are, with the same
//! nodes of maps: floor TABLE TYPE decode|held ROUNDS FILE..
//!
//! It proves nothing and reports no fault. The words and what is printed are those of bench/texts/main.rt.txt.
// What is read is dropped and never looked at.
#[allow(dead_code)]
mod decode;
#[allow(dead_code)]
mod tree;
mod types;

use decode::Decoder;
use types::Types;

#[repr(C)]
struct Time {
    seconds: i64,
    nanoseconds: i64,
}

extern "C" {
    fn clock_gettime(clock: i32, time: *mut Time) -> i32;
}

const PROCESSOR_TIME: i32 = 2;

/// Nanoseconds of processor time of the process.
fn now() -> i64 {
    let mut time = Time { seconds: 0, nanoseconds: 0 };
    unsafe { clock_gettime(PROCESSOR_TIME, &mut time) };
    time.seconds * 1_000_000_000 + time.nanoseconds
}

fn inputs_of(mut file: &[u8]) -> Vec<&[u8]> {
    let mut inputs = vec![];
    while let Some((size, rest)) = file.split_first_chunk::<4>() {
        let (input, rest) = rest.split_at(u32::from_le_bytes(*size) as usize);
        inputs.push(input);
        file = rest;
    }
    inputs
}

fn main() {
    let words: Vec<String> = std::env::args().collect();
    let types = Types::of_table(&std::fs::read_to_string(&words[1]).unwrap());
    let name = words[2].rsplit('.').next().unwrap();
    let of_type = types.messages.iter().position(|it| it.name == name).expect("no such type");
    let decoder = Decoder { types: &types };
    for path in &words[5..] {
        let file = std::fs::read(path).unwrap();
        let inputs = inputs_of(&file);
        for _ in 0..words[4].parse().unwrap() {
            match words[3].as_str() {
                "held" => measure_held(&decoder, of_type, path, &inputs),
                _ => time_decode(&decoder, of_type, path, &inputs),
            }
        }
    }
}

fn time_decode(decoder: &Decoder, of_type: usize, path: &str, inputs: &[&[u8]]) {
    let (start, mut read) = (now(), 0);
    for input in inputs {
        if decoder.decode(of_type, input).is_some() {
            read += input.len();
        }
    }
    println!("{path} decode {read} {}", now() - start);
}

fn measure_held(decoder: &Decoder, of_type: usize, path: &str, inputs: &[&[u8]]) {
    let (mut read, mut held) = (0, 0);
    for input in inputs {
        let start = now();
        let message = decoder.decode(of_type, input);
        held += now() - start;
        if message.is_some() {
            read += input.len();
        }
    }
    println!("{path} held {read} {held}");
}
