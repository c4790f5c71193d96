//! Finds the first corrupt byte of a stream of messages, each after its length: corrupt_byte SET TYPE STREAM
use mabristu::{Error, Pool, StreamError};
use std::{env, fs, process::ExitCode};

fn main() -> Result<ExitCode, Box<dyn std::error::Error>> {
    let words: Vec<String> = env::args().skip(1).collect();
    let [set, name, stream] = &words[..] else { return Err("corrupt_byte SET TYPE STREAM".into()) };
    let found = Pool::link(&fs::read(set)?)?.message_type(name)?;
    let mut count = 0;
    for frame in found.frames(fs::File::open(stream)?) {
        match frame {
            Ok(_) => count += 1,
            Err(StreamError::Refused { index, at, error: Error::Fault { byte, path, cause } }) => {
                let steps: Vec<_> = path.iter().map(|step| format!("{}[{}]", step.number, step.before)).collect();
                let path = if steps.is_empty() { "-".to_owned() } else { steps.join(".") };
                println!("byte {} of the stream, in frame {index}, path {path}, cause {cause}", at + byte);
                return Ok(ExitCode::FAILURE);
            }
            Err(error) => return Err(error.into()),
        }
    }
    println!("{count} frames without a fault");
    Ok(ExitCode::SUCCESS)
}
