//! Decodes the message in a file in pieces, and prints its canonical bytes in hexadecimal digits: pieces SIZE SET TYPE FILE. It refuses the bytes at the
//! first piece after which no further bytes can repair their fault.
use mabristu::{Decoder, Error, Pool};
use std::{env, error, fs, io::Read, process::ExitCode};

/// Gives the decoder a file, piece by piece.
fn receive(decoder: &mut Decoder, mut file: fs::File, size: usize) -> Result<(), Box<dyn error::Error>> {
    let mut piece = vec![0; size];
    loop {
        match file.read(&mut piece)? {
            0 => return Ok(()),
            count => decoder.feed(&piece[..count])?,
        }
    }
}

fn main() -> Result<ExitCode, Box<dyn error::Error>> {
    let words: Vec<String> = env::args().skip(1).collect();
    let [size, set, name, file] = &words[..] else { return Err("pieces SIZE SET TYPE FILE".into()) };
    let mut decoder = Pool::link(&fs::read(set)?)?.message_type(name)?.decoder()?;
    let received = receive(&mut decoder, fs::File::open(file)?, size.parse()?);
    let message = received.and_then(|()| Ok(decoder.finish()?));
    match message {
        Ok(message) => println!("{}", message.encode()?.iter().map(|byte| format!("{byte:02x}")).collect::<String>()),
        Err(refused) if refused.is::<Error>() => {
            eprintln!("{refused}");
            return Ok(ExitCode::FAILURE);
        }
        Err(failure) => return Err(failure),
    }
    Ok(ExitCode::SUCCESS)
}
