//! Files in, lines out, and the line of a failure.
use mabristu::Error;
use std::io::Write;

/// A line for standard error, and the status to exit with.
pub type Failure = (String, u8);

pub fn read(name: &str) -> Result<Vec<u8>, Failure> {
    std::fs::read(name).map_err(|_| (format!("device {name}"), 3))
}

pub fn print(bytes: &[u8]) -> Result<(), Failure> {
    std::io::stdout().write_all(bytes).map_err(|_| ("device -".to_owned(), 3))
}

pub fn failure(error: Error, before: &str) -> Failure {
    match error {
        Error::Fault { .. } => (format!("{before}{error}"), 1),
        Error::Memory => (error.to_string(), 3),
        _ => (error.to_string(), 1),
    }
}

pub fn refused(error: Error) -> Failure {
    failure(error, "")
}

pub fn hexadecimal(bytes: &[u8]) -> Vec<u8> {
    (bytes.iter().map(|byte| format!("{byte:02x}")).collect::<String>() + "\n").into_bytes()
}
