//! From the answer of a call to a result.
use crate::calls::{self, MAX_STEPS};
use crate::structs::{Fault, Refusal, Step};
use crate::{Cause, Error};

/// Buffers for a fault and its whole path.
pub struct Report {
    pub fault: Fault,
    pub path: [Step; MAX_STEPS],
}

impl Report {
    pub fn new() -> Report {
        Report { fault: Fault::default(), path: [Step::default(); MAX_STEPS] }
    }

    /// The result of an answer.
    pub fn judge(&self, answer: u32) -> Result<(), Error> {
        Err(match answer {
            calls::DONE => return Ok(()),
            calls::FAULT => {
                let Fault { byte, steps, cause } = self.fault;
                Error::Fault { byte, path: self.path[..steps.min(MAX_STEPS)].to_vec(), cause: Cause(cause) }
            }
            calls::BAD_LIMITS => Error::BadLimits,
            calls::NO_TYPE => Error::NoType,
            calls::ABSENT => Error::NoField,
            calls::BAD_VALUE => Error::BadValue,
            21..=30 => Error::Change { place: String::new(), cause: Cause(answer) },
            calls::TOO_LARGE => Error::TooLarge,
            calls::FINISHED => Error::Finished,
            calls::MEMORY => Error::Memory,
            _ => Error::Answer(answer),
        })
    }

    /// The result of the answer of a call that links types.
    pub fn judge_link(&self, answer: u32, refusal: &Refusal, text: &[u8], names: &[&str]) -> Result<(), Error> {
        let &Refusal { file, byte, file_len, name_len } = refusal;
        let name = |from: usize, len: usize| String::from_utf8_lossy(&text[from..from + len]).into_owned();
        let cause = Cause(answer);
        match answer {
            71.. => Err(Error::Link { file: name(0, file_len), name: name(file_len, name_len), cause }),
            50 | 61.. => Err(Error::Source { file: names[file].to_owned(), byte, cause }),
            52.. => Err(Error::Set { file, cause }),
            _ => self.judge(answer),
        }
    }
}

/// Makes a call that reports a fault and nothing else.
pub fn judged(call: impl FnOnce(&mut Fault, *mut Step, usize) -> u32) -> Result<(), Error> {
    let mut report = Report::new();
    let answer = call(&mut report.fault, report.path.as_mut_ptr(), MAX_STEPS);
    report.judge(answer)
}

/// The output of a call, in a buffer of the expected length. If the output is longer, the call reports its length, and is made again.
pub fn written(
    expected: usize,
    mut call: impl FnMut(*mut u8, usize, &mut usize, &mut Fault, *mut Step, usize) -> u32,
) -> Result<Vec<u8>, Error> {
    let (mut out, mut size) = (vec![0; expected.clamp(256, 1 << 24)], 0);
    loop {
        judged(|fault, path, steps| call(out.as_mut_ptr(), out.len(), &mut size, fault, path, steps))?;
        let is_whole = size <= out.len();
        out.resize(size, 0);
        if is_whole {
            return Ok(out);
        }
    }
}

/// The same for a call that reports no fault.
pub fn written_alone(mut call: impl FnMut(*mut u8, usize, &mut usize) -> u32) -> Result<Vec<u8>, Error> {
    written(4096, |out, capacity, size, _, _, _| call(out, capacity, size))
}

/// Makes a call that links types. If the names that it reports are longer than their buffer, the call is made again.
pub fn linked(names: &[&str], call: impl Fn(&mut Fault, *mut Step, usize, &mut Refusal, *mut u8, usize) -> u32) -> Result<(), Error> {
    let (mut text, mut refusal, mut report) = (vec![0; 256], Refusal::default(), Report::new());
    loop {
        let answer = call(&mut report.fault, report.path.as_mut_ptr(), MAX_STEPS, &mut refusal, text.as_mut_ptr(), text.len());
        if refusal.file_len + refusal.name_len <= text.len() {
            return report.judge_link(answer, &refusal, &text, names);
        }
        text.resize(refusal.file_len + refusal.name_len, 0);
    }
}
