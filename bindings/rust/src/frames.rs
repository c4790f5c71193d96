//! Streams of messages, each after its length.
use crate::calls;
use crate::structs::Frame as FrameReport;
use crate::{Cause, Error, MessageType, StreamError};
use std::io::Read;

const BLOCK: usize = 65536;

/// A message in a stream.
#[derive(Clone, Debug, PartialEq, Eq)]
pub struct Frame {
    /// Where its frame begins in the stream.
    pub at: u64,
    /// How many bytes the frame has, with its length.
    pub size: usize,
    /// The bytes of the message.
    pub data: Vec<u8>,
}

/// The frames of a stream. After a refused frame it goes on with the next frame if the end of the refused frame is known, and else it ends.
pub struct Frames<'a, R> {
    message_type: &'a MessageType,
    stream: Option<R>,
    held: Vec<u8>,
    at: usize,
    before: u64,
    index: usize,
}

impl<'a, R: Read> Frames<'a, R> {
    pub(crate) fn new(message_type: &'a MessageType, stream: R) -> Frames<'a, R> {
        Frames { message_type, stream: Some(stream), held: vec![], at: 0, before: 0, index: 0 }
    }

    /// Drops the bytes of past frames, and reads on, at least as many bytes as are held. Returns whether there was more.
    fn more(&mut self, wanted: usize) -> std::io::Result<bool> {
        self.held.drain(..self.at);
        self.before += self.at as u64;
        self.at = 0;
        let Some(stream) = &mut self.stream else { return Ok(false) };
        let count = stream.by_ref().take(wanted as u64).read_to_end(&mut self.held)?;
        Ok(count > 0)
    }

    fn placed(&mut self, error: Error) -> StreamError {
        let placed = StreamError::Refused { index: self.index, at: self.before + self.at as u64, error };
        self.index += 1;
        placed
    }

    fn end(&mut self) {
        self.at = self.held.len();
        self.stream = None;
    }

    /// Skips a refused frame of `size` bytes. A size of 0 means that it is not known, and ends the stream.
    fn skip(&mut self, size: usize) -> std::io::Result<()> {
        if size == 0 {
            self.end();
            return Ok(());
        }
        let mut left = size;
        while left > self.held.len() - self.at {
            left -= self.held.len() - self.at;
            self.at = self.held.len();
            if !self.more(left.min(1 << 20))? {
                left = 0;
            }
        }
        self.at += left;
        Ok(())
    }

    /// The fault of the frame in which the stream ends. The bytes of its message have a fault, or they are whole records, and end too early.
    fn cut(&self, frame: FrameReport) -> Error {
        let bytes = &self.held[self.at..];
        let begin = if frame.end == 0 { bytes.len() } else { frame.begin };
        match self.message_type.check(&bytes[begin..]) {
            Err(Error::Fault { byte, path, cause }) => Error::Fault { byte: byte + begin as u64, path, cause },
            Err(error) => error,
            Ok(()) => Error::Fault { byte: bytes.len() as u64, path: vec![], cause: Cause(calls::TRUNCATED) },
        }
    }

    fn read(&mut self) -> Result<Option<Frame>, StreamError> {
        loop {
            let (held, mut found) = (&self.held[self.at..], FrameReport::default());
            match self.message_type.frame(held, &mut found) {
                Ok(true) => {
                    let frame = Frame { at: self.before + self.at as u64, size: found.end, data: held[found.begin..found.end].to_vec() };
                    self.at += found.end;
                    self.index += 1;
                    return Ok(Some(frame));
                }
                Ok(false) => {
                    let wanted = BLOCK.max(held.len());
                    if self.more(wanted)? {
                        continue;
                    }
                    if self.held.is_empty() {
                        return Ok(None);
                    }
                    let refused = self.cut(found);
                    let placed = self.placed(refused);
                    self.end();
                    return Err(placed);
                }
                Err(Error::Memory) => {
                    return Err(StreamError::Refused { index: self.index, at: self.before + self.at as u64, error: Error::Memory })
                }
                Err(refused) => {
                    let placed = self.placed(refused);
                    self.skip(found.end)?;
                    return Err(placed);
                }
            }
        }
    }
}

impl<R: Read> Iterator for Frames<'_, R> {
    type Item = Result<Frame, StreamError>;

    fn next(&mut self) -> Option<Self::Item> {
        self.read().transpose()
    }
}
