//! Messages that arrive in pieces.
use crate::report::{judged, Report};
use crate::structs::DecoderHandle;
use crate::{calls, Error, Limits, Message, MessageType};
use std::cell::UnsafeCell;
use std::io::{self, Write};
use std::{fmt, ptr};

/// Decodes a message from pieces of its bytes, as they arrive. It keeps no piece.
///
/// ```
/// use mabristu::Pool;
///
/// # fn main() -> Result<(), mabristu::Error> {
/// let pool = Pool::of_sources([("note.proto", "syntax = \"proto3\"; message Note { string text = 1; }")])?;
/// let mut decoder = pool.message_type("Note")?.decoder()?;
/// decoder.feed(b"\x0a\x05he")?;
/// assert_eq!(decoder.pending(), 2);
/// decoder.feed(b"llo")?;
/// assert_eq!(decoder.finish()?.to_string(), "text: \"hello\"\n");
/// # Ok(())
/// # }
/// ```
///
/// It is also an `io::Write`, for [`io::copy`]. If a write refuses bytes, its `io::Error` has the [`Error`] inside.
///
/// A decoder may go to another thread. It is not `Sync`: one thread at a time uses it.
///
/// ```compile_fail
/// fn shared<T: Sync>() {}
/// shared::<mabristu::Decoder>();
/// ```
pub struct Decoder {
    handle: UnsafeCell<DecoderHandle>,
    message_type: MessageType,
}

// SAFETY: a decoder owns what its handle holds, but for the types, which are counted and never changed. By UnsafeCell it is not Sync.
unsafe impl Send for Decoder {}

// SAFETY, of each call: as in pool.rs.
impl Decoder {
    pub(crate) fn new(message_type: &MessageType) -> Result<Decoder, Error> {
        let handle = UnsafeCell::new(DecoderHandle { at: ptr::null_mut(), full: false });
        let (decoder, Limits { max_bytes, max_depth }) = (Decoder { handle, message_type: message_type.clone() }, message_type.limits);
        Report::new().judge(unsafe {
            calls::mb_decoder_new(message_type.pool.handle(), message_type.number, max_bytes, max_depth, decoder.handle.get())
        })?;
        Ok(decoder)
    }

    /// The type of the message.
    pub fn message_type(&self) -> &MessageType {
        &self.message_type
    }

    /// Gives the decoder the next piece. It is refused if the bytes received have a fault that no further bytes can repair. The byte of the fault counts
    /// from the first piece on. After an error each further call returns [`Error::Finished`].
    pub fn feed(&mut self, piece: &[u8]) -> Result<(), Error> {
        judged(|fault, path, steps| unsafe { calls::mb_decoder_feed(self.handle.get(), piece.as_ptr(), piece.len(), fault, path, steps) })
    }

    /// The message of all bytes received, as [`MessageType::decode`] decodes them.
    pub fn finish(self) -> Result<Message, Error> {
        let message = Message::none(&self.message_type);
        judged(|fault, path, steps| unsafe { calls::mb_decoder_finish(self.handle.get(), message.handle(), fault, path, steps) })?;
        Ok(message)
    }

    /// How many bytes the decoder keeps as they came: the beginning of a tag, a length, a number, a string, bytes or an unknown record. 0 after an error.
    pub fn pending(&self) -> usize {
        let mut pending = 0;
        // It has no other answer of a decoder that was made.
        let _done = unsafe { calls::mb_decoder_pending(self.handle.get(), &mut pending) };
        pending
    }
}

impl Write for Decoder {
    fn write(&mut self, piece: &[u8]) -> io::Result<usize> {
        match self.feed(piece) {
            Ok(()) => Ok(piece.len()),
            Err(Error::Memory) => Err(io::Error::new(io::ErrorKind::OutOfMemory, Error::Memory)),
            Err(refused) => Err(io::Error::new(io::ErrorKind::InvalidData, refused)),
        }
    }

    fn flush(&mut self) -> io::Result<()> {
        Ok(())
    }
}

impl fmt::Debug for Decoder {
    fn fmt(&self, f: &mut fmt::Formatter<'_>) -> fmt::Result {
        f.debug_struct("Decoder").field("pending", &self.pending()).finish_non_exhaustive()
    }
}

impl Drop for Decoder {
    fn drop(&mut self) {
        unsafe { calls::mb_decoder_free(self.handle.get()) }
    }
}
