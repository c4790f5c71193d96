//! Messages that the library holds.
use crate::message_type::text;
use crate::report::{judged, written_alone, Report};
use crate::structs::MessageHandle;
use crate::{calls, Cause, Error, Limits, MessageType, TextForm};
use std::cell::UnsafeCell;
use std::{fmt, ptr};

/// How JSON is written. By default, names are the `json_name` of the set, else in lowerCamelCase, and all is on one line.
#[derive(Clone, Copy, Debug, Default, PartialEq, Eq)]
pub struct JsonForm {
    /// Field names as declared.
    pub declared_names: bool,
    /// A line for each member and element.
    pub indented: bool,
}

/// A message, and its type. It prints as its listing, with floats in decimal.
///
/// A message may go to another thread. It is not `Sync`: one thread at a time uses it.
///
/// ```compile_fail
/// fn shared<T: Sync>() {}
/// shared::<mabristu::Message>();
/// ```
pub struct Message {
    handle: UnsafeCell<MessageHandle>,
    message_type: MessageType,
}

// SAFETY: a message owns what its handle holds, but for the types, which are counted and never changed. By UnsafeCell it is not Sync.
unsafe impl Send for Message {}

// SAFETY, of each call: as in pool.rs.
impl Message {
    pub(crate) fn none(message_type: &MessageType) -> Message {
        Message { handle: UnsafeCell::new(MessageHandle { at: ptr::null_mut(), full: false }), message_type: message_type.clone() }
    }

    pub(crate) fn handle(&self) -> *mut MessageHandle {
        self.handle.get()
    }

    /// The type of the message.
    pub fn message_type(&self) -> &MessageType {
        &self.message_type
    }

    /// The canonical bytes.
    pub fn encode(&self) -> Result<Vec<u8>, Error> {
        written_alone(|out, capacity, size| unsafe { calls::mb_message_encode(self.handle(), out, capacity, size) })
    }

    /// The message as a frame of a stream: the number of canonical bytes as a varint, and then these bytes. [`MessageType::frames`] reads such a stream.
    pub fn frame(&self) -> Result<Vec<u8>, Error> {
        written_alone(|out, capacity, size| unsafe { calls::mb_message_frame(self.handle(), out, capacity, size) })
    }

    /// How many canonical bytes there are.
    pub fn encoded_length(&self) -> Result<usize, Error> {
        let mut size = 0;
        Report::new().judge(unsafe { calls::mb_message_encoded_length(self.handle(), &mut size) })?;
        Ok(size)
    }

    /// The listing, as `pbtool show` prints it.
    pub fn listing(&self) -> Result<String, Error> {
        Ok(text(written_alone(|out, capacity, size| unsafe { calls::mb_message_show(self.handle(), out, capacity, size) })?))
    }

    /// The listing with floats in decimal: the fewest digits that read back as the same bits, or `nan`, `inf` or `-inf`.
    pub fn listing_decimal(&self) -> Result<String, Error> {
        Ok(text(written_alone(|out, capacity, size| unsafe { calls::mb_message_show_decimal(self.handle(), out, capacity, size) })?))
    }

    /// The message in the text format of protobuf's own tools.
    pub fn text(&self, form: TextForm) -> Result<String, Error> {
        let mut written =
            text(written_alone(|out, capacity, size| unsafe { calls::mb_message_text(self.handle(), &form, out, capacity, size) })?);
        // On one line each field has a blank after it, the last one too.
        if form.single_line {
            written.pop();
        }
        Ok(written)
    }

    /// Decodes bytes onto the message, within the limits of its type, as if the bytes came after its own canonical bytes. If the bytes are refused, the
    /// message stays as it was.
    pub fn merge(&mut self, bytes: &[u8]) -> Result<(), Error> {
        let Limits { max_bytes, max_depth } = self.message_type.limits;
        judged(|fault, path, steps| unsafe {
            calls::mb_message_merge(self.handle(), bytes.as_ptr(), bytes.len(), max_bytes, max_depth, fault, path, steps)
        })
    }

    /// A copy, or an error if memory runs out or the message has more than 2^31 - 1 canonical bytes.
    pub fn try_clone(&self) -> Result<Message, Error> {
        let other = Message::none(&self.message_type);
        Report::new().judge(unsafe { calls::mb_message_copy(self.handle(), other.handle()) })?;
        Ok(other)
    }

    /// Whether both messages have the same type, of equal pools, and the same contents; or the error of [`Message::try_clone`]. Floats are compared by
    /// their bits.
    pub fn try_eq(&self, other: &Message) -> Result<bool, Error> {
        if ptr::eq(self, other) {
            return Ok(true);
        }
        let mut equal = 0;
        Report::new().judge(unsafe { calls::mb_message_equal(self.handle(), other.handle(), &mut equal) })?;
        Ok(equal == 1)
    }

    /// The message as JSON (ProtoJSON). Refused where a part has no JSON form, as a Timestamp out of its range.
    pub fn to_json(&self, form: JsonForm) -> Result<String, Error> {
        let (mut out, mut size, mut path, mut steps) = (vec![0; 4096], 0, [0; calls::MAX_STEPS], 0);
        loop {
            let answer = unsafe {
                let (at, capacity, path_at) = (out.as_mut_ptr(), out.len(), path.as_mut_ptr());
                calls::mb_message_json(
                    self.message_type.pool.handle(),
                    self.handle(),
                    form.declared_names,
                    form.indented,
                    at,
                    capacity,
                    &mut size,
                    path_at,
                    path.len(),
                    &mut steps,
                )
            };
            if let 91..=95 = answer {
                return Err(Error::Json { path: path[..steps.min(path.len())].to_vec(), cause: Cause(answer) });
            }
            Report::new().judge(answer)?;
            let is_whole = size <= out.len();
            out.resize(size, 0);
            if is_whole {
                return Ok(text(out));
            }
        }
    }
}

impl Clone for Message {
    /// Panics where [`Message::try_clone`] has an error.
    fn clone(&self) -> Message {
        self.try_clone().expect("there is memory for a copy")
    }
}

impl PartialEq for Message {
    /// Panics where [`Message::try_eq`] has an error.
    fn eq(&self, other: &Message) -> bool {
        self.try_eq(other).expect("there is memory for a comparison")
    }
}

impl Eq for Message {}

impl fmt::Display for Message {
    fn fmt(&self, f: &mut fmt::Formatter<'_>) -> fmt::Result {
        f.write_str(&self.listing_decimal().map_err(|_| fmt::Error)?)
    }
}

impl fmt::Debug for Message {
    fn fmt(&self, f: &mut fmt::Formatter<'_>) -> fmt::Result {
        fmt::Display::fmt(self, f)
    }
}

impl Drop for Message {
    fn drop(&mut self) {
        unsafe { calls::mb_message_free(self.handle()) }
    }
}
