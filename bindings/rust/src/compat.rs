//! Whether messages of an old type can be read as a new type.
use crate::report::Report;
use crate::structs::Difference as Reported;
use crate::{calls, Error, Message, MessageType};
use std::fmt;

/// What a difference does to messages of the old type that are read as the new type (docs/COMPAT.md).
#[derive(Clone, Copy, Debug, PartialEq, Eq, PartialOrd, Ord)]
pub enum Severity {
    /// Some message is refused, or its value is read as another value.
    Breaks,
    /// The new type has no such field: the field's records become unknown records, which are kept.
    Loses,
    /// The value is kept, but not always whether it was set.
    Presence,
    /// The value is kept, in another kind or shape.
    Converts,
    /// The field has another name.
    Renames,
}

impl Severity {
    /// The word for the severity, as `breaks`.
    pub fn name(self) -> &'static str {
        match self {
            Severity::Breaks => "breaks",
            Severity::Loses => "loses",
            Severity::Presence => "presence",
            Severity::Converts => "converts",
            Severity::Renames => "renames",
        }
    }
}

/// A difference at a field of an old type. It prints as `shop.Order 4 breaks`. If the two types have different names, it prints as
/// `shop.Item 1 breaks (shop.Item -> shop.Thing)`.
#[derive(Clone, Debug, PartialEq, Eq)]
pub struct Difference {
    /// The full name of the old type.
    pub old_type: String,
    /// The full name of the new type.
    pub new_type: String,
    pub number: u32,
    pub severity: Severity,
}

impl fmt::Display for Difference {
    fn fmt(&self, f: &mut fmt::Formatter<'_>) -> fmt::Result {
        write!(f, "{} {} {}", self.old_type, self.number, self.severity.name())?;
        if self.old_type != self.new_type {
            write!(f, " ({} -> {})", self.old_type, self.new_type)?;
        }
        Ok(())
    }
}

impl MessageType {
    /// The differences between this type and a new type, of another pool or of a clone of this pool. Then the differences of each pair of types to which
    /// fields of the same number lead. The differences of a pair come by rising field number.
    pub fn compat(&self, new: &MessageType) -> Result<Vec<Difference>, Error> {
        let (mut found, mut count, new_pool) = (vec![Reported::default(); 64], 0, new.pool.try_clone()?);
        loop {
            // SAFETY: as in pool.rs. The new pool has a handle of its own.
            Report::new().judge(unsafe {
                calls::mb_compat(
                    self.pool.handle(),
                    self.number,
                    new_pool.handle(),
                    new.number,
                    found.as_mut_ptr(),
                    found.len(),
                    &mut count,
                )
            })?;
            let is_whole = count <= found.len();
            found.resize(count, Reported::default());
            if is_whole {
                return found.into_iter().map(|it| self.difference(new, it)).collect();
            }
        }
    }

    /// A message of this type that shows the break of a difference of `compat(new)`. The new type refuses its canonical bytes, or reads them as a message
    /// that does not agree with it. None if the difference breaks nothing, or is more than 99 messages deep.
    pub fn witness(&self, new: &MessageType, difference: &Difference) -> Result<Option<Message>, Error> {
        let reported = Reported {
            old_type: self.pool.message_type(&difference.old_type)?.number as usize,
            new_type: new.pool.message_type(&difference.new_type)?.number as usize,
            number: difference.number,
            severity: 0,
        };
        let (message, new_pool) = (Message::none(self), new.pool.try_clone()?);
        // SAFETY: as in pool.rs. The new pool has a handle of its own.
        let answer = unsafe {
            calls::mb_compat_witness(self.pool.handle(), self.number, new_pool.handle(), new.number, &reported, message.handle())
        };
        if answer == calls::ABSENT {
            return Ok(None);
        }
        Report::new().judge(answer)?;
        Ok(Some(message))
    }

    fn difference(&self, new: &MessageType, reported: Reported) -> Result<Difference, Error> {
        let severity = match reported.severity {
            1 => Severity::Breaks,
            2 => Severity::Loses,
            3 => Severity::Presence,
            4 => Severity::Converts,
            _ => Severity::Renames,
        };
        Ok(Difference {
            old_type: self.pool.reported_type(reported.old_type as u32)?.0,
            new_type: new.pool.reported_type(reported.new_type as u32)?.0,
            number: reported.number,
            severity,
        })
    }
}
