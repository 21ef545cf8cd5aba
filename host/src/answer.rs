//! What follows an event that was taken: the messages and the alarms of an answer (docs/SCOPE.md, Answers). Rests on message,
//! list and error.

use std::fmt;

use crate::error::{BadAnswer, Fault};
use crate::list::listed;
use crate::message::Message;

listed! {
    /// What someone has to look at.
    ///
    /// ```
    /// # use jubafiye::Alarm;
    /// assert_eq!((Alarm::Overfill.number(), Alarm::from_number(2)), (2, Some(Alarm::Overfill)));
    /// assert_eq!(Alarm::StuckCancel.to_string(), "the gateway has given up cancelling an order");
    /// ```
    #[non_exhaustive]
    Alarm: number, from_number {
        StuckCancel = 1 "the gateway has given up cancelling an order",
        Overfill = 2 "a venue reported more than was ordered, and nothing was applied",
        UnknownOrder = 3 "a venue named an order or request that is not known",
        UnknownAtVenue = 4 "a venue does not know an order that is live here",
        FillOnDoneOrder = 5 "a venue reported a fill on an order that is done here, and nothing was applied",
        FilledShort = 6 "a venue called an order filled below its quantity, and it stays live",
    }
}

impl std::error::Error for Alarm {}

/// The head of an answer: its length in two bytes, the count of messages, and two alarms.
const HEAD: usize = 5;

/// What follows an event that was taken. Its messages are to be sent.
///
/// ```
/// # #[cfg(feature = "book")] {
/// use jubafiye::{Alarm, Answer, Book, Event};
///
/// let mut book = Book::new(10_000);
/// let Answer { messages, alarms, .. } = book.take(&Event::UnknownAtVenue { venue: 3, downstream: b"G1" })?;
/// assert_eq!((messages.len(), &alarms[..]), (0, &[Alarm::UnknownOrder][..]));
/// # }
/// # Ok::<(), jubafiye::Error>(())
/// ```
#[must_use = "its messages are to be sent, and its alarms looked at"]
#[derive(Debug, Clone, PartialEq, Eq, Default)]
#[non_exhaustive]
pub struct Answer {
    /// What goes out, in order: at most two messages.
    pub messages: Vec<Message>,
    /// What someone has to look at, in order: at most two.
    pub alarms: Vec<Alarm>,
}

impl Answer {
    /// The answer at the front of a buffer. Whatever the bytes, nothing panics; what is no answer comes back in the error.
    ///
    /// ```
    /// use jubafiye::{Alarm, Answer};
    ///
    /// let answer = Answer::read(&[5, 0, 0, 2, 0])?;
    /// assert_eq!((answer.messages, answer.alarms), (vec![], vec![Alarm::Overfill]));
    /// assert!(Answer::read(b"no answer").is_err());
    /// # Ok::<(), jubafiye::BadAnswer>(())
    /// ```
    pub fn read(bytes: &[u8]) -> Result<Self, BadAnswer> {
        Self::parse(bytes).map_err(|fault| BadAnswer::new(bytes, fault))
    }

    fn parse(bytes: &[u8]) -> Result<Self, Fault> {
        let [_, _, count, alarm, alarm2, ..] = *bytes else { return Err(Fault::Cut) };
        let mut rest = whole(bytes).and_then(|answer| answer.get(HEAD..)).ok_or(Fault::Cut)?;
        if count > 2 {
            return Err(Fault::Count(count));
        }
        let mut answer = Self::default();
        for _ in 0..count {
            let (message, behind) = Message::read(rest)?;
            answer.messages.push(message);
            rest = behind;
        }
        if !rest.is_empty() {
            return Err(Fault::Over);
        }
        for alarm in [alarm, alarm2].into_iter().filter(|&alarm| alarm != 0) {
            answer.alarms.push(Alarm::from_number(alarm).ok_or(Fault::Alarm(alarm))?);
        }
        Ok(answer)
    }
}

/// Lines for a person, one for each message and each alarm; of an answer without either one line that says so.
///
/// ```
/// assert_eq!(jubafiye::Answer::read(&[5, 0, 0, 0, 0])?.to_string(), "nothing goes out\n");
/// # Ok::<(), jubafiye::BadAnswer>(())
/// ```
impl fmt::Display for Answer {
    fn fmt(&self, f: &mut fmt::Formatter<'_>) -> fmt::Result {
        if self.messages.is_empty() && self.alarms.is_empty() {
            return writeln!(f, "nothing goes out");
        }
        self.messages.iter().try_for_each(|message| writeln!(f, "{message}"))?;
        self.alarms.iter().try_for_each(|alarm| writeln!(f, "alarm {}: {alarm}", alarm.number()))
    }
}

/// The bytes of the answer at the front of a buffer, if the buffer has as many as it says.
pub(crate) fn whole(buffer: &[u8]) -> Option<&[u8]> {
    let [low, high, ..] = *buffer else { return None };
    buffer.get(..usize::from(u16::from_le_bytes([low, high])))
}

#[cfg(test)]
mod tests {
    use super::*;

    #[test]
    fn an_answers_length_is_its_first_two_bytes() {
        assert_eq!(whole(&[]), None);
        assert_eq!(whole(&[1]), None);
        assert_eq!(whole(&[0, 0]), Some(&[][..]));
        assert_eq!(whole(&[3, 0, 7, 8]), Some(&[3, 0, 7][..]));
        assert_eq!(whole(&[5, 0, 7, 8]), None);
        assert_eq!(whole(&[255, 255, 7, 8]), None);
    }

    #[test]
    fn each_fault_by_its_bytes() {
        let fault = |bytes: &[u8]| Answer::read(bytes).map_err(|bad| bad.fault());
        assert_eq!(fault(&[5, 0, 0, 0]), Err(Fault::Cut));
        assert_eq!(fault(&[4, 0, 0, 0, 0]), Err(Fault::Cut));
        assert_eq!(fault(&[6, 0, 0, 0, 0]), Err(Fault::Cut));
        assert_eq!(fault(&[6, 0, 0, 0, 0, 0]), Err(Fault::Over));
        assert_eq!(fault(&[5, 0, 3, 0, 0]), Err(Fault::Count(3)));
        assert_eq!(fault(&[5, 0, 0, 7, 0]), Err(Fault::Alarm(7)));
        assert_eq!(fault(&[5, 0, 0, 6, 7]), Err(Fault::Alarm(7)));
        let both = fault(&[5, 0, 0, 6, 1]).map(|answer| answer.alarms);
        assert_eq!(both, Ok(vec![Alarm::FilledShort, Alarm::StuckCancel]));
        assert_eq!(fault(&[10, 0, 1, 0, 0, 15, 0, 0, 0, 0]), Err(Fault::Kind(15)));
        assert_eq!(fault(&[10, 0, 1, 0, 0, 16, 0, 0, 0, 0]), Err(Fault::Missing { kind: 16, bit: 0 }));
        // A new order with the bit of a cancel's OrigClOrdID.
        let new = b"\x22\0\x01\0\0\x12\xe2\x03\0\x40\x03\0\x01A\x01W12\x01\0\0\0\0\0\0\0\x01A";
        let mut new = new.to_vec();
        new[0] = u8::try_from(new.len()).unwrap();
        assert_eq!(fault(&new), Err(Fault::Unexpected { kind: 18, map: 1 << 30 }));
        new[9] = 0;
        assert_eq!(fault(&new), Err(Fault::Over));
        let last = new.len() - 2;
        new[0] = u8::try_from(last).unwrap();
        assert_eq!(fault(&new).map(|answer| answer.messages.len()), Ok(1));
        new[16] = b'9';
        assert_eq!(fault(&new), Err(Fault::Code { bit: 7, code: b'9' }));
    }
}
