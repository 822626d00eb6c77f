//! A session: the message comes in pieces, cut anyhow, and the tag is that of the whole. A good finish uses the session up; a
//! refusal leaves it as it was. A session that checks a tag is in src/checking.rs.

use std::error::Error;
use std::fmt;

use crate::{raw, Agreement, Made, Refusal};

/// An open session that makes a tag. It holds the keys. Where a tag came first and is to be checked, [`Session::check`] starts a
/// [`CheckingSession`](crate::CheckingSession).
///
/// ```
/// use slipseal::{Agreement, Session};
///
/// let agreement = Agreement { algorithm: 1, padding: 3, m: 128, master: false };
/// let mut session = Session::start(agreement, &[7; 16], 20)?;
/// session.piece(b"a", 8)?;
/// let mut room = [0; 16];
/// let refused = session.finish(&mut room).unwrap_err();
/// assert_eq!(refused.refusal.number(), 12); // 20 bits were declared
/// let mut session = refused.session;
/// session.piece(b"bc", 12)?; // ends within a byte
/// let made = session.finish(&mut room)?;
/// assert_eq!(made.calls, 2);
/// # Ok::<(), Box<dyn std::error::Error>>(())
/// ```
pub struct Session {
    pub(crate) record: raw::Record,
}

/// A finish that was refused, with the session as it was: more bits or more room may follow.
#[derive(Debug)]
pub struct RefusedFinish {
    pub refusal: Refusal,
    pub session: Session,
}

impl Session {
    /// Starts a session. `declared` is the message's number of bits, read under padding 3 only.
    ///
    /// # Errors
    ///
    /// The first that applies of 1 to 5, rising, then 8 for the declared length.
    pub fn start(agreement: Agreement, keys: &[u8], declared: usize) -> Result<Session, Refusal> {
        let step = raw::start(agreement.into(), keys, declared);
        Refusal::of(step.answer.number)?;
        Ok(Session { record: step.session })
    }

    /// Gives the next `bits` bits of the message. Only the last bits of a message may end within a byte.
    ///
    /// # Errors
    ///
    /// The first that applies of 11 (bits after a part byte), 7, 8, 12. The session is then as before.
    pub fn piece(&mut self, bytes: &[u8], bits: usize) -> Result<(), Refusal> {
        feed(&mut self.record, bytes, bits)
    }

    /// Ends the session and makes the tag in the front of `room`; what stands behind it stays.
    ///
    /// # Errors
    ///
    /// The first that applies of 12, 9, 10, with the session handed back. The room is then as before.
    // The error is as large as the session that comes back in it.
    #[allow(clippy::result_large_err)]
    pub fn finish(self, room: &mut [u8]) -> Result<Made<'_>, RefusedFinish> {
        let step = raw::finish(self.record, room);
        if let Err(refusal) = Refusal::of(step.answer.number) {
            return Err(RefusedFinish { refusal, session: Session { record: step.session } });
        }
        let agreement = Agreement::from(self.record.agreement);
        Ok(Made { tag: &room[..agreement.tag_bytes()], calls: step.answer.calls })
    }
}

/// Gives a record of either purpose the next bits.
pub(crate) fn feed(record: &mut raw::Record, bytes: &[u8], bits: usize) -> Result<(), Refusal> {
    let step = raw::piece(*record, bytes, bits);
    *record = step.session;
    Refusal::of(step.answer.number)
}

/// Shows the agreement and the bits so far; keys, state and expected tag stay hidden.
pub(crate) fn show(name: &str, record: &raw::Record, f: &mut fmt::Formatter<'_>) -> fmt::Result {
    f.debug_struct(name)
        .field("agreement", &Agreement::from(record.agreement))
        .field("total", &record.total)
        .finish_non_exhaustive()
}

impl fmt::Debug for Session {
    fn fmt(&self, f: &mut fmt::Formatter<'_>) -> fmt::Result {
        show("Session", &self.record, f)
    }
}

impl fmt::Display for RefusedFinish {
    fn fmt(&self, f: &mut fmt::Formatter<'_>) -> fmt::Result {
        self.refusal.fmt(f)
    }
}

impl Error for RefusedFinish {}
