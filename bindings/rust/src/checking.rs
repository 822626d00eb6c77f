//! A session that checks a tag: the tag comes first, then the message in pieces, cut anyhow. A "no" uses the session up as a "yes"
//! does; a refusal leaves it as it was.

use std::fmt;

use crate::{raw, session, Agreement, Checked, Refusal, Session};

/// An open session that checks a tag. It holds the keys and the tag, and answers as [`check`](crate::check) does for the whole
/// message, the calls too.
///
/// ```
/// use slipseal::{Agreement, Checked, Session};
///
/// let key = [
///     0x01, 0x23, 0x45, 0x67, 0x89, 0xAB, 0xCD, 0xEF, 0xFE, 0xDC, 0xBA, 0x98, 0x76, 0x54, 0x32, 0x10,
/// ];
/// let agreement = Agreement { algorithm: 5, padding: 4, m: 64, master: false };
/// let tag = [0x69, 0x2C, 0x43, 0x71, 0x00, 0xF3, 0xB5, 0xEE];
/// let mut session = Session::check(agreement, &key, 0, &tag)?;
/// for page in [&b"This is the test "[..], b"message", b" for mac"] {
///     session.piece(page, 8 * page.len())?;
/// }
/// match session.finish() {
///     Checked::Yes { calls } => assert_eq!(calls, 3),
///     Checked::No { .. } => panic!("another tag"),
///     Checked::Refused(refused) => panic!("{}", refused.refusal), // refused.session goes on
/// }
/// # Ok::<(), slipseal::Refusal>(())
/// ```
///
/// The finish of a [`Session`](crate::Session), which makes a tag, is none of its methods. This does not compile:
///
/// ```compile_fail,E0308
/// use slipseal::{Agreement, Session};
///
/// let agreement = Agreement { algorithm: 5, padding: 4, m: 64, master: false };
/// let session = Session::check(agreement, &[7; 16], 0, &[0; 8])?;
/// Session::finish(session, &mut [0; 8])?;
/// # Ok::<(), Box<dyn std::error::Error>>(())
/// ```
///
/// Nor does the other way round:
///
/// ```compile_fail,E0308
/// use slipseal::{Agreement, CheckingSession, Session};
///
/// let agreement = Agreement { algorithm: 5, padding: 4, m: 64, master: false };
/// let session = Session::start(agreement, &[7; 16], 0)?;
/// assert!(CheckingSession::finish(session).is_yes());
/// # Ok::<(), slipseal::Refusal>(())
/// ```
pub struct CheckingSession {
    pub(crate) record: raw::Record,
}

/// A finish of a check that was refused, with the session as it was: more bits may follow.
#[derive(Debug)]
pub struct RefusedCheck {
    pub refusal: Refusal,
    pub session: CheckingSession,
}

impl Session {
    /// Starts a session that checks this tag. `declared` is the message's number of bits, read under padding 3 only.
    ///
    /// # Errors
    ///
    /// The first that applies of 1 to 5, rising, then 8 for the declared length, and last 10 where the tag is not exactly ⌈m/8⌉
    /// bytes.
    pub fn check(
        agreement: Agreement,
        keys: &[u8],
        declared: usize,
        tag: &[u8],
    ) -> Result<CheckingSession, Refusal> {
        let step = raw::start_check(agreement.into(), keys, declared, tag);
        Refusal::of(step.answer.number)?;
        Ok(CheckingSession { record: step.session })
    }
}

impl CheckingSession {
    /// Gives the next `bits` bits of the message. Only the last bits of a message may end within a byte.
    ///
    /// # Errors
    ///
    /// The first that applies of 11 (bits after a part byte), 7, 8, 12. The session is then as before.
    pub fn piece(&mut self, bytes: &[u8], bits: usize) -> Result<(), Refusal> {
        session::feed(&mut self.record, bytes, bits)
    }

    /// Ends the session and tells whether the tag is the message's; a set spare bit makes it another one.
    ///
    /// Refused with the first that applies of 12, 9, with the session handed back.
    pub fn finish(self) -> Checked<RefusedCheck> {
        let step = raw::finish_check(self.record);
        let session = CheckingSession { record: step.session };
        Checked::of(step.answer, |refusal| RefusedCheck { refusal, session })
    }
}

impl fmt::Debug for CheckingSession {
    fn fmt(&self, f: &mut fmt::Formatter<'_>) -> fmt::Result {
        session::show("CheckingSession", &self.record, f)
    }
}

/// The answer as that of one call: a refusal comes without its session.
impl From<Checked<RefusedCheck>> for Checked {
    fn from(checked: Checked<RefusedCheck>) -> Checked {
        match checked {
            Checked::Yes { calls } => Checked::Yes { calls },
            Checked::No { calls } => Checked::No { calls },
            Checked::Refused(refused) => Checked::Refused(refused.refusal),
        }
    }
}
