//! Message authentication codes of GB/T 15852.1 over SM4, and sealed lot slips. The work is done by a library that is written and
//! proved in Rattle; this crate hands slices over and turns its numbers into results.
//!
//! A message is bytes and a count of bits, the highest bit of a byte first. The bytes are exactly as many as hold the bits, and
//! spare bits of the last byte have no influence.
//!
//! ```
//! use slipseal::{check, make, Agreement};
//!
//! let key = [
//!     0x01, 0x23, 0x45, 0x67, 0x89, 0xAB, 0xCD, 0xEF, 0xFE, 0xDC, 0xBA, 0x98, 0x76, 0x54, 0x32, 0x10,
//! ];
//! let agreement = Agreement { algorithm: 5, padding: 4, m: 64, master: false };
//! let message = b"This is the test message for mac";
//! let mut room = [0; 16];
//! let made = make(agreement, &key, message, 256, &mut room)?;
//! assert_eq!(made.tag, [0x69, 0x2C, 0x43, 0x71, 0x00, 0xF3, 0xB5, 0xEE]);
//! assert_eq!(made.calls, 3);
//! assert!(check(agreement, &key, message, 256, made.tag).is_yes());
//! # Ok::<(), slipseal::Refusal>(())
//! ```

#[cfg(not(all(target_arch = "x86_64", target_os = "linux", target_pointer_width = "64")))]
compile_error!("slipseal is built for x86-64 Linux only");

mod certificate;
mod checking;
#[cfg(test)]
mod forged;
#[doc(hidden)]
pub mod raw;
mod reader;
mod refusal;
mod session;
mod slip;

pub use certificate::{check_file, check_reader};
pub use checking::{CheckingSession, RefusedCheck};
pub use reader::SlipReader;
pub use refusal::Refusal;
pub use session::{RefusedFinish, Session};
pub use slip::{read_slip, write_slip, Contents, Slip, Written};

/// What was agreed on how a tag is made. It comes from the caller's own records and never from what is checked under it. Any
/// numbers may stand here; the calls refuse those that are not allowed, with 1, 2 and 3, or [`read_slip`] with 25 where the slip
/// names others.
///
/// | algorithm | padding | key bytes | under a master | m |
/// |---|---|---|---|---|
/// | 1 | 1 to 3 | 16 | refused | 1 to 128 |
/// | 2, 6 | 1 to 3 | 32, K then K' | 16, the master | 1 to 128 |
/// | 3 | 1 to 3 | 32, K then K' | refused | 1 to 128 |
/// | 4 | 1 to 3 | 32, K then K' | 32, K then the master | 1 to 128 |
/// | 5, 8 | 4 | 16 | refused | 1 to 128 |
/// | 7 | 4 | 16 | refused | 1 to 63 |
///
/// A supplier may send one key, the master, of which two are derived by key derivation method 1 of the standard (6.2.2): the first
/// is the number 1 and the second the number 2, each written as a block of 128 bits and enciphered under the master. They serve as
/// K and K' in algorithms 2 and 6, and as K' and K'' in algorithm 4. The number of calls that is reported for a tag or a slip is 2
/// larger under a master. Refusal 4 is also for a master with another algorithm, and 5 for a K that is one of the derived keys.
///
/// ```
/// use slipseal::{check, make, Agreement};
///
/// let master = [
///     0x01, 0x23, 0x45, 0x67, 0x89, 0xAB, 0xCD, 0xEF, 0xFE, 0xDC, 0xBA, 0x98, 0x76, 0x54, 0x32, 0x10,
/// ];
/// let agreement = Agreement { algorithm: 6, padding: 1, m: 64, master: true };
/// let message = b"This is the test message for mac";
/// let mut room = [0; 8];
/// let made = make(agreement, &master, message, 256, &mut room)?;
/// assert_eq!(made.tag, [0xB3, 0x8A, 0x96, 0x19, 0x5B, 0xAA, 0x61, 0xFC]);
/// assert_eq!(made.calls, 4);
/// assert!(check(agreement, &master, message, 256, made.tag).is_yes());
///
/// let refusal = make(Agreement { algorithm: 3, ..agreement }, &master, message, 256, &mut room).unwrap_err();
/// assert_eq!(refusal.number(), 4); // algorithm 3 takes no master
/// # Ok::<(), slipseal::Refusal>(())
/// ```
#[derive(Clone, Copy, Debug, PartialEq, Eq)]
pub struct Agreement {
    pub algorithm: u64,
    pub padding: u64,
    /// The tag's number of bits.
    pub m: u64,
    /// Whether a master is in use.
    pub master: bool,
}

impl Agreement {
    /// The bytes of a tag, for an agreement that was accepted.
    fn tag_bytes(self) -> usize {
        self.m.div_ceil(8) as usize
    }
}

/// A tag that was made: the first ⌈m/8⌉ bytes of the room lent for it, and the number of cipher calls.
#[derive(Debug, PartialEq, Eq)]
pub struct Made<'a> {
    pub tag: &'a [u8],
    pub calls: u64,
}

/// What a check answers. It is no `Result`, so that a "no" cannot be taken for success by `is_ok()` or `?`.
///
/// With a refusal comes an `R`: the [`Refusal`], or at the end of a session a [`RefusedCheck`], which has the session too.
#[must_use]
#[derive(Clone, Copy, Debug, PartialEq, Eq)]
pub enum Checked<R = Refusal> {
    /// The tag is the message's.
    Yes { calls: u64 },
    /// It is another one.
    No { calls: u64 },
    /// The check was not made.
    Refused(R),
}

impl<R> Checked<R> {
    /// What an answer of the library says.
    fn of(answer: raw::Answer, refused: impl FnOnce(Refusal) -> R) -> Checked<R> {
        match Refusal::of(answer.number) {
            Err(refusal) => Checked::Refused(refused(refusal)),
            Ok(()) if answer.yes == 1 => Checked::Yes { calls: answer.calls },
            Ok(()) => Checked::No { calls: answer.calls },
        }
    }

    /// Whether the tag is the message's. False for a refusal.
    #[must_use]
    pub fn is_yes(&self) -> bool {
        matches!(self, Checked::Yes { .. })
    }
}

/// Makes the tag of a message's first `bits` bits in the front of `room`; what stands behind it stays.
///
/// # Errors
///
/// The first that applies of 1 to 5 and 7 to 10, rising; 10 where the room is under ⌈m/8⌉ bytes. The room is then as before.
///
/// ```
/// use slipseal::{make, Agreement};
///
/// let agreement = Agreement { algorithm: 7, padding: 4, m: 64, master: false };
/// let refusal = make(agreement, &[0; 16], b"", 0, &mut [0; 16]).unwrap_err();
/// assert_eq!(refusal.number(), 3);
/// assert_eq!(refusal.to_string(), "refused 3: the tag's number of bits is not allowed for the algorithm");
/// ```
pub fn make<'a>(
    agreement: Agreement,
    keys: &[u8],
    message: &[u8],
    bits: usize,
    room: &'a mut [u8],
) -> Result<Made<'a>, Refusal> {
    let answer = raw::make(agreement.into(), keys, message, bits, room);
    Refusal::of(answer.number)?;
    Ok(Made { tag: &room[..agreement.tag_bytes()], calls: answer.calls })
}

/// Checks the tag of a message's first `bits` bits.
///
/// Refused with the first that applies of 1 to 5 and 7 to 10, rising; 10 where the tag is not exactly ⌈m/8⌉ bytes.
///
/// ```
/// use slipseal::{check, Agreement, Checked};
///
/// let agreement = Agreement { algorithm: 1, padding: 1, m: 12, master: false };
/// assert_eq!(check(agreement, &[0; 16], b"abc", 24, &[0, 0]), Checked::No { calls: 1 });
/// ```
pub fn check(agreement: Agreement, keys: &[u8], message: &[u8], bits: usize, tag: &[u8]) -> Checked {
    Checked::of(raw::check(agreement.into(), keys, message, bits, tag), |refusal| refusal)
}

/// Works a lost block out of the other bits of a message and its full tag, and puts it where it was. Blocks are whole ones of 128
/// bits, counted from 0 in the message's first `bits` bits; the block with the length, of padding 3, is not counted. What the block
/// held has no influence, and no other byte is touched. It is the only filling that the tag fits: [`check`] then says yes.
///
/// A restored block is worth no more than the tag and the rest of the message. Every tag has exactly one filling: a false tag, or
/// an altered byte elsewhere in the message, restores to some block too, and [`check`] says yes to that as well. After a
/// restoration its yes is no evidence for any byte of the message.
///
/// # Errors
///
/// The first that applies of 1 to 5 and 7 to 10, rising, as for [`check`], 3 also where m is not 128 (algorithm 7 always gets it);
/// then 41 where there is no such whole block. The message is then as before.
///
/// ```
/// use slipseal::{make, restore, Agreement};
///
/// let (key, agreement) = ([7; 16], Agreement { algorithm: 5, padding: 4, m: 128, master: false });
/// let mut room = [0; 16];
/// let tag = make(agreement, &key, b"Store below 8 degrees, dry, dark", 256, &mut room)?.tag;
/// let mut label = *b"Store below 8 de________________";
/// restore(agreement, &key, &mut label, 256, 1, tag)?;
/// assert_eq!(&label, b"Store below 8 degrees, dry, dark");
/// let refusal = restore(agreement, &key, &mut label, 256, 2, tag).unwrap_err();
/// assert_eq!(refusal.to_string(), "refused 41: no such whole block");
/// # Ok::<(), slipseal::Refusal>(())
/// ```
pub fn restore(
    agreement: Agreement,
    keys: &[u8],
    message: &mut [u8],
    bits: usize,
    block: usize,
    tag: &[u8],
) -> Result<(), Refusal> {
    Refusal::of(raw::restore(agreement.into(), keys, message, bits, block, tag))
}
