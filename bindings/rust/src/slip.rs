//! Lot slips: expiry, lot and amount of a reagent bottle under a seal. A slip is believed whole or refused with its number, and it
//! is written whole or not at all. The seal is checked under what was agreed; what the slip itself names is compared with that and
//! used for nothing else.

use crate::{raw, Agreement, Refusal};

/// What a slip says. Any numbers and bytes may stand here; [`write_slip`] refuses those that are not allowed, with 22 and 23, and
/// [`read_slip`] gives none of them.
#[derive(Clone, Copy, Debug, PartialEq, Eq)]
pub struct Contents<'a> {
    /// The expiry: a real date of the years 2000 to 2099.
    pub year: u64,
    pub month: u64,
    pub day: u64,
    /// 1 to 32 bytes, each 21 to 7E.
    pub lot: &'a [u8],
    /// In microlitres, 1 to 1,000,000.
    pub amount: u64,
}

/// An accepted slip.
#[derive(Clone, Copy, Debug, PartialEq, Eq)]
pub struct Slip<'a> {
    /// What it says; the lot is that very part of the slip.
    pub contents: Contents<'a>,
    /// The cipher calls of the seal's check.
    pub calls: u64,
}

/// A slip that was written: the front of the room lent for it, 29 to 75 bytes, and the number of cipher calls.
#[derive(Debug, PartialEq, Eq)]
pub struct Written<'a> {
    pub slip: &'a [u8],
    pub calls: u64,
}

/// Reads a slip under keys and what was agreed with its supplier. The agreement is handed in and never taken from the slip, and the
/// seal is checked under it. Do not copy the three values that a slip names into the agreement: whoever makes the slip would choose
/// how it is checked, and a slip that names m = 1 passes with one of two tags.
///
/// The bytes are the whole slip. Where it comes in several reads, [`SlipReader`](crate::SlipReader) gathers them first.
///
/// A slip does not name the master, and 25 does not look at it: whether one is in use is the agreement's alone to say. Where it says
/// so wrongly, the slip is judged under other keys, and as a rule gets 4 or 30.
///
/// An accepted slip names exactly the agreement's algorithm, padding and m. Its tag covers all bytes before field 7F, and under one
/// agreement and keys two accepted slips with the same bytes before field 7F are one slip.
///
/// # Errors
///
/// 20 to 24 for the slip's form, field by field; 25 where its seal names another algorithm, padding or m than agreed, however well
/// the tag fits; then 1 to 5, 10, and 30 where the seal is wrong.
///
/// ```
/// use slipseal::{read_slip, Agreement};
///
/// let key = [
///     0x01, 0x23, 0x45, 0x67, 0x89, 0xAB, 0xCD, 0xEF, 0xFE, 0xDC, 0xBA, 0x98, 0x76, 0x54, 0x32, 0x10,
/// ];
/// let agreement = Agreement { algorithm: 5, padding: 4, m: 64, master: false }; // from what is on file for the supplier
/// let bytes = b"\x01\x00\x0820261104\x02\x00\x02A7\x03\x00\x04\x00\x00\x01\xF4\
///     \x7F\x00\x0B\x05\x04\x40\xA4\x7A\x92\x99\xC7\xB8\x45\x6C";
/// let slip = read_slip(agreement, &key, bytes)?;
/// let said = slip.contents;
/// assert_eq!((said.year, said.month, said.day), (2026, 11, 4));
/// assert_eq!((said.lot, said.amount, slip.calls), (&b"A7"[..], 500, 3));
///
/// let wrong = read_slip(agreement, &[0; 16], bytes).unwrap_err();
/// assert_eq!(wrong.to_string(), "refused 30: the seal is wrong");
///
/// // Sealed with a single bit, and one of the two would fit.
/// for tag in [0x00, 0x80] {
///     let weak = [&bytes[..23], b"\x7F\x00\x04\x05\x04\x01", &[tag]].concat();
///     let refusal = read_slip(agreement, &key, &weak).unwrap_err();
///     assert_eq!(refusal.number(), 25);
///     assert_eq!(refusal.words(), "the slip names another algorithm, padding or m than agreed");
/// }
/// # Ok::<(), slipseal::Refusal>(())
/// ```
pub fn read_slip<'a>(agreement: Agreement, keys: &[u8], slip: &'a [u8]) -> Result<Slip<'a>, Refusal> {
    told(raw::read(agreement.into(), keys, slip), slip)
}

/// What is told of a slip, with the lot lent from the bytes that were read; or its refusal.
pub(crate) fn told(read: raw::Slip, bytes: &[u8]) -> Result<Slip<'_>, Refusal> {
    Refusal::of(read.number)?;
    let lot = &bytes[read.lot_at as usize..][..read.lot_len as usize];
    let raw::Slip { year, month, day, amount, calls, .. } = read;
    Ok(Slip { contents: Contents { year, month, day, lot, amount }, calls })
}

/// Writes a slip, sealed under an agreement and keys, in the front of `room`; what stands behind it stays. It has 27 bytes, the
/// lot's and ⌈m/8⌉ more, so 75 bytes of room are enough for any slip.
///
/// [`read_slip`] accepts it under the same agreement and keys and gives the contents and the calls back. The contents of an
/// accepted slip, written under the same agreement and keys, come out as that slip, byte for byte.
///
/// # Errors
///
/// The first that applies of 22 (lot or amount), 23 (date), 1 to 5, and 10 where the room is short of the whole slip. The room is
/// then as before.
///
/// ```
/// use slipseal::{read_slip, write_slip, Agreement, Contents};
///
/// let (key, agreement) = ([7; 16], Agreement { algorithm: 5, padding: 4, m: 64, master: false });
/// let contents = Contents { year: 2026, month: 11, day: 4, lot: b"A7", amount: 500 };
/// let mut room = [0; 75];
/// let written = write_slip(agreement, &key, contents, &mut room)?;
/// assert_eq!((written.slip.len(), written.calls), (37, 3));
///
/// let slip = read_slip(agreement, &key, written.slip)?;
/// assert_eq!(slip.contents, contents);
/// let mut other = [0; 75];
/// assert_eq!(write_slip(agreement, &key, slip.contents, &mut other)?, written);
///
/// let refusal = write_slip(agreement, &key, Contents { month: 13, ..contents }, &mut other).unwrap_err();
/// assert_eq!(refusal.to_string(), "refused 23: the expiry is not a real date from 2000 to 2099");
/// # Ok::<(), slipseal::Refusal>(())
/// ```
pub fn write_slip<'a>(
    agreement: Agreement,
    keys: &[u8],
    contents: Contents<'_>,
    room: &'a mut [u8],
) -> Result<Written<'a>, Refusal> {
    let written = raw::write(agreement.into(), keys, contents, room);
    Refusal::of(written.number)?;
    Ok(Written { slip: &room[..written.length as usize], calls: written.calls })
}
