//! A slip that comes in odd lengths. The library gathers its reads, however they are cut, and the slip is read once, when no more
//! bytes will come.

use std::io::{self, ErrorKind, Read};

use crate::{raw, slip, Agreement, Refusal, Slip};

/// The bytes of a slip, gathered from reads of any lengths. A slip has 75 bytes at most, so only the first 76 that come can matter,
/// and no more are kept.
///
/// Read it once, at the end of input. Until then nothing tells whether more bytes will come: a proper beginning of an accepted slip
/// is refused with 20, bytes after an accepted slip turn the yes into 24, and other bytes get their own refusal. A scanner's driver
/// would write:
///
/// ```
/// use std::io::{ErrorKind, Read};
///
/// use slipseal::{Agreement, SlipReader};
///
/// # let key = [
/// #     0x01, 0x23, 0x45, 0x67, 0x89, 0xAB, 0xCD, 0xEF, 0xFE, 0xDC, 0xBA, 0x98, 0x76, 0x54, 0x32, 0x10,
/// # ];
/// # let bytes = b"\x01\x00\x0820261104\x02\x00\x02A7\x03\x00\x04\x00\x00\x01\xF4\
/// #     \x7F\x00\x0B\x05\x04\x40\xA4\x7A\x92\x99\xC7\xB8\x45\x6C";
/// # let mut scanner = bytes[..20].chain(&bytes[20..]);
/// let agreement = Agreement { algorithm: 5, padding: 4, m: 64, master: false }; // from what is on file for the supplier
/// let mut reader = SlipReader::new();
/// let mut buffer = [0; 64];
/// loop {
///     match scanner.read(&mut buffer) {
///         Ok(0) => break, // the end of input, and nothing else is
///         Ok(count) => reader.push(&buffer[..count]),
///         Err(error) if error.kind() == ErrorKind::Interrupted => {}
///         Err(error) => return Err(error.into()), // nothing is believed of the bottle
///     }
/// }
/// let slip = reader.read(agreement, &key)?;
/// assert_eq!((slip.contents.lot, slip.contents.amount), (&b"A7"[..], 500));
/// # Ok::<(), Box<dyn std::error::Error>>(())
/// ```
///
/// [`SlipReader::from_reader`] is this loop.
#[must_use]
#[derive(Clone, Debug, PartialEq, Eq)]
pub struct SlipReader {
    record: raw::Gathered,
}

impl SlipReader {
    /// Nothing has come yet.
    pub fn new() -> SlipReader {
        SlipReader { record: raw::Gathered { count: 0, bytes: [0; 80] } }
    }

    /// Gathers all that a reader delivers, in whatever lengths, to its end of input. After `Interrupted` it reads again, as the
    /// standard library does.
    ///
    /// # Errors
    ///
    /// Any other error of the reader. The slip has then not come to its end, and nothing of it is handed out.
    ///
    /// ```
    /// use std::io::Read;
    ///
    /// use slipseal::{Agreement, SlipReader};
    ///
    /// let key = [
    ///     0x01, 0x23, 0x45, 0x67, 0x89, 0xAB, 0xCD, 0xEF, 0xFE, 0xDC, 0xBA, 0x98, 0x76, 0x54, 0x32, 0x10,
    /// ];
    /// let agreement = Agreement { algorithm: 5, padding: 4, m: 64, master: false }; // from what is on file for the supplier
    /// let bytes = b"\x01\x00\x0820261104\x02\x00\x02A7\x03\x00\x04\x00\x00\x01\xF4\
    ///     \x7F\x00\x0B\x05\x04\x40\xA4\x7A\x92\x99\xC7\xB8\x45\x6C";
    ///
    /// let scanner = bytes[..20].chain(&bytes[20..]); // or a file, a pipe, a serial line
    /// let reader = SlipReader::from_reader(scanner)?;
    /// let slip = reader.read(agreement, &key)?;
    /// assert_eq!((slip.contents.year, slip.contents.month, slip.contents.day), (2026, 11, 4));
    ///
    /// let cut_off = SlipReader::from_reader(&bytes[..20])?;
    /// let refusal = cut_off.read(agreement, &key).unwrap_err();
    /// assert_eq!(refusal.to_string(), "refused 20: the slip is cut short");
    /// # Ok::<(), Box<dyn std::error::Error>>(())
    /// ```
    pub fn from_reader(mut reader: impl Read) -> io::Result<SlipReader> {
        let mut gathered = SlipReader::new();
        let mut buffer = [0; 64];
        loop {
            match reader.read(&mut buffer) {
                Ok(0) => return Ok(gathered),
                Ok(count) => gathered.push(&buffer[..count]),
                Err(error) if error.kind() == ErrorKind::Interrupted => {}
                Err(error) => return Err(error),
            }
        }
    }

    /// Gives the bytes of the next read, of any length, none included. Nothing is refused here: the slip is judged once, by
    /// [`SlipReader::read`].
    pub fn push(&mut self, bytes: &[u8]) {
        self.record = raw::gather(self.record, bytes);
    }

    /// Reads the slip under keys and what was agreed with its supplier; to be asked once, at the end of input. It answers as
    /// [`read_slip`](crate::read_slip) does for all bytes that came, joined. The lot is lent from the bytes gathered here.
    ///
    /// # Errors
    ///
    /// Those of [`read_slip`](crate::read_slip).
    pub fn read(&self, agreement: Agreement, keys: &[u8]) -> Result<Slip<'_>, Refusal> {
        slip::told(raw::read_gathered(agreement.into(), keys, self.record), &self.record.bytes)
    }
}

impl Default for SlipReader {
    fn default() -> SlipReader {
        SlipReader::new()
    }
}
