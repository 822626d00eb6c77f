//! A certificate whose tag came first, checked while it is read. It is never in memory as a whole.

use std::fs::File;
use std::io::{self, ErrorKind, Read};
use std::path::Path;

use crate::{Agreement, Checked, Session};

/// The most bytes of one read.
const CHUNK: usize = 32 << 10;

/// Checks a certificate under its tag while a reader delivers it, to the end of input, in chunks of up to 32 KiB: each read is one
/// piece of a [`CheckingSession`](crate::CheckingSession). `declared` is the certificate's number of bits, read under padding 3 only.
/// After each chunk `on_progress` is told the number of bytes so far. After `Interrupted` the reader is read again, as the standard
/// library does.
///
/// It answers as [`check`](crate::check) does for the whole certificate. The first refusal is the answer, and no more is read: those
/// of a start, 10 for the tag's length among them, before the first read; 8, or 12 under padding 3, at the chunk that makes the
/// certificate too long; 12 and 9 at its end.
///
/// # Errors
///
/// Any other error of the reader; the certificate has then not come to its end, and nothing is said of it. `Ok` says nothing of
/// the tag: [`Checked::is_yes`] does.
///
/// ```
/// use std::io::Read;
///
/// use slipseal::{check_reader, Agreement};
///
/// let key = [
///     0x01, 0x23, 0x45, 0x67, 0x89, 0xAB, 0xCD, 0xEF, 0xFE, 0xDC, 0xBA, 0x98, 0x76, 0x54, 0x32, 0x10,
/// ];
/// let agreement = Agreement { algorithm: 5, padding: 4, m: 64, master: false }; // from what is on file for the supplier
/// let bytes = b"\x69\x2C\x43\x71\x00\xF3\xB5\xEEThis is the test message for mac";
///
/// let mut scanner = bytes[..20].chain(&bytes[20..]); // or a file, a pipe, a serial line
/// let mut tag = [0; 8];
/// scanner.read_exact(&mut tag)?;
/// let mut told = Vec::new();
/// let checked = check_reader(agreement, &key, scanner, 0, &tag, |bytes| told.push(bytes))?;
/// assert!(checked.is_yes());
/// assert_eq!(told, [12, 32]);
///
/// let cut_off = check_reader(agreement, &key, &bytes[8..20], 0, &tag, |_| ())?;
/// assert!(!cut_off.is_yes());
/// # Ok::<(), std::io::Error>(())
/// ```
pub fn check_reader(
    agreement: Agreement,
    keys: &[u8],
    mut reader: impl Read,
    declared: usize,
    tag: &[u8],
    mut on_progress: impl FnMut(u64),
) -> io::Result<Checked> {
    let mut session = match Session::check(agreement, keys, declared, tag) {
        Ok(session) => session,
        Err(refusal) => return Ok(Checked::Refused(refusal)),
    };
    let mut buffer = vec![0; CHUNK];
    let mut total = 0;
    loop {
        match reader.read(&mut buffer) {
            // no more bits will come, so the session is not handed back
            Ok(0) => return Ok(session.finish().into()),
            Ok(count) => {
                if let Err(refusal) = session.piece(&buffer[..count], 8 * count) {
                    return Ok(Checked::Refused(refusal));
                }
                total += count as u64;
                on_progress(total);
            }
            Err(error) if error.kind() == ErrorKind::Interrupted => {}
            Err(error) => return Err(error),
        }
    }
}

/// Checks a certificate that is a file, as [`check_reader`] does. Its length at the beginning, as the file's metadata has it, is the
/// one declared: a file that grows or shrinks meanwhile is refused with 12 under padding 3. So is what has no length, as a pipe,
/// unless it is empty.
///
/// # Errors
///
/// Those of opening and reading the file.
///
/// ```
/// use slipseal::{check_file, make, Agreement, Checked};
///
/// let agreement = Agreement { algorithm: 1, padding: 3, m: 64, master: false };
/// # let path = std::env::temp_dir().join(format!("slipseal-{}", std::process::id()));
/// std::fs::write(&path, b"certificate of analysis")?;
/// # let mut room = [0; 8];
/// # let tag = make(agreement, &[7; 16], b"certificate of analysis", 184, &mut room).unwrap().tag;
/// match check_file(agreement, &[7; 16], &path, tag, |bytes| println!("{bytes} bytes"))? {
///     Checked::Yes { calls } => assert_eq!(calls, 3),
///     Checked::No { .. } => panic!("another tag"),
///     Checked::Refused(refusal) => panic!("{refusal}"),
/// }
/// # std::fs::remove_file(&path)?;
/// # Ok::<(), std::io::Error>(())
/// ```
pub fn check_file(
    agreement: Agreement,
    keys: &[u8],
    path: impl AsRef<Path>,
    tag: &[u8],
    on_progress: impl FnMut(u64),
) -> io::Result<Checked> {
    let file = File::open(path)?;
    let declared = file.metadata()?.len().saturating_mul(8) as usize;
    check_reader(agreement, keys, file, declared, tag, on_progress)
}
