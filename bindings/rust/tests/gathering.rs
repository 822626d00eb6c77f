//! Slips that come in odd lengths: those of R6 and the longest one, cut into reads, gathered, and read once; the rewritten slip of
//! the user's morning; beginnings and lengthenings; records that no call handed out; and readers that deliver oddly or fail.

mod common;

use std::io::{self, Error, ErrorKind, Read};
use std::iter;

use common::{agreed, byte_by_byte, first, interrupted, key, keys, slip, Scanner, AGREED, GOOD, R6};
use slipseal::raw::{self, Gathered};
use slipseal::{read_slip, write_slip, Agreement, Contents, SlipReader};

/// A slip that is accepted, with its agreement and keys.
struct Good {
    agreement: Agreement,
    keys: Vec<u8>,
    slip: Vec<u8>,
}

fn longest() -> Good {
    let (agreement, keys) = (agreed(8, 4, 128), key());
    let contents = Contents { lot: &[b'~'; 32], ..GOOD };
    let mut room = [0; 75];
    let slip = write_slip(agreement, &keys, contents, &mut room).unwrap().slip.to_vec();
    assert_eq!(slip.len(), 75);
    Good { agreement, keys, slip }
}

/// The slips of R6, and the longest one.
fn good() -> Vec<Good> {
    let of_r6 =
        |(agreement, seal, length, _)| Good { agreement, keys: keys()[..length].to_vec(), slip: slip(seal) };
    R6.map(of_r6).into_iter().chain([longest()]).collect()
}

fn gathered<'a>(reads: impl IntoIterator<Item = &'a [u8]>) -> SlipReader {
    let mut reader = SlipReader::new();
    reads.into_iter().for_each(|read| reader.push(read));
    reader
}

/// The number with which the slip is refused under the first agreement of R6.
fn refused(reader: &SlipReader) -> u64 {
    reader.read(AGREED, &key()).unwrap_err().number()
}

// ---- cuts

#[test]
fn r6_in_two_reads() {
    for (agreement, seal, length, calls) in R6 {
        let slip = slip(seal);
        for cut in 0..=slip.len() {
            let reader = gathered([&slip[..cut], &slip[cut..]]);
            let read = reader.read(agreement, &keys()[..length]).unwrap();
            assert_eq!((read.contents, read.calls), (GOOD, calls), "cut at {cut}");
        }
    }
}

/// Byte by byte, two by two and so on, with reads of none before, between and after.
#[test]
fn equal_reads_and_reads_of_none() {
    for Good { agreement, keys, slip } in good() {
        for length in 1..=slip.len() {
            let reader = gathered(slip.chunks(length));
            assert_eq!(
                reader.read(agreement, &keys),
                read_slip(agreement, &keys, &slip),
                "reads of {length}"
            );
            assert!(reader.read(agreement, &keys).is_ok());
            let with_none = slip.chunks(length).flat_map(|read| [&[][..], read, &[]]);
            assert_eq!(gathered(with_none), reader, "reads of {length}, and of none");
        }
    }
    assert_eq!(refused(&SlipReader::new()), 20);
    assert_eq!(gathered([&[][..]; 3]), SlipReader::new());
    assert_eq!(SlipReader::default(), SlipReader::new());
}

/// An old reader compared only the seal bytes that the first read had brought, often none, and a rewritten slip passed.
#[test]
fn the_users_own_morning() {
    let mut rewritten = first();
    rewritten[3..11].copy_from_slice(b"20260411");
    for cut in 0..=rewritten.len() {
        let mut reader = gathered([&rewritten[..cut]]);
        let alone = if cut < rewritten.len() { 20 } else { 30 };
        assert_eq!(refused(&reader), alone, "the first {cut} bytes alone");
        reader.push(&rewritten[cut..]);
        assert_eq!(refused(&reader), 30, "the first {cut} bytes, then the rest");
    }
}

#[test]
fn beginnings_and_lengthenings() {
    for Good { agreement, keys, slip } in good() {
        let refused = |reader: SlipReader| reader.read(agreement, &keys).unwrap_err().number();
        for cut in 0..slip.len() {
            assert_eq!(refused(gathered([&slip[..cut]])), 20, "the first {cut} bytes");
        }
        for (count, byte) in [1, 40, 100_000].into_iter().flat_map(|count| [(count, 0), (count, 0x7F)]) {
            let more = vec![byte; count];
            assert_eq!(refused(gathered([&slip[..], &more])), 24, "{count} bytes more");
            assert_eq!(refused(gathered([&[&slip[..], &more].concat()[..]])), 24, "{count} more in one read");
            assert_eq!(
                refused(gathered(slip.chunks(1).chain(more.chunks(1)))),
                24,
                "{count} more, one by one"
            );
        }
    }
}

/// Every changed byte, cut somewhere, and with a byte more or less: what the whole gets, in every field.
#[test]
fn other_bytes_get_their_own_answer() {
    let (key, good) = (key(), first());
    for place in 0..good.len() {
        for byte in 0..=255 {
            let mut slip = good.clone();
            slip[place] = byte;
            slip.push(b'A');
            let cut = usize::from(byte) % slip.len();
            for length in good.len() - 1..=good.len() + 1 {
                let (brought, rest) = slip[..length].split_at(cut.min(length));
                let record = raw::gather(raw::gather(NONE, brought), rest);
                let whole = raw::read(AGREED.into(), &key, &slip[..length]);
                let read = raw::read_gathered(AGREED.into(), &key, record);
                assert_eq!(read, whole, "byte {place} with {byte}");
            }
        }
    }
}

// ---- records

const NONE: Gathered = Gathered { count: 0, bytes: [0; 80] };

/// The record of these bytes: the first 76, their count, and zeros after them.
fn record_of(bytes: &[u8]) -> Gathered {
    let kept = &bytes[..bytes.len().min(76)];
    let mut record = Gathered { count: kept.len() as u64, ..NONE };
    record.bytes[..kept.len()].copy_from_slice(kept);
    record
}

#[test]
fn one_record_however_it_is_cut() {
    let bytes: Vec<u8> = (1..=200).collect();
    for length in [0, 1, 37, 75, 76, 77, 80, 81, 152, 200] {
        let bytes = &bytes[..length];
        let whole = raw::gather(NONE, bytes);
        assert_eq!(whole, record_of(bytes), "{length} bytes in one read");
        for cut in 0..=length {
            let record = raw::gather(raw::gather(NONE, &bytes[..cut]), &bytes[cut..]);
            assert_eq!(record, whole, "{length} bytes, cut at {cut}");
        }
        assert_eq!(bytes.chunks(1).fold(NONE, raw::gather), whole, "{length} bytes one by one");
    }
}

/// Counts with a slip and junk after it: a count over 76 is read as 76, and nothing past it is read or handed back.
#[test]
fn forged_records() {
    let (near, far) = ([0, 37, 75, 76, 77, 80, 81], [8, 16, 32, 63].map(|bits| (1 << bits) + 37));
    for Good { agreement, keys, slip } in good() {
        for (count, junk) in near.into_iter().chain(far).chain([u64::MAX]).flat_map(|n| [(n, 0), (n, 0xA5)]) {
            let mut bytes = [junk; 80];
            bytes[..slip.len()].copy_from_slice(&slip);
            let (record, held) = (Gathered { count, bytes }, &bytes[..count.min(76) as usize]);
            let read = raw::read_gathered(agreement.into(), &keys, record);
            assert_eq!(read, raw::read(agreement.into(), &keys, held), "count {count}, junk {junk}");
            let expected = match held.len() {
                length if length < slip.len() => 20,
                length if length == slip.len() => 0,
                _ => 24,
            };
            assert_eq!(read.number, expected, "count {count}, junk {junk}");
            for more in [0, 1, 38, 39, 40, 100_000] {
                let more = vec![b'A'; more];
                let joined = [held, &more].concat();
                let after = raw::gather(record, &more);
                assert_eq!(after, record_of(&joined), "count {count}, junk {junk}, {} more", more.len());
                let read = raw::read_gathered(agreement.into(), &keys, after);
                let whole = raw::read(agreement.into(), &keys, &joined);
                assert_eq!(read, whole, "count {count}, {} more", more.len());
            }
        }
    }
}

// ---- readers

#[test]
fn readers_that_deliver_oddly() {
    for Good { agreement, keys, slip } in good() {
        let accepts = |reader: &mut dyn Read| {
            let gathered = SlipReader::from_reader(reader).unwrap();
            assert_eq!(gathered.read(agreement, &keys), read_slip(agreement, &keys, &slip));
            gathered.read(agreement, &keys).is_ok()
        };
        assert!(accepts(&mut &slip[..]));
        for cut in 0..=slip.len() {
            assert!(accepts(&mut slip[..cut].chain(&slip[cut..])), "cut at {cut}");
        }
        assert!(accepts(&mut Scanner(byte_by_byte(&slip))));
        let often = byte_by_byte(&slip).flat_map(|byte| [interrupted(), interrupted(), byte]);
        assert!(accepts(&mut Scanner(often.chain([interrupted()]))));
        let mut after_the_end = Scanner(byte_by_byte(&slip).chain([Ok(Vec::new()), Ok(vec![0])]));
        assert!(accepts(&mut after_the_end));
        assert_eq!(after_the_end.0.count(), 1, "nothing is read after the end of input");
    }
}

#[test]
fn readers_that_end_early_or_late() {
    let good = first();
    let number = |reader: &mut dyn Read| refused(&SlipReader::from_reader(reader).unwrap());
    assert_eq!(number(&mut io::empty()), 20);
    for cut in 0..good.len() {
        assert_eq!(number(&mut Scanner(byte_by_byte(&good[..cut]))), 20, "the first {cut} bytes");
    }
    for more in [1, 40, 100_000] {
        assert_eq!(number(&mut good.chain(io::repeat(0).take(more))), 24, "{more} bytes more");
    }
}

/// The error comes back, also where it stands in the place of the end of input.
#[test]
fn readers_that_fail() {
    let good = first();
    for cut in 0..=good.len() {
        for kind in [ErrorKind::BrokenPipe, ErrorKind::WouldBlock, ErrorKind::UnexpectedEof] {
            let failure = iter::once_with(|| Err(Error::new(kind, "unplugged")));
            let mut scanner =
                Scanner(byte_by_byte(&good[..cut]).chain(failure).chain(byte_by_byte(&good[cut..])));
            let error = SlipReader::from_reader(&mut scanner).unwrap_err();
            assert_eq!((error.kind(), error.to_string()), (kind, "unplugged".into()), "after {cut} bytes");
        }
    }
}
