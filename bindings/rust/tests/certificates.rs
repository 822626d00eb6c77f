//! Certificates checked while a reader delivers them: cut anyhow, interrupted, failing, too long, not as long as declared; what is
//! told on the way; and files.

mod common;

use std::fs::{self, File};
use std::io::{self, Error, ErrorKind, Read, Write};
use std::iter;
use std::path::PathBuf;
use std::process;

use common::{agreed, byte_by_byte, interrupted, key, keys, Scanner, MESSAGE};
use slipseal::{check_file, check_reader, make, Agreement, Checked};

const PLAIN: Agreement = agreed(5, 4, 64);
const DECLARED: Agreement = agreed(1, 3, 64);
const LIMIT: usize = 1_048_576;

fn certificate(length: usize) -> Vec<u8> {
    (0..length).map(|i| (i * i / 251) as u8).collect()
}

fn tag_of(agreement: Agreement, message: &[u8]) -> Vec<u8> {
    make(agreement, &key(), message, 8 * message.len(), &mut [0; 16]).unwrap().tag.to_vec()
}

/// The number of a refusal, 0 for yes or no.
fn number(checked: Checked) -> u64 {
    match checked {
        Checked::Refused(refusal) => refusal.number(),
        Checked::Yes { .. } | Checked::No { .. } => 0,
    }
}

/// A reader that is not to be read.
struct Untouched;

impl Read for Untouched {
    fn read(&mut self, _: &mut [u8]) -> io::Result<usize> {
        panic!("read after the answer was known")
    }
}

#[test]
fn chunks_of_32_kib_and_what_is_told() {
    for (length, progress) in [
        (0, &[][..]),
        (1, &[1]),
        (32_767, &[32_767]),
        (32_768, &[32_768]),
        (32_769, &[32_768, 32_769]),
        (100_000, &[32_768, 65_536, 98_304, 100_000]),
    ] {
        for agreement in [PLAIN, DECLARED] {
            let message = certificate(length);
            let right = tag_of(agreement, &message);
            let mut wrong = right.clone();
            wrong[7] ^= 1;
            for (tag, yes) in [(right, true), (wrong, false)] {
                let mut told = Vec::new();
                let checked =
                    check_reader(agreement, &key(), &message[..], 8 * length, &tag, |bytes| told.push(bytes));
                assert_eq!(checked.unwrap().is_yes(), yes, "{length} bytes");
                assert_eq!(told, progress, "{length} bytes");
            }
        }
    }
}

#[test]
fn readers_that_deliver_oddly() {
    let tag = tag_of(PLAIN, MESSAGE);
    let yes = |reader: &mut dyn Read| check_reader(PLAIN, &key(), reader, 0, &tag, |_| ()).unwrap().is_yes();
    for cut in 0..=MESSAGE.len() {
        assert!(yes(&mut MESSAGE[..cut].chain(&MESSAGE[cut..])), "cut at {cut}");
        assert!(!yes(&mut MESSAGE[..cut].chain(&b"x"[..]).chain(&MESSAGE[cut..])), "a byte more at {cut}");
        assert_eq!(yes(&mut &MESSAGE[..cut]), cut == MESSAGE.len(), "the first {cut} bytes");
    }
    let often = byte_by_byte(MESSAGE).flat_map(|byte| [interrupted(), interrupted(), byte]);
    let mut told = Vec::new();
    let scanner = Scanner(often.chain([interrupted()]));
    let checked = check_reader(PLAIN, &key(), scanner, 0, &tag, |bytes| told.push(bytes)).unwrap();
    assert_eq!(checked, Checked::Yes { calls: 3 });
    assert_eq!(told, (1..=32).collect::<Vec<_>>());
    let mut after_the_end = Scanner(byte_by_byte(MESSAGE).chain([Ok(Vec::new()), Ok(vec![0])]));
    assert!(yes(&mut after_the_end));
    assert_eq!(after_the_end.0.count(), 1, "nothing is read after the end of input");
}

/// The error comes back, also where it stands in the place of the end of input.
#[test]
fn readers_that_fail() {
    let tag = tag_of(PLAIN, MESSAGE);
    for cut in 0..=MESSAGE.len() {
        for kind in [ErrorKind::BrokenPipe, ErrorKind::WouldBlock, ErrorKind::UnexpectedEof] {
            let failure = iter::once_with(|| Err(Error::new(kind, "unplugged")));
            let scanner =
                Scanner(byte_by_byte(&MESSAGE[..cut]).chain(failure).chain(byte_by_byte(&MESSAGE[cut..])));
            let mut told = 0;
            let error = check_reader(PLAIN, &key(), scanner, 0, &tag, |bytes| told = bytes).unwrap_err();
            assert_eq!((error.kind(), error.to_string()), (kind, "unplugged".into()), "after {cut} bytes");
            assert_eq!(told, cut as u64);
        }
    }
}

#[test]
fn a_refused_start_reads_nothing() {
    for (agreement, keys, declared, tag, refusal) in [
        (agreed(9, 9, 999), 16, 0, 7, 1),
        (agreed(5, 4, 64), 15, 0, 7, 4),
        (agreed(1, 3, 64), 16, 8_388_609, 7, 8),
        (agreed(1, 3, 64), 16, 8_388_608, 7, 10),
        (agreed(5, 4, 64), 16, 0, 9, 10),
    ] {
        let checked =
            check_reader(agreement, &key()[..keys], Untouched, declared, &[0; 9][..tag], |_| panic!());
        assert_eq!(number(checked.unwrap()), refusal);
    }
}

/// The longest certificate is checked; one byte more is refused with 8 at its chunk, and an endless one too.
#[test]
fn too_long() {
    let message = certificate(LIMIT);
    let tag = tag_of(PLAIN, &message);
    let mut told = Vec::new();
    let checked = check_reader(PLAIN, &key(), &message[..], 0, &tag, |bytes| told.push(bytes)).unwrap();
    assert_eq!(checked, Checked::Yes { calls: 65_537 });
    assert_eq!(told, (1..=32).map(|chunk| 32_768 * chunk).collect::<Vec<_>>());
    for more in [io::repeat(0).take(1), io::repeat(0).take(u64::MAX)] {
        let mut last = 0;
        let long = (&message[..]).chain(more);
        let checked = check_reader(PLAIN, &key(), long, 0, &tag, |bytes| last = bytes).unwrap();
        assert_eq!((number(checked), last), (8, LIMIT as u64));
    }
}

#[test]
fn not_as_long_as_declared() {
    let tag = tag_of(DECLARED, MESSAGE);
    for (declared, length, refusal) in [(256, 32, 0), (256, 31, 12), (248, 32, 12), (0, 1, 12), (257, 32, 12)]
    {
        let checked = check_reader(DECLARED, &key(), &MESSAGE[..length], declared, &tag, |_| ()).unwrap();
        assert_eq!(number(checked), refusal, "{declared} bits declared, {length} bytes");
        assert_eq!(checked.is_yes(), refusal == 0);
    }
    let late = MESSAGE.chain(&[0; 1][..]).chain(Untouched);
    assert_eq!(number(check_reader(DECLARED, &key(), late, 256, &tag, |_| ()).unwrap()), 12);
    let short = check_reader(agreed(4, 1, 64), &keys(), &MESSAGE[..16], 0, &tag, |_| ()).unwrap();
    assert_eq!(number(short), 9);
}

/// A file of these bytes that is gone at the end.
struct Scratch(PathBuf);

impl Scratch {
    fn new(name: &str, bytes: &[u8]) -> Scratch {
        let path = std::env::temp_dir().join(format!("slipseal-{}-{name}", process::id()));
        fs::write(&path, bytes).unwrap();
        Scratch(path)
    }
}

impl Drop for Scratch {
    fn drop(&mut self) {
        let _ = fs::remove_file(&self.0);
    }
}

#[test]
fn files() {
    for length in [0, 1, 40_000] {
        let message = certificate(length);
        let file = Scratch::new(&format!("of-{length}"), &message);
        for agreement in [PLAIN, DECLARED] {
            let right = tag_of(agreement, &message);
            let mut told = 0;
            let checked = check_file(agreement, &key(), &file.0, &right, |bytes| told = bytes).unwrap();
            assert!(checked.is_yes(), "{length} bytes");
            assert_eq!(told, length as u64);
            let wrong: Vec<u8> = right.iter().map(|byte| !byte).collect();
            let checked = check_file(agreement, &key(), &file.0, &wrong, |_| ()).unwrap();
            assert!(matches!(checked, Checked::No { .. }), "{length} bytes");
        }
    }
}

/// The length was taken from the metadata, and one byte more comes while the file is read.
#[test]
fn a_file_that_grows() {
    let message = certificate(40_000);
    let file = Scratch::new("grows", &message);
    let tag = tag_of(DECLARED, &message);
    let mut once = true;
    let grow = |_| {
        if std::mem::take(&mut once) {
            File::options().append(true).open(&file.0).unwrap().write_all(b"x").unwrap();
        }
    };
    assert_eq!(number(check_file(DECLARED, &key(), &file.0, &tag, grow).unwrap()), 12);
}

#[test]
fn files_that_are_too_long_or_not_there() {
    let file = Scratch::new("long", &certificate(LIMIT + 1));
    for agreement in [PLAIN, DECLARED] {
        let mut told = 0;
        let checked = check_file(agreement, &key(), &file.0, &[0; 8], |bytes| told = bytes).unwrap();
        assert_eq!(number(checked), 8);
        assert_eq!(told, if agreement == PLAIN { LIMIT as u64 } else { 0 });
    }
    let nowhere = check_file(PLAIN, &key(), "/nowhere/certificate", &[0; 8], |_| ()).unwrap_err();
    assert_eq!(nowhere.kind(), ErrorKind::NotFound);
    assert!(check_file(PLAIN, &key(), std::env::temp_dir(), &[0; 8], |_| ()).is_err(), "a folder");
}
