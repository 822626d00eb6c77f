//! Keys, messages, annex A, the slips of the run R6 and readers that deliver oddly, for all tests.
#![allow(dead_code)] // each test file uses its own part

use std::io::{self, ErrorKind, Read};

use slipseal::{make, Agreement, Contents};

pub const MESSAGE: &[u8; 32] = b"This is the test message for mac";

pub fn hex(digits: &str) -> Vec<u8> {
    let digits: String = digits.split_whitespace().collect();
    (0..digits.len()).step_by(2).map(|i| u8::from_str_radix(&digits[i..i + 2], 16).unwrap()).collect()
}

/// K of annex A.
pub fn key() -> Vec<u8> {
    hex("0123456789ABCDEFFEDCBA9876543210")
}

/// K, then K', of annex A.
pub fn keys() -> Vec<u8> {
    hex("0123456789ABCDEFFEDCBA9876543210 4149D2ADED9456681EC8B511D9E7EE04")
}

/// The keys of annex A that an algorithm takes.
pub fn keys_of(algorithm: u64) -> Vec<u8> {
    if matches!(algorithm, 2..=4 | 6) {
        keys()
    } else {
        key()
    }
}

pub const fn agreed(algorithm: u64, padding: u64, m: u64) -> Agreement {
    Agreement { algorithm, padding, m, master: false }
}

/// The tag and the calls of one call.
pub fn made(agreement: Agreement, keys: &[u8], message: &[u8], bits: usize) -> (Vec<u8>, u64) {
    let mut room = [0; 16];
    let made = make(agreement, keys, message, bits, &mut room).unwrap();
    (made.tag.to_vec(), made.calls)
}

/// With each of its bits turned, the first one first.
pub fn turned(tag: &[u8]) -> impl Iterator<Item = Vec<u8>> + '_ {
    (0..8 * tag.len()).map(|place| {
        let mut other = tag.to_vec();
        other[place / 8] ^= 0x80 >> (place % 8);
        other
    })
}

pub struct Vector {
    pub algorithm: u64,
    pub padding: u64,
    pub message: &'static [u8],
    pub keys: Vec<u8>,
    pub tag: Vec<u8>,
    pub g: Vec<u8>,
}

pub fn annex_a() -> Vec<Vector> {
    let lines = include_str!("../../../annex_a.txt").lines().filter(|line| !line.starts_with('#'));
    let vector = |line: &str| {
        let words: Vec<&str> = line.split(' ').collect();
        Vector {
            algorithm: words[0].parse().unwrap(),
            padding: words[1].parse().unwrap(),
            message: if words[2] == "1" { MESSAGE } else { &MESSAGE[..25] },
            keys: hex(words[3]),
            tag: hex(words[4]),
            g: hex(words[5]),
        }
    };
    lines.map(vector).collect()
}

/// The cipher calls by document 01's table.
pub fn calls(algorithm: u64, padding: u64, bits: usize) -> u64 {
    let filled = bits.div_ceil(128).max(1);
    let q = [filled, bits / 128 + 1, filled + 1, filled][padding as usize - 1];
    (q + [0, 1, 2, 2, 1, 0, 0, 1][algorithm as usize - 1]) as u64
}

/// What the slips of R6 say.
pub const GOOD: Contents<'static> = Contents { year: 2026, month: 11, day: 4, lot: b"A7", amount: 500 };

/// What was agreed on the first of them.
pub const AGREED: Agreement = agreed(5, 4, 64);

/// What was agreed, seal, bytes of the keys, and calls of the accepted ones.
pub const R6: [(Agreement, &str, usize, u64); 3] = [
    (AGREED, "7F000B050440 A47A9299C7B8456C", 16, 3),
    (agreed(2, 2, 64), "7F000B020240 25BE21F5FDEE57F4", 32, 3),
    (agreed(1, 1, 12), "7F000501010C A330", 16, 2),
];

pub const COVERED: &str = "01000832303236313130340200024137030004000001F4";

pub fn slip(seal: &str) -> Vec<u8> {
    [hex(COVERED), hex(seal)].concat()
}

/// The first slip of R6.
pub fn first() -> Vec<u8> {
    slip(R6[0].1)
}

/// Gives one of these at each read, then the end of input; no bytes are the end of input too.
pub struct Scanner<I>(pub I);

impl<I: Iterator<Item = io::Result<Vec<u8>>>> Read for Scanner<I> {
    fn read(&mut self, buffer: &mut [u8]) -> io::Result<usize> {
        let bytes = self.0.next().unwrap_or(Ok(Vec::new()))?;
        buffer[..bytes.len()].copy_from_slice(&bytes);
        Ok(bytes.len())
    }
}

pub fn byte_by_byte(bytes: &[u8]) -> impl Iterator<Item = io::Result<Vec<u8>>> + '_ {
    bytes.iter().map(|byte| Ok(vec![*byte]))
}

pub fn interrupted() -> io::Result<Vec<u8>> {
    Err(ErrorKind::Interrupted.into())
}
