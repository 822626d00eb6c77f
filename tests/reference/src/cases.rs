//! Deterministic pseudo-random draws for comparing two implementations: settings, slips to be read and slips to be written. Numbers
//! are unsigned, 64 bits, and wrap; long constants are hexadecimal; the tables stand below.
//!
//! # The draws (xorshift64*)
//!
//! The state x is the seed, or 9E3779B97F4A7C15 for seed 0, and the first 16 draws are thrown away.
//! - draw: `x ^= x >> 12; x ^= x << 25; x ^= x >> 27;` the result is `x * 2545F4914F6CDD1D`.
//! - below(n): `(draw >> 32) % n`.
//! - fill: each byte of the buffer, first to last, is below(256).
//! - far: `FAR[below(8)]`.
//!
//! "by below(n): 0: A; 1: B; else C" draws below(n) once and then only what the chosen case draws. Draws are made in the order
//! written.
//!
//! # Settings
//!
//! 1. algorithm, by below(32): 0: far; else 1 + below(8).
//! 2. padding, by below(32): 0: far; 1: 1 + below(4); else 4 for algorithms 5, 7, 8 (no draw) and
//!    1 + below(3) for all other numbers.
//! 3. m, limit = 63 for algorithm 7, else 128; by below(16): 0: far; 1: limit + below(3);
//!    2: 8 * below(17); else 1 + below(limit).
//! 4. number of key bytes, w = 32 for algorithms 2, 3, 4, 6, else 16; by below(32): 0: below(49);
//!    1: w - 1; 2: w + 1; 3: 48 - w; else w.
//! 5. fill 48 key bytes (the keys lent are the first so many).
//! 6. by below(16): 0: bytes 16..32 become bytes 0..16; 1: the same, each xor F0; 2: as 0, and byte
//!    31 xor 1; else nothing.
//!
//! size(m) is ⌈m/8⌉ for m from 1 to 128, else 16. No master is in use.
//!
//! # Settings that may have a master
//!
//! 1. a master, by below(4): 0: none; else one. 2. algorithm, by below(16): 0: far; 1, 2: 1 + below(8); else 2, 4, 6 at below(3).
//! 3. to 7. as 2. to 6. of Settings; but under a master w = 16 for algorithms 2 and 6, and of its last draw, for algorithm 4, M being
//!    bytes 16..32: 3: bytes 0..16 become M's first derived key; 4: its second; 5, 6: as 3 and 4, and byte 15 xor 1.
//!
//! # A slip
//!
//! 1. Settings; algorithm, padding and m are cut to their lowest byte.
//! 2. year, month, day, by below(8): 0: 1990 + below(120), below(14), below(33); 1: 2000 + below(100),
//!    2, 28 + below(3); else 2000 + below(100), 1 + below(12), 1 + below(28).
//! 3. lot length, by below(16): 0: below(35); else 1 + below(32). 4. each lot byte 33 + below(94).
//! 5. amount, by below(8): 0: AMOUNTS[below(8)]; else 1 + below(1000000).
//! 6. t, by below(16): 0: size(m) - 1; 1: size(m) + 1; else size(m).
//! 7. The slip is written: 01 00 08, year in 4, month and day in 2 digits each; 02, the lot's length in
//!    two bytes, lot; 03 00 04, amount in 4 bytes; 7F, 3 + t in two bytes, algorithm, padding, m, and
//!    the first t of 17 bytes that are A5 all before make, lent them, wrote the tag of all before 7F
//!    (where it refuses, they stay).
//! 8. by below(12): 0: cut to below(length + 1) bytes; 1: one byte below(256) put after;
//!    2: i = below(length), then byte i becomes below(256); 3: i = below(length), then byte i xor
//!    1 << below(8); 4: the last byte xor 1 << below(8); else nothing.
//! 9. It is read under the algorithm, padding and m of 7.; by below(20): 0 to 3: i = below(3), then number i
//!    of the three becomes one more with 0, one less with 1, 1 << WIDE[below(8)] more with 2, far with 3;
//!    4: the three are those of new Settings; else nothing.
//!
//! # A slip to be written
//!
//! 1. Settings; again, while they get one of 1 to 5 and then below(3) is not 0. 2. to 5. as of a slip.
//! 6. by below(24): 0, 1: i = below(lot length, or 1 if that is 0), then lot byte i, if there is one, becomes
//!    below(256) with 0 and EDGES[below(8)] with 1; else nothing.
//! 7. by below(32): 0: year, 1: month, 2: day, 3: amount plus 1 << WIDE[below(8)]; else nothing.
//! 8. size of the room, length = 27 + lot length + size(m); by below(12): 0: length - 1; 1: below(length);
//!    2: length + 1 + below(8); else length.

use crate::call::{make, settings_refusal, Agreement};
use crate::derive::{derived, key_bytes};
use crate::mac::{key_at, m_limit, two_keys};
use crate::padding::bytes_for;
use crate::slip::Says;

pub const FAR: [u64; 8] = [0, 9, 129, 257, (1 << 32) + 1, (1 << 32) + 64, (1 << 63) + 8, u64::MAX];
pub const BITS: [u64; 8] =
    [8_388_608, 8_388_609, 1 << 32, (1 << 32) + 8, 1 << 63, u64::MAX - 7, u64::MAX - 6, u64::MAX];
/// Numbers of blocks that no message has; times 128 or 16, or with one added before that, most of them wrap to small numbers.
pub const BLOCKS: [u64; 8] =
    [65_536, 1 << 32, (1 << 57) - 1, 1 << 57, (1 << 57) + 1, 1 << 60, 1 << 63, u64::MAX];
pub const AMOUNTS: [u64; 8] = [0, 1, 255, 65_536, 999_999, 1_000_000, 1_000_001, 0xFFFF_FFFF];
pub const EDGES: [u64; 8] = [0x00, 0x20, 0x21, 0x7E, 0x7F, 0x80, 0xA1, 0xFF];
pub const WIDE: [u64; 8] = [8, 16, 24, 31, 32, 33, 48, 63];

pub struct Random {
    state: u64,
}

impl Random {
    pub fn new(seed: u64) -> Random {
        let mut random = Random { state: if seed == 0 { 0x9E37_79B9_7F4A_7C15 } else { seed } };
        for _ in 0..16 {
            random.draw();
        }
        random
    }

    pub fn draw(&mut self) -> u64 {
        self.state ^= self.state >> 12;
        self.state ^= self.state << 25;
        self.state ^= self.state >> 27;
        self.state.wrapping_mul(0x2545_F491_4F6C_DD1D)
    }

    pub fn below(&mut self, n: u64) -> u64 {
        (self.draw() >> 32) % n
    }

    pub fn fill(&mut self, bytes: &mut [u8]) {
        for byte in bytes {
            *byte = self.below(256) as u8;
        }
    }

    fn one_of(&mut self, table: &[u64; 8]) -> u64 {
        table[self.below(8) as usize]
    }
}

/// An agreement and keys for it.
pub struct Settings {
    pub agreement: Agreement,
    pub key_bytes: [u8; 48],
    pub key_count: usize,
}

impl Settings {
    pub fn draw(r: &mut Random) -> Settings {
        let algorithm = match r.below(32) {
            0 => r.one_of(&FAR),
            _ => 1 + r.below(8),
        };
        Settings::draw_for(r, algorithm, false)
    }

    /// Settings that may have a master.
    pub fn draw_master(r: &mut Random) -> Settings {
        let master = r.below(4) > 0;
        let algorithm = match r.below(16) {
            0 => r.one_of(&FAR),
            1 | 2 => 1 + r.below(8),
            _ => [2, 4, 6][r.below(3) as usize],
        };
        Settings::draw_for(r, algorithm, master)
    }

    fn draw_for(r: &mut Random, algorithm: u64, master: bool) -> Settings {
        let padding = match r.below(32) {
            0 => r.one_of(&FAR),
            1 => 1 + r.below(4),
            _ if matches!(algorithm, 5 | 7 | 8) => 4,
            _ => 1 + r.below(3),
        };
        let limit = m_limit(algorithm);
        let m = match r.below(16) {
            0 => r.one_of(&FAR),
            1 => limit + r.below(3),
            2 => 8 * r.below(17),
            _ => 1 + r.below(limit),
        };
        let agreement = Agreement { algorithm, padding, m, master };
        let wanted = key_bytes(agreement).unwrap_or(if two_keys(algorithm) { 32 } else { 16 }) as u64;
        let key_count = match r.below(32) {
            0 => r.below(49),
            1 => wanted - 1,
            2 => wanted + 1,
            3 => 48 - wanted,
            _ => wanted,
        };
        let mut key_bytes = [0; 48];
        r.fill(&mut key_bytes);
        let kind = r.below(16);
        if kind < 3 {
            for i in 0..16 {
                key_bytes[16 + i] = key_bytes[i] ^ if kind == 1 { 0xF0 } else { 0 };
            }
            key_bytes[31] ^= u8::from(kind == 2);
        }
        if master && algorithm == 4 && (3..7).contains(&kind) {
            let keys = derived(&key_at(&key_bytes, 1));
            key_bytes[..16].copy_from_slice(&keys[usize::from(kind % 2 == 0)]);
            key_bytes[15] ^= u8::from(kind > 4);
        }
        Settings { agreement, key_bytes, key_count: key_count as usize }
    }

    pub fn keys(&self) -> &[u8] {
        &self.key_bytes[..self.key_count]
    }

    pub fn tag_size(&self) -> u64 {
        if (1..=128).contains(&self.agreement.m) {
            bytes_for(self.agreement.m)
        } else {
            16
        }
    }

    fn words(&self) -> [u64; 3] {
        [self.agreement.algorithm, self.agreement.padding, self.agreement.m]
    }
}

/// Date, lot and amount.
fn draw_says(r: &mut Random) -> Says {
    let (year, month, day) = match r.below(8) {
        0 => (1990 + r.below(120), r.below(14), r.below(33)),
        1 => (2000 + r.below(100), 2, 28 + r.below(3)),
        _ => (2000 + r.below(100), 1 + r.below(12), 1 + r.below(28)),
    };
    let lot_count = match r.below(16) {
        0 => r.below(35),
        _ => 1 + r.below(32),
    };
    let lot = (0..lot_count).map(|_| 33 + r.below(94) as u8).collect();
    let amount = match r.below(8) {
        0 => r.one_of(&AMOUNTS),
        _ => 1 + r.below(1_000_000),
    };
    Says { year, month, day, lot, amount }
}

/// What a slip is read under that was written with these numbers.
fn draw_agreed(r: &mut Random, named: [u64; 3]) -> Agreement {
    let mut numbers = named;
    let kind = r.below(20);
    if kind < 4 {
        let number = &mut numbers[r.below(3) as usize];
        *number = match kind {
            0 => number.wrapping_add(1),
            1 => number.wrapping_sub(1),
            2 => *number + (1 << r.one_of(&WIDE)),
            _ => r.one_of(&FAR),
        };
    }
    if kind == 4 {
        numbers = Settings::draw(r).words();
    }
    let [algorithm, padding, m] = numbers;
    Agreement { algorithm, padding, m, master: false }
}

/// A slip and the settings that it is read under.
pub fn draw_slip(r: &mut Random) -> (Vec<u8>, Settings) {
    let mut s = Settings::draw(r);
    let [algorithm, padding, m] = s.words().map(|number| number % 256);
    s.agreement = Agreement { algorithm, padding, m, master: false };
    let Says { year, month, day, lot, amount } = draw_says(r);
    let tag_count = match r.below(16) {
        0 => s.tag_size() - 1,
        1 => s.tag_size() + 1,
        _ => s.tag_size(),
    };

    let mut slip = vec![1, 0, 8];
    slip.extend(format!("{year:04}{month:02}{day:02}").bytes());
    slip.extend([2, 0, lot.len() as u8]);
    slip.extend(lot);
    slip.extend([3, 0, 4]);
    slip.extend((amount as u32).to_be_bytes());
    let mut tag = [0xA5; 17];
    make(s.agreement, s.keys(), &slip, 8 * slip.len() as u64, &mut tag);
    slip.extend([0x7F, 0, 3 + tag_count as u8, algorithm as u8, padding as u8, m as u8]);
    slip.extend(&tag[..tag_count as usize]);

    let length = slip.len() as u64;
    match r.below(12) {
        0 => slip.truncate(r.below(length + 1) as usize),
        1 => slip.push(r.below(256) as u8),
        2 => {
            let place = r.below(length) as usize;
            slip[place] = r.below(256) as u8;
        }
        3 => {
            let place = r.below(length) as usize;
            slip[place] ^= 1 << r.below(8);
        }
        4 => slip[length as usize - 1] ^= 1 << r.below(8),
        _ => (),
    }
    s.agreement = draw_agreed(r, [algorithm, padding, m]);
    (slip, s)
}

/// Settings, what a slip is to say, and the size of the room for it.
pub fn draw_write(r: &mut Random) -> (Settings, Says, usize) {
    let mut s = Settings::draw(r);
    while settings_refusal(s.agreement, s.keys()) != 0 && r.below(3) != 0 {
        s = Settings::draw(r);
    }
    let mut says = draw_says(r);
    let kind = r.below(24);
    if kind < 2 {
        let place = r.below(says.lot.len().max(1) as u64) as usize;
        let byte = if kind == 0 { r.below(256) } else { r.one_of(&EDGES) };
        if let Some(at) = says.lot.get_mut(place) {
            *at = byte as u8;
        }
    }
    let kind = r.below(32);
    if kind < 4 {
        let Says { year, month, day, amount, .. } = &mut says;
        *[year, month, day, amount][kind as usize] += 1 << r.one_of(&WIDE);
    }
    let length = 27 + says.lot.len() as u64 + s.tag_size();
    let room = match r.below(12) {
        0 => length - 1,
        1 => r.below(length),
        2 => length + 1 + r.below(8),
        _ => length,
    };
    (s, says, room as usize)
}
