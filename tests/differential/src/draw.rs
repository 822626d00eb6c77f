//! What the cases are drawn from: settings with independent faults, with a master or without, and messages near the borders of
//! blocks and bytes. Each fault comes about once in sixteen, so that most cases have none, and some several.

use reference::call::LIMIT;
use reference::cases::Random;
use reference::derive::{derived, key_bytes};
use reference::mac::{key_at, m_limit, two_keys};
use reference::padding::bytes_for;
use reference::Agreement;

/// True once in so many times.
pub fn once_in(r: &mut Random, n: u64) -> bool {
    r.below(n) == 0
}

fn one_of(r: &mut Random, numbers: &[u64]) -> u64 {
    numbers[r.below(numbers.len() as u64) as usize]
}

/// A number far off: one that a narrower type would cut to a small one, or any at all.
pub fn far(r: &mut Random) -> u64 {
    match r.below(6) {
        0 => 256 * (1 + r.below(255)) + r.below(130),
        1 => ((1 + r.below(255)) << 32) + r.below(130),
        2 => (1 << 63) + r.below(130),
        3 => u64::MAX - r.below(9),
        4 => 0,
        _ => r.draw() >> r.below(64),
    }
}

/// A bit count that no lent message has.
pub fn far_bits(r: &mut Random) -> u64 {
    match r.below(3) {
        0 => one_of(r, &[LIMIT, LIMIT + 1, 1 << 32, (1 << 32) + 8, 1 << 61, 1 << 63]),
        1 => u64::MAX - r.below(16),
        _ => r.draw() >> r.below(40),
    }
}

/// The number of a block that no lent message has; times 128 or 16 it may wrap to that of one that it has.
pub fn far_block(r: &mut Random) -> u64 {
    match r.below(4) {
        0 => one_of(r, &[LIMIT / 128, 1 << 32, 1 << 53, 1 << 57, 1 << 60, 1 << 61, 1 << 63]) + r.below(4),
        1 => ((1 + r.below(127)) << 57) + r.below(8),
        2 => u64::MAX - r.below(9),
        _ => r.draw() >> r.below(40),
    }
}

/// An agreement of which one number is another: by one, in a bit of the lowest byte, in those above it alone, or any other. Now and
/// then the master is another too.
pub fn another(r: &mut Random, Agreement { algorithm, padding, m, master }: Agreement) -> Agreement {
    let mut numbers = [algorithm, padding, m];
    let number = &mut numbers[r.below(3) as usize];
    *number = match r.below(5) {
        0 => number.wrapping_add(1),
        1 => number.wrapping_sub(1),
        2 => *number ^ (1 << r.below(8)),
        3 => *number ^ (1 << (8 + r.below(56))),
        _ => number.wrapping_add((r.draw() >> r.below(64)).max(1)),
    };
    let [algorithm, padding, m] = numbers;
    Agreement { algorithm, padding, m, master: master != once_in(r, 4) }
}

fn takes_master(algorithm: u64) -> bool {
    matches!(algorithm, 2 | 4 | 6)
}

/// The first key becomes one that is derived from the second, or now and then one near it.
pub fn as_derived(r: &mut Random, keys: &mut [u8]) {
    let made = derived(&key_at(keys, 1));
    keys[..16].copy_from_slice(&made[r.below(2) as usize]);
    if once_in(r, 3) {
        keys[r.below(16) as usize] ^= 1 << r.below(8);
    }
}

/// An agreement and keys for it.
#[derive(Clone)]
pub struct Settings {
    pub agreement: Agreement,
    pub keys: Vec<u8>,
}

impl Settings {
    /// Settings that may have each of the faults 1 to 5.
    pub fn draw(r: &mut Random) -> Settings {
        let mut algorithm = 1 + r.below(8);
        if once_in(r, 20) {
            algorithm = if once_in(r, 2) { 9 } else { far(r) };
        }
        let padding = match r.below(20) {
            0 => r.below(6),
            1 => far(r),
            _ => fitting(r, algorithm),
        };
        let limit = m_limit(algorithm);
        let m = match r.below(16) {
            0 => far(r),
            1 => limit + r.below(3),
            2 | 3 => (8 * r.below(17)).min(limit),
            4 | 5 => limit,
            _ => 1 + r.below(limit),
        };
        let master = once_in(r, if takes_master(algorithm) { 2 } else { 12 });
        let agreement = Agreement { algorithm, padding, m, master };
        // Where no number of bytes is right, mostly that which is so without a master.
        let wanted = key_bytes(agreement).unwrap_or(if two_keys(algorithm) { 32 } else { 16 });
        let count = match r.below(40) {
            0 => r.below(49) as usize,
            1 => wanted - 1,
            2 => wanted + 1,
            3 => 48 - wanted,
            _ => wanted,
        };
        let mut keys = vec![0; 48];
        r.fill(&mut keys);
        if once_in(r, 5) {
            let (one, two) = keys.split_at_mut(16);
            two[..16].copy_from_slice(one);
            match r.below(4) {
                0 => two[..16].iter_mut().for_each(|byte| *byte ^= 0xF0), // K = K''
                1 => two[..16].iter_mut().for_each(|byte| *byte ^= 0x0F),
                2 => two[r.below(16) as usize] ^= 1 << r.below(8),
                _ => (),
            }
        } else if once_in(r, if algorithm == 4 { 2 } else { 16 }) {
            as_derived(r, &mut keys);
        }
        keys.truncate(count);
        Settings { agreement, keys }
    }

    /// Settings that pass, for an algorithm of 1 to 8; every second time under a master where it takes one.
    pub fn sound(r: &mut Random, algorithm: u64) -> Settings {
        let (padding, m) = (fitting(r, algorithm), 1 + r.below(m_limit(algorithm)));
        let agreement = Agreement { algorithm, padding, m, master: takes_master(algorithm) && once_in(r, 2) };
        let mut keys = vec![0; key_bytes(agreement).expect("a number of bytes that is right")];
        r.fill(&mut keys);
        Settings { agreement, keys }
    }

    /// ⌈m/8⌉, or 16 where m is no size.
    pub fn tag_size(&self) -> usize {
        match self.agreement.m {
            m @ 1..=128 => bytes_for(m) as usize,
            _ => 16,
        }
    }
}

fn fitting(r: &mut Random, algorithm: u64) -> u64 {
    match algorithm {
        5 | 7 | 8 => 4,
        _ => 1 + r.below(3),
    }
}

/// A bit count: near the border of a block, of some hundred bytes, or now and then of some thousand; for algorithm 4 often short.
pub fn bits(r: &mut Random, algorithm: u64) -> u64 {
    if algorithm == 4 && once_in(r, 4) {
        return r.below(130);
    }
    match r.below(64) {
        0 => r.below(8 * 8192),
        1 => 128 * r.below(512),
        2..=20 => r.below(8 * 400),
        21..=30 => 128 * r.below(12),
        31..=40 => 8 * r.below(200),
        _ => (128 * r.below(8) + r.below(20)).saturating_sub(10),
    }
}

/// The bytes that hold so many bits, spare bits drawn like the others.
pub fn message(r: &mut Random, bits: u64) -> Vec<u8> {
    let mut bytes = vec![0; bytes_for(bits) as usize];
    r.fill(&mut bytes);
    bytes
}

/// The size of a room or of an offered tag: mostly what is asked.
pub fn near(r: &mut Random, size: usize) -> usize {
    match r.below(24) {
        0 => size - 1,
        1 => r.below(size as u64) as usize,
        2..=4 => size + 1,
        5..=8 => size + r.below(20) as usize,
        _ => size,
    }
}
