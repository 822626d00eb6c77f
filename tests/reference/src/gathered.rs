//! A slip that comes in reads of any lengths (open points 25 and 38): all bytes that came are joined, without any limit, and read
//! once. A record is what is kept of them between two reads; here it is made of the joined bytes, and never added to.

use crate::call::Agreement;
use crate::slip::{tally, Tally};

/// So many bytes are kept: a slip has 75 at most, and one more tells that it is longer.
pub const MOST: usize = 76;

/// Any count and any bytes may stand here.
#[derive(Clone, Copy, Debug, PartialEq, Eq)]
pub struct Gathered {
    pub count: u64,
    pub bytes: [u8; 80],
}

impl Gathered {
    /// The record of all bytes that came: the number of those that are kept, these, and zeros.
    pub fn of(came: &[u8]) -> Gathered {
        let kept = &came[..came.len().min(MOST)];
        let mut bytes = [0; 80];
        bytes[..kept.len()].copy_from_slice(kept);
        Gathered { count: kept.len() as u64, bytes }
    }

    /// The bytes that a record stands for: so many as its count says, and 76 at most.
    pub fn held(&self) -> &[u8] {
        &self.bytes[..self.count.min(MOST as u64) as usize]
    }
}

/// Every beginning of a slip, none and the whole included, as the first read: the answers where no other read came, and those where
/// the rest came as the second.
pub fn firsts(agreement: Agreement, keys: &[u8], slip: &[u8]) -> [Tally; 2] {
    let cuts = || (0..=slip.len()).map(|at| slip.split_at(at));
    let alone = tally(agreement, keys, cuts().map(|(first, _)| first.to_vec()));
    let with_rest = tally(agreement, keys, cuts().map(|(first, rest)| [first, rest].concat()));
    [alone, with_rest]
}
