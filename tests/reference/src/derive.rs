//! The keys in use: those that were given, or keys derived from a master by key derivation method 1 (000, 6.2.1 and 6.2.2; 02 §6,
//! open points 7 and 32).

use crate::call::Agreement;
use crate::mac::{alternate, key_at, two_keys};
use crate::sm4::{self, Block};

/// n and k of 6.2.2: the bits of a block, and of a key.
const BLOCK_BITS: u64 = 128;
const KEY_BITS: u64 = 128;

/// t: the smallest positive number that is not less than k/n.
const T: u64 = KEY_BITS.div_ceil(BLOCK_BITS);

/// CT(i): the number i in binary, zeros put at its left until it is a block.
fn counter(i: u64) -> Block {
    u128::from(i).to_be_bytes()
}

/// Method 1: the first derived key is the leftmost k bits of e(CT(1)), .., e(CT(t)), joined; the second one those of e(CT(t+1)), ..,
/// e(CT(2t)).
pub fn derived(master: &Block) -> [Block; 2] {
    #[cfg(test)]
    tests::DERIVED.with(|count| count.set(count.get() + 1));
    let keys = sm4::round_keys(master);
    let joined = |first: u64| -> Vec<u8> {
        (first..first + T).flat_map(|i| sm4::encrypt(&keys, &counter(i))).collect()
    };
    [joined(1), joined(T + 1)].map(|s| key_at(&s, 0))
}

/// How many key bytes are given: K, then K' where the algorithm has it; with a master it alone (2 and 6), or K and then it (4).
/// None where no master may be.
pub fn key_bytes(Agreement { algorithm, master, .. }: Agreement) -> Option<usize> {
    match (master, algorithm) {
        (true, 2 | 6) => Some(16),
        (true, 4) => Some(32),
        (true, _) => None,
        (false, _) => Some(if two_keys(algorithm) { 32 } else { 16 }),
    }
}

/// K, K' and K'', zeros in place of those that the algorithm does not have, and the cipher calls made for them.
pub struct InUse {
    pub keys: [Block; 3],
    pub calls: u64,
}

/// The keys in use of given bytes, which are at least as many as `key_bytes` says.
pub fn in_use(agreement: Agreement, given: &[u8]) -> InUse {
    let (first, none) = (key_at(given, 0), [0; 16]);
    let keys = match (agreement.master, agreement.algorithm) {
        (false, 4) => [first, key_at(given, 1), alternate(&key_at(given, 1))],
        (false, 2 | 3 | 6) => [first, key_at(given, 1), none],
        (false, _) => [first, none, none],
        (true, 4) => {
            let [k1, k2] = derived(&key_at(given, 1));
            [first, k1, k2]
        }
        (true, _) => {
            let [k, k1] = derived(&first);
            [k, k1, none]
        }
    };
    InUse { keys, calls: if agreement.master { 2 * T } else { 0 } }
}

#[cfg(test)]
pub mod tests {
    use std::cell::Cell;
    thread_local! {
        /// How often keys were derived on this thread.
        pub static DERIVED: Cell<u64> = const { Cell::new(0) };
    }
}
