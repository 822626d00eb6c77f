//! One unreadable block, worked out of the full tag and put where it was (02 §5, open point 31).

use crate::call::{call_refusal, Agreement};
use crate::mac::{xor, Engine};
use crate::padding;
use crate::sm4::Block;

/// Whether the block of this number, counted from 0, does not lie in the message's bits with all its 128.
pub fn no_such_block(bits: u64, block: u64) -> bool {
    (u128::from(block) + 1) * 128 > u128::from(bits)
}

/// D(j) under which the padded message has this G, the other blocks being what they are; D(j) itself is not read.
fn filling(agreement: Agreement, keys: &[u8], message: &[u8], bits: u64, j: u64, g: &Block) -> Block {
    let (padding, mut engine) = (agreement.padding, Engine::new(agreement, keys));
    let d = |i| padding::block(padding, message, bits, i);
    let mut h = engine.begin();
    for i in 1..j {
        h = engine.step(i == 1, &h, &d(i));
    }
    let mut sum = engine.undo_last(padding::complete(bits), g); // H(q-1) xor D(q)
    for i in (j..padding::q(padding, bits)).rev() {
        sum = engine.undo_step(i == 1, &xor(&sum, &d(i + 1))); // H(i-1) xor D(i)
    }
    xor(&h, &sum)
}

/// Puts the block of this number, counted from 0 in the message, to what the tag asks for, and answers 0; or a refusal, and every
/// byte stays: 1 to 5 and 7 to 10 as when checking, 3 also for m other than 128, then 41.
pub fn restore(
    agreement: Agreement,
    keys: &[u8],
    message: &mut [u8],
    bits: u64,
    block: u64,
    tag: &[u8],
) -> u64 {
    let number = match call_refusal(agreement, keys, message, bits, |size| tag.len() == size) {
        number @ 1..=2 => number,
        _ if agreement.m != 128 => 3,
        0 if no_such_block(bits, block) => 41,
        number => number,
    };
    if number != 0 {
        return number;
    }
    let j = 1 + block + u64::from(agreement.padding == 3); // L stands before the message
    let g: Block = std::array::from_fn(|i| tag[i]);
    let found = filling(agreement, keys, message, bits, j, &g);
    message[16 * block as usize..][..16].copy_from_slice(&found);
    0
}
