//! Padding methods 1 to 4 and the cut into blocks (000, 6.3 and 6.4).
//! A message is bytes and a bit count, highest bit first; bits past the count have no influence.

use crate::sm4::Block;

/// The bytes that hold this many bits, without wrapping.
pub fn bytes_for(bits: u64) -> u64 {
    bits / 8 + u64::from(bits % 8 != 0)
}

/// A positive multiple of 128 bits.
pub fn complete(bits: u64) -> bool {
    bits > 0 && bits % 128 == 0
}

/// Whether a 1 is put after the message.
pub fn marked(padding: u64, bits: u64) -> bool {
    padding == 2 || padding == 4 && !complete(bits)
}

/// The number of blocks; the block L of method 3 counts.
pub fn q(padding: u64, bits: u64) -> u64 {
    let whole = bits / 128;
    match padding {
        2 => whole + 1,
        3 => 1 + q(1, bits),
        _ => whole + u64::from(!complete(bits)),
    }
}

/// The block L of method 3.
pub fn length_block(bits: u64) -> Block {
    u128::from(bits).to_be_bytes()
}

/// The highest `count` bits (0 to 8) of a byte, zeros after them.
pub fn highest(byte: u8, count: u64) -> u8 {
    byte & !(0xFF_u16 >> count) as u8
}

/// Sets one bit of a block, counted from the left.
pub fn set_bit(block: &mut Block, bit: u64) {
    block[bit as usize / 8] |= 0x80 >> (bit % 8);
}

/// Block D(i) of the padded message, i from 1 to q.
pub fn block(padding: u64, message: &[u8], bits: u64, i: u64) -> Block {
    if padding == 3 {
        return if i == 1 { length_block(bits) } else { block(1, message, bits, i - 1) };
    }
    let mut out = [0; 16];
    let from = 128 * (i - 1); // at most `bits`
    let held = (bits - from).min(128);
    let part = &message[(from / 8) as usize..bytes_for(from + held) as usize];
    out[..part.len()].copy_from_slice(part);
    if held % 8 != 0 {
        out[part.len() - 1] = highest(out[part.len() - 1], held % 8);
    }
    if held < 128 && marked(padding, bits) {
        set_bit(&mut out, held);
    }
    out
}
