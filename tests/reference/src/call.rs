//! Making and checking a tag in one call, and the refusals 1 to 5 and 7 to 10.

use crate::derive::{in_use, key_bytes};
use crate::mac::{self, two_keys};
use crate::padding::{self, bytes_for};
use crate::sm4::Block;

/// The most bits a message may have.
pub const LIMIT: u64 = 8_388_608;

/// What was agreed: any numbers may stand here, and the calls judge them.
#[derive(Clone, Copy, Debug, Default, PartialEq, Eq)]
pub struct Agreement {
    pub algorithm: u64,
    pub padding: u64,
    pub m: u64,
    /// Whether keys are derived from a master.
    pub master: bool,
}

/// `number` is 0 or the refusal's. `yes` is 1 for a tag made or found right; a tag found wrong is
/// number 0, yes 0, with its calls. A refusal has yes 0 and calls 0.
#[derive(Clone, Copy, Debug, Default, PartialEq, Eq)]
pub struct Answer {
    pub number: u64,
    pub yes: u64,
    pub calls: u64,
}

impl Answer {
    pub fn refused(number: u64) -> Answer {
        Answer { number, yes: 0, calls: 0 }
    }
}

/// The first of refusals 1 to 5 that applies, or 0.
pub fn settings_refusal(agreement: Agreement, keys: &[u8]) -> u64 {
    let Agreement { algorithm, padding, m, .. } = agreement;
    if !(1..=8).contains(&algorithm) {
        return 1;
    }
    if !mac::padding_fits(algorithm, padding) {
        return 2;
    }
    if !(1..=mac::m_limit(algorithm)).contains(&m) {
        return 3;
    }
    if Some(keys.len()) != key_bytes(agreement) {
        return 4;
    }
    if !two_keys(algorithm) || algorithm == 3 {
        return 0;
    }
    let [k, k1, k2] = in_use(agreement, keys).keys;
    if k == k1 || algorithm == 4 && k == k2 {
        return 5;
    }
    0
}

/// The first of refusals 1 to 5 and 7 to 10 that applies, or 0; `length_fits` holds a room or a tag to ⌈m/8⌉ bytes.
pub fn call_refusal(
    agreement: Agreement,
    keys: &[u8],
    message: &[u8],
    bits: u64,
    length_fits: impl Fn(usize) -> bool,
) -> u64 {
    let Agreement { algorithm, padding, m, .. } = agreement;
    match settings_refusal(agreement, keys) {
        0 if message.len() as u64 != bytes_for(bits) => 7,
        0 if bits > LIMIT => 8,
        0 if algorithm == 4 && padding::q(padding, bits) < 2 => 9,
        0 if !length_fits(bytes_for(m) as usize) => 10,
        number => number,
    }
}

/// The tag (its first ⌈m/8⌉ bytes), ⌈m/8⌉ and the calls, or the first refusal of 1 to 5 and 7 to 10.
fn tag_of(
    agreement: Agreement,
    keys: &[u8],
    message: &[u8],
    bits: u64,
    length_fits: impl Fn(usize) -> bool,
) -> Result<(Block, usize, u64), u64> {
    let number = call_refusal(agreement, keys, message, bits, length_fits);
    if number != 0 {
        return Err(number);
    }
    let Agreement { algorithm, m, .. } = agreement;
    let (g, calls) = mac::output(agreement, keys, message, bits);
    Ok((mac::truncate(algorithm, m, bits, &g), bytes_for(m) as usize, calls))
}

/// Makes a tag; an accepted call writes the first ⌈m/8⌉ bytes of `tag` and no others.
pub fn make(agreement: Agreement, keys: &[u8], message: &[u8], bits: u64, tag: &mut [u8]) -> Answer {
    match tag_of(agreement, keys, message, bits, |size| tag.len() >= size) {
        Err(number) => Answer::refused(number),
        Ok((right, size, calls)) => {
            tag[..size].copy_from_slice(&right[..size]);
            Answer { number: 0, yes: 1, calls }
        }
    }
}

/// Checks a tag of exactly ⌈m/8⌉ bytes; a spare bit that is set makes it wrong.
pub fn check(agreement: Agreement, keys: &[u8], message: &[u8], bits: u64, tag: &[u8]) -> Answer {
    match tag_of(agreement, keys, message, bits, |size| tag.len() == size) {
        Err(number) => Answer::refused(number),
        Ok((right, size, calls)) => Answer { number: 0, yes: u64::from(right[..size] == *tag), calls },
    }
}
