//! Plain reference of document 01 and of 02 §1 to §3, §5 and §6: SM4, the four paddings and the eight algorithms of GB/T 15852.1
//! (approval draft), keys derived from a master, making and checking in one call and in sessions by pieces, a lost block worked out,
//! and lot slips, read, gathered from reads, and written. Written from the documents alone, to produce expected outputs and to
//! compare with.
//!
//! Programs, for tests/make-runs: `commands` (generated command lines), `answer` (answers to command lines).
#![allow(clippy::manual_is_multiple_of)]

pub mod call;
pub mod cases;
pub mod derive;
pub mod gathered;
pub mod lost;
pub mod mac;
pub mod padding;
pub mod session;
pub mod slip;
pub mod sm4;
#[cfg(test)]
mod tests;

pub use call::{check, make, Agreement, Answer};
pub use lost::restore;

/// Upper case hex digits.
pub fn hex(bytes: &[u8]) -> String {
    bytes.iter().map(|b| format!("{b:02X}")).collect()
}

/// Bytes of hex digits, blanks passed over; None for anything else.
pub fn unhex(text: &str) -> Option<Vec<u8>> {
    let digits: Option<Vec<u8>> =
        text.chars().filter(|c| *c != ' ').map(|c| c.to_digit(16).map(|d| d as u8)).collect();
    let digits = digits.filter(|d| d.len() % 2 == 0)?;
    Some(digits.chunks(2).map(|d| d[0] * 16 + d[1]).collect())
}
