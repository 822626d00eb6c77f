//! The lot slip, read under an agreement (01 "The lot slip", 02 §2, open points 24 to 26 and 29) and written (02 §1). It does not name
//! a master (02 §6).

use crate::call::{check, make, Agreement};
use crate::padding::bytes_for;
use std::ops::RangeInclusive;

/// An accepted slip has number 0 and its values; the lot is slip[lot_at..lot_at + lot_len].
/// A refused one has its number and zeros.
#[derive(Clone, Copy, Debug, Default, PartialEq, Eq)]
pub struct Slip {
    pub number: u64,
    pub year: u64,
    pub month: u64,
    pub day: u64,
    pub amount: u64,
    pub calls: u64,
    pub lot_at: u64,
    pub lot_len: u64,
}

/// What a slip is to say: any numbers and bytes may stand here, and `write` judges them.
#[derive(Clone, Debug, Default, PartialEq, Eq)]
pub struct Says {
    pub year: u64,
    pub month: u64,
    pub day: u64,
    pub lot: Vec<u8>,
    pub amount: u64,
}

/// A slip that was written has number 0, its length in bytes and the calls of its seal.
/// A refused one has its number and zeros.
#[derive(Clone, Copy, Debug, Default, PartialEq, Eq)]
pub struct Written {
    pub number: u64,
    pub length: u64,
    pub calls: u64,
}

/// The tags of the fields, in their order.
const EXPIRY: u8 = 0x01;
const LOT: u8 = 0x02;
const AMOUNT: u8 = 0x03;
const SEAL: u8 = 0x7F;

/// Days per month: a row for common years, a row for leap years.
const DAYS: [[u64; 12]; 2] =
    [[31, 28, 31, 30, 31, 30, 31, 31, 30, 31, 30, 31], [31, 29, 31, 30, 31, 30, 31, 31, 30, 31, 30, 31]];
const YEARS: RangeInclusive<u64> = 2000..=2099;
const LOT_LENGTHS: RangeInclusive<usize> = 1..=32;
const LOT_BYTES: RangeInclusive<u8> = 0x21..=0x7E;
const AMOUNTS: RangeInclusive<u64> = 1..=1_000_000;

fn real_date(year: u64, month: u64, day: u64) -> bool {
    let days = |month: u64| DAYS[usize::from(year % 4 == 0)][month as usize - 1];
    YEARS.contains(&year) && (1..=12).contains(&month) && (1..=days(month)).contains(&day)
}

fn lot_bytes(lot: &[u8]) -> bool {
    lot.iter().all(|byte| LOT_BYTES.contains(byte))
}

/// The value of the field that begins at `at`.
fn field(slip: &[u8], at: usize, tag: u8, lengths: RangeInclusive<usize>) -> Result<&[u8], u64> {
    let rest = &slip[at..];
    if rest.len() < 3 {
        return Err(20);
    }
    if rest[0] != tag {
        return Err(21);
    }
    let length = usize::from(rest[1]) * 256 + usize::from(rest[2]);
    if !lengths.contains(&length) {
        return Err(22);
    }
    rest[3..].get(..length).ok_or(20)
}

fn demand(holds: bool, number: u64) -> Result<(), u64> {
    if holds {
        Ok(())
    } else {
        Err(number)
    }
}

fn decimal(digits: &[u8]) -> u64 {
    digits.iter().fold(0, |value, digit| 10 * value + u64::from(digit - b'0'))
}

fn parse(agreement: Agreement, keys: &[u8], slip: &[u8]) -> Result<Slip, u64> {
    let expiry = field(slip, 0, EXPIRY, 8..=8)?;
    demand(expiry.iter().all(u8::is_ascii_digit), 22)?;
    let (year, month, day) = (decimal(&expiry[..4]), decimal(&expiry[4..6]), decimal(&expiry[6..]));
    demand(real_date(year, month, day), 23)?;

    let lot_at = 11 + 3;
    let lot = field(slip, 11, LOT, LOT_LENGTHS)?;
    demand(lot_bytes(lot), 22)?;

    let amount_at = lot_at + lot.len();
    let amount = field(slip, amount_at, AMOUNT, 4..=4)?;
    let amount = amount.iter().fold(0, |value, byte| 256 * value + u64::from(*byte));
    demand(AMOUNTS.contains(&amount), 22)?;

    let seal_at = amount_at + 7;
    let seal = field(slip, seal_at, SEAL, 4..=19)?;
    demand(slip.len() == seal_at + 3 + seal.len(), 24)?;

    let named =
        Agreement { algorithm: seal[0].into(), padding: seal[1].into(), m: seal[2].into(), ..agreement };
    demand(named == agreement, 25)?;

    let (covered, bits) = (&slip[..seal_at], 8 * seal_at as u64);
    let answer = check(agreement, keys, covered, bits, &seal[3..]);
    demand(answer.number == 0, answer.number)?;
    demand(answer.yes == 1, 30)?;
    let (lot_at, lot_len) = (lot_at as u64, lot.len() as u64);
    Ok(Slip { number: 0, year, month, day, amount, calls: answer.calls, lot_at, lot_len })
}

/// How often each number was answered, 0 for an accepted slip.
pub type Tally = std::collections::BTreeMap<u64, u64>;

pub fn tally(agreement: Agreement, keys: &[u8], slips: impl Iterator<Item = Vec<u8>>) -> Tally {
    let mut tally = Tally::new();
    for slip in slips {
        *tally.entry(read(agreement, keys, &slip).number).or_default() += 1;
    }
    tally
}

/// The slip with each byte replaced by every other value, one byte at a time.
pub fn changed(agreement: Agreement, keys: &[u8], slip: &[u8]) -> Tally {
    let one = |at: usize, value: u8| [&slip[..at], &[value], &slip[at + 1..]].concat();
    let others =
        |at: usize| (0..=255).filter(move |value| *value != slip[at]).map(move |value| one(at, value));
    tally(agreement, keys, (0..slip.len()).flat_map(others))
}

/// The slip cut short, to every length below its own.
pub fn prefixes(agreement: Agreement, keys: &[u8], slip: &[u8]) -> Tally {
    tally(agreement, keys, (0..slip.len()).map(|length| slip[..length].to_vec()))
}

/// Reads a slip: what its seal names is compared with the agreement, and its seal is checked under the agreement.
pub fn read(agreement: Agreement, keys: &[u8], slip: &[u8]) -> Slip {
    parse(agreement, keys, slip).unwrap_or_else(|number| Slip { number, ..Slip::default() })
}

/// A field as it is written: its tag, the length of its value, high byte first, and the value.
fn put(tag: u8, value: &[u8]) -> Vec<u8> {
    [&[tag], &(value.len() as u16).to_be_bytes()[..], value].concat()
}

/// The slip and the calls of its seal, for a room of so many bytes.
fn print(agreement: Agreement, keys: &[u8], says: &Says, room: usize) -> Result<(Vec<u8>, u64), u64> {
    let Says { year, month, day, ref lot, amount } = *says;
    demand(LOT_LENGTHS.contains(&lot.len()) && lot_bytes(lot), 22)?;
    demand(AMOUNTS.contains(&amount), 22)?;
    demand(real_date(year, month, day), 23)?;

    let date = format!("{year:04}{month:02}{day:02}");
    let amount = (amount as u32).to_be_bytes();
    let covered = [put(EXPIRY, date.as_bytes()), put(LOT, lot), put(AMOUNT, &amount)].concat();
    let mut tag = [0; 16];
    let answer = make(agreement, keys, &covered, 8 * covered.len() as u64, &mut tag);
    demand(answer.number == 0, answer.number)?;

    let Agreement { algorithm, padding, m, .. } = agreement;
    let named = [algorithm as u8, padding as u8, m as u8];
    let seal = put(SEAL, &[&named, &tag[..bytes_for(m) as usize]].concat());
    let slip = [covered, seal].concat();
    demand(slip.len() <= room, 10)?;
    Ok((slip, answer.calls))
}

/// Writes a slip at the front of the room; the bytes past it stay, and of a refusal all bytes.
pub fn write(agreement: Agreement, keys: &[u8], says: &Says, room: &mut [u8]) -> Written {
    match print(agreement, keys, says, room.len()) {
        Err(number) => Written { number, ..Written::default() },
        Ok((slip, calls)) => {
            room[..slip.len()].copy_from_slice(&slip);
            Written { number: 0, length: slip.len() as u64, calls }
        }
    }
}
