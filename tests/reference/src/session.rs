//! Sessions: a record handed from call to call by value (01 "Numbered answers", 02 §3 and §6, open points 15 to 23, 30 and 32).

use crate::call::{settings_refusal, Agreement, Answer, LIMIT};
use crate::derive::key_bytes;
use crate::mac::{truncate, Engine};
use crate::padding::{self, bytes_for};
use crate::sm4::Block;

/// The purposes of a session: its finish makes a tag, or says whether the expected one is right.
pub const MAKING: u64 = 0;
pub const CHECKING: u64 = 1;

/// Any values may stand here; `is_open` judges them. A closed record as handed out is all zeros.
#[derive(Clone, Copy, Debug, Default, PartialEq, Eq)]
pub struct Record {
    /// 0 closed, 1 open at a byte edge, 2 open after a part byte; any other counts as closed.
    pub phase: u64,
    /// The bits of the part byte, 1 to 7, in phase 2; else 0.
    pub part: u64,
    /// Making or checking; any other counts as closed.
    pub purpose: u64,
    pub agreement: Agreement,
    /// Stored under padding 3 only, else 0.
    pub declared: u64,
    /// The bits fed so far.
    pub total: u64,
    /// The key bytes as they were given, a master too; after a start zeros where there are fewer than 32.
    pub keys: [u8; 32],
    /// H of the blocks enciphered so far.
    pub chain: Block,
    /// The waiting block, full or in part, zeros past the bits it holds.
    pub held: Block,
    /// The tag that a check expects, spare bits as they were given, in the first ⌈m/8⌉ bytes; no others are read. After a start
    /// zeros stand past them, and everywhere where a tag is made.
    pub expected: Block,
}

impl Record {
    /// The key bytes that a start would take for these settings; none where it would refuse them whatever their number.
    fn given(&self) -> &[u8] {
        &self.keys[..key_bytes(self.agreement).unwrap_or(0)]
    }

    /// Message blocks enciphered so far: all full ones but the waiting block.
    fn chained(&self) -> u64 {
        self.total.saturating_sub(1) / 128
    }

    /// Bits of the waiting block: 0 for no bits at all, else 1 to 128.
    fn held_bits(&self) -> u64 {
        self.total - 128 * self.chained()
    }

    /// False for a closed record and for each that counts as closed.
    pub fn is_open(&self) -> bool {
        let state_fits = match self.phase {
            1 => self.part == 0 && self.total % 8 == 0,
            2 => (1..=7).contains(&self.part) && self.total % 8 == self.part,
            _ => false,
        };
        state_fits
            && matches!(self.purpose, MAKING | CHECKING)
            && settings_refusal(self.agreement, self.given()) == 0
            && self.total <= LIMIT
            && (self.agreement.padding != 3 || self.declared <= LIMIT && self.total <= self.declared)
            && u128::from_be_bytes(self.held).checked_shl(self.held_bits() as u32).unwrap_or(0) == 0
    }

    /// Enciphers the waiting block into the chain.
    fn push(&mut self, engine: &mut Engine, block_is_first: bool) {
        let first = block_is_first && self.agreement.padding != 3;
        self.chain = engine.step(first, &self.chain, &self.held);
        self.held = [0; 16];
    }

    /// The calls made by the start and the pieces that led to this record, but for the keys, which each call derives anew.
    fn calls_before(&self) -> u64 {
        let Agreement { algorithm, padding, .. } = self.agreement;
        let blocks = self.chained() + u64::from(padding == 3);
        blocks + u64::from(algorithm == 8) + u64::from(algorithm == 4 && blocks > 0)
    }
}

fn start_refusal(agreement: Agreement, keys: &[u8], declared: u64) -> u64 {
    match settings_refusal(agreement, keys) {
        0 if agreement.padding == 3 && declared > LIMIT => 8,
        number => number,
    }
}

/// The record before the first bit, for settings and a declared length that are not refused.
fn begun(agreement: Agreement, keys: &[u8], declared: u64) -> Record {
    let mut record = Record { phase: 1, purpose: MAKING, agreement, ..Record::default() };
    record.keys[..keys.len()].copy_from_slice(keys);
    let mut engine = Engine::new(agreement, keys);
    record.chain = engine.begin();
    if agreement.padding == 3 {
        record.declared = declared;
        record.chain = engine.step(true, &record.chain, &padding::length_block(declared));
    }
    record
}

/// Starts a session that makes a tag; `declared` is read with padding 3 only. Refusals 1 to 5, then 8.
/// An accepted start, like an accepted piece, answers number 0, yes 0, calls 0.
pub fn start(agreement: Agreement, keys: &[u8], declared: u64) -> (Record, Answer) {
    match start_refusal(agreement, keys, declared) {
        0 => (begun(agreement, keys, declared), Answer::default()),
        number => (Record::default(), Answer::refused(number)),
    }
}

/// Starts a session that checks this tag. Refusals 1 to 5, then 8, then 10 for a tag that has not just ⌈m/8⌉ bytes.
pub fn start_check(agreement: Agreement, keys: &[u8], declared: u64, tag: &[u8]) -> (Record, Answer) {
    let number = match start_refusal(agreement, keys, declared) {
        0 if tag.len() as u64 != bytes_for(agreement.m) => 10,
        number => number,
    };
    if number != 0 {
        return (Record::default(), Answer::refused(number));
    }
    let mut expected = [0; 16];
    expected[..tag.len()].copy_from_slice(tag);
    (Record { purpose: CHECKING, expected, ..begun(agreement, keys, declared) }, Answer::default())
}

fn piece_refusal(record: &Record, bytes: &[u8], bits: u64) -> u64 {
    if !record.is_open() || record.phase == 2 && bits > 0 {
        11
    } else if bytes.len() as u64 != bytes_for(bits) {
        7
    } else if bits > LIMIT - record.total {
        8
    } else if record.agreement.padding == 3 && bits > record.declared - record.total {
        12
    } else {
        0
    }
}

/// Takes the next bits, whatever the session is for; a refused piece hands back the very record.
pub fn piece(record: Record, bytes: &[u8], bits: u64) -> (Record, Answer) {
    let number = piece_refusal(&record, bytes, bits);
    if number != 0 {
        return (record, Answer::refused(number));
    }
    let mut next = record;
    let mut engine = Engine::new(next.agreement, next.given());
    let mut left = bits;
    for byte in bytes {
        if padding::complete(next.total) {
            let first = next.total == 128;
            next.push(&mut engine, first); // it waited, and is not the last
        }
        let taken = left.min(8);
        next.held[(next.total % 128 / 8) as usize] = padding::highest(*byte, taken);
        next.total += taken;
        left -= taken;
    }
    next.part = next.total % 8;
    next.phase = if next.part == 0 { 1 } else { 2 };
    (next, Answer::default())
}

/// What a finish for this purpose refuses, but for a room that is too short.
fn finish_refusal(record: &Record, purpose: u64) -> u64 {
    let Agreement { algorithm, padding, .. } = record.agreement;
    if !record.is_open() || record.purpose != purpose {
        11
    } else if padding == 3 && record.total < record.declared {
        12
    } else if algorithm == 4 && padding::q(padding, record.total) < 2 {
        9
    } else {
        0
    }
}

/// The tag of an open record's bits in its first ⌈m/8⌉ bytes, and all calls of the session, those for the keys once.
fn tag_of(record: &Record) -> (Block, u64) {
    let Agreement { algorithm, padding, m, .. } = record.agreement;
    let before = record.calls_before();
    let mut last = *record;
    let mut engine = Engine::new(last.agreement, last.given());
    let complete = padding::complete(last.total);
    if padding == 2 && complete {
        last.push(&mut engine, record.total == 128);
    }
    if padding::marked(padding, last.total) {
        padding::set_bit(&mut last.held, last.total % 128);
    }
    let g = engine.last(complete, &last.chain, &last.held);
    (truncate(algorithm, m, last.total, &g), before + engine.calls)
}

/// Writes the tag, closes the session and reports all its calls; a refusal hands back the very record. Refusals: 11, also for a
/// session that checks a tag, 12, 9, and 10 for a room of less than ⌈m/8⌉ bytes.
pub fn finish(record: Record, tag: &mut [u8]) -> (Record, Answer) {
    let size = bytes_for(record.agreement.m);
    let number = match finish_refusal(&record, MAKING) {
        0 if (tag.len() as u64) < size => 10,
        number => number,
    };
    if number != 0 {
        return (record, Answer::refused(number));
    }
    let (right, calls) = tag_of(&record);
    tag[..size as usize].copy_from_slice(&right[..size as usize]);
    (Record::default(), Answer { number: 0, yes: 1, calls })
}

/// Says whether the expected tag is the one of the bits, closes the session either way and reports all its calls; a refusal hands
/// back the very record. Refusals: 11, also for a session that makes a tag, 12, 9.
pub fn finish_check(record: Record) -> (Record, Answer) {
    let number = finish_refusal(&record, CHECKING);
    if number != 0 {
        return (record, Answer::refused(number));
    }
    let (right, calls) = tag_of(&record);
    let size = bytes_for(record.agreement.m) as usize;
    let yes = u64::from(record.expected[..size] == right[..size]);
    (Record::default(), Answer { number: 0, yes, calls })
}
