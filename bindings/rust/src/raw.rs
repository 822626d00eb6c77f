//! The functions and structs of include/slipseal.h, declared again by hand, and each function with slices for its pointers. This is
//! the one place with `unsafe`: a slice goes as its pointer, which is never null, and its length. The tests and the benchmark of the
//! repository use it too; everyone else has the functions of the crate's root.

use crate::Contents;

/// master: 0 for no, any other number for yes; in a record 0 or 1.
#[repr(C)]
#[derive(Clone, Copy, PartialEq, Eq, Debug)]
pub struct Agreement {
    pub algorithm: u64,
    pub padding: u64,
    pub m: u64,
    pub master: u64,
}

impl From<crate::Agreement> for Agreement {
    fn from(agreement: crate::Agreement) -> Agreement {
        let crate::Agreement { algorithm, padding, m, master } = agreement;
        Agreement { algorithm, padding, m, master: master.into() }
    }
}

impl From<Agreement> for crate::Agreement {
    fn from(agreement: Agreement) -> crate::Agreement {
        let Agreement { algorithm, padding, m, master } = agreement;
        crate::Agreement { algorithm, padding, m, master: master != 0 }
    }
}

#[repr(C)]
#[derive(Clone, Copy)]
pub struct Answer {
    pub number: u64,
    pub yes: u64,
    pub calls: u64,
}

#[repr(C)]
#[derive(Clone, Copy, PartialEq, Eq)]
pub struct Record {
    pub phase: u64,
    pub part: u64,
    pub purpose: u64,
    pub agreement: Agreement,
    pub declared: u64,
    pub total: u64,
    pub keys: [u8; 32],
    pub chain: [u8; 16],
    pub held: [u8; 16],
    pub expected: [u8; 16],
}

#[repr(C)]
#[derive(Clone, Copy)]
pub struct Step {
    pub answer: Answer,
    pub session: Record,
}

#[repr(C)]
#[derive(Clone, Copy, PartialEq, Eq, Debug)]
pub struct Slip {
    pub number: u64,
    pub year: u64,
    pub month: u64,
    pub day: u64,
    pub amount: u64,
    pub calls: u64,
    pub lot_at: u64,
    pub lot_len: u64,
}

#[repr(C)]
#[derive(Clone, Copy, PartialEq, Eq, Debug)]
pub struct Gathered {
    pub count: u64,
    pub bytes: [u8; 80],
}

#[repr(C)]
#[derive(Clone, Copy)]
pub struct Written {
    pub number: u64,
    pub length: u64,
    pub calls: u64,
}

extern "C" {
    fn slipseal_make(
        agreement: Agreement,
        keys: *const u8,
        keys_len: usize,
        message: *const u8,
        message_len: usize,
        bits: usize,
        tag: *mut u8,
        tag_len: usize,
    ) -> Answer;

    fn slipseal_check(
        agreement: Agreement,
        keys: *const u8,
        keys_len: usize,
        message: *const u8,
        message_len: usize,
        bits: usize,
        tag: *const u8,
        tag_len: usize,
    ) -> Answer;

    fn slipseal_restore(
        agreement: Agreement,
        keys: *const u8,
        keys_len: usize,
        message: *mut u8,
        message_len: usize,
        bits: usize,
        block: usize,
        tag: *const u8,
        tag_len: usize,
    ) -> u64;

    fn slipseal_start(agreement: Agreement, keys: *const u8, keys_len: usize, declared: usize) -> Step;

    fn slipseal_start_check(
        agreement: Agreement,
        keys: *const u8,
        keys_len: usize,
        declared: usize,
        tag: *const u8,
        tag_len: usize,
    ) -> Step;

    fn slipseal_piece(session: Record, bytes: *const u8, bytes_len: usize, bits: usize) -> Step;

    fn slipseal_finish(session: Record, tag: *mut u8, tag_len: usize) -> Step;

    fn slipseal_finish_check(session: Record) -> Step;

    fn slipseal_read(
        agreement: Agreement,
        keys: *const u8,
        keys_len: usize,
        slip: *const u8,
        slip_len: usize,
    ) -> Slip;

    fn slipseal_gather(gathered: Gathered, bytes: *const u8, len: usize) -> Gathered;

    fn slipseal_read_gathered(
        agreement: Agreement,
        keys: *const u8,
        keys_len: usize,
        gathered: Gathered,
    ) -> Slip;

    fn slipseal_write(
        agreement: Agreement,
        keys: *const u8,
        keys_len: usize,
        year: usize,
        month: usize,
        day: usize,
        lot: *const u8,
        lot_len: usize,
        amount: usize,
        room: *mut u8,
        room_len: usize,
    ) -> Written;
}

pub fn make(agreement: Agreement, keys: &[u8], message: &[u8], bits: usize, room: &mut [u8]) -> Answer {
    let (k, k_len, s, s_len) = (keys.as_ptr(), keys.len(), message.as_ptr(), message.len());
    // SAFETY: each pointer comes from a slice and goes with its length; the room is lent to this call alone.
    unsafe { slipseal_make(agreement, k, k_len, s, s_len, bits, room.as_mut_ptr(), room.len()) }
}

pub fn check(agreement: Agreement, keys: &[u8], message: &[u8], bits: usize, tag: &[u8]) -> Answer {
    let (k, k_len, s, s_len) = (keys.as_ptr(), keys.len(), message.as_ptr(), message.len());
    // SAFETY: each pointer comes from a slice and goes with its length.
    unsafe { slipseal_check(agreement, k, k_len, s, s_len, bits, tag.as_ptr(), tag.len()) }
}

pub fn restore(
    agreement: Agreement,
    keys: &[u8],
    message: &mut [u8],
    bits: usize,
    block: usize,
    tag: &[u8],
) -> u64 {
    let (k, k_len, s, s_len) = (keys.as_ptr(), keys.len(), message.as_mut_ptr(), message.len());
    // SAFETY: each pointer comes from a slice and goes with its length; the message is lent to this call alone.
    unsafe { slipseal_restore(agreement, k, k_len, s, s_len, bits, block, tag.as_ptr(), tag.len()) }
}

pub fn start(agreement: Agreement, keys: &[u8], declared: usize) -> Step {
    // SAFETY: the pointer comes from a slice and goes with its length.
    unsafe { slipseal_start(agreement, keys.as_ptr(), keys.len(), declared) }
}

pub fn start_check(agreement: Agreement, keys: &[u8], declared: usize, tag: &[u8]) -> Step {
    let (k, k_len, t, t_len) = (keys.as_ptr(), keys.len(), tag.as_ptr(), tag.len());
    // SAFETY: each pointer comes from a slice and goes with its length.
    unsafe { slipseal_start_check(agreement, k, k_len, declared, t, t_len) }
}

pub fn piece(record: Record, bytes: &[u8], bits: usize) -> Step {
    // SAFETY: the pointer comes from a slice and goes with its length; any record is answered.
    unsafe { slipseal_piece(record, bytes.as_ptr(), bytes.len(), bits) }
}

pub fn finish(record: Record, room: &mut [u8]) -> Step {
    // SAFETY: the pointer comes from a slice lent to this call alone and goes with its length; any record is answered.
    unsafe { slipseal_finish(record, room.as_mut_ptr(), room.len()) }
}

pub fn finish_check(record: Record) -> Step {
    // SAFETY: no pointer goes; any record is answered.
    unsafe { slipseal_finish_check(record) }
}

pub fn read(agreement: Agreement, keys: &[u8], slip: &[u8]) -> Slip {
    // SAFETY: each pointer comes from a slice and goes with its length.
    unsafe { slipseal_read(agreement, keys.as_ptr(), keys.len(), slip.as_ptr(), slip.len()) }
}

pub fn gather(record: Gathered, bytes: &[u8]) -> Gathered {
    // SAFETY: the pointer comes from a slice and goes with its length; any record is answered.
    unsafe { slipseal_gather(record, bytes.as_ptr(), bytes.len()) }
}

pub fn read_gathered(agreement: Agreement, keys: &[u8], record: Gathered) -> Slip {
    // SAFETY: the pointer comes from a slice and goes with its length; any record is answered.
    unsafe { slipseal_read_gathered(agreement, keys.as_ptr(), keys.len(), record) }
}

pub fn write(agreement: Agreement, keys: &[u8], contents: Contents<'_>, room: &mut [u8]) -> Written {
    let Contents { year, month, day, lot, amount } = contents;
    let [year, month, day, amount] = [year, month, day, amount].map(|number| number as usize); // both have 64 bits
    let (k, k_len, l, l_len, r, r_len) =
        (keys.as_ptr(), keys.len(), lot.as_ptr(), lot.len(), room.as_mut_ptr(), room.len());
    // SAFETY: each pointer comes from a slice and goes with its length; the room is lent to this call alone.
    unsafe { slipseal_write(agreement, k, k_len, year, month, day, l, l_len, amount, r, r_len) }
}
