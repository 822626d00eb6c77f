//! The library's twelve functions, as the Rust binding calls them through C, answering in the reference's types. Nothing is judged
//! here: what comes is handed on, and what comes back is handed back, field by field.

use reference::gathered::Gathered;
use reference::session::Record;
use reference::slip::{Says, Slip, Written};
use reference::{Agreement, Answer};
use slipseal::raw;

fn answer(a: raw::Answer) -> Answer {
    Answer { number: a.number, yes: a.yes, calls: a.calls }
}

/// Any number but 0 says that a master is in use; here one with a single bit, which the first byte of the keys tells.
fn agreed(a: Agreement, keys: &[u8]) -> raw::Agreement {
    let Agreement { algorithm, padding, m, master } = a;
    let bit = keys.first().map_or(0, |byte| byte % 64);
    raw::Agreement { algorithm, padding, m, master: u64::from(master) << bit }
}

/// The fields are all that the struct has: nine numbers and 80 bytes, with none between them.
const _: () = assert!(size_of::<raw::Record>() == 9 * 8 + 80);

fn inward(r: &Record) -> raw::Record {
    let Record { phase, part, purpose, agreement, declared, total, keys, chain, held, expected } = *r;
    let Agreement { algorithm, padding, m, master } = agreement;
    let agreement = raw::Agreement { algorithm, padding, m, master: master.into() };
    raw::Record { phase, part, purpose, agreement, declared, total, keys, chain, held, expected }
}

fn step(out: raw::Step) -> (Record, Answer) {
    let raw::Record { phase, part, purpose, agreement, declared, total, keys, chain, held, expected } =
        out.session;
    let raw::Agreement { algorithm, padding, m, master } = agreement;
    assert!(master < 2, "the master of a record is {master}");
    let agreement = Agreement { algorithm, padding, m, master: master == 1 };
    let record = Record { phase, part, purpose, agreement, declared, total, keys, chain, held, expected };
    (record, answer(out.answer))
}

pub fn make(agreement: Agreement, keys: &[u8], message: &[u8], bits: u64, room: &mut [u8]) -> Answer {
    answer(raw::make(agreed(agreement, keys), keys, message, bits as usize, room))
}

pub fn check(agreement: Agreement, keys: &[u8], message: &[u8], bits: u64, offered: &[u8]) -> Answer {
    answer(raw::check(agreed(agreement, keys), keys, message, bits as usize, offered))
}

pub fn restore(
    agreement: Agreement,
    keys: &[u8],
    message: &mut [u8],
    bits: u64,
    block: u64,
    tag: &[u8],
) -> u64 {
    raw::restore(agreed(agreement, keys), keys, message, bits as usize, block as usize, tag)
}

pub fn start(agreement: Agreement, keys: &[u8], declared: u64) -> (Record, Answer) {
    step(raw::start(agreed(agreement, keys), keys, declared as usize))
}

pub fn start_check(agreement: Agreement, keys: &[u8], declared: u64, tag: &[u8]) -> (Record, Answer) {
    step(raw::start_check(agreed(agreement, keys), keys, declared as usize, tag))
}

pub fn piece(record: &Record, bytes: &[u8], bits: u64) -> (Record, Answer) {
    step(raw::piece(inward(record), bytes, bits as usize))
}

pub fn finish(record: &Record, room: &mut [u8]) -> (Record, Answer) {
    step(raw::finish(inward(record), room))
}

pub fn finish_check(record: &Record) -> (Record, Answer) {
    step(raw::finish_check(inward(record)))
}

/// Whether each call refuses the record with 11, under a number for its master that it has no boolean for, and hands the struct back
/// as it came.
pub fn refuses_master(record: &Record, master: u64) -> bool {
    let mut came = inward(record);
    came.agreement.master = master;
    let mut room = [0xA5; 16];
    let steps = [raw::piece(came, &[], 0), raw::finish(came, &mut room), raw::finish_check(came)];
    let refused = |step: raw::Step| answer(step.answer) == Answer::refused(11) && step.session == came;
    steps.into_iter().all(refused) && room == [0xA5; 16]
}

fn told(read: raw::Slip) -> Slip {
    let raw::Slip { number, year, month, day, amount, calls, lot_at, lot_len } = read;
    Slip { number, year, month, day, amount, calls, lot_at, lot_len }
}

pub fn read(agreement: Agreement, keys: &[u8], slip: &[u8]) -> Slip {
    told(raw::read(agreed(agreement, keys), keys, slip))
}

pub fn gather(record: &Gathered, read: &[u8]) -> Gathered {
    let Gathered { count, bytes } = *record;
    let raw::Gathered { count, bytes } = raw::gather(raw::Gathered { count, bytes }, read);
    Gathered { count, bytes }
}

pub fn read_gathered(agreement: Agreement, keys: &[u8], record: &Gathered) -> Slip {
    let Gathered { count, bytes } = *record;
    told(raw::read_gathered(agreed(agreement, keys), keys, raw::Gathered { count, bytes }))
}

pub fn write(agreement: Agreement, keys: &[u8], says: &Says, room: &mut [u8]) -> Written {
    let Says { year, month, day, ref lot, amount } = *says;
    let contents = slipseal::Contents { year, month, day, lot, amount };
    let raw::Written { number, length, calls } = raw::write(agreed(agreement, keys), keys, contents, room);
    Written { number, length, calls }
}
