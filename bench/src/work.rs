//! The measured work, each piece as the library, the baseline and, for CMAC, the peers do it: a tag in one call, a session, a check
//! in a session, a slip read, a slip gathered and read, a slip written; lost blocks restored by the library, beside its own check;
//! and a tag under a master, beside the library's own under the derived keys. Answers are turned into plain numbers, so that they can
//! be compared.

use crate::measure::{Line, Way};
use crate::peer::Peer;
use reference::{session, slip};
use slipseal::raw::{self, Agreement};
use slipseal::Contents;
use std::hint::black_box;

pub const MESSAGE_BYTES: usize = 1 << 20;
pub const SHORT_BYTES: usize = 16;
pub const MIDDLE_BYTES: usize = 64;
const PIECE_BYTES: usize = 64 << 10;
/// Of a check in a session: the chunks of the bindings.
const CHUNK_BYTES: usize = 32 << 10;
const BLOCK_BYTES: usize = 16;
/// Which blocks of the message are lost, each alone.
pub const LOST: [(&str, usize); 3] = [
    ("first block", 0),
    ("middle block", MESSAGE_BYTES / BLOCK_BYTES / 2),
    ("last block", MESSAGE_BYTES / BLOCK_BYTES - 1),
];
/// How often a short piece of work is done each time.
pub const SHORT_CALLS: usize = 1000;

/// A tag of 128 bits; number, yes and calls.
pub type Tagged = ([u8; 16], [u64; 3]);

/// What is agreed in all of it, but for slips.
pub fn agreed(algorithm: u64, padding: u64) -> Agreement {
    Agreement { algorithm, padding, m: 128, master: 0 }
}

/// The same under a master.
pub fn mastered(algorithm: u64, padding: u64) -> Agreement {
    Agreement { master: 1, ..agreed(algorithm, padding) }
}

/// The same for the baseline.
fn of_baseline(agreement: Agreement) -> reference::Agreement {
    let Agreement { algorithm, padding, m, master } = agreement;
    reference::Agreement { algorithm, padding, m, master: master != 0 }
}

pub fn library_make(agreement: Agreement, key: &[u8], message: &[u8]) -> Tagged {
    let mut tag = [0; 16];
    let answer = raw::make(agreement, key, message, 8 * message.len(), &mut tag);
    (tag, [answer.number, answer.yes, answer.calls])
}

pub fn baseline_make(agreement: Agreement, key: &[u8], message: &[u8]) -> Tagged {
    let mut tag = [0; 16];
    let answer = reference::make(of_baseline(agreement), key, message, 8 * message.len() as u64, &mut tag);
    (tag, [answer.number, answer.yes, answer.calls])
}

pub fn library_session(key: &[u8], message: &[u8]) -> Tagged {
    let mut step = raw::start(agreed(1, 1), key, 0);
    for piece in message.chunks(PIECE_BYTES) {
        step = raw::piece(step.session, piece, 8 * piece.len());
    }
    let mut tag = [0; 16];
    let answer = raw::finish(step.session, &mut tag).answer;
    (tag, [answer.number, answer.yes, answer.calls])
}

pub fn baseline_session(key: &[u8], message: &[u8]) -> Tagged {
    let (mut record, _) = session::start(of_baseline(agreed(1, 1)), key, 0);
    for piece in message.chunks(PIECE_BYTES) {
        (record, _) = session::piece(record, piece, 8 * piece.len() as u64);
    }
    let mut tag = [0; 16];
    let (_, answer) = session::finish(record, &mut tag);
    (tag, [answer.number, answer.yes, answer.calls])
}

/// The tag checked in one call; number, yes and calls.
pub fn library_check(key: &[u8], message: &[u8], tag: &[u8]) -> [u64; 3] {
    let answer = raw::check(agreed(1, 1), key, message, 8 * message.len(), tag);
    [answer.number, answer.yes, answer.calls]
}

/// Zeros in the place of a block of the message, then the block restored; the number.
pub fn library_restore(key: &[u8], message: &mut [u8], block: usize, tag: &[u8]) -> u64 {
    message[block * BLOCK_BYTES..][..BLOCK_BYTES].fill(0);
    let bits = 8 * message.len();
    raw::restore(agreed(1, 1), key, message, bits, block, tag)
}

pub fn library_check_session(key: &[u8], message: &[u8], tag: &[u8]) -> [u64; 3] {
    let mut step = raw::start_check(agreed(1, 1), key, 0, tag);
    for chunk in message.chunks(CHUNK_BYTES) {
        step = raw::piece(step.session, chunk, 8 * chunk.len());
    }
    let answer = raw::finish_check(step.session).answer;
    [answer.number, answer.yes, answer.calls]
}

pub fn baseline_check_session(key: &[u8], message: &[u8], tag: &[u8]) -> [u64; 3] {
    let (mut record, _) = session::start_check(of_baseline(agreed(1, 1)), key, 0, tag);
    for chunk in message.chunks(CHUNK_BYTES) {
        (record, _) = session::piece(record, chunk, 8 * chunk.len() as u64);
    }
    let (_, answer) = session::finish_check(record);
    [answer.number, answer.yes, answer.calls]
}

/// The slip of the example: what it says, and what is agreed on it.
const SAYS: Contents<'_> = Contents { year: 2026, month: 11, day: 4, lot: b"A7", amount: 500 };
const SEALED: Agreement = Agreement { algorithm: 5, padding: 4, m: 64, master: 0 };

fn numbers(s: raw::Slip) -> [u64; 8] {
    [s.number, s.year, s.month, s.day, s.amount, s.calls, s.lot_at, s.lot_len]
}

pub fn library_slip(key: &[u8], slip: &[u8]) -> [u64; 8] {
    numbers(raw::read(SEALED, key, slip))
}

pub fn library_gathered(key: &[u8], reads: [&[u8]; 2]) -> [u64; 8] {
    numbers(gathered(key, reads))
}

/// Two reads, gathered; then the slip is read.
fn gathered(key: &[u8], reads: [&[u8]; 2]) -> raw::Slip {
    let none = raw::Gathered { count: 0, bytes: [0; 80] };
    raw::read_gathered(SEALED, key, reads.into_iter().fold(none, raw::gather))
}

pub fn baseline_slip(key: &[u8], slip: &[u8]) -> [u64; 8] {
    let s = slip::read(of_baseline(SEALED), key, slip);
    [s.number, s.year, s.month, s.day, s.amount, s.calls, s.lot_at, s.lot_len]
}

/// The room at the end; number, length and calls.
pub type Written = ([u8; 75], [u64; 3]);

pub fn library_write(key: &[u8]) -> Written {
    let mut room = [0; 75];
    let w = raw::write(SEALED, key, black_box(SAYS), &mut room);
    (room, [w.number, w.length, w.calls])
}

fn baseline_says() -> slip::Says {
    let Contents { year, month, day, lot, amount } = SAYS;
    slip::Says { year, month, day, lot: lot.to_vec(), amount }
}

pub fn baseline_write(key: &[u8], says: &slip::Says) -> Written {
    let mut room = [0; 75];
    let w = slip::write(of_baseline(SEALED), key, says, &mut room);
    (room, [w.number, w.length, w.calls])
}

/// The slip as the library and as the baseline writes it.
pub fn written(key: &[u8]) -> [Written; 2] {
    [library_write(key), baseline_write(key, &baseline_says())]
}

/// A line of the table from the two ways to do its work.
fn line<'a, T>(
    what: &'static str,
    amount: usize,
    library: impl FnMut() -> T + 'a,
    baseline: impl FnMut() -> T + 'a,
) -> Line<'a> {
    let ways = vec![Way::new("library", library), Way::new("baseline", baseline)];
    Line { what, amount: amount as f64, ways }
}

/// So many calls each time.
fn repeated<T>(calls: usize, mut call: impl FnMut() -> T) -> impl FnMut() {
    move || {
        for _ in 0..calls {
            black_box(call());
        }
    }
}

/// Tags of one message, each in one call. Peers go with algorithm 5 only.
pub fn make_line<'a>(
    what: &'static str,
    calls: usize,
    agreement: Agreement,
    key: &'a [u8],
    message: &'a [u8],
    peers: &[&'a Peer],
) -> Line<'a> {
    let library = move || library_make(agreement, black_box(key), black_box(message));
    let baseline = move || baseline_make(agreement, black_box(key), black_box(message));
    let mut line = line(what, calls, repeated(calls, library), repeated(calls, baseline));
    for &peer in peers {
        let cmac = move || peer.cmac(black_box(key), black_box(message));
        line.ways.push(Way::new(&peer.name, repeated(calls, cmac)));
    }
    line
}

/// Tags of algorithm 6 under a master. The library's own under the two derived keys, which are given, stand beside them.
pub fn master_line<'a>(
    what: &'static str,
    calls: usize,
    master: &'a [u8],
    derived: &'a [u8],
    message: &'a [u8],
) -> Line<'a> {
    let mut line = make_line(what, calls, mastered(6, 1), master, message, &[]);
    let given = move || library_make(agreed(6, 1), black_box(derived), black_box(message));
    line.ways.push(Way::new("keys given", repeated(calls, given)));
    line
}

pub fn session_line<'a>(what: &'static str, key: &'a [u8], message: &'a [u8]) -> Line<'a> {
    let library = move || library_session(key, black_box(message));
    let baseline = move || baseline_session(key, black_box(message));
    line(what, 1, library, baseline)
}

/// The library's check in one call stands beside its check in a session.
pub fn check_line<'a>(what: &'static str, key: &'a [u8], message: &'a [u8], tag: &'a [u8]) -> Line<'a> {
    let library = move || library_check_session(key, black_box(message), tag);
    let baseline = move || baseline_check_session(key, black_box(message), tag);
    let mut line = line(what, 1, library, baseline);
    line.ways.push(Way::new("in one call", move || library_check(key, black_box(message), tag)));
    line
}

/// The library's check stands first, so that the ratios tell how many times as long a restoration takes.
pub fn restore_line<'a>(what: &'static str, key: &'a [u8], message: &'a [u8], tag: &'a [u8]) -> Line<'a> {
    let mut ways = vec![Way::new("check", move || library_check(key, black_box(message), tag))];
    for (name, block) in LOST {
        let mut lent = message.to_vec();
        ways.push(Way::new(name, move || library_restore(key, black_box(&mut lent), block, tag)));
    }
    Line { what, amount: 1.0, ways }
}

pub fn slip_line<'a>(what: &'static str, key: &'a [u8], slip: &'a [u8]) -> Line<'a> {
    let library = repeated(SHORT_CALLS, move || raw::read(SEALED, black_box(key), black_box(slip)));
    let agreement = of_baseline(SEALED);
    let baseline = repeated(SHORT_CALLS, move || slip::read(agreement, black_box(key), black_box(slip)));
    line(what, SHORT_CALLS, library, baseline)
}

/// The slip in two reads. The baseline reads it whole.
pub fn gathered_line<'a>(what: &'static str, key: &'a [u8], slip: &'a [u8], cut: usize) -> Line<'a> {
    let reads = [&slip[..cut], &slip[cut..]];
    let library = repeated(SHORT_CALLS, move || gathered(black_box(key), black_box(reads)));
    let agreement = of_baseline(SEALED);
    let baseline = repeated(SHORT_CALLS, move || slip::read(agreement, black_box(key), black_box(slip)));
    line(what, SHORT_CALLS, library, baseline)
}

pub fn write_line<'a>(what: &'static str, key: &'a [u8]) -> Line<'a> {
    let says = baseline_says();
    let library = repeated(SHORT_CALLS, move || library_write(black_box(key)));
    let baseline = repeated(SHORT_CALLS, move || baseline_write(black_box(key), black_box(&says)));
    line(what, SHORT_CALLS, library, baseline)
}
