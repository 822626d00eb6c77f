//! answer: reads commands from standard input, one a line, and prints each with this reference's answer: LINE -> ANSWER.
//!
//!     make A P M KEYS MESSAGE BITS ROOM    check A P M KEYS MESSAGE BITS TAG
//!     restore A P M KEYS MESSAGE BITS BLOCK TAG    over A P M KEYS BITS BLOCK TAG
//!     start A P M KEYS DECLARED    piece BYTES BITS    zeros BYTES PIECES    finish ROOM    same
//!     start_check A P M KEYS DECLARED TAG    finish_check    aim PURPOSE EXPECTED
//!     forge PHASE PART A P M DECLARED TOTAL K K1 CHAIN HELD
//!     halves A P M KEYS MESSAGE CALLS TAG    bytewise A P M KEYS MESSAGE BITS TAG
//!     slip A P M KEYS SLIP    changed A P M KEYS SLIP    prefixes A P M KEYS SLIP
//!     firsts A P M KEYS SLIP    trickled A P M KEYS SLIP SIZE    record A P M KEYS COUNT BYTES READ
//!     write A P M KEYS YEAR MONTH DAY LOT AMOUNT ROOM
//!
//! Words have one blank between them. Numbers are decimal, below 2^64. M may end in *, as 64*: a master is in use. Bytes are hex
//! digits, at most 4096 bytes, and - is no bytes. ROOM is a number up to 32, of `write` up to 96: the room's bytes are EE before
//! the call. PHASE is 0 closed, 1 edge, 2 part (with PART); a forged record is for making and expects zeros. PURPOSE is 0 making,
//! 1 checking, and EXPECTED up to 16 bytes, zeros after them. `restore` answers `filled` and all bytes of the message, then as
//! `check` for this message; or `refused N`, then `untouched`, or `CHANGED` where a byte of the message is another; `over` is the
//! same for 1,048,577 zero bytes, one more than the longest message has. `bytewise` feeds a session that checks the tag byte by
//! byte, and answers as `check`; then it counts the tags with one bit turned that get no with the same calls, and answers for the
//! message with its first bit turned.
//! `write` answers `written LENGTH bytes CALLS calls` and all bytes of the room; or `refused N`, then `with values` where its
//! length or its calls are not 0, then `untouched`, or `CHANGED` where a byte of the room is another.
//! `firsts` takes each beginning of the slip as the first read, and counts the answers `alone` and `with the rest`; `trickled`
//! takes the slip in reads of SIZE bytes, 1 to 4096. `record` takes up to 80 bytes, zeros after them, under any count, and answers
//! `alone` and `with the read`, and with the record that this read leaves.
//! Session commands act on one record, closed and zero at first, and print its phase after the answer. `same` tells whether
//! the last of them left the record as it was, `zeros` feeds so many pieces of so many zero bytes, up to 65536. A line that begins
//! with # and an empty line are printed alone.

use reference::gathered::{self, Gathered};
use reference::padding::bytes_for;
use reference::session::{self, Record};
use reference::slip::{self, Says, Tally, Written};
use reference::{check, hex, make, restore, unhex, Agreement, Answer};
use std::io::Read;

const FILL: u8 = 0xEE;

/// The most bytes of the room for a tag, and for a slip.
const TAG_ROOM: u64 = 32;
const SLIP_ROOM: u64 = 96;

fn number(word: &str) -> Option<u64> {
    let digits = word.bytes().all(|c| c.is_ascii_digit());
    word.parse().ok().filter(|_| digits)
}

fn agreed(algorithm: &str, padding: &str, m: &str) -> Option<Agreement> {
    let (m, master) = m.strip_suffix('*').map_or((m, false), |m| (m, true));
    Some(Agreement { algorithm: number(algorithm)?, padding: number(padding)?, m: number(m)?, master })
}

fn bytes(word: &str) -> Option<Vec<u8>> {
    match word {
        "" => None,
        "-" => Some(Vec::new()),
        _ => unhex(word).filter(|bytes| bytes.len() <= 4096),
    }
}

fn block(word: &str) -> Option<[u8; 16]> {
    bytes(word)?.try_into().ok()
}

fn room(word: &str, most: u64) -> Option<Vec<u8>> {
    let size = number(word).filter(|size| *size <= most)?;
    Some(vec![FILL; size as usize])
}

fn kept_if(same: bool) -> &'static str {
    if same {
        "untouched"
    } else {
        "CHANGED"
    }
}

fn kept(room: &[u8]) -> &'static str {
    kept_if(room.iter().all(|byte| *byte == FILL))
}

/// What a call that puts a tag into a room answers.
fn made(answer: Answer, room: &[u8]) -> String {
    if answer.number == 0 {
        return format!("made {} calls {}", answer.calls, hex(room));
    }
    format!("refused {} {}", answer.number, kept(room))
}

/// What a call that puts a slip into a room answers.
fn written(Written { number, length, calls }: Written, room: &[u8]) -> String {
    if number == 0 {
        return format!("written {length} bytes {calls} calls {}", hex(room));
    }
    let values = if (length, calls) == (0, 0) { "" } else { "with values " };
    format!("refused {number} {values}{}", kept(room))
}

/// What a call that checks a tag answers.
fn checked(answer: Answer) -> String {
    match (answer.number, answer.yes) {
        (0, 1) => format!("yes {} calls", answer.calls),
        (0, _) => format!("no {} calls", answer.calls),
        (number, _) => format!("refused {number}"),
    }
}

/// What restoring a block answers, and what it leaves.
fn restored(agreement: Agreement, keys: &[u8], message: &[u8], bits: u64, block: u64, tag: &[u8]) -> String {
    let mut left = message.to_vec();
    match restore(agreement, keys, &mut left, bits, block, tag) {
        0 => format!("filled {} {}", hex(&left), checked(check(agreement, keys, &left, bits, tag))),
        number => format!("refused {number} {}", kept_if(left == message)),
    }
}

fn accepted(answer: Answer) -> String {
    match answer.number {
        0 => "accepted".to_string(),
        number => format!("refused {number}"),
    }
}

/// In how many of the sessions of two pieces, one for each byte to cut at, the tag and the calls come out.
fn halves(agreement: Agreement, keys: &[u8], message: &[u8], tag: &[u8], calls: u64) -> String {
    let bits = |bytes: &[u8]| 8 * bytes.len() as u64;
    let comes_out = |at: &usize| {
        let (one, two) = message.split_at(*at);
        let (record, _) = session::start(agreement, keys, bits(message));
        let (record, _) = session::piece(record, one, bits(one));
        let (record, _) = session::piece(record, two, bits(two));
        let mut room = [FILL; 16];
        let (_, answer) = session::finish(record, &mut room);
        answer == Answer { number: 0, yes: 1, calls } && room.starts_with(tag)
    };
    let good = (0..=message.len()).filter(comes_out).count();
    format!("{good} of {} cuts", message.len() + 1)
}

/// What a session that checks a tag answers, for the tag, for each tag with one bit turned, and for the message with its first
/// bit turned.
fn bytewise(agreement: Agreement, keys: &[u8], message: &[u8], bits: u64, tag: &[u8]) -> String {
    let answered = |message: &[u8], tag: &[u8]| {
        let (mut record, _) = session::start_check(agreement, keys, bits, tag);
        for (byte, at) in message.chunks(1).zip((0..).step_by(8)) {
            (record, _) = session::piece(record, byte, (bits - at).min(8));
        }
        session::finish_check(record).1
    };
    let turned = |bytes: &[u8], bit: usize| {
        let mut other = bytes.to_vec();
        other.iter_mut().skip(bit / 8).take(1).for_each(|byte| *byte ^= 0x80 >> (bit % 8));
        other
    };
    let (answer, tag_bits) = (answered(message, tag), 8 * tag.len());
    let no = Answer { number: 0, yes: 0, calls: answer.calls };
    let good = (0..tag_bits).filter(|bit| answered(message, &turned(tag, *bit)) == no).count();
    let other = checked(answered(&turned(message, 0), tag));
    format!("{}, {good} of {tag_bits} turned: no, message turned: {other}", checked(answer))
}

fn read(agreement: Agreement, keys: &[u8], slip: &[u8]) -> String {
    let s = slip::read(agreement, keys, slip);
    if s.number != 0 {
        return format!("refused {}", s.number);
    }
    let (at, length) = (s.lot_at as usize, s.lot_len as usize);
    let date = format!("{}-{:02}-{:02}", s.year, s.month, s.day);
    let lot = String::from_utf8_lossy(&slip[at..at + length]);
    format!("accepted {date} lot {lot} at {at} length {length} amount {} calls {}", s.amount, s.calls)
}

/// A record is read as it is, and again with one more read.
fn forged(agreement: Agreement, keys: &[u8], record: &Gathered, more: &[u8]) -> String {
    let came = [record.held(), more].concat();
    let Gathered { count, bytes } = Gathered::of(&came);
    let (alone, with_read) = (read(agreement, keys, record.held()), read(agreement, keys, &came));
    format!("alone {alone}; with the read {with_read}; record {count} {}", hex(&bytes))
}

fn counted(tally: Tally) -> String {
    let accepted = tally.get(&0).unwrap_or(&0);
    let refused = tally.iter().filter(|(number, _)| **number != 0);
    let refused: String = refused.map(|(number, count)| format!(", {count} refused {number}")).collect();
    format!("{accepted} accepted{refused}")
}

struct State {
    record: Record,
    same: bool,
}

impl State {
    fn step(&mut self, next: Record, answer: String) -> Option<String> {
        self.same = next == self.record;
        self.record = next;
        Some(self.with_phase(answer))
    }

    fn with_phase(&self, answer: String) -> String {
        match self.record.phase {
            0 => format!("{answer}, closed"),
            1 => format!("{answer}, edge"),
            _ => format!("{answer}, part {}", self.record.part),
        }
    }

    fn command(&mut self, line: &str) -> Option<String> {
        let words: Vec<&str> = line.split(' ').collect();
        match words[..] {
            ["make", a, p, m, keys, message, bits, size] => {
                let (keys, message, mut room) = (bytes(keys)?, bytes(message)?, room(size, TAG_ROOM)?);
                let answer = make(agreed(a, p, m)?, &keys, &message, number(bits)?, &mut room);
                Some(made(answer, &room))
            }
            ["check", a, p, m, keys, message, bits, tag] => {
                let (keys, message, tag) = (bytes(keys)?, bytes(message)?, bytes(tag)?);
                let answer = check(agreed(a, p, m)?, &keys, &message, number(bits)?, &tag);
                Some(checked(answer))
            }
            ["restore", a, p, m, keys, message, bits, block, tag] => {
                let (keys, message, tag) = (bytes(keys)?, bytes(message)?, bytes(tag)?);
                Some(restored(agreed(a, p, m)?, &keys, &message, number(bits)?, number(block)?, &tag))
            }
            ["over", a, p, m, keys, bits, block, tag] => {
                let (keys, tag, zeros) = (bytes(keys)?, bytes(tag)?, vec![0; 1_048_577]);
                Some(restored(agreed(a, p, m)?, &keys, &zeros, number(bits)?, number(block)?, &tag))
            }
            ["halves", a, p, m, keys, message, calls, tag] => {
                let agreement = agreed(a, p, m)?;
                Some(halves(agreement, &bytes(keys)?, &bytes(message)?, &bytes(tag)?, number(calls)?))
            }
            ["bytewise", a, p, m, keys, message, bits, tag] => {
                let (keys, message, tag) = (bytes(keys)?, bytes(message)?, bytes(tag)?);
                let bits = number(bits).filter(|bits| bytes_for(*bits) == message.len() as u64)?;
                Some(bytewise(agreed(a, p, m)?, &keys, &message, bits, &tag))
            }
            ["slip", a, p, m, keys, slip] => Some(read(agreed(a, p, m)?, &bytes(keys)?, &bytes(slip)?)),
            ["changed", a, p, m, keys, slip] => {
                Some(counted(slip::changed(agreed(a, p, m)?, &bytes(keys)?, &bytes(slip)?)))
            }
            ["prefixes", a, p, m, keys, slip] => {
                Some(counted(slip::prefixes(agreed(a, p, m)?, &bytes(keys)?, &bytes(slip)?)))
            }
            ["firsts", a, p, m, keys, slip] => {
                let [alone, with_rest] = gathered::firsts(agreed(a, p, m)?, &bytes(keys)?, &bytes(slip)?);
                Some(format!("alone {}; with the rest {}", counted(alone), counted(with_rest)))
            }
            ["trickled", a, p, m, keys, slip, size] => {
                let size = number(size).filter(|size| (1..=4096).contains(size))?;
                let came: Vec<u8> = bytes(slip)?.chunks(size as usize).flatten().copied().collect();
                Some(read(agreed(a, p, m)?, &bytes(keys)?, &came))
            }
            ["record", a, p, m, keys, count, held, more] => {
                let mut held = bytes(held)?;
                held.resize(held.len().max(80), 0);
                let record = Gathered { count: number(count)?, bytes: held.try_into().ok()? };
                Some(forged(agreed(a, p, m)?, &bytes(keys)?, &record, &bytes(more)?))
            }
            ["write", a, p, m, keys, year, month, day, lot, amount, size] => {
                let (year, month, day) = (number(year)?, number(month)?, number(day)?);
                let says = Says { year, month, day, lot: bytes(lot)?, amount: number(amount)? };
                let mut room = room(size, SLIP_ROOM)?;
                let answer = slip::write(agreed(a, p, m)?, &bytes(keys)?, &says, &mut room);
                Some(written(answer, &room))
            }
            ["start", a, p, m, keys, declared] => {
                let (next, answer) = session::start(agreed(a, p, m)?, &bytes(keys)?, number(declared)?);
                self.step(next, accepted(answer))
            }
            ["piece", part, bits] => {
                let (next, answer) = session::piece(self.record, &bytes(part)?, number(bits)?);
                self.step(next, accepted(answer))
            }
            ["zeros", size, pieces] => {
                let size = number(size).filter(|size| *size <= 65536)?;
                let (bytes, mut next) = (vec![0; size as usize], self.record);
                let mut answer = Answer::default();
                for _ in 0..number(pieces).filter(|pieces| *pieces > 0)? {
                    (next, answer) = session::piece(next, &bytes, 8 * size);
                }
                self.step(next, accepted(answer))
            }
            ["finish", size] => {
                let mut room = room(size, TAG_ROOM)?;
                let (next, answer) = session::finish(self.record, &mut room);
                self.step(next, made(answer, &room))
            }
            ["start_check", a, p, m, keys, declared, tag] => {
                let (keys, declared, tag) = (bytes(keys)?, number(declared)?, bytes(tag)?);
                let (next, answer) = session::start_check(agreed(a, p, m)?, &keys, declared, &tag);
                self.step(next, accepted(answer))
            }
            ["finish_check"] => {
                let (next, answer) = session::finish_check(self.record);
                self.step(next, checked(answer))
            }
            ["aim", purpose, expected] => {
                let purpose = number(purpose).filter(|purpose| *purpose <= 1)?;
                let mut expected = bytes(expected)?;
                expected.resize(expected.len().max(16), 0);
                let next = Record { purpose, expected: expected.try_into().ok()?, ..self.record };
                self.step(next, "aimed".to_string())
            }
            ["same"] => Some(self.with_phase((if self.same { "same" } else { "changed" }).to_string())),
            ["forge", phase, part, a, p, m, declared, total, k, k1, chain, held] => {
                let phase = number(phase).filter(|phase| *phase <= 2)?;
                let part = number(part)?;
                let next = Record {
                    phase,
                    part: if phase == 2 { part } else { 0 },
                    purpose: session::MAKING,
                    agreement: agreed(a, p, m)?,
                    declared: number(declared)?,
                    total: number(total)?,
                    keys: [block(k)?, block(k1)?].concat().try_into().unwrap(),
                    chain: block(chain)?,
                    held: block(held)?,
                    expected: [0; 16],
                };
                self.step(next, "forged".to_string())
            }
            _ => None,
        }
    }
}

fn main() {
    let mut text = String::new();
    std::io::stdin().read_to_string(&mut text).expect("text");
    let mut state = State { record: Record::default(), same: true };
    for line in text.lines() {
        if line.is_empty() || line.starts_with('#') {
            println!("{line}");
        } else {
            println!("{line} -> {}", state.command(line).unwrap_or_else(|| "error".to_string()));
        }
    }
}
