//! One run: its seed, what is being compared, and how often each answer came.
//! The first difference ends the run with a line that repeats it.

use crate::library;
use reference::gathered::{Gathered, MOST};
use reference::session::{self, Record, MAKING};
use reference::slip::{self, Says, Slip, Written};
use reference::{hex, Agreement, Answer};
use std::collections::BTreeMap;
use std::fmt::Debug;

/// Bytes before and after a lent room; they stay as they are.
const GUARD: usize = 8;

#[derive(Default)]
pub struct Run {
    /// The words that repeat the case at hand.
    pub case: String,
    /// Of each function, how often each number was answered; a checked "yes" and "no" stand apart, and so do a finish of the other
    /// purpose ("11 other") and a record that counts as closed for its purpose ("11 purpose") or its master ("11 master") alone, and
    /// the slips that are read because they were written ("back"), written because they were read ("again"), and read under
    /// something else than they name ("other"), and records that are read ("gathered") or were forged ("forged"), and messages that
    /// are checked because a block of them was restored ("restored"). Of a record that is handed back ("gather"), whether it is
    /// empty, holds a part of what fits, or is full. Of one under a number that no master has ("odd master"), whether it was open
    /// under its own.
    pub answers: BTreeMap<&'static str, BTreeMap<String, u64>>,
    /// The same of the calls under a master, which are among those.
    pub masters: BTreeMap<&'static str, BTreeMap<String, u64>>,
    /// Sessions whose end and calls were those of one call: a tag made, or yes or no said.
    pub joined: BTreeMap<&'static str, u64>,
}

/// Bytes as a word of the reference's command lines.
pub fn word(bytes: &[u8]) -> String {
    match bytes.len() {
        0 => "-".to_string(),
        1..=4096 => hex(bytes),
        count => format!("({count} bytes from {})", hex(&bytes[..16])),
    }
}

/// An agreement as the reference's command lines have it.
pub fn words(Agreement { algorithm, padding, m, master }: Agreement) -> String {
    format!("{algorithm} {padding} {m}{}", if master { "*" } else { "" })
}

/// A record as the reference's commands `forge` and `aim` take it.
fn forge(r: &Record) -> String {
    let Record { phase, part, purpose, declared, total, .. } = r;
    let numbers = format!("{phase} {part} {} {declared} {total}", words(r.agreement));
    let blocks = [&r.keys[..16], &r.keys[16..], &r.chain, &r.held].map(hex).join(" ");
    format!("forge {numbers} {blocks}; aim {purpose} {}", hex(&r.expected))
}

/// Yes, no, or the refusal's number.
fn judged(answer: Answer) -> String {
    match (answer.number, answer.yes) {
        (0, 1) => "yes".to_string(),
        (0, _) => "no".to_string(),
        (number, _) => number.to_string(),
    }
}

/// The number, but where a record counts as closed for its purpose or its master alone "11 purpose" or "11 master".
fn told(record: &Record, answer: Answer) -> String {
    if record.purpose != MAKING && !record.is_open() && (Record { purpose: MAKING, ..*record }).is_open() {
        return "11 purpose".to_string();
    }
    let without = Agreement { master: false, ..record.agreement };
    if record.agreement.master && !record.is_open() && (Record { agreement: without, ..*record }).is_open() {
        return "11 master".to_string();
    }
    answer.number.to_string()
}

/// The same of a finish, and "11 other" where an open record is for the other purpose.
fn ended(record: &Record, answer: Answer) -> String {
    if answer.number == 11 && record.is_open() {
        return "11 other".to_string();
    }
    told(record, answer)
}

/// A gathered record as two words of the reference's command `record`.
fn held(Gathered { count, bytes }: &Gathered) -> String {
    format!("{count} {}", hex(bytes))
}

/// A room of so many bytes in the middle of a longer buffer of pseudo-random bytes.
#[derive(Clone)]
pub struct Room {
    bytes: Vec<u8>,
}

impl Room {
    pub fn new(r: &mut reference::cases::Random, size: usize) -> Room {
        let mut bytes = vec![0; size + 2 * GUARD];
        r.fill(&mut bytes);
        Room { bytes }
    }

    /// These bytes in the middle of a longer buffer.
    pub fn around(r: &mut reference::cases::Random, bytes: &[u8]) -> Room {
        let mut guards = [0; 2 * GUARD];
        r.fill(&mut guards);
        let (before, after) = guards.split_at(GUARD);
        Room { bytes: [before, bytes, after].concat() }
    }

    fn inner(&mut self) -> &mut [u8] {
        let end = self.bytes.len() - GUARD;
        &mut self.bytes[GUARD..end]
    }
}

impl Run {
    pub fn fail(&self, what: &str) -> ! {
        println!("DIFFERENT, repeat by `differential {}`: {what}", self.case);
        std::process::exit(1);
    }

    /// Two answers that must be the same.
    pub fn same<T: PartialEq + Debug>(&self, library: &T, reference: &T, what: impl Fn() -> String) {
        if library != reference {
            self.fail(&format!("{} -> library {library:?}, reference {reference:?}", what()));
        }
    }

    fn count(&mut self, function: &'static str, master: bool, answer: String) {
        if master {
            *self.masters.entry(function).or_default().entry(answer.clone()).or_default() += 1;
        }
        *self.answers.entry(function).or_default().entry(answer).or_default() += 1;
    }

    pub fn calls(&self) -> u64 {
        self.answers.values().flat_map(|answers| answers.values()).sum()
    }

    /// How often a function was called.
    pub fn calls_of(&self, function: &str) -> u64 {
        self.answers.get(function).map_or(0, |answers| answers.values().sum())
    }

    /// How often a function gave an answer.
    pub fn often(&self, function: &str, answer: &str) -> u64 {
        self.answers.get(function).and_then(|answers| answers.get(answer)).copied().unwrap_or(0)
    }

    /// How often it did so under a master.
    pub fn often_under_master(&self, function: &str, answer: &str) -> u64 {
        self.masters.get(function).and_then(|answers| answers.get(answer)).copied().unwrap_or(0)
    }

    pub fn make(
        &mut self,
        agreement: Agreement,
        keys: &[u8],
        message: &[u8],
        bits: u64,
        room: Room,
    ) -> Answer {
        let (mut ours, mut theirs) = (room.clone(), room);
        let size = ours.inner().len();
        let got = library::make(agreement, keys, message, bits, ours.inner());
        let want = reference::make(agreement, keys, message, bits, theirs.inner());
        let line = || format!("make {} {} {} {bits} {size}", words(agreement), word(keys), word(message));
        self.same(&got, &want, line);
        self.same(&ours.bytes, &theirs.bytes, || format!("{} (room)", line()));
        self.count("make", agreement.master, want.number.to_string());
        want
    }

    pub fn check(
        &mut self,
        function: &'static str,
        agreement: Agreement,
        keys: &[u8],
        message: &[u8],
        bits: u64,
        tag: &[u8],
    ) -> Answer {
        let got = library::check(agreement, keys, message, bits, tag);
        let want = reference::check(agreement, keys, message, bits, tag);
        let line =
            || format!("check {} {} {} {bits} {}", words(agreement), word(keys), word(message), word(tag));
        self.same(&got, &want, line);
        self.count(function, agreement.master, judged(want));
        want
    }

    /// The number, and the bytes of the message that is lent.
    pub fn restore(
        &mut self,
        agreement: Agreement,
        keys: &[u8],
        message: Room,
        bits: u64,
        block: u64,
        tag: &[u8],
    ) -> (u64, Vec<u8>) {
        let (mut ours, mut theirs) = (message.clone(), message.clone());
        let got = library::restore(agreement, keys, ours.inner(), bits, block, tag);
        let want = reference::restore(agreement, keys, theirs.inner(), bits, block, tag);
        let line = || {
            let lent = word(message.clone().inner());
            format!("restore {} {} {lent} {bits} {block} {}", words(agreement), word(keys), word(tag))
        };
        self.same(&got, &want, line);
        self.same(&ours.bytes, &theirs.bytes, || format!("{} (message)", line()));
        self.count("restore", agreement.master, want.to_string());
        (want, theirs.inner().to_vec())
    }

    pub fn start(&mut self, agreement: Agreement, keys: &[u8], declared: u64) -> (Record, Answer) {
        let got = library::start(agreement, keys, declared);
        let want = session::start(agreement, keys, declared);
        self.same(&got, &want, || format!("start {} {} {declared}", words(agreement), word(keys)));
        self.count("start", agreement.master, want.1.number.to_string());
        want
    }

    pub fn start_check(
        &mut self,
        agreement: Agreement,
        keys: &[u8],
        declared: u64,
        tag: &[u8],
    ) -> (Record, Answer) {
        let got = library::start_check(agreement, keys, declared, tag);
        let want = session::start_check(agreement, keys, declared, tag);
        let line = || format!("start_check {} {} {declared} {}", words(agreement), word(keys), word(tag));
        self.same(&got, &want, line);
        self.count("start_check", agreement.master, want.1.number.to_string());
        want
    }

    pub fn piece(&mut self, record: &Record, bytes: &[u8], bits: u64) -> (Record, Answer) {
        let got = library::piece(record, bytes, bits);
        let want = session::piece(*record, bytes, bits);
        self.same(&got, &want, || format!("{}; piece {} {bits}", forge(record), word(bytes)));
        self.count("piece", record.agreement.master, told(record, want.1));
        want
    }

    /// The record, the answer, and the bytes of the room.
    pub fn finish(&mut self, record: &Record, room: Room) -> (Record, Answer, Vec<u8>) {
        let (mut ours, mut theirs) = (room.clone(), room);
        let size = ours.inner().len();
        let got = library::finish(record, ours.inner());
        let want = session::finish(*record, theirs.inner());
        let line = || format!("{}; finish {size}", forge(record));
        self.same(&got, &want, line);
        self.same(&ours.bytes, &theirs.bytes, || format!("{} (room)", line()));
        self.count("finish", record.agreement.master, ended(record, want.1));
        (want.0, want.1, theirs.inner().to_vec())
    }

    pub fn finish_check(&mut self, record: &Record) -> (Record, Answer) {
        let got = library::finish_check(record);
        let want = session::finish_check(*record);
        self.same(&got, &want, || format!("{}; finish_check", forge(record)));
        let told = if want.1.number == 0 { judged(want.1) } else { ended(record, want.1) };
        self.count("finish_check", record.agreement.master, told);
        want
    }

    /// A record under a number for its master that is neither 0 nor 1, which the reference has no record for: each call refuses it.
    pub fn odd_master(&mut self, record: &Record, master: u64) {
        let refused = library::refuses_master(record, master);
        self.same(&refused, &true, || format!("{}, with {master} for its master", forge(record)));
        let told = if record.is_open() { "11 open" } else { "11" };
        self.count("odd master", record.agreement.master, told.to_string());
    }

    /// A session whose end was compared with one call.
    pub fn like_one_call(&mut self, end: &'static str) {
        *self.joined.entry(end).or_default() += 1;
    }

    pub fn read(&mut self, function: &'static str, agreement: Agreement, keys: &[u8], slip: &[u8]) -> Slip {
        let got = library::read(agreement, keys, slip);
        let want = slip::read(agreement, keys, slip);
        self.same(&got, &want, || format!("slip {} {} {}", words(agreement), word(keys), word(slip)));
        self.count(function, agreement.master, want.number.to_string());
        want
    }

    /// One more read, after these bytes came: the record must be that of all of them, which are then what came.
    pub fn gather(&mut self, record: &Gathered, came: &mut Vec<u8>, read: &[u8]) -> Gathered {
        came.extend(read);
        let got = library::gather(record, read);
        let want = Gathered::of(came);
        self.same(&got, &want, || format!("the record {} with the read {}", held(record), word(read)));
        let told = match want.count as usize {
            0 => "empty",
            MOST => "full",
            _ => "part",
        };
        self.count("gather", false, told.to_string());
        want
    }

    /// Reads a record that stands for all these bytes.
    pub fn read_gathered(
        &mut self,
        function: &'static str,
        agreement: Agreement,
        keys: &[u8],
        record: &Gathered,
        came: &[u8],
    ) {
        let got = library::read_gathered(agreement, keys, record);
        let want = slip::read(agreement, keys, came);
        let line = || format!("record {} {} {} -", words(agreement), word(keys), held(record));
        self.same(&got, &want, line);
        self.count(function, agreement.master, want.number.to_string());
    }

    /// The answer, and the bytes of the room.
    pub fn write(
        &mut self,
        function: &'static str,
        agreement: Agreement,
        keys: &[u8],
        says: &Says,
        room: Room,
    ) -> (Written, Vec<u8>) {
        let (mut ours, mut theirs) = (room.clone(), room);
        let size = ours.inner().len();
        let got = library::write(agreement, keys, says, ours.inner());
        let want = slip::write(agreement, keys, says, theirs.inner());
        let line = || {
            let Says { year, month, day, lot, amount } = says;
            let settings = format!("{} {}", words(agreement), word(keys));
            format!("write {settings} {year} {month} {day} {} {amount} {size}", word(lot))
        };
        self.same(&got, &want, line);
        self.same(&ours.bytes, &theirs.bytes, || format!("{} (room)", line()));
        self.count(function, agreement.master, want.number.to_string());
        (want, theirs.inner().to_vec())
    }
}
